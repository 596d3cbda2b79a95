//! Calls that have nothing to wait for but what is under way: they end with it.
use hojzmated::{LogFault, PageIo, Pager, PagerConfig, ReadFault};
use std::sync::{Arc, Barrier, Mutex};
use std::time::{Duration, Instant};
use std::{io, thread};

type Work = Arc<dyn Fn(char, u64) -> io::Result<()> + Send + Sync>;

/// A device that has zeros, and calls a function before each thing that it does: 'w' with the page that
/// is written, 'l' with the LSN up to which the log is made durable.
#[derive(Default)]
struct Calling(Mutex<Option<Work>>);

impl Calling {
    fn call(&self, what: char, number: u64) -> io::Result<()> {
        let work = self.0.lock().unwrap().clone();
        work.map_or(Ok(()), |work| work(what, number))
    }

    fn set(&self, work: impl Fn(char, u64) -> io::Result<()> + Send + Sync + 'static) {
        *self.0.lock().unwrap() = Some(Arc::new(work));
    }
}

impl PageIo for Calling {
    fn read_page(&self, _page: u64, image: &mut [u8]) -> Result<(), ReadFault> {
        image.fill(0);
        Ok(())
    }

    fn write_page(&self, page: u64, _image: &mut [u8], _lsn: u64) -> io::Result<()> {
        self.call('w', page)
    }

    fn make_log_durable(&self, lsn: u64) -> Result<(), LogFault> {
        Ok(self.call('l', lsn)?)
    }

    fn sync(&self) -> io::Result<()> {
        Ok(())
    }
}

fn pager_of(frames: usize, correlated: u64) -> Arc<Pager<Calling>> {
    let config = PagerConfig::new(100, 64, frames)
        .with_parts(1)
        .with_correlated(correlated)
        .with_pin_wait(Duration::from_secs(20));
    Arc::new(Pager::new(&config, Calling::default()).unwrap())
}

/// While a victim goes out it is pinned again, and the other page is let go. So that one makes way, and
/// the call does not wait for pins.
fn reads_once_another_page_is_let_go(may_wait: bool) {
    let pager = pager_of(2, 10);
    pager.write(0).unwrap().put(0, &[1], 0).unwrap();
    let one = pager.pin(1).unwrap();
    let (begun, goes_on) = (Arc::new(Barrier::new(2)), Arc::new(Barrier::new(2)));
    let (at_begin, at_end) = (begun.clone(), goes_on.clone());
    pager.io().set(move |what, page| {
        if (what, page) == ('w', 0) {
            at_begin.wait();
            at_end.wait();
        }
        Ok(())
    });
    let reader = {
        let pager = pager.clone();
        thread::spawn(move || {
            let began = Instant::now();
            let is_read = match may_wait {
                true => pager.read(5).is_ok(),
                false => pager.try_read(5).unwrap().is_some(),
            };
            (is_read, began.elapsed())
        })
    };
    begun.wait();
    let zero = pager.pin(0).unwrap();
    drop(pager.pin(1).unwrap());
    drop(one);
    goes_on.wait();
    let (is_read, took) = reader.join().unwrap();
    drop(zero);
    assert!(is_read);
    assert!(took < Duration::from_secs(10), "{took:?}");
}

#[test]
fn page_let_go_during_a_write_out_makes_way() {
    reads_once_another_page_is_let_go(true);
}

#[test]
fn page_let_go_during_a_write_out_makes_way_for_try() {
    reads_once_another_page_is_let_go(false);
}

/// A flush that comes with its latch while another thread writes the page out waits for that, and does
/// not ask again and again.
#[test]
fn flush_waits_for_another_write_out() {
    let pager = pager_of(8, 1);
    pager.write(0).unwrap().put(0, &[1], 10).unwrap();
    let weak = Arc::downgrade(&pager);
    let other = Arc::new(Mutex::new(None));
    let begun = other.clone();
    pager.io().set(move |what, number| {
        let pager = weak.upgrade().unwrap();
        match (what, number) {
            // A writer comes each time that the log is made durable.
            ('l', ..12) => thread::spawn(move || {
                let mut page = pager.write(0).unwrap();
                page.put(0, &[2], number + 1).unwrap();
            })
            .join()
            .unwrap(),
            ('l', _) => {
                pager.mark(number);
                *begun.lock().unwrap() = Some(thread::spawn(move || pager.flush(0).unwrap()));
                thread::sleep(Duration::from_millis(100));
            }
            ('w', _) => thread::sleep(Duration::from_millis(500)),
            _ => {}
        }
        Ok(())
    });
    pager.flush(0).unwrap();
    if let Some(other) = other.lock().unwrap().take() {
        other.join().unwrap();
    }
    let refused = pager.stats().totals.refused;
    assert!(refused < 1_000, "refused {refused} times");
}
