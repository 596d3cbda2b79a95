//! A function of the engine calls the pager. Where the call would wait for that function it is
//! refused.
use crate::device::{Asked, Device, Watch, config, fault, not_yet, pager, put};
use hojzmated::{Error, LogFault, PageIo, PagePin, Pager, PagerConfig, PagerError, ReadFault};
use std::panic::{AssertUnwindSafe, catch_unwind};
use std::sync::atomic::{AtomicBool, AtomicUsize, Ordering};
use std::sync::{Arc, Barrier, Mutex, OnceLock, Weak};
use std::time::{Duration, Instant};
use std::{io, thread};

type Shared = Arc<Pager<Device>>;

/// Has something done with the pager within each request, which says how it ends.
fn with_work(
    config: &PagerConfig,
    work: impl Fn(&Pager<Device>, Asked) -> Result<(), ReadFault> + Send + Sync + 'static,
) -> Shared {
    Arc::new_cyclic(|weak: &std::sync::Weak<Pager<Device>>| {
        let pager = Pager::new(config, Device::default()).unwrap();
        let weak = weak.clone();
        pager.io().ends_as(move |asked| match weak.upgrade() {
            Some(pager) => work(&pager, asked),
            None => Ok(()),
        });
        pager
    })
}

fn pin_wait(millis: u64) -> PagerConfig {
    config(2).with_pin_wait(Duration::from_millis(millis))
}

// The log looks at a page. For that another one has to make way, which needs the log.
#[test]
fn log_that_needs_itself() {
    let _watch = Watch::over("log_that_needs_itself", 60);
    let pager = with_work(&config(2), |pager, asked| match asked {
        Asked::Log(_) => match pager.read(0) {
            Ok(_) => Ok(()),
            Err(PagerError::LogNotYet { lsn: 1 | 2 }) => Err(not_yet()),
            Err(other) => panic!("{other:?}"),
        },
        _ => Ok(()),
    });
    [1, 2]
        .into_iter()
        .for_each(|page| put(&pager, page, 7, page));
    let told = pager.flush(1).unwrap_err();
    assert!(matches!(told, PagerError::LogNotYet { lsn: 1 }));
    // With a page that need not be written out the same works.
    pager.mark(2);
    put(&pager, 1, 8, 3);
    pager.flush(1).unwrap();
}

#[test]
fn read_that_needs_itself() {
    let _watch = Watch::over("read_that_needs_itself", 60);
    let refused = Arc::new(AtomicUsize::new(0));
    let times = Arc::clone(&refused);
    let pager = with_work(&config(2), move |pager, asked| {
        match asked {
            Asked::Read(page) => {
                let told = pager.read(page).map(drop).unwrap_err().refusal();
                assert_eq!(told, Error::Busy);
                times.fetch_add(1, Ordering::Relaxed);
            }
            Asked::Write(page, ..) => {
                // It is in its frame.
                assert_eq!(pager.read(page).unwrap()[0], 7);
                assert_eq!(pager.flush(page).unwrap_err().refusal(), Error::Busy);
                times.fetch_add(1, Ordering::Relaxed);
            }
            _ => {}
        }
        Ok(())
    });
    put(&pager, 1, 7, 0);
    pager.flush(1).unwrap();
    assert_eq!(refused.load(Ordering::Relaxed), 2);
}

#[test]
fn sync_that_needs_itself() {
    let _watch = Watch::over("sync_that_needs_itself", 60);
    let pager = with_work(&config(2), |pager, asked| {
        if asked == Asked::Sync {
            let told = pager.checkpoint().unwrap_err();
            assert!(matches!(told, PagerError::Sync { .. }));
        }
        Ok(())
    });
    put(&pager, 1, 7, 0);
    assert_eq!(pager.checkpoint().unwrap(), None);
}

// A thread has page 0 under its latch, and waits for page 7. The read of that wants page 0.
#[test]
fn read_that_needs_a_latch_of_who_waits_for_it() {
    let _watch = Watch::over("read_that_needs_a_latch_of_who_waits_for_it", 60);
    let (has_map, is_first) = (Arc::new(Barrier::new(2)), AtomicBool::new(true));
    let reads = Arc::clone(&has_map);
    let pager = with_work(&pin_wait(150), move |pager, asked| {
        if asked == Asked::Read(7) && is_first.swap(false, Ordering::Relaxed) {
            reads.wait();
            while pager.stats().waits == 0 {
                thread::yield_now();
            }
            assert_eq!(pager.read(0).map(drop).unwrap_err().refusal(), Error::Busy);
            return Err(fault());
        }
        Ok(())
    });
    thread::scope(|threads| {
        let reader = threads.spawn(|| pager.read(7).map(drop));
        let map = pager.write(0).unwrap();
        has_map.wait();
        // This one reads it again.
        assert_eq!(pager.read(7).unwrap().page(), 7);
        drop(map);
        let told = reader.join().unwrap().unwrap_err();
        assert!(matches!(told, PagerError::Read { page: 7, .. }));
    });
}

// A latch by a pin is not refused but panics: the engine's function ends, and the pager goes on.
#[test]
fn latch_of_a_pin_panics() {
    let _watch = Watch::over("latch_of_a_pin_panics", 60);
    // Else the latch, which is the thread's own, would be refused at once.
    let config = pin_wait(50).with_notes_latches(false);
    let pager = with_work(&config, |pager, asked| {
        if asked == Asked::Read(7) {
            let pin: PagePin<'_> = pager.pin(0).unwrap();
            drop(pin.write());
        }
        Ok(())
    });
    let map = pager.read(0).unwrap();
    let told = catch_unwind(AssertUnwindSafe(|| pager.read(7).map(drop)));
    let why = told.unwrap_err();
    let why = why.downcast_ref::<&str>().unwrap();
    assert!(why.contains("a function of the engine"), "{why}");
    drop(map);
    assert_eq!(pager.stats().pinned, 0);
    assert_eq!(pager.read(7).unwrap().page(), 7);
}

// A latch that comes free in time is had there too, and one of another pager.
#[test]
fn latch_that_comes_free() {
    let _watch = Watch::over("latch_that_comes_free", 60);
    let others = Arc::new(pager(2));
    let base = Arc::clone(&others);
    let pager = with_work(&pin_wait(30_000), move |pager, asked| {
        if asked == Asked::Read(7) {
            assert_eq!(pager.read(0).unwrap()[0], 5);
            assert_eq!(base.read(7).unwrap()[0], 6);
        }
        Ok(())
    });
    let (mut map, mut other) = (pager.write(0).unwrap(), others.write(7).unwrap());
    thread::scope(|threads| {
        threads.spawn(|| drop(pager.read(7).unwrap()));
        thread::sleep(Duration::from_millis(50));
        map.put(0, &[5], 0).unwrap();
        drop(map);
        thread::sleep(Duration::from_millis(50));
        other.put(0, &[6], 0).unwrap();
        drop(other);
    });
}

/// A device with many pages. The first reads of pages 8 and 16 are under way at once, and each wants the other page:
/// the pages, what these calls were told, and how long they waited. Another read takes a millisecond.
struct Crossed {
    pager: OnceLock<Weak<Pager<Crossed>>>,
    have_begun: Barrier,
    come: [AtomicBool; 2],
    told: Mutex<Vec<(u64, Option<Error>, Duration)>>,
}

impl PageIo for Crossed {
    fn read_page(&self, page: u64, image: &mut [u8]) -> Result<(), ReadFault> {
        image.fill(0);
        let Some(place) = [8, 16].iter().position(|it| *it == page) else {
            thread::sleep(Duration::from_millis(1));
            return Ok(());
        };
        if self.come[place].swap(true, Ordering::Relaxed) {
            return Ok(());
        }
        self.have_begun.wait();
        let pager = self.pager.get().unwrap().upgrade().unwrap();
        let began = Instant::now();
        let told = pager.read(24 - page).map(drop).map_err(|it| it.refusal());
        let noted = (page, told.err(), began.elapsed());
        self.told.lock().unwrap().push(noted);
        Ok(told.map_err(io::Error::other)?)
    }

    fn write_page(&self, _page: u64, _image: &mut [u8], _lsn: u64) -> io::Result<()> {
        Ok(())
    }

    fn make_log_durable(&self, _lsn: u64) -> Result<(), LogFault> {
        Ok(())
    }

    fn sync(&self) -> io::Result<()> {
        Ok(())
    }
}

// Two reads want each other's page. Beside them other pages are read all the time, and the end of each such read may
// wake them. They wait no longer for that.
#[test]
fn reads_that_want_each_other() {
    let _watch = Watch::over("reads_that_want_each_other", 120);
    let pin_wait = Duration::from_millis(200);
    let config = PagerConfig::in_parts(10_000, 64, 16, 1).with_pin_wait(pin_wait);
    let crossed = Crossed {
        pager: OnceLock::new(),
        have_begun: Barrier::new(2),
        come: Default::default(),
        told: Mutex::default(),
    };
    let pager = &Arc::new(Pager::new(&config, crossed).unwrap());
    pager.io().pager.set(Arc::downgrade(pager)).unwrap();
    let (is_over, long) = (&AtomicBool::new(false), Duration::from_secs(20));
    thread::scope(|threads| {
        threads.spawn(move || {
            let began = Instant::now();
            let mut pages = (24..10_000).cycle();
            while !is_over.load(Ordering::Relaxed) && began.elapsed() < 2 * long {
                drop(pager.read(pages.next().unwrap()).unwrap());
            }
        });
        let reads = [8, 16].map(|page| threads.spawn(move || pager.read(page).is_ok()));
        let told = reads.map(|it| it.join().unwrap());
        is_over.store(true, Ordering::Relaxed);
        assert_ne!(told, [true; 2]);
    });
    let told = pager.io().told.lock().unwrap();
    let refused = told.iter().filter(|it| it.1 == Some(Error::Busy));
    assert_ne!(refused.clone().count(), 0);
    for (page, _, waited) in refused {
        assert!((pin_wait..long).contains(waited), "{page}: {waited:?}");
    }
}
