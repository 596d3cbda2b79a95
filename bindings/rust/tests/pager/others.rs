//! What one page, one thread or one fault does to others: they get through.
use hojzmated::{Error, LogFault, PageIo, Pager, PagerConfig, PagerError, ReadFault};
use std::io;
use std::panic::{AssertUnwindSafe, catch_unwind};
use std::sync::atomic::{AtomicBool, Ordering};
use std::sync::{Arc, Mutex, mpsc};
use std::thread;
use std::time::{Duration, Instant};

/// A device with zeros, which keeps nothing.
#[derive(Default)]
struct Device {
    bad_page: Option<u64>,
    panicking_page: Option<u64>,
    /// How far the log can be made durable, if not so far as is wanted.
    log_end: Option<u64>,
    log_takes: Duration,
    /// As far as which the log was wanted, call by call.
    wanted: Mutex<Vec<u64>>,
    /// The pages that went out.
    written: Mutex<Vec<u64>>,
    writes_slowly: bool,
    has_begun: AtomicBool,
}

fn is_so(so: bool) -> io::Result<()> {
    so.then_some(()).ok_or(io::ErrorKind::Other.into())
}

impl PageIo for Device {
    fn read_page(&self, _page: u64, image: &mut [u8]) -> Result<(), ReadFault> {
        image.fill(0);
        Ok(())
    }

    fn write_page(&self, page: u64, _image: &mut [u8], _lsn: u64) -> io::Result<()> {
        if self.writes_slowly {
            // A wait of its own kind, which a wake-up for the cleaner could end.
            let (done, is_done) = mpsc::channel();
            self.has_begun.store(true, Ordering::Release);
            thread::spawn(move || {
                thread::sleep(Duration::from_millis(100));
                done.send(())
            });
            is_so(is_done.recv().is_ok())?;
        }
        assert_ne!(self.panicking_page, Some(page), "no such luck");
        self.written.lock().unwrap().push(page);
        is_so(self.bad_page != Some(page))
    }

    fn make_log_durable(&self, lsn: u64) -> Result<(), LogFault> {
        self.wanted.lock().unwrap().push(lsn);
        thread::sleep(self.log_takes);
        match self.log_end {
            Some(end) if lsn > end => Err(LogFault::NotYet),
            _ => Ok(()),
        }
    }

    fn sync(&self) -> io::Result<()> {
        Ok(())
    }
}

fn pager(parts: usize, frames: usize, device: Device) -> Pager<Device> {
    let config = PagerConfig::new(100, 64, frames)
        .with_parts(parts)
        .with_correlated(0);
    Pager::new(&config, device).unwrap()
}

fn put(pager: &Pager<Device>, page: u64, lsn: u64) {
    pager.write(page).unwrap().put(0, &[1], lsn).unwrap();
}

// A thread writes to one page again and again, faster than the log is made durable.
#[test]
fn checkpoint_beside_a_writer_that_never_rests() {
    let log_takes = Duration::from_millis(20);
    let device = Device {
        log_takes,
        ..Device::default()
    };
    let (pager, is_done) = (pager(1, 8, device), AtomicBool::new(false));
    put(&pager, 0, 1);
    thread::scope(|threads| {
        threads.spawn(|| {
            for lsn in 2.. {
                put(&pager, 0, lsn);
                thread::sleep(Duration::from_micros(20));
                if is_done.load(Ordering::Relaxed) {
                    break;
                }
            }
        });
        thread::sleep(log_takes);
        for _ in 0..3 {
            assert!(pager.checkpoint().is_ok());
        }
        is_done.store(true, Ordering::Relaxed);
    });
    // Before the pages and for the page: more only where this thread slept meanwhile.
    assert!(pager.io().wanted.lock().unwrap().len() < 30);
}

#[test]
fn checkpoint_makes_the_log_durable_once() {
    let pager = pager(2, 20, Device::default());
    (0..10).for_each(|page| put(&pager, page, 100 + page));
    assert_eq!(pager.checkpoint().unwrap(), None);
    assert_eq!(*pager.io().wanted.lock().unwrap(), [109]);
}

/// Of twenty reads of other pages those that fail or panic, where page 0 is dirty and first to make
/// way, and three frames more have clean pages; and how many pages are dirty then.
fn failing_reads(device: Device, lsn: u64) -> (usize, usize) {
    let pager = pager(1, 4, device);
    put(&pager, 0, lsn);
    (1..4).for_each(|page| drop(pager.read(page).unwrap()));
    let reads = (10..30).map(|page| {
        catch_unwind(AssertUnwindSafe(|| pager.read(page).map(drop).unwrap())).is_err()
    });
    let failing = reads.filter(|is_failing| *is_failing).count();
    (failing, pager.stats().unsaved)
}

// Others make way in its place. But a call whose device panics does not go on: the next one does.
#[test]
fn page_that_cannot_make_way() {
    let bad_page = Some(0);
    let device = Device::default;
    assert_eq!(failing_reads(device(), 0), (0, 0));
    let cannot_be_written = Device {
        bad_page,
        ..device()
    };
    assert_eq!(failing_reads(cannot_be_written, 0), (0, 1));
    let has_no_record = Device {
        log_end: bad_page,
        ..device()
    };
    assert_eq!(failing_reads(has_no_record, 7), (0, 1));
    let panics = Device {
        panicking_page: bad_page,
        ..device()
    };
    let (failing, dirty) = failing_reads(panics, 0);
    assert!((1..10).contains(&failing), "{failing} of 20");
    assert_eq!(dirty, 1);
}

// The first page cannot be written out, by a fault or a panic. The others are.
#[test]
fn clean_goes_on_after_a_page() {
    let page = Some(0);
    for (bad_page, panicking_page) in [(page, None), (None, page)] {
        let device = Device {
            bad_page,
            panicking_page,
            ..Device::default()
        };
        let pager = pager(2, 20, device);
        (0..10).for_each(|page| put(&pager, page, 0));
        for _ in 0..20 {
            let cleaned = catch_unwind(AssertUnwindSafe(|| pager.clean(100)));
            assert!(!matches!(cleaned, Ok(Ok(count)) if count > 100));
        }
        assert_eq!(pager.stats().unsaved, 1);
    }
}

// Not all pages are looked at where few may go out, and the next call begins behind those.
#[test]
fn clean_and_checkpoint_of_many_pages() {
    let pager = pager(1, 100, Device::default());
    (0..100).for_each(|page| put(&pager, page, u64::from(page < 90) * 9));
    assert_eq!(pager.clean(1).unwrap(), 0);
    assert_eq!(pager.clean(1).unwrap(), 1);
    assert_eq!(*pager.io().written.lock().unwrap(), [90]);
    assert_eq!(pager.clean(300).unwrap(), 9);
    pager.mark(9);
    assert_eq!(pager.clean(300).unwrap(), 90);
    (0..100).for_each(|page| put(&pager, page, 9));
    pager.io().written.lock().unwrap().clear();
    assert_eq!(pager.checkpoint().unwrap(), None);
    assert!((0..100).eq(pager.io().written.lock().unwrap().drain(..)));
    assert_eq!(pager.stats().unsaved, 0);
}

#[test]
fn log_record_that_never_comes() {
    let device = Device {
        log_end: Some(100),
        ..Device::default()
    };
    let pager = pager(1, 8, device);
    put(&pager, 0, 1_000);
    put(&pager, 1, 50);
    let refused = pager.flush(0).unwrap_err();
    assert!(matches!(refused, PagerError::LogNotYet { lsn: 1_000 }));
    pager.flush(1).unwrap();
    assert_eq!(*pager.io().wanted.lock().unwrap(), [1_000, 50]);
}

#[test]
fn cleaner_ends_while_the_device_waits() {
    let device = Device {
        writes_slowly: true,
        ..Device::default()
    };
    let pager = Arc::new(pager(1, 8, device));
    put(&pager, 0, 0);
    let cleaner = pager.start_cleaner(10, Duration::from_secs(60)).unwrap();
    while !pager.io().has_begun.load(Ordering::Acquire) {
        thread::yield_now();
    }
    let began = Instant::now();
    drop(cleaner);
    assert!(began.elapsed() < Duration::from_secs(30));
    assert_eq!(pager.stats().unsaved, 0);
}

#[test]
fn limits_of_the_whole() {
    let new = |config| Pager::new(&config, Device::default()).map(drop);
    let usual = PagerConfig::new(10, 64, 4);
    let page_size = usize::MAX - 15;
    let config = usual.clone().with_page_size(page_size);
    let bad = |field| Err(Error::BadSetting { field });
    assert_eq!(new(config), bad("page_size"));
    for parts in [1, 4] {
        let (correlated, retained) = (u64::MAX, (1 << 62) + 1);
        let config = usual.clone();
        let config = config.with_parts(parts);
        let told = new(config.clone().with_correlated(correlated));
        assert_eq!(told, bad("correlated"));
        assert_eq!(new(config.with_retained(retained)), bad("retained"));
    }
    // So many pages want forty parts, and each part a frame.
    let config = PagerConfig::new(40 << 20, 16, 50);
    assert_eq!(config.parts, 50);
}
