//! Which pages are unsaved, and what is written out by age or as a list: neighbours in one write.
use crate::device::{Asked, Device, Gate, PAGES, SIZE, Watch, config, pager, put};
use hojzmated::{Error, LogFault, PageIo, Pager, PagerError, ReadFault};
use std::io;
use std::sync::atomic::{AtomicBool, AtomicU64, Ordering};
use std::sync::{Arc, Mutex};
use std::thread;
use std::time::Duration;

/// A device that writes down the rows that it gets, each by its first page and the LSNs.
#[derive(Default)]
struct Rows {
    device: Device,
    most: usize,
    rows: Mutex<Vec<(u64, Vec<u64>)>>,
    fails: AtomicBool,
    work: Mutex<Option<Work>>,
}

/// What is done within the write of a row, which begins with this page.
type Work = Box<dyn Fn(u64) + Send>;

impl Rows {
    fn of(most: usize) -> Rows {
        Rows {
            most,
            ..Rows::default()
        }
    }

    /// The rows since the last time.
    fn rows(&self) -> Vec<(u64, Vec<u64>)> {
        std::mem::take(&mut self.rows.lock().unwrap())
    }
}

impl PageIo for Rows {
    fn read_page(&self, page: u64, image: &mut [u8]) -> Result<(), ReadFault> {
        self.device.read_page(page, image)
    }

    fn write_page(&self, page: u64, image: &mut [u8], lsn: u64) -> io::Result<()> {
        self.device.write_page(page, image, lsn)
    }

    fn most_pages(&self) -> usize {
        self.most
    }

    fn write_pages(&self, first: u64, images: &mut [u8], lsns: &[u64]) -> io::Result<()> {
        assert_eq!(images.len(), lsns.len() * SIZE);
        self.rows.lock().unwrap().push((first, lsns.to_vec()));
        if let Some(work) = &*self.work.lock().unwrap() {
            work(first);
        }
        if self.fails.load(Ordering::Relaxed) {
            return Err(io::Error::other("no row"));
        }
        let mut pages = self.device.pages.lock().unwrap();
        for (at, image) in images.chunks(SIZE).enumerate() {
            pages[first as usize + at].copy_from_slice(image);
        }
        Ok(())
    }

    fn make_log_durable(&self, lsn: u64) -> Result<(), LogFault> {
        self.device.make_log_durable(lsn)
    }

    fn sync(&self) -> io::Result<()> {
        self.device.sync()
    }
}

/// A pager with three parts and a frame for each page, over such a device.
fn pager_of_rows(most: usize) -> Pager<Rows> {
    let config = config(24).with_parts(3);
    Pager::new(&config, Rows::of(most)).unwrap()
}

/// Puts the number of each page at its start, under the LSN 100 and its number.
fn put_all(pager: &Pager<Rows>, pages: impl IntoIterator<Item = u64>) {
    for page in pages {
        let mut it = pager.write(page).unwrap();
        it.put(0, &[page as u8], 100 + page).unwrap();
    }
    pager.io().device.asked();
}

/// Whether the device has these pages, each with its number, and no other.
fn has(pager: &Pager<Rows>, pages: &[u64]) -> bool {
    let on_device = pager.io().device.pages.lock().unwrap();
    (0..PAGES).all(|page| {
        (on_device[page as usize][0] == page as u8) == (page == 0 || pages.contains(&page))
    })
}

// ---- Neighbours in one write

#[test]
fn neighbours_go_out_in_one_write() {
    let pager = pager_of_rows(8);
    put_all(&pager, [9, 2, 6, 1, 5, 3]);
    assert_eq!(pager.checkpoint().unwrap(), None);
    let rows = [(1, vec![101, 102, 103]), (5, vec![105, 106])];
    assert_eq!(pager.io().rows(), rows);
    let asked = [Asked::Log(109), Asked::Write(9, 9, 109), Asked::Sync];
    assert_eq!(pager.io().device.asked(), asked);
    assert!(has(&pager, &[1, 2, 3, 5, 6, 9]));
    let stats = pager.stats();
    assert_eq!(
        (stats.unsaved, stats.totals.writes, stats.pinned),
        (0, 6, 0)
    );
}

// No more go out in one write than the engine says.
#[test]
fn most_neighbours_of_a_write() {
    let pager = pager_of_rows(4);
    put_all(&pager, 1..11);
    pager.checkpoint().unwrap();
    let firsts: Vec<_> = pager
        .io()
        .rows()
        .into_iter()
        .map(|(first, lsns)| (first, lsns.len()))
        .collect();
    assert_eq!(firsts, [(1, 4), (5, 4), (9, 2)]);
    assert!(has(&pager, &[1, 2, 3, 4, 5, 6, 7, 8, 9, 10]));
    // Where it says none, or nothing, they go out one by one.
    for most in [0, 1] {
        let pager = pager_of_rows(most);
        put_all(&pager, 1..4);
        pager.checkpoint().unwrap();
        assert_eq!(
            (pager.io().rows(), pager.io().device.asked().len()),
            (vec![], 5)
        );
    }
}

// An engine that says how many and no more has them by `write_page`.
#[test]
fn neighbours_by_write_page() {
    struct Many(Device);
    impl PageIo for Many {
        fn read_page(&self, page: u64, image: &mut [u8]) -> Result<(), ReadFault> {
            self.0.read_page(page, image)
        }
        fn write_page(&self, page: u64, image: &mut [u8], lsn: u64) -> io::Result<()> {
            self.0.write_page(page, image, lsn)
        }
        fn most_pages(&self) -> usize {
            5
        }
        fn make_log_durable(&self, lsn: u64) -> Result<(), LogFault> {
            self.0.make_log_durable(lsn)
        }
        fn sync(&self) -> io::Result<()> {
            self.0.sync()
        }
    }
    let pager = Pager::new(&config(4), Many(Device::default())).unwrap();
    for page in 1..4 {
        pager
            .write(page)
            .unwrap()
            .put(0, &[page as u8], page + 5)
            .unwrap();
    }
    pager.io().0.asked();
    pager.checkpoint().unwrap();
    let written = [1, 2, 3].map(|page| Asked::Write(page, page as u8, page + 5));
    let asked = pager.io().0.asked();
    assert_eq!(
        (asked[0], &asked[1..4], asked[4]),
        (Asked::Log(8), &written[..], Asked::Sync)
    );
}

// A row that cannot be written is written page by page, and then the fault tells its page.
#[test]
fn row_that_fails() {
    let pager = pager_of_rows(8);
    pager.io().fails.store(true, Ordering::Relaxed);
    put_all(&pager, 1..5);
    pager.checkpoint().unwrap();
    assert_eq!(pager.io().rows().len(), 1);
    assert!(has(&pager, &[1, 2, 3, 4]));
    assert_eq!((pager.stats().unsaved, pager.stats().totals.failed), (0, 4));
    put_all(&pager, 1..5);
    pager.io().device.ends_as(|asked| match asked {
        Asked::Write(3, ..) => Err(crate::device::fault()),
        _ => Ok(()),
    });
    let told = pager.checkpoint();
    assert!(
        matches!(told, Err(PagerError::Write { page: 3, .. })),
        "{told:?}"
    );
    assert_eq!((pager.stats().unsaved, pager.redo_from()), (1, Some(103)));
}

// Each page of the row is unsaved then, and no ticket is out.
#[test]
fn row_that_panics() {
    let pager = pager_of_rows(8);
    put_all(&pager, 1..5);
    *pager.io().work.lock().unwrap() = Some(Box::new(|_| {
        std::panic::resume_unwind(Box::new("own code"))
    }));
    let ended = std::panic::catch_unwind(std::panic::AssertUnwindSafe(|| pager.checkpoint()));
    assert!(ended.is_err());
    assert_eq!(pager.stats().unsaved, 4);
    pager.io().work.clear_poison();
    pager.io().rows.clear_poison();
    *pager.io().work.lock().unwrap() = None;
    pager.checkpoint().unwrap();
    assert!(has(&pager, &[1, 2, 3, 4]));
}

// Page 2 is written to when its row begins. So page 1 goes out by itself, before its writer is waited
// for.
#[test]
fn row_ends_before_a_page_that_is_written_to() {
    let _watch = Watch::over("row_ends_before_a_page_that_is_written_to", 60);
    let pager = pager_of_rows(8);
    put_all(&pager, 1..5);
    let mut page = pager.write(2).unwrap();
    thread::scope(|threads| {
        let flush = threads.spawn(|| pager.flush_pages(&[1, 2, 3, 4]).unwrap());
        while pager.stats().waits == 0 {
            thread::yield_now();
        }
        assert!(!flush.is_finished());
        assert!(has(&pager, &[1]));
        page.put(8, &[1], 200).unwrap();
        drop(page);
    });
    assert_eq!(pager.io().rows(), [(2, vec![200, 103, 104])]);
    assert!(has(&pager, &[1, 2, 3, 4]));
}

// The engine's function wants a page of its own row written out, and is refused. Others it may use.
#[test]
fn row_that_calls_the_pager() {
    let _watch = Watch::over("row_that_calls_the_pager", 60);
    let pager = Arc::new(pager_of_rows(8));
    put_all(&pager, [1, 2, 3, 7]);
    let weak = Arc::downgrade(&pager);
    let work = move |first: u64| {
        let pager = weak.upgrade().unwrap();
        for page in first..first + 3 {
            let told = pager.flush(page).unwrap_err();
            assert_eq!(told.refusal(), Error::Busy);
            assert_eq!(pager.read(page).unwrap()[0], page as u8);
        }
        pager.flush(7).unwrap();
    };
    *pager.io().work.lock().unwrap() = Some(Box::new(work));
    pager.checkpoint().unwrap();
    assert!(has(&pager, &[1, 2, 3, 7]));
    assert_eq!(pager.io().rows().len(), 1);
}

// While a row goes out its pages are written to, and then they are unsaved still.
#[test]
fn writes_beside_a_row() {
    let pager = Arc::new(pager_of_rows(8));
    put_all(&pager, 1..4);
    let weak = Arc::downgrade(&pager);
    let work = move |_| {
        let pager = weak.upgrade().unwrap();
        pager.write(2).unwrap().put(0, &[77], 150).unwrap();
    };
    *pager.io().work.lock().unwrap() = Some(Box::new(work));
    assert_eq!(pager.checkpoint().unwrap(), Some(150));
    assert!(has(&pager, &[1, 2, 3]));
    assert_eq!(pager.stats().unsaved, 1);
}

// Threads that have one page and want another, in the order of the pages, beside threads that write all
// out in rows. There are fewer frames than pages, so the victims of some are in the rows of others. All
// get through, and no count is lost.
#[test]
fn rows_beside_threads_with_latches() {
    let _watch = Watch::over("rows_beside_threads_with_latches", 300);
    let config = config(9).with_pin_wait(Duration::from_secs(60));
    let pager = &Pager::new(&config, Rows::of(6)).unwrap();
    let (added, is_over) = (&AtomicU64::new(0), &AtomicBool::new(false));
    thread::scope(|threads| {
        let work = move |thread: u64| {
            for turn in 0..600 {
                let low = (turn * 5 + thread * 3) % (PAGES - 1);
                let high = low + 1 + turn % (PAGES - 1 - low);
                let (mut first, mut second) =
                    (pager.write(low).unwrap(), pager.write(high).unwrap());
                for page in [&mut first, &mut second] {
                    let count = page.bytes()[0].wrapping_add(1);
                    page.put(0, &[count], turn + 1).unwrap();
                }
                added.fetch_add(2, Ordering::Relaxed);
            }
        };
        let writers = (0..4).map(|thread| threads.spawn(move || work(thread)));
        let writers: Vec<_> = writers.collect();
        for _ in 0..2 {
            threads.spawn(move || {
                while !is_over.load(Ordering::Relaxed) {
                    pager.checkpoint().unwrap();
                }
            });
        }
        writers.into_iter().for_each(|it| it.join().unwrap());
        is_over.store(true, Ordering::Relaxed);
    });
    pager.checkpoint().unwrap();
    assert!(!pager.io().rows().is_empty());
    let pages = pager.io().device.pages.lock().unwrap();
    let sum = pages
        .iter()
        .fold(0u8, |sum, page| sum.wrapping_add(page[0]));
    assert_eq!(sum, added.load(Ordering::Relaxed) as u8);
}

// ---- By age

#[test]
fn unsaved_pages_and_their_records() {
    let config = config(12).with_parts(3);
    let pager = Pager::new(&config, Device::default()).unwrap();
    assert_eq!(pager.unsaved(), Ok(vec![]));
    for (page, lsn) in [(7, 3), (1, 5), (2, 0), (1, 9), (8, 4)] {
        put(&pager, page, 1, lsn);
    }
    pager.flush(8).unwrap();
    let unsaved = pager.unsaved().unwrap();
    let told = unsaved.iter().map(|it| (it.page, it.lsn, it.first_lsn));
    assert!(told.eq([(1, 9, 5), (2, 0, 0), (7, 3, 3)]), "{unsaved:?}");
}

// Page 1 has an old record and a new one, page 2 none, page 3 a new one, page 4 one that is just as new
// as is told, page 5 was saved since its old one.
#[test]
fn flush_of_what_is_older() {
    let pager = pager(8);
    put(&pager, 5, 5, 2);
    pager.flush(5).unwrap();
    for (page, lsn) in [(1, 5), (1, 12), (2, 0), (3, 9), (4, 6), (5, 8), (7, 3)] {
        put(&pager, page, page as u8, lsn);
    }
    pager.io().asked();
    assert_eq!(pager.redo_from(), Some(3));
    pager.flush_before(6).unwrap();
    let asked = [
        Asked::Log(12),
        Asked::Write(1, 1, 12),
        Asked::Write(7, 7, 3),
    ];
    assert_eq!(pager.io().asked(), asked);
    assert_eq!(pager.sync().unwrap(), Some(6));
    assert_eq!(pager.io().asked(), [Asked::Sync]);
    pager.flush_before(6).unwrap();
    assert_eq!(pager.io().asked(), []);
    pager.flush_before(u64::MAX).unwrap();
    assert_eq!(pager.io().asked().len(), 3);
    assert_eq!((pager.sync().unwrap(), pager.stats().unsaved), (None, 1));
}

// After a sync that failed none is made any more.
#[test]
fn sync_that_fails() {
    let pager = pager(2);
    pager.io().is_next(crate::device::Fate::Fails);
    assert!(matches!(pager.sync(), Err(PagerError::Sync { .. })));
    assert!(matches!(pager.sync(), Err(PagerError::SyncFailedBefore)));
    assert!(matches!(
        pager.checkpoint(),
        Err(PagerError::SyncFailedBefore)
    ));
    assert_eq!(pager.io().asked(), [Asked::Sync]);
}

// In any order, some twice, some saved or in no frame.
#[test]
fn flush_of_a_list() {
    let pager = pager(8);
    for page in [6, 3, 9, 1] {
        put(&pager, page, page as u8, page);
    }
    drop(pager.read(2).unwrap());
    pager.io().asked();
    pager.flush_pages(&[9, 2, 3, 9, 15, 3]).unwrap();
    let asked = [Asked::Log(9), Asked::Write(3, 3, 3), Asked::Write(9, 9, 9)];
    assert_eq!(pager.io().asked(), asked);
    let told = pager.flush_pages(&[1, PAGES]).unwrap_err();
    assert_eq!(told.refusal(), Error::NoSuchPage { page: PAGES });
    pager.flush_pages(&[]).unwrap();
    assert_eq!(pager.stats().unsaved, 2);
}

// Two threads have each half of the pages, and both write at the same time.
#[test]
fn flush_by_several_threads() {
    let pager = pager(16);
    (1..9).for_each(|page| put(&pager, page, page as u8, 0));
    let gate = Arc::new(Gate::default());
    let device = Arc::clone(&gate);
    pager.io().within(move |asked| {
        if matches!(asked, Asked::Write(..)) {
            device.pass();
        }
    });
    let pages: Vec<u64> = (1..9).collect();
    thread::scope(|threads| {
        for half in pages.chunks(4) {
            let pager = &pager;
            threads.spawn(move || pager.flush_pages(half).unwrap());
        }
        gate.wait_for(2);
        gate.open();
    });
    assert_eq!((pager.stats().unsaved, pager.stats().totals.writes), (0, 8));
}

// ---- What is cleaned first

// With all frames in use, page 3 has to make way next. It is cleaned before page 1, and not once more.
#[test]
fn victim_is_cleaned_first() {
    let pager = pager(3);
    for page in [3, 1, 2] {
        put(&pager, page, page as u8, 0);
    }
    pager.io().asked();
    for page in [3, 1, 2] {
        assert_eq!(pager.clean(1).unwrap(), 1);
        assert_eq!(pager.io().asked(), [Asked::Write(page, page as u8, 0)]);
    }
    assert_eq!(pager.clean(1).unwrap(), 0);
    // A victim that cannot be written out is not tried each time before the others.
    for page in [3, 1, 2] {
        put(&pager, page, 7, 0);
    }
    pager.io().ends_as(|asked| match asked {
        Asked::Write(3, ..) => Err(crate::device::fault()),
        _ => Ok(()),
    });
    for _ in 0..3 {
        let _ = pager.clean(1);
    }
    assert_eq!(
        (pager.stats().unsaved, pager.unsaved().unwrap()[0].page),
        (1, 3)
    );
}
