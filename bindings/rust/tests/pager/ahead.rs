//! Pages that are read before anybody asks for them.
use crate::device::{Asked, Device, Fate, Gate, PAGES, SIZE, Watch, config, fault, put};
use hojzmated::{Error, LogFault, PageIo, Pager, PagerConfig, ReadFault};
use std::io;
use std::panic::{AssertUnwindSafe, catch_unwind, resume_unwind};
use std::sync::atomic::{AtomicBool, AtomicU64, Ordering};
use std::sync::{Arc, Mutex};
use std::thread;
use std::time::{Duration, Instant};

type Shared = Arc<Pager<Device>>;

fn shared(frames: usize) -> Shared {
    Arc::new(Pager::new(&config(frames), Device::default()).unwrap())
}

/// Waits until something is so.
fn wait_until(is_so: impl Fn() -> bool) {
    let began = Instant::now();
    while !is_so() {
        assert!(began.elapsed() < Duration::from_secs(30), "it never is so");
        thread::yield_now();
    }
}

fn wait_for<F>(pager: &Pager<F>, pages: impl IntoIterator<Item = u64> + Clone) {
    wait_until(|| {
        pages
            .clone()
            .into_iter()
            .all(|page| pager.is_resident(page))
    });
}

// Four reads are under way at once, and who asked for them did not wait. Then the pages are there.
#[test]
fn pages_are_read_side_by_side() {
    let pager = shared(8);
    let gate = Arc::new(Gate::default());
    let device = Arc::clone(&gate);
    pager.io().within(move |_| device.pass());
    let readers = pager.start_readers(4).unwrap();
    assert_eq!(pager.prefetch([1, 9, 4, 6]), 4);
    gate.wait_for(4);
    assert_eq!(pager.stats().resident, 0);
    gate.open();
    wait_for(&pager, [1, 9, 4, 6]);
    assert_eq!(pager.io().asked().len(), 4);
    for page in [1, 9, 4, 6] {
        drop(pager.read(page).unwrap());
    }
    assert_eq!(pager.io().asked(), []);
    let stats = pager.stats();
    assert_eq!(
        (stats.totals.faults, stats.totals.hits, stats.pinned),
        (4, 4, 0)
    );
    drop(readers);
}

// Who asks for a page while it is read ahead waits for that read.
#[test]
fn page_that_is_wanted_meanwhile() {
    let pager = shared(8);
    let gate = Arc::new(Gate::default());
    let device = Arc::clone(&gate);
    pager.io().within(move |_| device.pass());
    let _readers = pager.start_readers(1).unwrap();
    pager.prefetch([5]);
    gate.wait_for(1);
    thread::scope(|threads| {
        let read = threads.spawn(|| pager.read(5).unwrap()[0]);
        wait_until(|| pager.stats().waits > 0);
        assert!(!read.is_finished());
        gate.open();
        assert_eq!(read.join().unwrap(), 0);
    });
    assert_eq!(pager.io().asked(), [Asked::Read(5)]);
}

// A thread that did not wait has looked at page 5, and it left its frame, before its turn to be read
// came. It is not read again.
#[test]
fn page_that_came_and_went() {
    let pager = shared(2);
    let gate = Arc::new(Gate::default());
    let device = Arc::clone(&gate);
    pager.io().within(move |asked| {
        if asked == Asked::Read(1) {
            device.pass();
        }
    });
    let readers = pager.start_readers(1).unwrap();
    assert_eq!(pager.prefetch([1]), 1);
    gate.wait_for(1);
    assert_eq!(pager.prefetch([5, 6]), 2);
    for page in [5, 7] {
        drop(pager.read(page).unwrap());
    }
    assert!(!pager.is_resident(5));
    gate.open();
    wait_for(&pager, [6]);
    drop(readers);
    let asked = [1, 5, 7, 6].map(Asked::Read);
    assert_eq!(pager.io().asked(), asked);
}

// Page 5 came, and was discarded, before its turn to be read ahead came. It is not read again.
#[test]
fn page_that_was_discarded() {
    let pager = shared(4);
    let gate = Arc::new(Gate::default());
    let device = Arc::clone(&gate);
    pager.io().within(move |asked| {
        if asked == Asked::Read(1) {
            device.pass();
        }
    });
    let readers = pager.start_readers(1).unwrap();
    assert_eq!(pager.prefetch([1]), 1);
    gate.wait_for(1);
    assert_eq!(pager.prefetch([5, 6]), 2);
    drop(pager.read(5).unwrap());
    assert!(pager.discard(5).unwrap());
    gate.open();
    wait_for(&pager, [6]);
    drop(readers);
    assert!(!pager.is_resident(5));
    assert_eq!(pager.io().asked(), [1, 5, 6].map(Asked::Read));
}

// All frames are dirty, so a page is written out before the row is read. Meanwhile page 12 of the row is made, and
// discarded. It is not read, and is zeros when it is made again.
#[test]
fn page_of_a_row_that_came_and_went() {
    let pager = Arc::new(Pager::new(&config(6), Rows::default()).unwrap());
    pager.io().device.pages.lock().unwrap()[12] = [0xaa; SIZE];
    for page in 0..6 {
        pager.write(page).unwrap().put(0, &[1], 0).unwrap();
    }
    let (gate, is_first) = (Arc::new(Gate::default()), AtomicBool::new(true));
    let device = Arc::clone(&gate);
    pager.io().device.within(move |asked| {
        if matches!(asked, Asked::Write(..)) && is_first.swap(false, Ordering::Relaxed) {
            device.pass();
        }
    });
    let readers = pager.start_readers(1).unwrap();
    assert_eq!(pager.prefetch(10..14), 4);
    gate.wait_for(1);
    drop(pager.new_page(12).unwrap());
    assert!(pager.discard(12).unwrap());
    gate.open();
    wait_for(&pager, [10, 11, 13]);
    drop(readers);
    let rows = pager.io().rows.lock().unwrap().clone();
    let in_a_row = rows
        .iter()
        .flat_map(|(first, count)| *first..first + *count as u64);
    let alone = pager.io().device.asked().into_iter();
    let alone = alone.filter_map(|asked| match asked {
        Asked::Read(page) if page >= 10 => Some(page),
        _ => None,
    });
    let mut read: Vec<_> = in_a_row.chain(alone).collect();
    read.sort_unstable();
    assert_eq!(read, [10, 11, 13]);
    assert_eq!(*pager.new_page(12).unwrap().bytes(), [0; SIZE]);
}

/// Pagers in which page 3 has other bytes on the device, with and without a correlated period.
fn pagers_with_old_bytes() -> impl Iterator<Item = Shared> {
    let periods = [(0, false), (4, false), (4, true)];
    periods.into_iter().map(|(correlated, tells_each_pin)| {
        let config = config(4)
            .with_correlated(correlated)
            .with_tells_each_pin(tells_each_pin);
        let pager = Pager::new(&config, Device::default()).unwrap();
        pager.io().pages.lock().unwrap()[3] = [0xaa; SIZE];
        Arc::new(pager)
    })
}

// A page that is made new is zeros where it was read ahead, and where it is just read ahead. But one that somebody
// has looked at is as it is in its frame.
#[test]
fn new_page_that_was_read_ahead() {
    for pager in pagers_with_old_bytes() {
        let _readers = pager.start_readers(1).unwrap();
        assert_eq!(pager.prefetch([3]), 1);
        wait_for(&pager, [3]);
        assert_eq!(*pager.new_page(3).unwrap().bytes(), [0; SIZE]);
        assert_eq!(pager.read(3).unwrap()[0], 0);
        assert!(pager.discard(3).unwrap());
        assert_eq!(pager.prefetch([3]), 1);
        wait_for(&pager, [3]);
        assert_eq!(pager.read(3).unwrap()[0], 0xaa);
        assert_eq!(*pager.new_page(3).unwrap().bytes(), [0xaa; SIZE]);
        assert_eq!(pager.stats().pinned, 0);
    }
}

#[test]
fn new_page_that_is_being_read_ahead() {
    for pager in pagers_with_old_bytes() {
        let gate = Arc::new(Gate::default());
        let device = Arc::clone(&gate);
        pager.io().within(move |_| device.pass());
        let _readers = pager.start_readers(1).unwrap();
        assert_eq!(pager.prefetch([3]), 1);
        gate.wait_for(1);
        thread::scope(|threads| {
            let new = threads.spawn(|| pager.new_page(3).unwrap().bytes().to_vec());
            wait_until(|| pager.stats().waits > 0);
            gate.open();
            assert_eq!(new.join().unwrap(), [0; SIZE]);
        });
    }
}

// The same at any moment of the read ahead.
#[test]
fn new_pages_beside_reads_ahead() {
    let _watch = Watch::over("new_pages_beside_reads_ahead", 300);
    for pager in pagers_with_old_bytes() {
        let readers = pager.start_readers(2).unwrap();
        for turn in 0..2_000 {
            pager.prefetch([3]);
            for _ in 0..turn % 64 * 16 {
                std::hint::spin_loop();
            }
            let mut page = pager.new_page(3).unwrap();
            assert_eq!(*page.bytes(), [0; SIZE]);
            page.put(0, &[1], 0).unwrap();
            drop(page);
            pager.discard(3).unwrap();
        }
        drop(readers);
        assert_eq!(pager.stats().pinned, 0);
    }
}

// Without threads for it nothing is read. Pages in frames, and those that the file does not have, are
// left out.
#[test]
fn what_is_left_out() {
    let pager = shared(8);
    assert_eq!(pager.prefetch(0..PAGES), 0);
    let readers = pager.start_readers(2).unwrap();
    drop(pager.read(3).unwrap());
    assert_eq!(pager.prefetch([3, PAGES, u64::MAX, 7]), 1);
    wait_for(&pager, [7]);
    drop(readers);
    assert_eq!(pager.prefetch([8]), 0);
    assert_eq!(pager.io().asked(), [Asked::Read(3), Asked::Read(7)]);
}

// Of numbers without end, as many are looked at as the file has pages.
#[test]
fn numbers_without_end() {
    let pager = shared(8);
    let readers = pager.start_readers(1).unwrap();
    drop(pager.read(3).unwrap());
    assert_eq!(pager.prefetch(PAGES - 2..), 2);
    wait_for(&pager, [PAGES - 2, PAGES - 1]);
    assert_eq!(pager.prefetch(std::iter::repeat(3)), 0);
    drop(readers);
}

/// A device that panics where it is asked how many pages it takes.
#[derive(Default)]
struct Untold(Device);

impl PageIo for Untold {
    fn read_page(&self, page: u64, image: &mut [u8]) -> Result<(), ReadFault> {
        self.0.read_page(page, image)
    }

    fn write_page(&self, page: u64, image: &mut [u8], lsn: u64) -> io::Result<()> {
        self.0.write_page(page, image, lsn)
    }

    fn most_pages(&self) -> usize {
        resume_unwind(Box::new("the engine's own code"))
    }

    fn make_log_durable(&self, lsn: u64) -> Result<(), LogFault> {
        self.0.make_log_durable(lsn)
    }

    fn sync(&self) -> io::Result<()> {
        self.0.sync()
    }
}

// Then no thread was started, and nothing waits for one.
#[test]
fn panic_before_the_first_read() {
    let pager = Arc::new(Pager::new(&config(4), Untold::default()).unwrap());
    let start = || pager.start_readers(1);
    assert!(catch_unwind(AssertUnwindSafe(start)).is_err());
    assert_eq!(pager.prefetch([1]), 0);
}

// Of more than 4,096 that wait the others are left out. None of them is read twice.
#[test]
fn many_pages_wait() {
    let config = PagerConfig::in_parts(1 << 20, SIZE, 8, 1);
    let gate = Arc::new(Gate::default());
    struct Stops(Arc<Gate>);
    impl PageIo for Stops {
        fn read_page(&self, _page: u64, _image: &mut [u8]) -> Result<(), ReadFault> {
            self.0.pass();
            Ok(())
        }
        fn write_page(&self, _page: u64, _image: &mut [u8], _lsn: u64) -> io::Result<()> {
            Ok(())
        }
        fn make_log_durable(&self, _lsn: u64) -> Result<(), LogFault> {
            Ok(())
        }
        fn sync(&self) -> io::Result<()> {
            Ok(())
        }
    }
    let pager = Arc::new(Pager::new(&config, Stops(Arc::clone(&gate))).unwrap());
    let readers = pager.start_readers(1).unwrap();
    assert_eq!(pager.prefetch([0]), 1);
    gate.wait_for(1);
    assert_eq!(pager.prefetch(1..10_000), 4096);
    assert_eq!(pager.prefetch([20_000]), 0);
    // They need not be read before the threads end.
    gate.open();
    drop(readers);
    assert!(pager.stats().totals.faults <= 4097);
}

/// A device that reads rows, and writes them down.
#[derive(Default)]
struct Rows {
    device: Device,
    rows: Mutex<Vec<(u64, usize)>>,
    fails: AtomicBool,
    work: Mutex<Option<Box<dyn Fn() + Send>>>,
}

impl PageIo for Rows {
    fn read_page(&self, page: u64, image: &mut [u8]) -> Result<(), ReadFault> {
        self.device.read_page(page, image)
    }

    fn write_page(&self, page: u64, image: &mut [u8], lsn: u64) -> io::Result<()> {
        self.device.write_page(page, image, lsn)
    }

    fn most_pages(&self) -> usize {
        6
    }

    fn read_pages(&self, first: u64, count: usize, images: &mut [u8]) -> Result<(), ReadFault> {
        assert_eq!(images.len(), count * SIZE);
        self.rows.lock().unwrap().push((first, count));
        if let Some(work) = &*self.work.lock().unwrap() {
            work();
        }
        if self.fails.load(Ordering::Relaxed) {
            return Err(fault());
        }
        let pages = self.device.pages.lock().unwrap();
        for (at, image) in images.chunks_mut(SIZE).enumerate() {
            image.copy_from_slice(&pages[first as usize + at]);
        }
        Ok(())
    }

    fn make_log_durable(&self, lsn: u64) -> Result<(), LogFault> {
        self.device.make_log_durable(lsn)
    }

    fn sync(&self) -> io::Result<()> {
        self.device.sync()
    }
}

/// A pager of three parts over such a device, whose pages have their numbers.
fn pager_of_rows(frames: usize) -> Arc<Pager<Rows>> {
    let config = config(frames).with_parts(3);
    let rows = Rows::default();
    for (number, page) in rows.device.pages.lock().unwrap().iter_mut().enumerate() {
        page.fill(number as u8);
    }
    Arc::new(Pager::new(&config, rows).unwrap())
}

// Pages side by side are read by one call, up to six, but for those that are here.
#[test]
fn rows_of_pages() {
    let pager = pager_of_rows(24);
    drop(pager.read(12).unwrap());
    let readers = pager.start_readers(1).unwrap();
    assert_eq!(pager.prefetch((1..11).chain([12, 13, 15])), 12);
    wait_for(&pager, (1..11).chain([13, 15]));
    drop(readers);
    assert_eq!(*pager.io().rows.lock().unwrap(), [(1, 6), (7, 4)]);
    let asked = [12, 13, 15].map(Asked::Read);
    assert_eq!(pager.io().device.asked(), asked);
    for page in 1..11 {
        assert_eq!(*pager.read(page).unwrap(), [page as u8; SIZE]);
    }
    assert_eq!(pager.stats().totals.faults, 13);
}

// Two frames are free, and the pages of the others are unsaved. So two pages are read before any is
// written out, whenever those are old enough to make way: also where that is as the third is asked for.
#[test]
fn row_that_is_begun_writes_nothing() {
    for correlated in 0..4 {
        let config = config(4).with_correlated(correlated);
        let pager = Arc::new(Pager::new(&config, Rows::default()).unwrap());
        for page in [0, 1] {
            pager.write(page).unwrap().put(0, &[9], 0).unwrap();
        }
        let writer = Arc::downgrade(&pager);
        pager.io().device.within(move |asked| {
            if let (Asked::Write(..), Some(pager)) = (asked, writer.upgrade()) {
                assert!(!pager.io().rows.lock().unwrap().is_empty());
            }
        });
        let readers = pager.start_readers(1).unwrap();
        assert_eq!(pager.prefetch(4..8), 4);
        wait_for(&pager, [4, 5]);
        drop(readers);
        assert_eq!(pager.io().rows.lock().unwrap()[0], (4, 2));
    }
}

// A row that fails, or panics, is no harm: its pages are read one by one when they are asked for. The
// thread goes on.
#[test]
fn row_that_fails() {
    let pager = pager_of_rows(24);
    let _readers = pager.start_readers(1).unwrap();
    pager.io().fails.store(true, Ordering::Relaxed);
    pager.prefetch(1..5);
    wait_until(|| pager.stats().totals.failed == 4);
    pager.io().fails.store(false, Ordering::Relaxed);
    *pager.io().work.lock().unwrap() = Some(Box::new(|| {
        std::panic::resume_unwind(Box::new("the engine's own code"))
    }));
    pager.prefetch(1..5);
    wait_until(|| pager.stats().totals.failed == 8);
    assert_eq!(
        (pager.stats().resident, pager.io().device.asked().len()),
        (0, 0)
    );
    pager.io().work.clear_poison();
    *pager.io().work.lock().unwrap() = None;
    assert_eq!(pager.read(2).unwrap()[0], 2);
    pager.prefetch(1..5);
    wait_for(&pager, 1..5);
}

// The function of the engine wants a page of its own row, and is refused.
#[test]
fn row_that_calls_the_pager() {
    let _watch = Watch::over("row_that_calls_the_pager", 60);
    let pager = pager_of_rows(24);
    let readers = pager.start_readers(1).unwrap();
    let (weak, refused) = (Arc::downgrade(&pager), Arc::new(AtomicU64::new(0)));
    let count = Arc::clone(&refused);
    let work = move || {
        let pager = weak.upgrade().unwrap();
        for page in 1..5 {
            let told = pager.read(page).unwrap_err();
            count.fetch_add(u64::from(told.refusal() == Error::Busy), Ordering::Relaxed);
        }
        assert_eq!(pager.read(9).unwrap()[0], 9);
    };
    *pager.io().work.lock().unwrap() = Some(Box::new(work));
    pager.prefetch(1..5);
    wait_for(&pager, 1..5);
    drop(readers);
    assert_eq!(refused.load(Ordering::Relaxed), 4);
}

// A read that fails tells nobody. Who asks for the page gets the fault of a read of its own.
#[test]
fn read_that_fails() {
    let pager = shared(4);
    let _readers = pager.start_readers(1).unwrap();
    for fate in [Fate::Fails, Fate::FindsAnother, Fate::Panics] {
        let before = pager.stats().totals.failed;
        pager.io().is_next(fate);
        pager.prefetch([3]);
        wait_until(|| pager.stats().totals.failed > before);
        assert!(!pager.is_resident(3));
    }
    pager.io().is_next(Fate::Fails);
    assert_eq!(pager.read(3).unwrap_err().refusal(), Error::ReadFailed);
    assert_eq!(pager.read(3).unwrap()[0], 0);
}

// An unsaved page is written out to make way; but where its record is not durable the page is not read
// ahead, and the log is not asked for. Nor is it read where all pages are pinned.
#[test]
fn page_that_has_to_make_way() {
    let pager = shared(1);
    let _readers = pager.start_readers(1).unwrap();
    put(&pager, 1, 7, 0);
    pager.prefetch([2]);
    wait_for(&pager, [2]);
    let asked = [Asked::Read(1), Asked::Write(1, 7, 0), Asked::Read(2)];
    assert_eq!(pager.io().asked(), asked);
    put(&pager, 2, 8, 5);
    let refused = pager.stats().totals.refused;
    pager.prefetch([3]);
    wait_until(|| pager.stats().totals.refused > refused);
    let pin = pager.pin(2).unwrap();
    let refused = pager.stats().totals.refused;
    pager.prefetch([3]);
    wait_until(|| pager.stats().totals.refused > refused);
    assert_eq!(pager.io().asked(), []);
    drop(pin);
    pager.mark(5);
    drop(pager.read(3).unwrap());
    let asked = [Asked::Write(2, 8, 5), Asked::Read(3)];
    assert_eq!(pager.io().asked(), asked);
}

/// In four frames: page 1 by `ahead` and then a look at it, page 2 twice, and pages 3 and 4 once. It
/// returns which of 1 and 3 makes way for page 5.
fn who_makes_way(correlated: u64, ahead: impl Fn(&Shared)) -> u64 {
    let config = config(4).with_correlated(correlated);
    let pager = Arc::new(Pager::new(&config, Device::default()).unwrap());
    let _readers = pager.start_readers(1).unwrap();
    ahead(&pager);
    wait_for(&pager, [1]);
    for page in [1, 2, 3, 2, 4, 5] {
        drop(pager.read(page).unwrap());
    }
    assert!(pager.is_resident(2) && pager.is_resident(4));
    match (pager.is_resident(1), pager.is_resident(3)) {
        (false, true) => 1,
        (true, false) => 3,
        other => panic!("{other:?}"),
    }
}

// A page that was read ahead and used once came once, as one that was not read ahead. One that was
// pinned to have it read came twice, without a period.
#[test]
fn first_use_is_no_second_reference() {
    for period in [0, 1] {
        assert_eq!(
            who_makes_way(period, |pager| assert_eq!(pager.prefetch([1]), 1)),
            1
        );
    }
    assert_eq!(who_makes_way(0, |pager| drop(pager.pin(1).unwrap())), 3);
}

// With more frames than are wanted, a page that was read ahead waits for its use while others come. When
// its frame is wanted, it makes way though nobody used it.
#[test]
fn page_that_nobody_uses() {
    let pager = shared(4);
    let _readers = pager.start_readers(1).unwrap();
    pager.prefetch([1]);
    wait_for(&pager, [1]);
    for page in 2..5 {
        drop(pager.read(page).unwrap());
    }
    assert!(pager.is_resident(1));
    for page in 5..9 {
        drop(pager.read(page).unwrap());
    }
    assert!(!pager.is_resident(1));
    assert_eq!((pager.stats().pinned, pager.stats().resident), (0, 4));
}

// All frames have pages that were read ahead. Others get them at once.
#[test]
fn frames_full_of_pages_ahead() {
    let pager = shared(4);
    let _readers = pager.start_readers(2).unwrap();
    pager.prefetch(0..4);
    wait_for(&pager, 0..4);
    let pins: Vec<_> = (8..12).map(|page| pager.try_pin(page).unwrap()).collect();
    assert_eq!(pager.stats().pinned, 4);
    drop(pins);
}

#[test]
fn readers_end() {
    let pager = shared(4);
    let first = pager.start_readers(3).unwrap();
    let second = pager.start_readers(2).unwrap();
    assert_eq!(format!("{first:?}"), "Readers { threads: 3, .. }");
    drop(first);
    pager.prefetch([1, 2]);
    wait_for(&pager, [1, 2]);
    drop(second);
    assert_eq!(Arc::strong_count(&pager), 1);
    drop(pager.start_readers(0).unwrap());
}

// The device drops the threads that read in one of them, as where it has the last share of an engine. The drop waits
// for the other one, and the page is read. Then that thread ends too.
#[test]
fn readers_dropped_in_their_own_thread() {
    let _watch = Watch::over("readers_dropped_in_their_own_thread", 60);
    let pager = shared(4);
    let kept = Arc::new(Mutex::new(Some(pager.start_readers(2).unwrap())));
    let (owner, has_dropped) = (Arc::clone(&kept), Arc::new(AtomicBool::new(false)));
    let dropped = Arc::clone(&has_dropped);
    pager.io().within(move |_| {
        drop(owner.lock().unwrap().take());
        dropped.store(true, Ordering::SeqCst);
    });
    pager.prefetch([3]);
    wait_for(&pager, [3]);
    assert!(has_dropped.load(Ordering::SeqCst));
    assert!(kept.lock().unwrap().is_none());
    wait_until(|| Arc::strong_count(&pager) == 1);
    assert_eq!(pager.io().asked(), [Asked::Read(3)]);
}

// While some threads end, what is asked for is read by others: also where one that ends was woken for it.
#[test]
fn pages_are_read_while_others_end() {
    let _watch = Watch::over("pages_are_read_while_others_end", 60);
    let pager = shared(8);
    let stay = pager.start_readers(1).unwrap();
    for _ in 0..300 {
        let others = pager.start_readers(2).unwrap();
        thread::scope(|threads| {
            threads.spawn(|| assert_eq!(pager.prefetch([3, 5]), 2));
            drop(others);
        });
        wait_for(&pager, [3, 5]);
        pager.discard(3).unwrap();
        pager.discard(5).unwrap();
    }
    drop(stay);
}

/// Scans again and again, with pages read ahead, and takes a checkpoint after each. The bytes of a page
/// are all the same.
fn scan_until(pager: &Pager<Rows>, is_over: &AtomicBool) {
    while !is_over.load(Ordering::Relaxed) {
        for page in 0..PAGES {
            if page % 4 == 0 {
                pager.prefetch(page + 2..page + 6);
            }
            let page = pager.read(page).unwrap();
            assert!(page.iter().all(|byte| *byte == page[0]));
        }
        pager.checkpoint().unwrap();
    }
}

// Threads scan, with pages read ahead, beside threads that write and checkpoints, in few frames. Each
// page that is found has what was written there last, and no count is lost.
#[test]
fn scans_beside_writers() {
    let _watch = Watch::over("scans_beside_writers", 300);
    for (correlated, frames) in [(0, 9), (1, 9), (3, 12)] {
        let config = config(frames).with_correlated(correlated);
        let rows = Rows::default();
        let pager = &Arc::new(Pager::new(&config, rows).unwrap());
        let readers = pager.start_readers(3).unwrap();
        let (added, is_over) = (&AtomicU64::new(0), &AtomicBool::new(false));
        thread::scope(|threads| {
            let write = move |thread: u64| {
                for turn in 0..500 {
                    let mut page = pager.write((turn * 7 + thread * 3) % PAGES).unwrap();
                    let count = page.bytes()[0].wrapping_add(1);
                    page.edit(.., 0, |bytes| bytes.fill(count)).unwrap();
                    added.fetch_add(1, Ordering::Relaxed);
                }
            };
            let scan = move || scan_until(pager, is_over);
            threads.spawn(scan);
            threads.spawn(scan);
            let writers = (0..3).map(|thread| threads.spawn(move || write(thread)));
            let writers: Vec<_> = writers.collect();
            writers.into_iter().for_each(|it| it.join().unwrap());
            is_over.store(true, Ordering::Relaxed);
        });
        drop(readers);
        assert_eq!(pager.stats().pinned, 0);
        let sum = (0..PAGES).fold(0u8, |sum, page| {
            sum.wrapping_add(pager.read(page).unwrap()[0])
        });
        assert_eq!(sum, added.load(Ordering::Relaxed) as u8);
    }
}
