//! Pages that are dropped unwritten.
use crate::device::{Asked, Device, PAGES, SIZE, Watch, config, pager, put};
use hojzmated::{Error, Pager, PagerError};
use std::sync::atomic::{AtomicBool, Ordering};
use std::sync::mpsc::channel;
use std::thread;
use std::time::{Duration, Instant};

fn refusal<T: std::fmt::Debug>(result: Result<T, PagerError>) -> Error {
    match result {
        Err(PagerError::Refused(error)) => error,
        other => panic!("{other:?}"),
    }
}

fn with_period(frames: usize, correlated: u64) -> Pager<Device> {
    let config = config(frames).with_correlated(correlated);
    Pager::new(&config, Device::default()).unwrap()
}

// What was put into a page that is discarded goes nowhere, and holds the log no longer.
#[test]
fn nothing_goes_out() {
    for correlated in [0, 4] {
        let pager = with_period(3, correlated);
        put(&pager, 1, 9, 5);
        put(&pager, 1, 9, 6);
        put(&pager, 2, 8, 7);
        assert_eq!(pager.redo_from(), Some(5));
        pager.io().asked();
        assert!(pager.discard(1).unwrap());
        assert!(!pager.is_resident(1));
        assert_eq!(pager.redo_from(), Some(7));
        let stats = pager.stats();
        assert_eq!((stats.resident, stats.unsaved, stats.pinned), (1, 1, 0));
        assert_eq!((stats.totals.discards, stats.totals.evictions), (1, 0));
        assert_eq!(pager.checkpoint().unwrap(), None);
        let asked = [Asked::Log(7), Asked::Write(2, 8, 7), Asked::Sync];
        assert_eq!(pager.io().asked(), asked);
        // The device has what it had, and gives it back.
        assert_eq!(*pager.read(1).unwrap(), [0; SIZE]);
        assert!(!pager.discard(3).unwrap());
        assert_eq!(pager.stats().totals.discards, 1);
    }
}

// A write without a record hides the others: the least LSN is then looked for page by page.
#[test]
fn record_of_a_discarded_page_is_not_asked_for() {
    let pager = pager(3);
    put(&pager, 0, 1, 0);
    put(&pager, 1, 9, 5);
    assert_eq!(pager.redo_from(), Some(5));
    pager.discard(1).unwrap();
    assert_eq!(pager.redo_from(), None);
    put(&pager, 2, 9, 8);
    assert_eq!(pager.redo_from(), Some(8));
}

// A new page in the place of a discarded one has zeros, and the frame is free: no page leaves for it.
#[test]
fn page_is_used_again() {
    let pager = with_period(2, 1);
    pager.io().pages.lock().unwrap()[1] = [3; SIZE];
    put(&pager, 1, 9, 5);
    put(&pager, 0, 1, 6);
    pager.discard(1).unwrap();
    pager.io().asked();
    let new = pager.new_page(1).unwrap();
    assert_eq!(*new.bytes(), [0; SIZE]);
    drop(new);
    assert_eq!((pager.io().asked(), pager.is_resident(0)), (vec![], true));
}

// The references of a discarded page are forgotten: it has come once when it comes again, and leaves
// before a page that came twice.
#[test]
fn references_are_forgotten() {
    let come_twice = |pager: &Pager<Device>, page| {
        for other in [page, 9, 10, 11, page, 9, 10, 11] {
            drop(pager.read(other).unwrap());
        }
    };
    for is_discarded in [false, true] {
        let pager = with_period(5, 1);
        come_twice(&pager, 1);
        if is_discarded {
            pager.discard(1).unwrap();
        }
        drop(pager.read(1).unwrap());
        for other in [9, 10, 11, 9, 10, 11, 12, 13, 14] {
            drop(pager.read(other).unwrap());
        }
        assert_eq!(pager.is_resident(1), !is_discarded);
    }
}

// Whatever guard of the page is there, it stays; and it goes once the guard is dropped.
#[test]
fn page_in_use_is_refused() {
    let config = config(4).with_pin_wait(Duration::from_millis(20));
    for correlated in [0, 4] {
        let config = config.clone().with_correlated(correlated);
        let pager = Pager::new(&config, Device::default()).unwrap();
        put(&pager, 1, 9, 5);
        let guard = pager.read(1).unwrap();
        assert_eq!(refusal(pager.discard(1)), Error::PagePinned);
        drop(guard);
        let guard = pager.pin(1).unwrap();
        assert_eq!(refusal(pager.discard(1)), Error::PagePinned);
        drop(guard);
        let mut guard = pager.write(1).unwrap();
        assert_eq!(refusal(pager.discard(1)), Error::PagePinned);
        guard.put(1, &[9], 6).unwrap();
        drop(guard);
        assert_eq!((pager.redo_from(), pager.stats().unsaved), (Some(5), 1));
        assert!(pager.discard(1).unwrap());
        assert_eq!((pager.redo_from(), pager.stats().unsaved), (None, 0));
    }
}

// It waits for another thread's guard, and goes on soon after that is dropped.
#[test]
fn waits_for_a_guard() {
    let _watch = Watch::over("waits_for_a_guard", 60);
    for correlated in [0, 4] {
        let pager = with_period(4, correlated);
        let guard = pager.pin(1).unwrap();
        let is_over = AtomicBool::new(false);
        thread::scope(|threads| {
            threads.spawn(|| {
                assert!(pager.discard(1).unwrap());
                is_over.store(true, Ordering::SeqCst);
            });
            thread::sleep(Duration::from_millis(50));
            assert!(!is_over.load(Ordering::SeqCst));
            drop(guard);
            let began = Instant::now();
            while !is_over.load(Ordering::SeqCst) {
                thread::yield_now();
            }
            assert!(began.elapsed() < Duration::from_secs(5));
        });
    }
}

// A frame comes free while threads wait to discard another page: it is told to the thread that waits for
// a frame, and not to one of them in its place.
#[test]
fn does_not_keep_a_frame_from_who_waits() {
    let _watch = Watch::over("does_not_keep_a_frame_from_who_waits", 120);
    let pager = pager(2);
    for round in 0..20 {
        let (kept, lent) = (pager.pin(0).unwrap(), pager.pin(1).unwrap());
        thread::scope(|threads| {
            for _ in 0..8 {
                threads.spawn(|| pager.discard(0).unwrap());
            }
            thread::sleep(Duration::from_millis(10));
            let waits = threads.spawn(|| {
                let began = Instant::now();
                drop(pager.read(2).unwrap());
                began.elapsed()
            });
            thread::sleep(Duration::from_micros(100 * round));
            drop(lent);
            let waited = waits.join();
            drop(kept);
            assert!(waited.unwrap() < Duration::from_secs(8), "round {round}");
        });
    }
}

// While a page is written out or read it waits for that.
#[test]
fn waits_for_device_work() {
    let _watch = Watch::over("waits_for_device_work", 60);
    let pager = pager(4);
    put(&pager, 1, 9, 0);
    let (begun, begins) = channel();
    pager.io().within(move |asked| {
        begun.send(asked).unwrap();
        thread::sleep(Duration::from_millis(60));
    });
    thread::scope(|threads| {
        threads.spawn(|| pager.flush(1).unwrap());
        assert_eq!(begins.recv(), Ok(Asked::Write(1, 9, 0)));
        assert!(pager.discard(1).unwrap());
        assert_eq!(pager.io().pages.lock().unwrap()[1][0], 9);
    });
    let is_read = thread::scope(|threads| {
        threads.spawn(|| drop(pager.read(2).unwrap()));
        assert_eq!(begins.recv(), Ok(Asked::Read(2)));
        pager.discard(2).unwrap()
    });
    assert!(is_read);
    assert_eq!(pager.stats().resident, 0);
}

#[test]
fn range_of_pages() {
    let config = config(6)
        .with_pin_wait(Duration::from_millis(20))
        .with_correlated(2);
    let pager = Pager::new(&config, Device::default()).unwrap();
    for page in 0..6 {
        put(&pager, page, 9, page + 1);
    }
    assert_eq!(pager.discard_from(2, 8).unwrap(), 4);
    assert_eq!(pager.redo_from(), Some(1));
    assert_eq!(pager.stats().resident, 2);
    let no_such = |page| Error::NoSuchPage { page };
    let told = refusal(pager.discard_from(0, PAGES + 1));
    assert_eq!(told, no_such(PAGES));
    let told = refusal(pager.discard_from(1, u64::MAX));
    assert_eq!(told, no_such(PAGES));
    let told = refusal(pager.discard_from(PAGES + 3, 1));
    assert_eq!(told, no_such(PAGES + 3));
    assert_eq!(refusal(pager.discard(PAGES)), no_such(PAGES));
    assert_eq!(pager.discard_from(PAGES, 0).unwrap(), 0);
    assert_eq!(pager.stats().resident, 2);
    let guard = pager.pin(1).unwrap();
    match pager.discard_from(0, 3) {
        Err(PagerError::RefusedPage { page: 1, error }) => assert_eq!(error, Error::PagePinned),
        other => panic!("{other:?}"),
    }
    drop(guard);
    assert_eq!((pager.is_resident(0), pager.is_resident(1)), (false, true));
}

// Seats of discarded pages serve others, again and again, and no pass is lost or counted twice.
#[test]
fn seats_are_used_again() {
    let pager = with_period(4, 3);
    for turn in 0..2_000 {
        let page = turn * 5 % PAGES;
        drop(pager.read(page).unwrap());
        drop(pager.read(page).unwrap());
        if turn % 3 == 0 {
            assert!(pager.discard(page).unwrap());
        }
        let stats = pager.stats();
        assert!(stats.pinned == 0 && stats.resident <= 4);
    }
    // All frames still serve.
    let guards: Vec<_> = (0..4).map(|page| pager.read(page).unwrap()).collect();
    assert_eq!(pager.stats().pinned, guards.len());
}

// Threads put counters into pages of their own, which others evict, and drop them: what was put since
// the last drop is there, and nothing else.
#[test]
fn many_threads() {
    let _watch = Watch::over("discards of many threads", 300);
    for correlated in [0, 2] {
        let pager = with_period(4, correlated);
        let work = |thread: u64| {
            let own = [2 * thread, 2 * thread + 1];
            let mut counts = [0u8; 2];
            for turn in 0..3_000u64 {
                let which = (turn.wrapping_mul(0x9e37_79b9) >> 7) as usize % 2;
                if turn % 7 == 0 {
                    pager.discard(own[which]).unwrap();
                    pager
                        .new_page(own[which])
                        .unwrap()
                        .put(0, &[0; SIZE], 0)
                        .unwrap();
                    counts[which] = 0;
                } else {
                    let mut page = pager.write(own[which]).unwrap();
                    assert_eq!(page.bytes()[0], counts[which]);
                    counts[which] = counts[which].wrapping_add(1);
                    page.put(0, &[counts[which]], 0).unwrap();
                }
            }
        };
        thread::scope(|threads| {
            let work = &work;
            (0..6).for_each(|thread| drop(threads.spawn(move || work(thread))));
        });
        assert_eq!(pager.stats().pinned, 0);
    }
}
