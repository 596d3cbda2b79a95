//! Latches: who waits for whom, and that a page under one stays as it is.
use crate::device::{Asked, Device, PAGES, SIZE, Watch, config, pager, put};
use hojzmated::Pager;
use std::panic::{AssertUnwindSafe, catch_unwind, resume_unwind};
use std::sync::Barrier;
use std::sync::atomic::{AtomicBool, AtomicUsize, Ordering};
use std::thread;
use std::time::Duration;

/// Long enough that a thread which could go on has done so.
const A_WHILE: Duration = Duration::from_millis(50);

#[test]
fn two_readers_at_once() {
    let pager = pager(2);
    let both = Barrier::new(2);
    thread::scope(|threads| {
        for _ in 0..2 {
            threads.spawn(|| {
                let page = pager.read(3).unwrap();
                both.wait();
                assert_eq!(page[0], 0);
            });
        }
    });
    assert_eq!(pager.io().asked(), [Asked::Read(3)]);
}

#[test]
fn writer_waits_for_readers() {
    let pager = pager(2);
    let looks = [pager.read(3).unwrap(), pager.read(3).unwrap()];
    thread::scope(|threads| {
        let writer = threads.spawn(|| put(&pager, 3, 7, 1));
        for look in looks {
            thread::sleep(A_WHILE);
            assert!(!writer.is_finished());
            assert_eq!(*look, [0; SIZE]);
        }
    });
    assert_eq!(pager.read(3).unwrap()[0], 7);
}

#[test]
fn readers_wait_for_a_writer() {
    let pager = pager(2);
    let mut page = pager.write(3).unwrap();
    thread::scope(|threads| {
        let readers = [0; 2].map(|_| threads.spawn(|| pager.read(3).unwrap()[SIZE - 1]));
        page.put(0, &[7; 8], 1).unwrap();
        thread::sleep(A_WHILE);
        assert!(readers.iter().all(|it| !it.is_finished()));
        page.put(8, &[7; 8], 2).unwrap();
        drop(page);
        assert_eq!(readers.map(|it| it.join().unwrap()), [7; 2]);
    });
}

// Where it gives none it leaves no pin. Other pages can be had.
#[test]
fn latch_that_cannot_be_had_at_once() {
    let pager = pager(3);
    let look = pager.read(3).unwrap();
    assert!(pager.try_write(3).unwrap().is_none());
    assert!(pager.try_read(3).unwrap().is_some());
    let pin = pager.pin(3).unwrap();
    assert!(pin.try_write().is_none() && pin.try_read().is_some());
    drop(look);
    let page = pager.try_write(3).unwrap().unwrap();
    assert!(pager.try_write(3).unwrap().is_none());
    assert!(pager.try_read(3).unwrap().is_none());
    assert!(pin.try_write().is_none() && pin.try_read().is_none());
    assert!(pager.try_write(4).unwrap().is_some());
    drop((page, pin));
    assert_eq!(pager.stats().pinned, 0);
    assert!(pager.try_write(3).unwrap().is_some());
}

// What was put so far stays, whether the panic is caught or ends its thread. No pin is left.
#[test]
fn panic_frees_the_latch() {
    let pager = pager(2);
    let breaks_off = |byte| {
        let mut page = pager.write(3).unwrap();
        page.put(0, &[byte], 1).unwrap();
        resume_unwind(Box::new("the engine's own code"));
    };
    assert!(catch_unwind(AssertUnwindSafe(|| breaks_off(7))).is_err());
    assert_eq!(pager.read(3).unwrap()[0], 7);
    thread::scope(|threads| {
        assert!(threads.spawn(|| breaks_off(8)).join().is_err());
    });
    assert_eq!(pager.try_read(3).unwrap().unwrap()[0], 8);
    let pin = pager.pin(3).unwrap();
    let by_a_pin = catch_unwind(AssertUnwindSafe(|| {
        let _page = pin.write();
        resume_unwind(Box::new("the engine's own code"));
    }));
    assert!(by_a_pin.is_err());
    pin.try_write().unwrap().put(0, &[9], 2).unwrap();
    drop(pin);
    assert_eq!(pager.stats().pinned, 0);
    pager.flush(3).unwrap();
    assert_eq!(pager.io().pages.lock().unwrap()[3][0], 9);
}

// Four threads write to all other pages in the two frames that are left.
#[test]
fn page_stays_under_a_look() {
    let pager = pager(3);
    pager.write(0).unwrap().put(0, &[7; SIZE], 1).unwrap();
    let page = pager.read(0).unwrap();
    let first = page.as_ptr();
    let working = AtomicUsize::new(4);
    let work = |thread: u64| {
        for turn in 0..400 {
            put(&pager, 1 + (turn * 7 + thread) % (PAGES - 1), 1, 0);
        }
        working.fetch_sub(1, Ordering::Release);
    };
    thread::scope(|threads| {
        for thread in 0..4 {
            let work = &work;
            threads.spawn(move || work(thread));
        }
        while working.load(Ordering::Acquire) > 0 {
            assert_eq!((&*page, page.as_ptr()), (&[7; SIZE][..], first));
            assert!(pager.is_resident(0));
        }
    });
    assert!(pager.stats().totals.evictions > 100);
    let asked = pager.io().asked();
    let reads = asked.iter().filter(|it| **it == Asked::Read(0));
    assert_eq!(reads.count(), 1);
}

// Each thread moves one from a page to a greater one, whose latches it takes in this order. The sum
// stays, and nobody waits for ever.
#[test]
fn latches_in_one_order() {
    let _watch = Watch::over("latches_in_one_order", 600);
    let config = config(8).with_parts(2);
    let pager = Pager::new(&config, Device::default()).unwrap();
    thread::scope(|threads| {
        for thread in 0..3 {
            let pager = &pager;
            threads.spawn(move || {
                for turn in 0..500 {
                    let from = (turn * 5 + thread) % (PAGES - 1);
                    let mut one = pager.write(from).unwrap();
                    let mut other = pager.write(from + 1 + turn % (PAGES - 1 - from)).unwrap();
                    let (less, more) = (
                        one.bytes()[0].wrapping_sub(1),
                        other.bytes()[0].wrapping_add(1),
                    );
                    one.put(0, &[less], 0).unwrap();
                    other.put(0, &[more], 0).unwrap();
                }
            });
        }
    });
    pager.checkpoint().unwrap();
    let device = pager.into_io();
    let sum = device
        .pages
        .lock()
        .unwrap()
        .iter()
        .fold(0u8, |sum, page| sum.wrapping_add(page[0]));
    assert_eq!(sum, 0);
}

// Bytes of another page are written into a page, and those of a part of it.
#[test]
fn from_one_page_to_another() {
    let pager = pager(2);
    pager.write(1).unwrap().put(0, b"from page 1", 1).unwrap();
    let from = pager.read(1).unwrap();
    let mut to = pager.write(2).unwrap();
    to.put(0, &from, 2).unwrap();
    assert_eq!(to.bytes(), &*from);
    to.put(2, &from[5..11], 3).unwrap();
    assert_eq!(to.bytes()[..11], *b"frpage 1e 1");
}

// Three threads write to one page all the time. A flush of it, and a checkpoint, come to an end.
#[test]
fn flush_beside_writers_that_never_rest() {
    let _watch = Watch::over("flush_beside_writers_that_never_rest", 600);
    let pager = pager(4);
    let has_ended = AtomicBool::new(false);
    thread::scope(|threads| {
        for _ in 0..3 {
            threads.spawn(|| {
                while !has_ended.load(Ordering::Acquire) {
                    put(&pager, 3, 7, 0);
                }
            });
        }
        for _ in 0..20 {
            put(&pager, 3, 7, 0);
            pager.flush(3).unwrap();
            pager.checkpoint().unwrap();
        }
        has_ended.store(true, Ordering::Release);
    });
}
