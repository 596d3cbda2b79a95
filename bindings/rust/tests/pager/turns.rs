//! Who gets a latch, a frame or the log next: nobody waits without end, and a wake-up goes to who
//! waits for it.
use crate::device::{Asked, Device, Watch, config, pager, put};
use hojzmated::Pager;
use std::sync::atomic::{AtomicBool, AtomicU64, Ordering};
use std::sync::{Barrier, Mutex};
use std::thread;
use std::time::Duration;

/// Long enough that a thread which could go on has done so, and else waits.
const A_WHILE: Duration = Duration::from_millis(50);

/// Has two threads write to page 3, each of which has it for a millisecond, in turn, and looks of
/// two others at it, as long as the work lasts.
fn beside_writers(pager: &Pager<Device>, looks: &AtomicU64, work: impl FnOnce()) {
    let has_ended = AtomicBool::new(false);
    let goes_on = || !has_ended.load(Ordering::Acquire);
    thread::scope(|threads| {
        for _ in 0..2 {
            threads.spawn(|| {
                while goes_on() {
                    let mut page = pager.write(3).unwrap();
                    page.put(0, &[7], 0).unwrap();
                    thread::sleep(Duration::from_millis(1));
                }
            });
            threads.spawn(|| {
                while goes_on() {
                    drop(pager.read(3).unwrap());
                    looks.fetch_add(1, Ordering::Relaxed);
                }
            });
        }
        work();
        has_ended.store(true, Ordering::Release);
    });
}

#[test]
fn looks_beside_two_writers() {
    let _watch = Watch::over("looks_beside_two_writers", 60);
    let (pager, looks) = (pager(4), AtomicU64::new(0));
    beside_writers(&pager, &looks, || {
        while looks.load(Ordering::Relaxed) < 50 {
            thread::yield_now();
        }
    });
}

#[test]
fn checkpoints_beside_two_writers_and_two_readers() {
    let _watch = Watch::over("checkpoints_beside_two_writers_and_two_readers", 60);
    let (pager, looks) = (pager(4), AtomicU64::new(0));
    beside_writers(&pager, &looks, || {
        for _ in 0..50 {
            put(&pager, 3, 7, 0);
            pager.checkpoint().unwrap();
            pager.flush(3).unwrap();
        }
    });
}

/// Waits until so many threads waited for a latch, a frame or the device.
fn wait_for(pager: &Pager<Device>, waits: u64) {
    while pager.stats().waits < waits {
        thread::yield_now();
    }
}

// A reader that waits for a writer gets in after that one, before a writer that came earlier; one that
// waits since a writer waits gets in after that. Readers that wait get in together.
#[test]
fn order_of_readers_and_writers() {
    let _watch = Watch::over("order_of_readers_and_writers", 120);
    for _ in 0..20 {
        let (pager, order) = (pager(2), Mutex::new(Vec::new()));
        let note = |who: &'static str| order.lock().unwrap().push(who);
        let both = Barrier::new(2);
        let first = pager.write(3).unwrap();
        thread::scope(|threads| {
            for (waits, who) in [(1, "second writer"), (2, "third writer")] {
                let (pager, note) = (&pager, &note);
                threads.spawn(move || {
                    let _page = pager.write(3).unwrap();
                    note(who);
                });
                wait_for(pager, waits);
            }
            threads.spawn(|| {
                let _page = pager.read(3).unwrap();
                note("reader");
                both.wait();
                threads.spawn(|| {
                    let _page = pager.read(3).unwrap();
                    note("late reader");
                });
                // While writers wait no other reader gets in.
                wait_for(&pager, 5);
                assert!(pager.try_read(3).unwrap().is_none());
            });
            threads.spawn(|| {
                let _page = pager.read(3).unwrap();
                both.wait();
            });
            wait_for(&pager, 4);
            assert!(order.lock().unwrap().is_empty());
            drop(first);
        });
        let order = order.into_inner().unwrap();
        let wanted = ["reader", "second writer", "late reader", "third writer"];
        assert_eq!(order, wanted);
        assert_eq!(pager.stats().pinned, 0);
        assert!(pager.try_write(3).unwrap().is_some());
    }
}

// Where a writer alone waits, the latch is not kept for it while it is woken: a thread that has let it
// go may take it again. Else each turn at a page that many write took as long as that.
#[test]
fn latch_while_a_writer_is_woken() {
    let _watch = Watch::over("latch_while_a_writer_is_woken", 120);
    let (pager, mut waits) = (pager(2), 0);
    let mut is_free = false;
    while !is_free {
        let first = pager.write(3).unwrap();
        thread::scope(|threads| {
            let second = threads.spawn(|| put(&pager, 3, 7, 0));
            waits += 1;
            wait_for(&pager, waits);
            drop(first);
            let again = pager.try_write(3).unwrap();
            // And not since the other has written already.
            is_free = again.is_some_and(|page| page.bytes()[0] == 0);
            second.join().unwrap();
        });
        put(&pager, 3, 0, 0);
        waits = pager.stats().waits;
    }
    assert_eq!(pager.stats().pinned, 0);
}

// A flush waits for the writer of its page, as a reader does: its image has nothing of a second writer
// that came earlier.
#[test]
fn flush_has_a_place_among_readers() {
    for _ in 0..20 {
        let pager = pager(2);
        let mut first = pager.write(3).unwrap();
        first.put(0, &[7], 0).unwrap();
        thread::scope(|threads| {
            threads.spawn(|| put(&pager, 3, 8, 0));
            wait_for(&pager, 1);
            threads.spawn(|| pager.flush(3).unwrap());
            wait_for(&pager, 2);
            drop(first);
        });
        let asked = [Asked::Read(3), Asked::Write(3, 7, 0)];
        assert_eq!(pager.io().asked(), asked);
        assert_eq!(pager.stats().unsaved, 1);
    }
}

// Other pages of the part are used meanwhile, which wakes nobody.
#[test]
fn flush_that_waits_is_not_woken_for_others() {
    let pager = pager(4);
    let mut page = pager.write(3).unwrap();
    page.put(0, &[7], 0).unwrap();
    thread::scope(|threads| {
        threads.spawn(|| pager.flush(3).unwrap());
        wait_for(&pager, 1);
        for turn in 0..2_000 {
            drop(pager.read(turn % 3).unwrap());
            if turn % 100 == 0 {
                thread::sleep(Duration::from_millis(1));
            }
        }
        assert_eq!(pager.stats().waits, 1);
        drop(page);
    });
    assert_eq!(pager.stats().unsaved, 0);
}

// Six threads wait for a frame. When one of two pages is unpinned one of them gets it, and no more
// than one other is woken.
#[test]
fn unpinned_page_wakes_one_thread() {
    let pager = pager(2);
    let (first, second) = (pager.pin(0).unwrap(), pager.pin(1).unwrap());
    let (got, may_end) = (AtomicU64::new(0), AtomicBool::new(false));
    thread::scope(|threads| {
        for page in 2..8 {
            let (pager, got, may_end) = (&pager, &got, &may_end);
            threads.spawn(move || {
                let _pin = pager.pin(page).unwrap();
                got.fetch_add(1, Ordering::Relaxed);
                while !may_end.load(Ordering::Relaxed) {
                    thread::sleep(Duration::from_millis(1));
                }
            });
        }
        wait_for(&pager, 6);
        drop(first);
        while got.load(Ordering::Relaxed) < 1 {
            thread::yield_now();
        }
        thread::sleep(A_WHILE);
        let waits = pager.stats().waits;
        may_end.store(true, Ordering::Relaxed);
        drop(second);
        assert!(waits <= 7, "{waits}");
    });
    assert_eq!((got.load(Ordering::Relaxed), pager.stats().pinned), (6, 0));
}

// Sixteen threads pin a page at a time in two frames, for a millisecond. None waits for much longer
// than its turn takes, and all get through by a short pin wait.
#[test]
fn frames_go_round() {
    let _watch = Watch::over("frames_go_round", 60);
    let config = config(2).with_pin_wait(Duration::from_secs(5));
    let pager = Pager::new(&config, Device::default()).unwrap();
    thread::scope(|threads| {
        for thread in 0..16 {
            let pager = &pager;
            threads.spawn(move || {
                for turn in 0..10 {
                    let _pin = pager.pin((thread + turn * 5) % 16).unwrap();
                    thread::sleep(Duration::from_millis(1));
                }
            });
        }
    });
    // Each pin sleeps twice or so, and not once for each page that is unpinned.
    assert!(pager.stats().waits < 160 * 4, "{}", pager.stats().waits);
}

// A call that is refused since all frames are pinned makes no page older: what is known of page 1 is
// kept for five references.
#[test]
fn refused_call_moves_no_clock() {
    let config = config(1).with_retained(5);
    let pager = Pager::new(&config, Device::default()).unwrap();
    drop(pager.read(1).unwrap());
    let pin = pager.pin(2).unwrap();
    for _ in 0..50 {
        assert!(pager.try_read(3).is_err() && pager.try_write(3).is_err());
    }
    assert_eq!(pager.purge(), Ok(0));
    drop(pin);
    (0..10).for_each(|_| drop(pager.read(2).unwrap()));
    assert_eq!(pager.purge(), Ok(1));
}
