//! The device works on several pages at once, in one part too. Who wants a page on which it works
//! sleeps until that ends.
use crate::device::{Asked, Gate, pager, put};
use hojzmated::{Error, Totals};
use std::sync::Arc;
use std::thread;

/// A gate at which requests stop, those that are meant.
fn gate_for(
    pager: &hojzmated::Pager<crate::device::Device>,
    is_meant: fn(Asked) -> bool,
) -> Arc<Gate> {
    let gate = Arc::new(Gate::default());
    let device = Arc::clone(&gate);
    pager.io().within(move |asked| {
        if is_meant(asked) {
            device.pass();
        }
    });
    gate
}

#[test]
fn reads_overlap() {
    let pager = pager(3);
    let gate = gate_for(&pager, |asked| matches!(asked, Asked::Read(_)));
    thread::scope(|threads| {
        for page in [1, 2, 3] {
            let pager = &pager;
            threads.spawn(move || assert_eq!(pager.read(page).unwrap().page(), page));
        }
        gate.wait_for(3);
        gate.open();
    });
    assert_eq!(pager.stats().waits, 0);
}

// A page goes out by a flush, one makes way, and one is read into a free frame.
#[test]
fn reads_and_write_outs_overlap() {
    let pager = pager(3);
    [1, 2].into_iter().for_each(|page| put(&pager, page, 7, 0));
    let gate = gate_for(&pager, |asked| asked != Asked::Read(4));
    thread::scope(|threads| {
        threads.spawn(|| pager.flush(2).unwrap());
        gate.wait_for(1);
        threads.spawn(|| drop(pager.read(3).unwrap()));
        gate.wait_for(2);
        threads.spawn(|| drop(pager.read(4).unwrap()));
        gate.wait_for(3);
        // The pages that go out can be used.
        assert_eq!(pager.read(1).unwrap()[0], 7);
        put(&pager, 2, 8, 0);
        gate.open();
    });
    assert_eq!((pager.stats().unsaved, pager.stats().totals.writes), (1, 2));
}

#[test]
fn page_that_is_being_read() {
    let pager = pager(2);
    let gate = gate_for(&pager, |asked| matches!(asked, Asked::Read(_)));
    thread::scope(|threads| {
        threads.spawn(|| drop(pager.read(5).unwrap()));
        gate.wait_for(1);
        for _ in 0..3 {
            threads.spawn(|| assert_eq!(pager.read(5).unwrap().page(), 5));
        }
        while pager.stats().waits < 3 {
            thread::yield_now();
        }
        assert!(!pager.is_resident(5));
        gate.open();
    });
    assert_eq!(pager.io().asked(), [Asked::Read(5)]);
    let mut totals = Totals::default();
    (totals.hits, totals.faults, totals.refused) = (3, 1, 3);
    assert_eq!((pager.stats().totals, pager.stats().waits), (totals, 3));
}

// The thread that waited for a read that failed makes it itself.
#[test]
fn page_whose_read_fails_for_another() {
    let pager = pager(1);
    let gate = gate_for(&pager, |asked| matches!(asked, Asked::Read(_)));
    pager.io().is_next(crate::device::Fate::Fails);
    thread::scope(|threads| {
        let fails = threads.spawn(|| pager.read(5).map(drop).unwrap_err().refusal());
        gate.wait_for(1);
        threads.spawn(|| assert_eq!(pager.read(5).unwrap().page(), 5));
        while pager.stats().waits < 1 {
            thread::yield_now();
        }
        gate.open();
        assert_eq!(fails.join().unwrap(), Error::ReadFailed);
    });
    assert_eq!(pager.io().asked(), [Asked::Read(5); 2]);
}

// All frames are on their way in or out: who wants another page waits until one is free.
#[test]
fn frames_on_which_the_device_works() {
    let pager = pager(2);
    put(&pager, 1, 7, 0);
    let gate = gate_for(&pager, |asked| asked != Asked::Read(3));
    thread::scope(|threads| {
        threads.spawn(|| pager.flush(1).unwrap());
        threads.spawn(|| drop(pager.read(2).unwrap()));
        gate.wait_for(2);
        let refused = pager.try_read(3).map(drop).unwrap_err();
        assert_eq!(refused.refusal(), Error::NoVictim);
        let third = threads.spawn(|| assert_eq!(pager.read(3).unwrap().page(), 3));
        while pager.stats().waits == 0 {
            thread::yield_now();
        }
        assert!(!third.is_finished());
        gate.open();
    });
    assert!(pager.is_resident(3));
}

// One thread is at the log when six others come, which want it durable further. When it is done one
// of these makes it durable for all: two calls. A thread that comes late makes one more.
#[test]
fn log_is_made_durable_for_all_who_wait() {
    let pager = pager(8);
    (1..8).for_each(|page| put(&pager, page, 7, page));
    pager.io().asked();
    let gate = gate_for(&pager, |asked| matches!(asked, Asked::Log(_)));
    thread::scope(|threads| {
        threads.spawn(|| pager.flush(1).unwrap());
        gate.wait_for(1);
        for page in 2..8 {
            let pager = &pager;
            threads.spawn(move || pager.flush(page).unwrap());
        }
        while pager.stats().waits < 6 {
            thread::yield_now();
        }
        gate.open();
    });
    let mut logs = pager.io().asked();
    logs.retain(|asked| matches!(asked, Asked::Log(_)));
    assert_eq!(logs, [Asked::Log(1), Asked::Log(7)]);
}
