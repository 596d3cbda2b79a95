//! The engine's own code panics within a request. The page is as it was, and it and others can be used.
use crate::device::{Asked, Device, Fate, pager, put, with_an_unsaved_page};
use hojzmated::{Pager, PagerError};
use std::panic::{AssertUnwindSafe, catch_unwind};
use std::thread;

fn panics<T>(pager: &Pager<Device>, call: impl FnOnce() -> T) {
    pager.io().is_next(Fate::Panics);
    assert!(catch_unwind(AssertUnwindSafe(call)).is_err());
    assert_eq!(pager.stats().pinned, 0);
}

#[test]
fn panic_of_a_read() {
    let pager = pager(1);
    panics(&pager, || pager.read(1));
    panics(&pager, || pager.write(1));
    panics(&pager, || pager.pin(1));
    panics(&pager, || pager.try_read(1));
    assert!(!pager.is_resident(1));
    assert_eq!(pager.read(2).unwrap().page(), 2);
    assert_eq!(pager.read(1).unwrap().page(), 1);
    assert_eq!(pager.io().asked(), [1, 1, 1, 1, 2, 1].map(Asked::Read));
    assert_eq!(pager.stats().totals.failed, 4);
}

#[test]
fn panic_of_a_write_out() {
    let pager = with_an_unsaved_page(2);
    drop(pager.read(3).unwrap());
    pager.mark(5);
    panics(&pager, || pager.flush(1));
    panics(&pager, || pager.checkpoint());
    panics(&pager, || pager.clean(1));
    assert_eq!((pager.stats().unsaved, pager.redo_from()), (1, Some(5)));
    put(&pager, 3, 7, 4);
    assert_eq!(pager.read(1).unwrap()[0], 9);
    assert_eq!(pager.checkpoint().unwrap(), None);
    let asked = pager.io().asked();
    assert_eq!(asked[1..4], [Asked::Write(1, 9, 5); 3]);
    assert_eq!(
        asked[4..],
        [Asked::Write(1, 9, 5), Asked::Write(3, 7, 4), Asked::Sync]
    );
}

#[test]
fn panic_of_a_page_that_makes_way() {
    let pager = with_an_unsaved_page(1);
    pager.mark(5);
    panics(&pager, || pager.read(2));
    panics(&pager, || pager.new_page(2));
    assert_eq!(pager.io().asked(), [Asked::Write(1, 9, 5); 2]);
    assert_eq!(pager.read(1).unwrap()[0], 9);
    assert_eq!(pager.read(2).unwrap().page(), 2);
    assert_eq!(pager.io().asked(), [Asked::Write(1, 9, 5), Asked::Read(2)]);
}

// By whichever call, here or in another thread: a sync that failed may be behind it. So the log is lost, as one that
// tells so.
#[test]
fn panic_of_the_log() {
    let calls: [fn(&Pager<Device>); 4] = [
        |it| panics(it, || it.flush(1)),
        |it| panics(it, || it.read(2)),
        |it| panics(it, || it.checkpoint()),
        |it| {
            it.io().is_next(Fate::Panics);
            thread::scope(|threads| assert!(threads.spawn(|| it.flush(1)).join().is_err()));
        },
    ];
    for call in calls {
        let pager = with_an_unsaved_page(1);
        call(&pager);
        assert_eq!(pager.read(1).unwrap()[0], 9);
        let told = pager.flush(1).unwrap_err();
        assert!(matches!(told, PagerError::LogLost));
        assert_eq!(pager.io().asked(), [Asked::Log(5)]);
        assert_eq!((pager.stats().unsaved, pager.stats().pinned), (1, 0));
    }
}

// What the sync had to keep may be lost. So no later checkpoint goes well, but pages go out.
#[test]
fn panic_of_a_sync() {
    let pager = with_an_unsaved_page(1);
    pager.mark(5);
    pager.flush(1).unwrap();
    panics(&pager, || pager.checkpoint());
    put(&pager, 1, 8, 5);
    let refused = pager.checkpoint().unwrap_err();
    assert!(matches!(refused, PagerError::SyncFailedBefore));
    pager.flush(1).unwrap();
    let asked = [Asked::Write(1, 9, 5), Asked::Sync, Asked::Write(1, 8, 5)];
    assert_eq!(pager.io().asked(), asked);
}
