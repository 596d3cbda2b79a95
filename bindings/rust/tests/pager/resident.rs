//! A look at a page that is in a frame, which never waits.
use crate::device::{Asked, Device, Gate, PAGES, Watch, config, pager, put, with_an_unsaved_page};
use hojzmated::{OwnedPin, Pager};
use std::sync::Arc;
use std::thread;

// Whether its pass stays out, was given back, or is told at once. Of a page that is away nothing is asked.
#[test]
fn look_at_a_page_in_a_frame() {
    for (correlated, tells_each) in [(0, false), (10, false), (10, true)] {
        let config = config(2)
            .with_correlated(correlated)
            .with_tells_each_pin(tells_each);
        let pager = Pager::new(&config, Device::default()).unwrap();
        put(&pager, 1, 9, 5);
        pager.io().asked();
        let before = pager.stats().totals;
        for _ in 0..3 {
            let page = pager.read_resident(1).unwrap();
            assert_eq!((page.page(), page[0], page.lsn()), (1, 9, 5));
            let beside = pager.read_resident(1).unwrap();
            assert_eq!((beside[0], pager.stats().pinned), (9, 1));
        }
        for page in [0, 2, PAGES, u64::MAX] {
            assert!(pager.read_resident(page).is_none());
        }
        let after = pager.stats();
        assert_eq!((after.pinned, after.resident), (0, 1));
        assert_eq!(
            (after.totals.hits - before.hits, pager.io().asked()),
            (6, vec![])
        );
        assert_eq!(
            (after.totals.faults, after.totals.refused),
            (before.faults, before.refused)
        );
    }
}

// It is a reference: of two pages the one that was looked at stays.
#[test]
fn look_that_is_a_reference() {
    let config = config(2).with_k(1);
    for looked_at in [1, 2] {
        let pager = Pager::new(&config, Device::default()).unwrap();
        drop((pager.read(1).unwrap(), pager.read(2).unwrap()));
        drop(pager.read_resident(looked_at).unwrap());
        drop(pager.read(3).unwrap());
        assert!(pager.is_resident(looked_at) && !pager.is_resident(3 - looked_at));
    }
}

#[test]
fn look_beside_latches() {
    let pager = with_an_unsaved_page(1);
    let pin = pager.pin(1).unwrap();
    thread::scope(|scope| {
        let alone = pin.write();
        let look = || pager.read_resident(1).map(|page| page[0]);
        assert_eq!(scope.spawn(look).join().unwrap(), None);
        drop(alone);
        let shared = pin.read();
        assert_eq!(scope.spawn(look).join().unwrap(), Some(9));
        drop(shared);
    });
    drop(pin);
    assert_eq!(pager.stats().pinned, 0);
}

// While the device reads a page it is in no frame; while it writes one that is looked at as ever.
#[test]
fn look_beside_the_device() {
    let _watch = Watch::over("look_beside_the_device", 120);
    let pager = with_an_unsaved_page(2);
    let gate = Arc::new(Gate::default());
    let at_work = gate.clone();
    pager.io().within(move |asked| {
        if let Asked::Read(_) | Asked::Write(..) = asked {
            at_work.pass();
        }
    });
    thread::scope(|scope| {
        let read = scope.spawn(|| pager.read(2).map(|page| page[0]).unwrap());
        let flush = scope.spawn(|| pager.flush(1).unwrap());
        gate.wait_for(2);
        assert!(pager.read_resident(2).is_none());
        assert_eq!(pager.read_resident(1).unwrap()[0], 9);
        gate.open();
        assert_eq!(read.join().unwrap(), 0);
        flush.join().unwrap();
    });
    assert_eq!(pager.read_resident(2).unwrap()[0], 0);
    assert_eq!((pager.stats().resident, pager.stats().pinned), (2, 0));
}

// A page that is pinned by one thread is let go by another. The compiler sees to it that latches are not.
#[test]
fn pin_that_goes_from_thread_to_thread() {
    fn is_sent<T: Send + Sync>(it: T) -> T {
        it
    }
    let pager = Arc::new(pager(1));
    let one = pager.clone();
    let pin = thread::spawn(move || one.pin_owned(3).unwrap())
        .join()
        .unwrap();
    assert_eq!(pager.read_resident(3).unwrap()[0], 0);
    pin.write().put(0, &[7], 0).unwrap();
    let look = |pin: OwnedPin<Device>| pin.try_read().unwrap()[0];
    let pin = is_sent(pin);
    assert_eq!(thread::spawn(move || look(pin)).join().unwrap(), 7);
    assert_eq!(pager.stats().pinned, 0);
}
