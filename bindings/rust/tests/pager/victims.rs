//! Pages that cannot be written out, or whose log record cannot be made durable: others make way in
//! their place, and a call is refused only where no page can.
use crate::device::{Asked, Device, Gate, PAGES, Watch, config, fault, not_yet, pager, put};
use hojzmated::{Pager, PagerConfig, PagerError, ReadFault};
use std::panic::{AssertUnwindSafe, catch_unwind, resume_unwind};
use std::sync::atomic::{AtomicBool, Ordering};
use std::sync::{Arc, Weak};
use std::thread;
use std::time::{Duration, Instant};

type Call = fn(&Pager<Device>) -> Result<(), PagerError>;

/// Pages from this one on cannot be written out.
const FULL: u64 = 12;

/// How a device ends that has no room for those pages.
fn is_full(asked: Asked) -> Result<(), ReadFault> {
    match asked {
        Asked::Write(FULL.., ..) => Err(fault()),
        _ => Ok(()),
    }
}

fn pager_of(config: &PagerConfig) -> Pager<Device> {
    let pager = Pager::new(config, Device::default()).unwrap();
    pager.io().ends_as(is_full);
    pager
}

/// The pages that the device was asked to write.
fn written(pager: &Pager<Device>) -> Vec<u64> {
    let asked = pager.io().asked().into_iter();
    let pages = asked.filter_map(|it| match it {
        Asked::Write(page, ..) => Some(page),
        _ => None,
    });
    pages.collect()
}

// Of four frames one to three have pages that cannot go out. All reads of other pages go well, of
// which each needs a frame.
#[test]
fn others_make_way() {
    for (k, correlated) in [(1, 0), (2, 0), (2, 1), (3, 4)] {
        for bad in 1..4 {
            let pager = pager_of(&config(4).with_k(k).with_correlated(correlated));
            (FULL..FULL + bad).for_each(|page| put(&pager, page, 1, 0));
            for page in (0..5).flat_map(|_| 0..FULL) {
                let read = pager.read(page).map(|it| it.page());
                assert_eq!(read.unwrap(), page, "K {k}, {bad} of 4");
            }
            assert!(!written(&pager).is_empty());
            let stats = pager.stats();
            assert_eq!((stats.unsaved, stats.pinned), (bad as usize, 0));
            pager.io().ends_as(|_| Ok(()));
            pager.checkpoint().unwrap();
        }
    }
}

// The same by each call that needs a frame.
#[test]
fn each_call_goes_on() {
    let pager = pager(2);
    pager.io().ends_as(is_full);
    put(&pager, FULL, 1, 0);
    drop(pager.read(0).unwrap());
    assert!(pager.write(1).is_ok());
    assert!(pager.pin(2).is_ok());
    assert!(pager.try_pin(3).is_ok());
    assert!(pager.try_read(4).unwrap().is_some());
    assert!(pager.try_write(5).unwrap().is_some());
    assert!(pager.new_page(6).is_ok());
    assert!(pager.is_resident(FULL));
}

// No page can make way: each is tried once, and the first fault is told. All of them can be used.
#[test]
fn refused_where_none_can() {
    for correlated in [0, 3] {
        let pager = pager_of(&config(4).with_correlated(correlated));
        (FULL..PAGES).for_each(|page| put(&pager, page, 1, 0));
        let began = Instant::now();
        let calls: [Call; 2] = [|it| it.read(0).map(drop), |it| it.try_read(0).map(drop)];
        for call in calls {
            let told = call(&pager).unwrap_err();
            let mut tried = written(&pager);
            let is_first = |page| tried.first() == Some(&page);
            assert!(matches!(told, PagerError::Write { page, .. } if is_first(page)));
            tried.sort_unstable();
            assert_eq!(tried, [12, 13, 14, 15]);
            assert_eq!((pager.stats().pinned, pager.stats().unsaved), (0, 4));
            (FULL..PAGES).for_each(|page| assert_eq!(pager.read(page).unwrap()[0], 1));
        }
        assert!(began.elapsed() < pager.config().pin_wait);
    }
}

// One frame has a clean page, which is in use: a call waits for it a few milliseconds, and is then told the fault
// of the page that could not go out. It does not wait as long as others do for a pin.
#[test]
fn waits_for_a_page_in_use() {
    let _watch = Watch::over("waits_for_a_page_in_use", 60);
    let pager = pager_of(&config(2));
    put(&pager, FULL, 1, 0);
    let pin = pager.pin(0).unwrap();
    let told = pager.try_read(1).map(drop).unwrap_err();
    assert!(matches!(told, PagerError::Write { page: FULL, .. }));
    let began = Instant::now();
    let told = pager.read(1).map(drop).unwrap_err();
    assert!(matches!(told, PagerError::Write { page: FULL, .. }));
    assert!(began.elapsed() >= Duration::from_millis(5));
    assert!(began.elapsed() < pager.config().pin_wait / 2);
    drop(pin);
    assert_eq!(pager.read(1).unwrap().page(), 1);
}

// It gets the frame where the page is let go meanwhile, which this thread may be too slow for now and then.
#[test]
fn gets_a_page_that_is_let_go() {
    let _watch = Watch::over("gets_a_page_that_is_let_go", 60);
    let mut tries = 0..1000;
    let has_got = tries.any(|_| {
        let pager = pager_of(&config(2));
        put(&pager, FULL, 1, 0);
        let pin = pager.pin(0).unwrap();
        thread::scope(|threads| {
            let waits = threads.spawn(|| pager.read(1).map(|it| it.page()));
            while pager.stats().waits == 0 {
                thread::yield_now();
            }
            drop(pin);
            let told = waits.join().unwrap();
            assert!(pager.is_resident(FULL));
            told.is_ok_and(|page| page == 1)
        })
    });
    assert!(has_got);
}

// Each of two calls has set aside what the other would try. None waits for the other.
#[test]
fn two_calls_that_fail() {
    let _watch = Watch::over("two_calls_that_fail", 60);
    let pager = pager(2);
    (FULL..FULL + 2).for_each(|page| put(&pager, page, 1, 0));
    let gate = Arc::new(Gate::default());
    let device = Arc::clone(&gate);
    pager.io().ends_as(move |asked| {
        if asked == Asked::Write(FULL, 1, 0) {
            device.pass();
        }
        is_full(asked)
    });
    let began = Instant::now();
    thread::scope(|threads| {
        let first = threads.spawn(|| pager.read(0).map(drop));
        gate.wait_for(1);
        let second = threads.spawn(|| pager.read(1).map(drop));
        while pager.stats().waits == 0 {
            thread::yield_now();
        }
        gate.open();
        for call in [first, second] {
            let told = call.join().unwrap().unwrap_err();
            assert!(matches!(told, PagerError::Write { .. }));
        }
    });
    assert!(began.elapsed() < pager.config().pin_wait / 2);
    assert_eq!((pager.stats().pinned, pager.stats().unsaved), (0, 2));
}

// While a call tries the next page the one before can be looked at and written to.
#[test]
fn page_set_aside_can_be_used() {
    let has_looked = Arc::new(AtomicBool::new(false));
    let noted = Arc::clone(&has_looked);
    let pager = Arc::new_cyclic(|weak: &Weak<Pager<Device>>| {
        let (pager, weak) = (pager(3), weak.clone());
        pager.io().ends_as(move |asked| {
            if asked == Asked::Write(FULL + 1, 1, 0) {
                let pager = weak.upgrade().unwrap();
                assert_eq!(pager.stats().pinned, 1);
                put(&pager, FULL, 2, 0);
                noted.store(true, Ordering::Relaxed);
            }
            is_full(asked)
        });
        pager
    });
    (FULL..FULL + 2).for_each(|page| put(&pager, page, 1, 0));
    drop(pager.read(0).unwrap());
    assert_eq!(pager.read(1).unwrap().page(), 1);
    assert!(has_looked.load(Ordering::Relaxed));
    assert_eq!(pager.read(FULL).unwrap()[0], 2);
}

// The second of two pages panics: what was set aside before is let go.
#[test]
fn panic_after_a_page_was_set_aside() {
    let pager = pager(2);
    (FULL..FULL + 2).for_each(|page| put(&pager, page, 1, 0));
    pager.io().ends_as(|asked| match asked {
        Asked::Write(13, ..) => resume_unwind(Box::new("no such luck")),
        _ => is_full(asked),
    });
    let read = || pager.read(0).map(drop);
    assert!(catch_unwind(AssertUnwindSafe(read)).is_err());
    assert_eq!((pager.stats().pinned, pager.stats().unsaved), (0, 2));
    pager.io().ends_as(|_| Ok(()));
    assert_eq!(pager.read(0).unwrap().page(), 0);
}

/// Pages 9 and 1 are unsaved under these LSNs, and page 9 is first to make way; two frames more have
/// clean pages, and the log does not reach so far. Reads eleven other pages, and returns how often the
/// log was asked within each.
fn asks_of_the_log(lsns: [u64; 2], pins_the_other: bool) -> Vec<usize> {
    let pager = pager(4);
    pager.io().ends_as(|asked| match asked {
        Asked::Log(_) => Err(not_yet()),
        _ => Ok(()),
    });
    put(&pager, 9, 1, lsns[0]);
    put(&pager, 1, 1, lsns[1]);
    let pin = pins_the_other.then(|| pager.pin(1).unwrap());
    (2..4).for_each(|page| drop(pager.read(page).unwrap()));
    pager.io().asked();
    let others = (4..9).chain(10..16).map(|page| {
        assert_eq!(pager.read(page).unwrap().page(), page, "{lsns:?}");
        let asked = pager.io().asked().into_iter();
        asked.filter(|it| matches!(it, Asked::Log(_))).count()
    });
    let asks = others.collect();
    drop(pin);
    assert_eq!((pager.stats().unsaved, pager.stats().pinned), (2, 0));
    asks
}

// A page whose record is not durable is passed over, whether its record is of another page too or not.
// Where the log did not reach so far, the same call does not ask it again for a later record, or the same one.
#[test]
fn records_that_are_not_durable() {
    for lsns in [[7, 8], [7, 7]] {
        for pins_the_other in [false, true] {
            let asks = asks_of_the_log(lsns, pins_the_other);
            assert!(asks.iter().all(|it| *it < 2), "{asks:?}");
            assert!(asks.contains(&1), "{asks:?}");
        }
    }
    // For an earlier record it does.
    assert!(asks_of_the_log([8, 7], false).contains(&2));
}

#[test]
fn refused_where_no_record_is_durable() {
    let pager = pager(2);
    pager.io().ends_as(|asked| match asked {
        Asked::Log(_) => Err(not_yet()),
        _ => Ok(()),
    });
    put(&pager, 1, 1, 8);
    put(&pager, 2, 1, 7);
    pager.io().asked();
    for page in [3, 4] {
        let told = pager.read(page).map(drop).unwrap_err();
        let asked = pager.io().asked();
        assert!(
            matches!(told, PagerError::LogNotYet { lsn } if asked.first() == Some(&Asked::Log(lsn)))
        );
    }
    pager.mark(8);
    assert_eq!(pager.read(3).unwrap().page(), 3);
}

/// A call for page 2 waits for page 0, which is pinned, and has set the only other page aside: its write-out failed
/// once, and the device is well by now.
fn beside_one_that_waits(work: impl FnOnce(&Pager<Device>) + Send) {
    let pager = pager_of(&config(2));
    put(&pager, FULL, 1, 0);
    let pin = pager.pin(0).unwrap();
    let began = Instant::now();
    thread::scope(|threads| {
        let waits = threads.spawn(|| pager.read(2).map(|it| it.page()));
        while pager.stats().waits == 0 {
            thread::yield_now();
        }
        pager.io().ends_as(|_| Ok(()));
        work(&pager);
        let told = waits.join().unwrap().unwrap_err();
        assert!(matches!(told, PagerError::Write { page: FULL, .. }));
    });
    assert!(began.elapsed() < pager.config().pin_wait / 2);
    drop(pin);
    assert_eq!(pager.stats().pinned, 0);
}

// A call that has found no fault gets the frame soon: who waits with the page set aside lets it go.
#[test]
fn goes_out_for_one_without_a_fault() {
    let _watch = Watch::over("goes_out_for_one_without_a_fault", 60);
    beside_one_that_waits(|pager| assert_eq!(pager.read(3).unwrap().page(), 3));
}

// So does a call that discards the page.
#[test]
fn is_discarded_soon() {
    let _watch = Watch::over("is_discarded_soon", 60);
    beside_one_that_waits(|pager| assert!(pager.discard(FULL).unwrap()));
}

// The same where the other call has come before the write-out failed.
#[test]
fn goes_out_for_one_that_came_before() {
    let _watch = Watch::over("goes_out_for_one_that_came_before", 60);
    let pager = pager(2);
    put(&pager, FULL, 1, 0);
    let pin = pager.pin(0).unwrap();
    let (gate, fails) = (Arc::new(Gate::default()), AtomicBool::new(true));
    let device = Arc::clone(&gate);
    pager.io().ends_as(move |asked| {
        if matches!(asked, Asked::Write(..)) && fails.swap(false, Ordering::Relaxed) {
            device.pass();
            return is_full(asked);
        }
        Ok(())
    });
    let began = Instant::now();
    thread::scope(|threads| {
        let fails = threads.spawn(|| pager.read(2).map(drop));
        gate.wait_for(1);
        let waits = threads.spawn(|| pager.read(3).map(|it| it.page()));
        while pager.stats().waits == 0 {
            thread::yield_now();
        }
        gate.open();
        assert!(matches!(
            fails.join().unwrap(),
            Err(PagerError::Write { page: FULL, .. })
        ));
        assert_eq!(waits.join().unwrap().unwrap(), 3);
    });
    assert!(began.elapsed() < pager.config().pin_wait / 2);
    drop(pin);
}
