//! Beside a log that is slow or fails: which latches are held meanwhile, and which calls fail.
use crate::device::{Asked, Device, Fate, Gate, Watch, config, fault, not_yet, pager, put};
use hojzmated::{Pager, PagerError};
use std::panic::{AssertUnwindSafe, catch_unwind, resume_unwind};
use std::sync::Arc;
use std::sync::atomic::{AtomicUsize, Ordering};
use std::thread;
use std::time::Duration;

/// Looks at pages in turn.
fn look(pager: &Pager<Device>, pages: &[u64]) {
    for page in pages {
        drop(pager.read(*page).unwrap());
    }
}

/// Has the requests to the log stop at a gate.
fn gate_at_log(pager: &Pager<Device>) -> Arc<Gate> {
    let gate = Arc::new(Gate::default());
    let device = Arc::clone(&gate);
    pager.io().within(move |asked| {
        if matches!(asked, Asked::Log(_)) {
            device.pass();
        }
    });
    gate
}

// While a flush of page 1 is at the log, page 1 makes way for page 2. A thread has page 1 in another
// frame and waits for page 2, in the order of the pages. The flush waits for page 1 then, and has
// nothing that the thread waits for.
#[test]
fn flush_whose_page_changes_its_frame() {
    let _watch = Watch::over("flush_whose_page_changes_its_frame", 60);
    let pager = pager(2);
    put(&pager, 1, 1, 5);
    let gate = gate_at_log(&pager);
    thread::scope(|threads| {
        threads.spawn(|| pager.flush(1).unwrap());
        gate.wait_for(1);
        pager.mark(5);
        look(&pager, &[3, 2]);
        assert!(!pager.is_resident(1));
        let mut one = pager.write(1).unwrap();
        one.put(0, &[2], 6).unwrap();
        threads.spawn(|| {
            thread::sleep(Duration::from_millis(100));
            gate.open();
        });
        // The flush waits for page 1 by then.
        while pager.stats().waits == 0 {
            thread::yield_now();
        }
        drop(pager.write(2).unwrap());
        drop(one);
    });
    assert_eq!(pager.stats().unsaved, 0);
}

// A flush is at the log: its page can be written to, and so can the one that has its frame by then.
#[test]
fn no_latch_while_the_log_works() {
    for takes_the_frame in [false, true] {
        let pager = pager(2);
        put(&pager, 1, 1, 5);
        let gate = gate_at_log(&pager);
        thread::scope(|threads| {
            threads.spawn(|| pager.flush(1).unwrap());
            gate.wait_for(1);
            let mut page = 1;
            if takes_the_frame {
                pager.mark(5);
                look(&pager, &[3, 2]);
                page = 2;
            }
            let latched = pager.try_write(page).unwrap();
            assert!(latched.is_some(), "page {page}");
            drop(latched);
            gate.open();
        });
        assert_eq!(pager.stats().pinned, 0);
    }
}

// A page gets a new record each time that its log is made durable. At the third time the flush keeps
// its shared latch, so that there is no fourth.
#[test]
fn latch_in_the_last_round() {
    let pager = Arc::new_cyclic(|weak: &std::sync::Weak<Pager<Device>>| {
        let (pager, weak) = (pager(2), weak.clone());
        pager.io().within(move |asked| {
            let Some(pager) = weak.upgrade() else { return };
            match asked {
                Asked::Log(lsn @ ..7) => put(&pager, 1, lsn as u8, lsn + 1),
                Asked::Log(_) => {
                    assert!(pager.try_write(1).unwrap().is_none());
                    assert!(pager.try_read(1).unwrap().is_some());
                }
                _ => {}
            }
        });
        pager
    });
    put(&pager, 1, 9, 5);
    pager.flush(1).unwrap();
    let asked = [5, 6, 7].map(Asked::Log);
    let all = pager.io().asked();
    assert_eq!(all[1..4], asked);
    assert_eq!(all[4..], [Asked::Write(1, 6, 7)]);
    assert_eq!((pager.stats().unsaved, pager.stats().pinned), (0, 0));
    assert!(pager.try_write(1).unwrap().is_some());
}

// A page is passed over whose record is not durable. A page that has the same record is no older or
// newer for that: it is next to make way.
#[test]
fn victim_alone_is_passed_over() {
    let pager = pager(4);
    pager.io().ends_as(|asked| match asked {
        Asked::Log(_) => Err(not_yet()),
        _ => Ok(()),
    });
    put(&pager, 9, 1, 7);
    look(&pager, &[2]);
    put(&pager, 1, 1, 7);
    look(&pager, &[3]);
    // Page 2 makes way in place of page 9.
    look(&pager, &[4]);
    pager.mark(7);
    look(&pager, &[5]);
    let resident = [9, 1, 2, 3, 4, 5].map(|page| pager.is_resident(page));
    assert_eq!(resident, [true, false, false, true, true, true]);
}

// A call for which the log panics does not go on, but the next one chooses another page.
#[test]
fn victim_whose_log_panics() {
    let pager = pager(4);
    pager.io().ends_as(|asked| match asked {
        Asked::Log(_) => resume_unwind(Box::new("no such luck")),
        _ => Ok(()),
    });
    put(&pager, 9, 1, 7);
    look(&pager, &[1, 2, 3]);
    let read = |page| catch_unwind(AssertUnwindSafe(|| pager.read(page).map(drop).unwrap()));
    let others = (4..9).chain(10..16);
    let failing = others.filter(|page| read(*page).is_err()).count();
    assert!((1..4).contains(&failing), "{failing} of 11");
    assert_eq!((pager.stats().unsaved, pager.stats().pinned), (1, 0));
}

// A page is passed over while another call has the buffer that is kept: page 8 is being written out.
#[test]
fn victim_is_passed_over_without_a_buffer() {
    let pager = pager(4);
    put(&pager, 9, 1, 7);
    put(&pager, 8, 1, 0);
    look(&pager, &[2, 3]);
    let (at_log, at_page) = (Arc::new(Gate::default()), Arc::new(Gate::default()));
    let (log, page) = (Arc::clone(&at_log), Arc::clone(&at_page));
    pager.io().ends_as(move |asked| match asked {
        Asked::Log(_) => {
            log.pass();
            Err(not_yet())
        }
        Asked::Write(8, ..) => {
            page.pass();
            Ok(())
        }
        _ => Ok(()),
    });
    thread::scope(|threads| {
        let first = threads.spawn(|| pager.read(4).map(|it| it.page()));
        at_log.wait_for(1);
        threads.spawn(|| pager.flush(8).unwrap());
        at_page.wait_for(1);
        at_log.open();
        assert_eq!(first.join().unwrap().unwrap(), 4);
        at_page.open();
    });
    assert!(pager.is_resident(9) && !pager.is_resident(2));
}

// A log that ends before 1,000 is wanted up to 5, 10 and 1,000 at once. The last call alone fails.
#[test]
fn log_that_cannot_be_had_so_far() {
    for _ in 0..8 {
        let pager = pager(8);
        for (page, lsn) in [(1, 5), (2, 10), (3, 1_000)] {
            put(&pager, page, 1, lsn);
        }
        let (gate, times) = (Arc::new(Gate::default()), AtomicUsize::new(0));
        let device = Arc::clone(&gate);
        pager.io().ends_as(move |asked| match asked {
            Asked::Log(lsn) => {
                if times.fetch_add(1, Ordering::Relaxed) == 0 {
                    device.pass();
                }
                if lsn < 1_000 { Ok(()) } else { Err(not_yet()) }
            }
            _ => Ok(()),
        });
        thread::scope(|threads| {
            let first = threads.spawn(|| pager.flush(1));
            gate.wait_for(1);
            let others = [2, 3].map(|page| {
                let pager = &pager;
                threads.spawn(move || pager.flush(page))
            });
            thread::sleep(Duration::from_millis(20));
            gate.open();
            first.join().unwrap().unwrap();
            let [second, third] = others.map(|it| it.join().unwrap());
            second.unwrap();
            let told = third.unwrap_err();
            assert!(matches!(told, PagerError::LogNotYet { lsn: 1_000 }));
        });
    }
}

// One page can't be written out, and one has a record that never is durable. All others go out, and
// the first fault is told.
#[test]
fn checkpoint_goes_on_after_a_page() {
    let config = config(16).with_parts(2);
    let pager = Pager::new(&config, Device::default()).unwrap();
    (0..12).for_each(|page| put(&pager, page, 1, page + 1));
    put(&pager, 7, 1, 1_000);
    pager.io().ends_as(|asked| match asked {
        Asked::Log(1_000..) => Err(not_yet()),
        Asked::Write(2, ..) => Err(fault()),
        _ => Ok(()),
    });
    for _ in 0..2 {
        assert!(pager.checkpoint().is_err());
        assert_eq!((pager.stats().unsaved, pager.redo_from()), (2, Some(3)));
    }
    assert!(!pager.io().asked().contains(&Asked::Sync));
    // It tells what failed first: the log, and then the page.
    let told = pager.checkpoint().unwrap_err();
    assert!(matches!(told, PagerError::LogNotYet { lsn: 1_000 }));
    pager.mark(1_000);
    let told = pager.checkpoint().unwrap_err();
    assert!(matches!(told, PagerError::Write { page: 2, .. }));
    pager.io().ends_as(|_| Ok(()));
    assert_eq!(pager.checkpoint().unwrap(), None);
}

// A sync fails, and one that comes beside it would go well, as a system tells a fault once. Neither
// checkpoint does.
#[test]
fn sync_beside_one_that_fails() {
    let pager = pager(4);
    put(&pager, 1, 1, 5);
    pager.mark(5);
    let (gate, syncs) = (Arc::new(Gate::default()), AtomicUsize::new(0));
    let device = Arc::clone(&gate);
    pager.io().ends_as(move |asked| {
        if asked == Asked::Sync && syncs.fetch_add(1, Ordering::Relaxed) == 0 {
            device.pass();
            return Err(fault());
        }
        Ok(())
    });
    thread::scope(|threads| {
        let first = threads.spawn(|| pager.checkpoint());
        gate.wait_for(1);
        let second = threads.spawn(|| pager.checkpoint());
        thread::sleep(Duration::from_millis(50));
        gate.open();
        let told = first.join().unwrap().unwrap_err();
        assert!(matches!(told, PagerError::Sync { .. }));
        let told = second.join().unwrap().unwrap_err();
        assert!(matches!(told, PagerError::SyncFailedBefore));
    });
    // Pages can still be used, and go out.
    put(&pager, 1, 2, 5);
    pager.flush(1).unwrap();
    pager.io().is_next(Fate::Well);
    assert!(pager.checkpoint().is_err());
}

// While the log answers that it does not reach so far, the engine makes it durable, and marks that.
#[test]
fn mark_beside_an_answer_of_not_yet() {
    type Call = fn(&Pager<Device>) -> Result<(), PagerError>;
    let calls: [Call; 2] = [|it| it.flush(1), |it| it.checkpoint().map(drop)];
    // The log is asked for page 1, or in a checkpoint of both pages for page 2 at last.
    for (call, at) in calls.into_iter().zip([9, 5]) {
        let pager = pager(4);
        put(&pager, 1, 1, 9);
        put(&pager, 2, 2, 5);
        let gate = Arc::new(Gate::default());
        let at_log = Arc::clone(&gate);
        pager.io().ends_as(move |asked| match asked {
            Asked::Log(lsn) => {
                if lsn == at {
                    at_log.pass();
                }
                Err(not_yet())
            }
            _ => Ok(()),
        });
        thread::scope(|threads| {
            let called = threads.spawn(|| call(&pager));
            gate.wait_for(1);
            pager.mark(9);
            gate.open();
            called.join().unwrap().unwrap();
        });
        assert!(pager.io().asked().contains(&Asked::Write(1, 1, 9)));
    }
}
