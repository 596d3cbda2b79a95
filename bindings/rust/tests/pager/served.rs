//! Write-outs and syncs that serve all calls which came before they began.
use crate::device::{Asked, Device, Watch, config, fault, not_yet, pager, put};
use hojzmated::{Pager, PagerError};
use std::sync::atomic::{AtomicUsize, Ordering};
use std::sync::{Arc, Condvar, Mutex};
use std::thread;

type Call = fn(&Pager<Device>) -> Result<(), PagerError>;

/// How many requests came to the device, of those that are meant, and how many of them may end.
#[derive(Default)]
struct Turns {
    counts: Mutex<(usize, usize)>,
    changed: Condvar,
}

impl Turns {
    /// Has the requests stop here that are meant, each until it may end.
    fn of(pager: &Pager<Device>, is_meant: fn(Asked) -> bool) -> Arc<Turns> {
        let turns = Arc::new(Turns::default());
        let device = Arc::clone(&turns);
        pager.io().within(move |asked| {
            if is_meant(asked) {
                device.pass();
            }
        });
        turns
    }

    fn pass(&self) {
        let mut counts = self.counts.lock().unwrap();
        counts.0 += 1;
        let own = counts.0;
        self.changed.notify_all();
        let ended = self.changed.wait_while(counts, |counts| counts.1 < own);
        drop(ended.unwrap());
    }

    fn wait_for(&self, came: usize) {
        let counts = self.counts.lock().unwrap();
        let came = self.changed.wait_while(counts, |counts| counts.0 < came);
        drop(came.unwrap());
    }

    /// Has one more of them end.
    fn end_one(&self) {
        self.counts.lock().unwrap().1 += 1;
        self.changed.notify_all();
    }

    fn end_all(&self) {
        self.counts.lock().unwrap().1 = usize::MAX;
        self.changed.notify_all();
    }
}

fn is_write(asked: Asked) -> bool {
    matches!(asked, Asked::Write(..))
}

fn wait_for(pager: &Pager<Device>, waits: u64) {
    while pager.stats().waits < waits {
        thread::yield_now();
    }
}

/// How many requests there were of those that are meant.
fn count_of(pager: &Pager<Device>, is_meant: fn(Asked) -> bool) -> usize {
    let asked = pager.io().asked().into_iter();
    asked.filter(|it| is_meant(*it)).count()
}

// Eight flushes wait for the write-out of their page that another flush has begun. One of them makes the
// next one, and all end with it, though the page is written to again before each ends.
#[test]
fn flushes_that_wait_share_one_write_out() {
    let _watch = Watch::over("flushes_that_wait_share_one_write_out", 60);
    let pager = pager(2);
    put(&pager, 3, 1, 0);
    let turns = Turns::of(&pager, is_write);
    thread::scope(|threads| {
        let first = threads.spawn(|| pager.flush(3).unwrap());
        turns.wait_for(1);
        put(&pager, 3, 2, 0);
        let others: Vec<_> = (0..8)
            .map(|number| {
                let pager = &pager;
                threads.spawn(move || match number {
                    0 => pager.checkpoint().map(drop).unwrap(),
                    1 => pager.flush_pages(&[3]).unwrap(),
                    _ => pager.flush(3).unwrap(),
                })
            })
            .collect();
        wait_for(&pager, 8);
        turns.end_one();
        first.join().unwrap();
        turns.wait_for(2);
        // All of them wait once more, but for the one that writes.
        wait_for(&pager, 15);
        put(&pager, 3, 3, 0);
        turns.end_one();
        others.into_iter().for_each(|it| it.join().unwrap());
    });
    turns.end_all();
    let asked = pager.io().asked();
    assert_eq!(asked[1..3], [Asked::Write(3, 1, 0), Asked::Write(3, 2, 0)]);
    assert_eq!(asked.len(), 4, "{asked:?}");
    assert_eq!(pager.stats().unsaved, 1);
}

// A write-out that began before a flush may lack what was written before that flush. And one that failed
// ends no flush but its own.
#[test]
fn flush_needs_a_write_out_of_its_own_time() {
    let _watch = Watch::over("flush_needs_a_write_out_of_its_own_time", 60);
    let pager = pager(2);
    put(&pager, 3, 1, 0);
    let turns = Arc::new(Turns::default());
    let (device, writes) = (Arc::clone(&turns), AtomicUsize::new(0));
    pager.io().ends_as(move |asked| {
        if !is_write(asked) {
            return Ok(());
        }
        device.pass();
        match writes.fetch_add(1, Ordering::Relaxed) {
            1 => Err(fault()),
            _ => Ok(()),
        }
    });
    thread::scope(|threads| {
        let first = threads.spawn(|| pager.flush(3));
        turns.wait_for(1);
        put(&pager, 3, 2, 0);
        let others = [0, 1].map(|_| threads.spawn(|| pager.flush(3)));
        wait_for(&pager, 2);
        turns.end_one();
        first.join().unwrap().unwrap();
        turns.wait_for(2);
        wait_for(&pager, 3);
        turns.end_all();
        let told = others.map(|it| it.join().unwrap());
        let failed = told.into_iter().filter(Result::is_err).count();
        assert_eq!(failed, 1);
    });
    assert_eq!(count_of(&pager, is_write), 3);
    assert_eq!(pager.stats().unsaved, 0);
}

// A page is written out while one thread waits to drop it and another to flush it, and is written to
// meanwhile. It is dropped next: no other write-out begins before.
#[test]
fn discard_is_before_the_next_write_out() {
    let _watch = Watch::over("discard_is_before_the_next_write_out", 120);
    for _ in 0..20 {
        let pager = pager(2);
        put(&pager, 3, 1, 0);
        let turns = Turns::of(&pager, is_write);
        thread::scope(|threads| {
            threads.spawn(|| {
                pager.flush(3).unwrap();
                // Before the other threads are awake.
                pager.flush(3).unwrap();
            });
            turns.wait_for(1);
            put(&pager, 3, 2, 0);
            threads.spawn(|| pager.flush(3).unwrap());
            wait_for(&pager, 1);
            threads.spawn(|| assert!(pager.discard(3).unwrap()));
            wait_for(&pager, 2);
            turns.end_all();
        });
        assert_eq!(count_of(&pager, is_write), 1);
        assert!(!pager.is_resident(3));
    }
}

// Where a page that is to be dropped is pinned by then, flushes go on meanwhile.
#[test]
fn flush_beside_a_discard_that_waits_for_a_pin() {
    let _watch = Watch::over("flush_beside_a_discard_that_waits_for_a_pin", 60);
    let pager = pager(2);
    put(&pager, 3, 1, 0);
    let turns = Turns::of(&pager, is_write);
    thread::scope(|threads| {
        threads.spawn(|| pager.flush(3).unwrap());
        turns.wait_for(1);
        let discard = threads.spawn(|| pager.discard(3).unwrap());
        wait_for(&pager, 1);
        put(&pager, 3, 2, 0);
        let pin = pager.pin(3).unwrap();
        let flush = threads.spawn(|| pager.flush(3).unwrap());
        wait_for(&pager, 2);
        turns.end_all();
        flush.join().unwrap();
        assert!(!discard.is_finished());
        drop(pin);
        assert!(discard.join().unwrap());
    });
    assert_eq!(count_of(&pager, is_write), 2);
}

fn is_sync(asked: Asked) -> bool {
    asked == Asked::Sync
}

// Syncs wait for the one that is under way, which began before them. The next one serves all of them.
#[test]
fn syncs_that_wait_share_one() {
    let _watch = Watch::over("syncs_that_wait_share_one", 60);
    let pager = pager(2);
    let turns = Turns::of(&pager, is_sync);
    thread::scope(|threads| {
        let first = threads.spawn(|| pager.sync().unwrap());
        turns.wait_for(1);
        let others: Vec<_> = (0..64)
            .map(|_| threads.spawn(|| pager.checkpoint().unwrap()))
            .collect();
        wait_for(&pager, 64);
        turns.end_one();
        assert_eq!(first.join().unwrap(), None);
        turns.wait_for(2);
        assert!(others.iter().all(|it| !it.is_finished()));
        turns.end_one();
        for other in others {
            assert_eq!(other.join().unwrap(), None);
        }
    });
    assert_eq!(count_of(&pager, is_sync), 2);
}

// What was written out since a sync began is kept by the next one.
#[test]
fn sync_after_one_that_began_before() {
    let _watch = Watch::over("sync_after_one_that_began_before", 60);
    let pager = pager(2);
    put(&pager, 3, 1, 0);
    let turns = Turns::of(&pager, is_sync);
    thread::scope(|threads| {
        threads.spawn(|| pager.sync().unwrap());
        turns.wait_for(1);
        threads.spawn(|| pager.checkpoint().unwrap());
        wait_for(&pager, 1);
        turns.end_all();
    });
    let asked = [
        Asked::Read(3),
        Asked::Sync,
        Asked::Write(3, 1, 0),
        Asked::Sync,
    ];
    assert_eq!(pager.io().asked(), asked);
}

// A sync that fails is told to all that it would have served, and the device is synced no more.
#[test]
fn failed_sync_that_serves_many() {
    let _watch = Watch::over("failed_sync_that_serves_many", 60);
    let pager = pager(2);
    let turns = Arc::new(Turns::default());
    let (device, syncs) = (Arc::clone(&turns), AtomicUsize::new(0));
    pager.io().ends_as(move |asked| {
        if !is_sync(asked) {
            return Ok(());
        }
        device.pass();
        match syncs.fetch_add(1, Ordering::Relaxed) {
            0 => Ok(()),
            _ => Err(fault()),
        }
    });
    thread::scope(|threads| {
        let first = threads.spawn(|| pager.sync());
        turns.wait_for(1);
        let others: Vec<_> = (0..8).map(|_| threads.spawn(|| pager.sync())).collect();
        wait_for(&pager, 8);
        turns.end_all();
        assert!(first.join().unwrap().is_ok());
        let told = others.into_iter().map(|it| it.join().unwrap().unwrap_err());
        let (own, before): (Vec<_>, Vec<_>) =
            told.partition(|it| matches!(it, PagerError::Sync { .. }));
        assert_eq!(own.len(), 1);
        let is_before = |it: &PagerError| matches!(it, PagerError::SyncFailedBefore);
        assert!(before.iter().all(is_before));
    });
    assert_eq!(count_of(&pager, is_sync), 2);
}

// A checkpoint of twelve pages whose log ends before them asks it for all of them, and for the least: not for each.
#[test]
fn log_that_ends_early_is_not_asked_for_each_page() {
    let pager = Pager::new(&config(16), Device::default()).unwrap();
    (0..12).for_each(|page| put(&pager, page, 1, 20 - page));
    pager.io().ends_as(|asked| match asked {
        Asked::Log(_) => Err(not_yet()),
        _ => Ok(()),
    });
    pager.io().asked();
    let calls: [Call; 3] = [
        |it| it.checkpoint().map(drop),
        |it| it.flush_before(100),
        |it| it.flush_pages(&(0..12).collect::<Vec<_>>()),
    ];
    for call in calls {
        let told = call(&pager).unwrap_err();
        assert!(matches!(told, PagerError::LogNotYet { lsn: 20 }));
        assert_eq!(pager.io().asked(), [Asked::Log(20), Asked::Log(9)]);
    }
    // What is durable goes out all the same.
    pager.mark(12);
    assert!(pager.checkpoint().is_err());
    let written = (8..12).map(|page| Asked::Write(page, 1, 20 - page));
    let asked = [Asked::Log(20), Asked::Log(13)].into_iter().chain(written);
    assert_eq!(pager.io().asked(), asked.collect::<Vec<_>>());
    pager.io().ends_as(|_| Ok(()));
    assert_eq!(pager.checkpoint().unwrap(), None);
}
