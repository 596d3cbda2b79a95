//! With a correlated period the passes of pages stay out that nobody uses: these count as unpinned,
//! and make way all the same.
use crate::device::{Asked, Device, PAGES, Watch, config, put};
use hojzmated::Pager;
use std::mem::forget;
use std::panic::{AssertUnwindSafe, catch_unwind};
use std::sync::atomic::{AtomicU64, Ordering};
use std::thread;

fn pager(frames: usize, correlated: u64) -> Pager<Device> {
    let config = config(frames).with_correlated(correlated);
    Pager::new(&config, Device::default()).unwrap()
}

/// Looks at pages in turn.
fn look(pager: &Pager<Device>, pages: &[u64]) {
    for page in pages {
        drop(pager.read(*page).unwrap());
    }
}

// Each page is found in its frame, so all passes stay out. None of the pages is old enough to make
// way, whatever the period is.
#[test]
fn all_frames_are_kept() {
    for correlated in [1, 4, 1_000, 1 << 60] {
        let pager = pager(4, correlated);
        look(&pager, &[0, 1, 2, 3, 0, 1, 2, 3, 3, 2, 1, 0]);
        let stats = pager.stats();
        assert_eq!((stats.pinned, stats.resident, stats.totals.hits), (0, 4, 8));
        for page in 4..PAGES {
            assert!(pager.try_read(page).unwrap().is_some());
        }
        let stats = pager.stats();
        assert_eq!((stats.totals.hits, stats.totals.faults), (8, PAGES));
        assert_eq!((stats.pinned, stats.waits), (0, 0));
    }
}

// Looks that the pool was not asked for count, before and after they are told to it.
#[test]
fn each_look_is_a_hit() {
    let pager = pager(2, 1);
    look(&pager, &[1; 101]);
    assert_eq!(pager.stats().totals.hits, 100);
    look(&pager, &[2, 3, 4]);
    let totals = pager.stats().totals;
    assert_eq!((totals.hits, totals.faults), (100, 4));
    put(&pager, 4, 7, 1);
    for _ in 0..99 {
        put(&pager, 4, 8, 1);
        drop(pager.pin(4).unwrap());
    }
    assert_eq!(pager.stats().totals.hits, 100 + 199);
}

// A page that is used many times in a row came once, and makes way; one that was used twice, with
// others between, came twice, and stays.
#[test]
fn uses_in_a_row_are_one_reference() {
    let pager = pager(4, 2);
    look(&pager, &[1, 2, 3, 1]);
    look(&pager, &[9; 20]);
    assert!(pager.is_resident(1) && pager.is_resident(9));
    look(&pager, &[5, 6, 7, 8, 10, 11]);
    assert!(pager.is_resident(1) && !pager.is_resident(9));
}

// A page that is used between all the reads of others is not read again.
#[test]
fn page_in_use_stays() {
    for correlated in 1..6 {
        let pager = pager(6, correlated);
        for page in 1..PAGES {
            look(&pager, &[0, page, 0]);
        }
        let asked = pager.io().asked();
        assert_eq!(asked.iter().filter(|it| **it == Asked::Read(0)).count(), 1);
    }
}

// A page whose pass stays out is written out and cleaned as others are.
#[test]
fn kept_page_goes_out() {
    let pager = pager(3, 4);
    for page in [1, 2] {
        put(&pager, page, 7, 0);
        put(&pager, page, 8, 0);
    }
    pager.io().asked();
    pager.flush(1).unwrap();
    assert_eq!(pager.clean(9).unwrap(), 1);
    let asked = [Asked::Write(1, 8, 0), Asked::Write(2, 8, 0)];
    assert_eq!(pager.io().asked(), asked);
}

// Threads add to counters in pages by all kinds of guards, with fewer frames than pages and with
// enough. Nothing is lost, no look finds half of a change, and all get through.
#[test]
fn counters_of_many_threads() {
    let _watch = Watch::over("counters_of_many_threads", 300);
    for (frames, pages) in [(3, 8), (8, 8), (4, 1), (5, 16)] {
        let (pager, added) = (pager(frames, 2), AtomicU64::new(0));
        let work = |thread: u64| {
            for turn in 0..400 {
                let page = (turn * 7 + thread * 3) % pages;
                let add = |mut it: hojzmated::PageMut<'_>| {
                    let count = it.bytes()[0].wrapping_add(1);
                    it.put(0, &[count], 0).unwrap();
                    it.put(8, &[count], 0).unwrap();
                    added.fetch_add(1, Ordering::Relaxed);
                };
                match turn % 5 {
                    0 => add(pager.write(page).unwrap()),
                    1 => add(pager.pin(page).unwrap().write()),
                    2 => pager
                        .try_write(page)
                        .ok()
                        .flatten()
                        .into_iter()
                        .for_each(add),
                    3 => {
                        let it = pager.read(page).unwrap();
                        assert_eq!(it[0], it[8]);
                    }
                    _ => {
                        let pin = pager.pin(page).unwrap();
                        let it = pin.read();
                        assert_eq!(it[0], it[8]);
                    }
                }
            }
        };
        thread::scope(|threads| {
            for thread in 0..6 {
                let work = &work;
                threads.spawn(move || work(thread));
            }
        });
        assert_eq!(pager.stats().pinned, 0);
        let counts = (0..pages).map(|page| u64::from(pager.read(page).unwrap()[0]));
        let sum = added.load(Ordering::Relaxed);
        assert_eq!(counts.sum::<u64>() % 256, sum % 256);
    }
}

// Half a million guards of a page are out for ever. One more is none, and the page stays.
#[test]
fn too_many_guards() {
    let more = |pager: &Pager<Device>, make: &dyn Fn()| {
        for _ in 0..1 << 19 {
            make();
        }
        assert!(catch_unwind(AssertUnwindSafe(make)).is_err());
        assert!(pager.try_read(4).is_ok() && pager.try_read(5).is_ok());
        assert!(pager.is_resident(3));
        assert_eq!(pager.stats().pinned, 1);
    };
    let (first, second) = (pager(2, 0), pager(2, 4));
    more(&first, &|| forget(first.pin(3).unwrap()));
    more(&second, &|| forget(second.read(3).unwrap()));
}
