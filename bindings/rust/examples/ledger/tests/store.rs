//! What the cuts do not show, or seldom: the memory that commits take, threads beside splits, clears and
//! loads, and starts after a kill.
#[path = "cuts/disk.rs"]
mod disk;

use disk::device;
use hojzmated::PagerConfig;
use hojzmated_disk::{Disk, Fault};
use ledger::{Device, Error, Store};
use std::alloc::{GlobalAlloc, Layout, System};
use std::cell::Cell;
use std::os::unix::fs::FileExt;
use std::sync::atomic::{AtomicBool, Ordering};
use std::sync::{Arc, Mutex};
use std::{io, thread};

struct Counting;

thread_local! {
    static REQUESTS: Cell<u64> = const { Cell::new(0) };
}

// SAFETY: it is the system's allocator, of whose requests those of this thread are counted.
unsafe impl GlobalAlloc for Counting {
    unsafe fn alloc(&self, layout: Layout) -> *mut u8 {
        let _ = REQUESTS.try_with(|count| count.set(count.get() + 1));
        // SAFETY: the caller keeps to the same rules.
        unsafe { System.alloc(layout) }
    }

    unsafe fn dealloc(&self, pointer: *mut u8, layout: Layout) {
        // SAFETY: the caller keeps to the same rules.
        unsafe { System.dealloc(pointer, layout) }
    }

    unsafe fn realloc(&self, pointer: *mut u8, layout: Layout, size: usize) -> *mut u8 {
        let _ = REQUESTS.try_with(|count| count.set(count.get() + 1));
        // SAFETY: the caller keeps to the same rules.
        unsafe { System.realloc(pointer, layout, size) }
    }
}

#[global_allocator]
static ALLOCATOR: Counting = Counting;

/// A file in memory. Clones of it are the same file.
#[derive(Clone, Default)]
struct InMemory(Arc<Mutex<Vec<u8>>>);

impl FileExt for InMemory {
    fn read_at(&self, bytes: &mut [u8], offset: u64) -> io::Result<usize> {
        let end = offset as usize + bytes.len();
        bytes.copy_from_slice(&self.0.lock().unwrap()[offset as usize..end]);
        Ok(bytes.len())
    }

    fn write_at(&self, bytes: &[u8], offset: u64) -> io::Result<usize> {
        let (mut file, end) = (self.0.lock().unwrap(), offset as usize + bytes.len());
        let length = file.len().max(end);
        file.resize(length, 0);
        file[offset as usize..end].copy_from_slice(bytes);
        Ok(bytes.len())
    }
}

impl Device for InMemory {
    fn sync(&self) -> io::Result<()> {
        Ok(())
    }

    fn size(&self) -> io::Result<u64> {
        Ok(self.0.lock().unwrap().len() as u64)
    }
}

fn step(store: &Store, number: u64) {
    let (from, to) = (number * 7919 % 2_000, number * 104_729 % 2_000);
    let (_, lsn) = store
        .transact(|it| {
            for key in [from, to, 5_000] {
                let mut value = [0; 100];
                value.copy_from_slice(it.get(key)?.unwrap());
                value[0] = value[0].wrapping_add(1);
                it.put(key, &value)?;
            }
            Ok(())
        })
        .unwrap();
    assert!(store.look(from, |value| value.is_some()).unwrap());
    if number.is_multiple_of(3) {
        store.make_durable(lsn).unwrap();
    }
}

/// The page file and the log of a store of so many pages of 1,024 bytes.
fn files(pages: u64, log: u64) -> [InMemory; 2] {
    let files = <[InMemory; 2]>::default();
    Store::create(&files[0], &files[1], [pages, 1024, log]).unwrap();
    files
}

fn opened([pages, log]: &[InMemory; 2], frames: usize) -> Store {
    let settings = |pages, size| PagerConfig::new(pages, size, frames);
    let (pages, log) = (Box::new(pages.clone()), Box::new(log.clone()));
    Store::open(pages, log, settings).unwrap().0
}

#[test]
fn commits_and_look_ups_take_no_memory() {
    let store = opened(&files(500, 1 << 24), 500);
    let rows = (0..2_000).chain([5_000]).map(|key| (key, [7; 100]));
    store.load(rows).unwrap();
    (0..3_000).for_each(|number| step(&store, number));
    let before = REQUESTS.get();
    (3_000..6_000).for_each(|number| step(&store, number));
    assert_eq!(REQUESTS.get() - before, 0);
    store.verify().unwrap();
}

/// Threads put and delete keys of their own, in leaves that they share. Meanwhile the store is cleared and
/// loaded, and checkpoints are made: so pages are split, emptied, dropped and used again.
#[test]
fn a_store_is_cleared_and_loaded_beside_commits() {
    let store = &opened(&files(500, 1 << 18), 64);
    let has_ended = &AtomicBool::new(false);
    thread::scope(|scope| {
        for own in 0..3 {
            scope.spawn(move || {
                for number in 0.. {
                    let key = number * 37 % 300 * 3 + own;
                    let mut it = store.begin();
                    match number / 300 % 2 {
                        0 => it.put(key, &[own as u8; 200]).unwrap(),
                        _ => it.delete(key),
                    }
                    it.commit().unwrap();
                    let is_own =
                        |value: Option<&[u8]>| value.is_none_or(|it| it == [own as u8; 200]);
                    assert!(store.look(key, is_own).unwrap());
                    if has_ended.load(Ordering::Relaxed) {
                        break;
                    }
                }
            });
        }
        for _ in 0..60 {
            store.clear().unwrap();
            match store.load((0..300).map(|key| (key, [(key % 3) as u8; 200]))) {
                Ok(()) | Err(Error::NoRoom("the store is not empty")) => {}
                Err(why) => panic!("{why}"),
            }
            store.checkpoint().unwrap();
        }
        has_ended.store(true, Ordering::Relaxed);
    });
    store.verify().unwrap();
    store.clear().unwrap();
    assert!(store.verify().unwrap().ends_with("498 free pages"));
}

/// What a start takes for free is what was free before it, in trees of one, two and three levels.
#[test]
fn a_start_finds_the_free_pages() {
    let files = files(9_000, 1 << 20);
    for rows in [0, 5, 300, 10_000] {
        let before = {
            let store = opened(&files, 200);
            store.load((0..rows).map(|key| (key, [1; 100]))).unwrap();
            for key in 0..rows / 2 {
                let mut it = store.begin();
                it.delete(key);
                it.put(key + rows, &[2; 200]).unwrap();
                it.commit().unwrap();
            }
            store.checkpoint().unwrap();
            store.verify().unwrap()
        };
        assert!(before.starts_with(&format!("{rows} keys in ")));
        let store = opened(&files, 200);
        assert_eq!(store.verify().unwrap(), before);
        store.clear().unwrap();
        let all = "0 keys in 1 leaves under 0 nodes, 8998 free pages";
        assert_eq!(store.verify().unwrap(), all);
    }
}

/// Threads look for rows that are always there, while others put rows beside them and take them out
/// again: so leaves are split, and emptied.
#[test]
fn rows_are_found_beside_splits() {
    let store = &opened(&files(500, 1 << 20), 400);
    let (rows, has_ended) = (40, &AtomicBool::new(false));
    store.load((0..rows).map(|at| (at * 10, [1; 100]))).unwrap();
    thread::scope(|scope| {
        let change = move |own: u64| {
            for turn in 0..2_000 {
                let first = (turn * 7 + own) % rows * 10;
                let mut it = store.begin();
                for key in first + 1..first + 7 {
                    match turn / rows % 2 {
                        0 => it.put(key, &[2; 200]).unwrap(),
                        _ => it.delete(key),
                    }
                }
                it.commit().unwrap();
            }
        };
        let look = |own: u64| {
            for turn in (own..).take_while(|_| !has_ended.load(Ordering::Relaxed)) {
                let key = turn * 7 % rows * 10;
                assert!(store.look(key, |value| value.is_some()).unwrap());
                let found = store.scan(key, 20).unwrap();
                let kept = found.iter().filter(|it| it.0 % 10 == 0).map(|it| it.0);
                let last = found.last().unwrap().0;
                assert!(kept.eq((key..=last).step_by(10)));
            }
        };
        scope.spawn(move || look(0));
        scope.spawn(move || look(3));
        let changing = [0, 20].map(|own| scope.spawn(move || change(own)));
        let done = changing.map(|it| it.join());
        has_ended.store(true, Ordering::Relaxed);
        assert!(done.iter().all(Result::is_ok));
    });
    store.verify().unwrap();
}

fn opened_on(disk: &Disk) -> ledger::Result<Store> {
    let settings = |pages, size| PagerConfig::new(pages, size, 64);
    let opened = Store::open(device(disk, "pages"), device(disk, "log"), settings);
    opened.map(|it| it.0)
}

/// A process is killed, of whose transactions none was kept for sure. Then the power fails at each request
/// of the next start, which could read them. There are as many as there are, from the first on.
#[test]
fn the_power_fails_in_a_start_after_a_kill() {
    const ROWS: u64 = 30;
    for cut in 1.. {
        let disk = Disk::new(cut);
        let (pages, log) = (device(&disk, "pages"), device(&disk, "log"));
        Store::create(&*pages, &*log, [100, 1024, 100_000]).unwrap();
        let store = opened_on(&disk).unwrap();
        store
            .load((0..4 * ROWS).map(|key| (key, [1; 200])))
            .unwrap();
        store.checkpoint().unwrap();
        // Each is of another leaf.
        for row in 0..ROWS {
            let mut it = store.begin();
            it.put(4 * row, &[2; 200]).unwrap();
            it.commit().unwrap();
        }
        drop(store);
        disk.set_fault(Some(Fault::Cut(cut)));
        let started = opened_on(&disk);
        if !disk.is_off() {
            started.unwrap();
            assert!(cut > 4 * ROWS, "{cut}");
            break;
        }
        disk.lose_power();
        disk.set_fault(None);
        let store = opened_on(&disk).unwrap();
        store.verify().unwrap();
        let is_made = |row: u64| store.get(4 * row).unwrap() == Some(vec![2; 200]);
        let made = (0..ROWS).take_while(|row| is_made(*row)).count() as u64;
        assert!((made..ROWS).all(|row| !is_made(row)), "at cut {cut}");
    }
}

/// The sync of a commit fails, and the process ends. Then the power fails at each request of the next start, which
/// finds the record in the system's memory, where no later sync keeps it.
#[test]
fn the_power_fails_in_a_start_after_a_sync_that_failed() {
    for seed in 0..8 {
        let count = (1..).take_while(|cut| is_cut_in_a_start(1_000 * seed + cut, *cut));
        assert!(count.count() > 5);
    }
}

/// Whether the start had so many requests. If so, all rows are there after it was cut.
fn is_cut_in_a_start(seed: u64, cut: u64) -> bool {
    const ROWS: u64 = 100;
    let disk = Disk::new(seed);
    let (pages, log) = (device(&disk, "pages"), device(&disk, "log"));
    Store::create(&*pages, &*log, [60, 1024, 80_000]).unwrap();
    let store = opened_on(&disk).unwrap();
    let put = |key, byte| {
        let ((), lsn) = store.transact(|it| it.put(key, &[byte; 100])).unwrap();
        store.make_durable(lsn)
    };
    for key in 0..ROWS {
        put(key, 1).unwrap();
    }
    for _ in 0..3 {
        store.checkpoint().unwrap();
    }
    disk.set_fault(Some(Fault::Sync(1)));
    put(ROWS / 2, 2).unwrap_err();
    drop(store);
    disk.restart();
    disk.set_fault(Some(Fault::Cut(cut)));
    let started = opened_on(&disk);
    if !disk.is_off() {
        started.unwrap();
        return false;
    }
    disk.lose_power();
    disk.set_fault(None);
    let store = opened_on(&disk).unwrap();
    for key in 0..ROWS {
        let found = store.get(key).unwrap();
        let is_later = key == ROWS / 2 && found == Some(vec![2; 100]);
        assert!(
            found == Some(vec![1; 100]) || is_later,
            "row {key} at cut {cut}"
        );
    }
    store.verify().unwrap();
    true
}
