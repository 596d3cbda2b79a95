//! Checkpoints, and pages that are written out before they have to make way.
use crate::device::{Asked, Device, Fate, Gate, Watch, config, pager, put, with_an_unsaved_page};
use hojzmated::Pager;
use std::sync::{Arc, Mutex};
use std::thread;
use std::time::{Duration, Instant};

type Shared = Arc<Pager<Device>>;

/// A pager whose device does something with it within each request.
fn pager_with_work(frames: usize, work: fn(&Pager<Device>, Asked)) -> Shared {
    Arc::new_cyclic(|weak| {
        let pager = pager(frames);
        let weak = weak.clone();
        pager.io().within(move |asked| {
            if let Some(pager) = weak.upgrade() {
                work(&pager, asked);
            }
        });
        pager
    })
}

// ---- Checkpoints

// Pages of several parts go out in the order of the file, and then the device is asked once to keep
// them.
#[test]
fn checkpoint_in_the_order_of_the_file() {
    let config = config(12).with_parts(3);
    let pager = Pager::new(&config, Device::default()).unwrap();
    for (page, lsn) in [(7, 1), (2, 3), (5, 2), (12, 0), (9, 4)] {
        put(&pager, page, page as u8 * 10, lsn);
    }
    drop(pager.read(4).unwrap());
    pager.mark(4);
    pager.io().asked();
    assert_eq!(pager.redo_from(), Some(1));
    assert_eq!(pager.checkpoint().unwrap(), None);
    let asked = [
        Asked::Write(2, 20, 3),
        Asked::Write(5, 50, 2),
        Asked::Write(7, 70, 1),
        Asked::Write(9, 90, 4),
        Asked::Write(12, 120, 0),
        Asked::Sync,
    ];
    assert_eq!(pager.io().asked(), asked);
    assert_eq!(pager.checkpoint().unwrap(), None);
    assert_eq!(pager.io().asked(), [Asked::Sync]);
}

// While page 1 goes out, page 2 is written to, and page 1 once more. Redo begins at the less of both
// writes, and not at the write that is in the image.
#[test]
fn checkpoint_counts_what_is_written_meanwhile() {
    let pager = pager_with_work(4, |pager, asked| {
        if asked == Asked::Write(1, 9, 5) {
            put(pager, 2, 20, 8);
            put(pager, 1, 10, 7);
            put(pager, 3, 30, 0);
        }
    });
    put(&pager, 1, 9, 5);
    assert_eq!(pager.checkpoint().unwrap(), Some(7));
    let asked = pager.io().asked();
    assert_eq!(asked[asked.len() - 2..], [Asked::Read(3), Asked::Sync]);
    assert_eq!((pager.stats().unsaved, pager.redo_from()), (3, Some(7)));
    // At the next one all go out. The log is asked for once.
    assert_eq!(pager.checkpoint().unwrap(), None);
    let asked = [
        Asked::Log(8),
        Asked::Write(1, 10, 7),
        Asked::Write(2, 20, 8),
        Asked::Write(3, 30, 0),
        Asked::Sync,
    ];
    assert_eq!(pager.io().asked(), asked);
}

// What goes out, or is written, while the device is asked to keep what it has, is not kept by that.
#[test]
fn checkpoint_counts_what_goes_out_during_its_sync() {
    let pager = pager_with_work(2, |pager, asked| {
        if asked == Asked::Sync {
            pager.flush(1).unwrap();
        }
        if asked == Asked::Write(2, 20, 6) {
            put(pager, 1, 10, 7);
        }
    });
    put(&pager, 2, 20, 6);
    assert_eq!(pager.checkpoint().unwrap(), Some(7));
    assert_eq!((pager.stats().unsaved, pager.redo_from()), (0, None));
    assert_eq!(pager.checkpoint().unwrap(), None);
}

// Another thread has page 1 on its way out. The checkpoint waits for it, and does not write it once
// more.
#[test]
fn checkpoint_waits_for_a_write_out() {
    let pager = with_an_unsaved_page(2);
    pager.mark(5);
    let gate = Arc::new(Gate::default());
    let device = Arc::clone(&gate);
    pager.io().within(move |asked| {
        if matches!(asked, Asked::Write(..)) {
            device.pass();
        }
    });
    thread::scope(|threads| {
        threads.spawn(|| pager.flush(1).unwrap());
        gate.wait_for(1);
        assert_eq!((pager.stats().unsaved, pager.redo_from()), (1, Some(5)));
        let checkpoint = threads.spawn(|| pager.checkpoint().unwrap());
        while pager.stats().waits == 0 {
            thread::yield_now();
        }
        assert!(!checkpoint.is_finished());
        gate.open();
    });
    assert_eq!(pager.io().asked(), [Asked::Write(1, 9, 5), Asked::Sync]);
}

// Under one exclusive latch two halves of a page are written, and between them another thread flushes
// it. The image has both or none.
#[test]
fn flush_between_two_writes() {
    let pager = pager(2);
    let mut page = pager.write(1).unwrap();
    thread::scope(|threads| {
        page.put(0, &[7; 8], 1).unwrap();
        let flush = threads.spawn(|| pager.flush(1).unwrap());
        while pager.stats().waits == 0 {
            thread::yield_now();
        }
        page.put(8, &[7; 8], 2).unwrap();
        assert!(!flush.is_finished());
        drop(page);
    });
    assert_eq!(pager.io().pages.lock().unwrap()[1], [7; 16]);
    let asked = [Asked::Read(1), Asked::Log(2), Asked::Write(1, 7, 2)];
    assert_eq!(pager.io().asked(), asked);
}

// The same where the latch was taken by a pin, which stays.
#[test]
fn flush_between_two_writes_by_a_pin() {
    let pager = pager(2);
    let pin = pager.pin(1).unwrap();
    let mut page = pin.write();
    thread::scope(|threads| {
        page.put(0, &[7; 8], 1).unwrap();
        threads.spawn(|| pager.flush(1).unwrap());
        while pager.stats().waits == 0 {
            thread::yield_now();
        }
        page.put(8, &[7; 8], 2).unwrap();
        drop(page);
    });
    assert_eq!(pager.io().pages.lock().unwrap()[1], [7; 16]);
}

// A page that others look at goes out meanwhile.
#[test]
fn flush_beside_a_look() {
    let pager = with_an_unsaved_page(2);
    let page = pager.read(1).unwrap();
    thread::scope(|threads| {
        threads.spawn(|| pager.flush(1).unwrap());
    });
    assert_eq!((page[0], pager.stats().unsaved), (9, 0));
}

// A change without a record is none that redo needs, on a page of its own and on one that has others.
#[test]
fn redo_beside_changes_without_a_record() {
    let pager = pager(4);
    put(&pager, 3, 30, 0);
    assert_eq!((pager.stats().unsaved, pager.redo_from()), (1, None));
    for (page, lsn) in [(1, 0), (1, 8), (2, 9), (1, 0)] {
        put(&pager, page, 10, lsn);
    }
    assert_eq!((pager.stats().unsaved, pager.redo_from()), (3, Some(8)));
    pager.flush(1).unwrap();
    assert_eq!(pager.redo_from(), Some(9));
    put(&pager, 1, 10, 0);
    pager.flush(2).unwrap();
    assert_eq!((pager.stats().unsaved, pager.redo_from()), (2, None));
    assert_eq!(pager.checkpoint().unwrap(), None);
}

// ---- Pages that are cleaned

// Page 1 has a record that is not durable, page 2 is pinned, page 3 is being written to.
#[test]
fn clean_leaves_what_is_in_use() {
    let pager = pager(6);
    for (page, lsn) in [(1, 9), (2, 1), (3, 2), (4, 3), (5, 0)] {
        put(&pager, page, page as u8 * 10, lsn);
    }
    pager.mark(8);
    pager.io().asked();
    let (pin, page) = (pager.pin(2).unwrap(), pager.write(3).unwrap());
    assert_eq!(pager.clean(9).unwrap(), 2);
    assert_eq!(
        pager.io().asked(),
        [Asked::Write(4, 40, 3), Asked::Write(5, 50, 0)]
    );
    assert_eq!(pager.clean(9).unwrap(), 0);
    drop((pin, page));
    pager.mark(9);
    assert_eq!(pager.clean(0).unwrap(), 0);
    assert_eq!(pager.clean(2).unwrap(), 2);
    assert_eq!(pager.clean(usize::MAX).unwrap(), 1);
    assert_eq!((pager.stats().unsaved, pager.io().asked().len()), (0, 3));
}

// Each part has its share of them.
#[test]
fn clean_of_many_parts() {
    let config = config(16).with_parts(4);
    let pager = Pager::new(&config, Device::default()).unwrap();
    (0..16).for_each(|page| put(&pager, page, 1, 0));
    assert_eq!(pager.clean(4).unwrap(), 4);
    let asked = pager.io().asked();
    let parts = asked[16..].iter().map(|asked| match asked {
        Asked::Write(page, ..) => page % 4,
        _ => panic!("{asked:?}"),
    });
    assert!(parts.eq(0..4));
    assert_eq!(pager.clean(99).unwrap(), 12);
}

/// Waits until so many pages are unsaved.
fn wait_for_dirty(pager: &Pager<Device>, count: usize) {
    let began = Instant::now();
    while pager.stats().unsaved != count {
        assert!(began.elapsed() < Duration::from_secs(30), "not cleaned");
        thread::yield_now();
    }
}

// It goes on after a device that fails and one that panics, and ends when it is dropped.
#[test]
fn cleaner() {
    let pager = Arc::new(with_an_unsaved_page(2));
    pager.io().is_next(Fate::Panics);
    pager.mark(5);
    let cleaner = pager.start_cleaner(4, Duration::from_micros(100)).unwrap();
    wait_for_dirty(&pager, 0);
    assert_eq!(pager.io().asked(), [Asked::Write(1, 9, 5); 2]);
    pager.io().is_next(Fate::Fails);
    put(&pager, 1, 8, 5);
    wait_for_dirty(&pager, 0);
    assert_eq!(pager.io().asked(), [Asked::Write(1, 8, 5); 2]);
    assert_eq!(pager.stats().totals.failed, 2);
    drop(cleaner);
    assert_eq!(Arc::strong_count(&pager), 1);
    let cleaner = pager.start_cleaner(4, Duration::from_secs(3600)).unwrap();
    drop(cleaner);
}

// The device drops the cleaner in the cleaner's own thread. The page that it writes goes out, and the thread ends.
#[test]
fn cleaner_dropped_in_its_own_thread() {
    let _watch = Watch::over("cleaner_dropped_in_its_own_thread", 60);
    let pager = Arc::new(pager(2));
    let kept = Arc::new(Mutex::new(None));
    let owner = Arc::clone(&kept);
    pager.io().within(move |asked| {
        if let Asked::Write(..) = asked {
            drop(owner.lock().unwrap().take());
        }
    });
    // The cleaner looks for pages again and again until one is unsaved.
    let cleaner = pager.start_cleaner(1, Duration::from_micros(100)).unwrap();
    *kept.lock().unwrap() = Some(cleaner);
    put(&pager, 3, 7, 0);
    while Arc::strong_count(&pager) > 1 {
        thread::yield_now();
    }
    assert!(kept.lock().unwrap().is_none());
    assert_eq!(pager.stats().unsaved, 0);
    assert_eq!(pager.io().pages.lock().unwrap()[3][0], 7);
}
