//! Each call once where all goes well.
use crate::device::{Asked, Device, PAGES, SIZE, config, pager, put, with_an_unsaved_page};
use hojzmated::{Pager, PagerConfig, Totals};
use std::thread;
use std::time::Duration;

#[test]
fn page_is_read_and_written_to() {
    let pager = pager(2);
    let page = pager.read(3).unwrap();
    assert_eq!((page.page(), &*page), (3, &[0; SIZE][..]));
    drop(page);
    let mut page = pager.write(3).unwrap();
    page.put(1, &[7, 8], 5).unwrap();
    page.put(2, &[9], 6).unwrap();
    page.put(SIZE, &[], 6).unwrap();
    assert_eq!((page.page(), &page.bytes()[..4]), (3, &[0, 7, 9, 0][..]));
    drop(page);
    assert_eq!(pager.read(3).unwrap().as_ref()[..4], [0, 7, 9, 0]);
    assert_eq!(pager.io().asked(), [Asked::Read(3)]);
}

#[test]
fn calls_that_do_not_wait() {
    let pager = pager(2);
    let page = pager.try_read(3).unwrap().unwrap();
    assert_eq!((page.page(), page[0]), (3, 0));
    drop(page);
    let mut page = pager.try_write(3).unwrap().unwrap();
    page.put(0, &[7], 1).unwrap();
    drop(page);
    assert_eq!(pager.try_read(3).unwrap().unwrap()[0], 7);
    // A pin needs no latch.
    let page = pager.write(3).unwrap();
    assert_eq!(pager.try_pin(3).unwrap().page(), 3);
    drop(page);
    assert_eq!(pager.io().asked(), [Asked::Read(3)]);
}

// A pin has no latch: another thread writes to its page. It goes to a thread, and is used by several.
#[test]
fn pin() {
    let pager = pager(1);
    let pin = pager.pin(3).unwrap();
    assert_eq!((pin.page(), pager.stats().pinned), (3, 1));
    thread::scope(|threads| {
        threads.spawn(|| put(&pager, 3, 7, 1));
    });
    assert_eq!(pin.read()[0], 7);
    pin.write().put(0, &[8], 2).unwrap();
    assert_eq!(pin.try_read().unwrap()[0], 8);
    pin.try_write().unwrap().put(0, &[9], 3).unwrap();
    thread::scope(|threads| {
        for _ in 0..2 {
            threads.spawn(|| assert_eq!(pin.read()[0], 9));
        }
    });
    thread::scope(|threads| {
        threads.spawn(move || drop(pin));
    });
    assert_eq!(pager.stats().pinned, 0);
    assert_eq!(pager.io().asked(), [Asked::Read(3)]);
}

#[test]
fn new_page_is_not_read() {
    let pager = pager(1);
    pager.io().pages.lock().unwrap()[3] = [1; SIZE];
    let mut page = pager.new_page(3).unwrap();
    assert_eq!((page.page(), page.bytes()), (3, &[0; SIZE][..]));
    page.put(0, &[7], 1).unwrap();
    drop(page);
    // In its frame it is as it is there.
    assert_eq!(pager.new_page(3).unwrap().bytes()[..2], [7, 0]);
    assert_eq!(pager.io().asked(), []);
    // Another page makes way for one too, and the image of that is not its own.
    assert_eq!(pager.new_page(4).unwrap().bytes(), [0; SIZE]);
    assert_eq!(pager.io().asked(), [Asked::Log(1), Asked::Write(3, 7, 1)]);
    assert_eq!(pager.read(3).unwrap()[..2], [7, 0]);
    assert_eq!(pager.io().asked(), [Asked::Read(3)]);
}

#[test]
fn flush_writes_what_is_unsaved_once() {
    let pager = with_an_unsaved_page(2);
    pager.flush(1).unwrap();
    assert_eq!(pager.io().asked(), [Asked::Log(5), Asked::Write(1, 9, 5)]);
    pager.flush(1).unwrap();
    pager.flush(2).unwrap();
    assert_eq!(pager.io().asked(), []);
    // The log is durable as far as LSN 5, and is not asked for less.
    put(&pager, 1, 8, 4);
    pager.flush(1).unwrap();
    assert_eq!(pager.io().asked(), [Asked::Write(1, 8, 5)]);
}

#[test]
fn log_that_the_engine_made_durable() {
    let pager = with_an_unsaved_page(2);
    pager.mark(5);
    pager.mark(3);
    pager.flush(1).unwrap();
    assert_eq!(pager.io().asked(), [Asked::Write(1, 9, 5)]);
}

#[test]
fn pages_in_frames() {
    let pager = pager(2);
    for page in [1, 2, 3] {
        drop(pager.read(page).unwrap());
    }
    let found = [0, 1, 2, 3, PAGES].map(|page| pager.is_resident(page));
    assert_eq!(found, [false, false, true, true, false]);
}

#[test]
fn counts() {
    let pager = pager(2);
    assert_eq!((pager.stats().resident, pager.stats().unsaved), (0, 0));
    put(&pager, 1, 7, 1);
    let page = pager.read(1).unwrap();
    let other = pager.read(1).unwrap();
    drop(pager.read(2).unwrap());
    drop(pager.read(3).unwrap());
    let stats = pager.stats();
    // The second pin of page 1 is counted once the page is unpinned.
    let mut totals = Totals::default();
    (totals.hits, totals.faults, totals.evictions) = (1, 3, 1);
    assert_eq!(stats.totals, totals);
    let few = (stats.resident, stats.pinned, stats.unsaved, stats.waits);
    assert_eq!(few, (2, 1, 1, 0));
    assert!(stats.memory >= 2 * SIZE);
    drop((page, other));
    pager.flush(1).unwrap();
    let stats = pager.stats();
    assert_eq!(
        (stats.totals.writes, stats.pinned, stats.unsaved),
        (1, 0, 0)
    );
    assert_eq!(stats.totals.hits, 2);
}

// All pins of a page share one pass. The page stays until the last of them is gone, whichever that
// is, and each was a hit.
#[test]
fn forty_pins_of_a_page() {
    let pager = pager(2);
    put(&pager, 1, 7, 1);
    let mut pins: Vec<_> = (0..40).map(|_| pager.pin(1).unwrap()).collect();
    assert_eq!((pager.stats().pinned, pins[39].page()), (1, 1));
    while let Some(pin) = pins.pop() {
        let other = 2 + pins.len() as u64 % 3;
        assert_eq!(pager.read(other).unwrap()[0], 0);
        assert_eq!(pin.read()[0], 7);
        assert!(pager.is_resident(1));
        pins.reverse();
    }
    let stats = pager.stats();
    assert_eq!((stats.pinned, stats.totals.hits), (0, 40));
    for page in [2, 3, 4, 2, 3, 4] {
        drop(pager.read(page).unwrap());
    }
    assert!(!pager.is_resident(1));
    assert_eq!(pager.read(1).unwrap()[0], 7);
}

// Page p is in part p mod parts, by a shift or by a division, and each page is its own.
#[test]
fn parts() {
    for parts in [1, 2, 3, 4, 7] {
        let config = config(7).with_parts(parts);
        let pager = Pager::new(&config, Device::default()).unwrap();
        assert_eq!(pager.config(), &config);
        for page in 0..PAGES {
            put(&pager, page, page as u8 + 1, page + 1);
        }
        for page in (0..PAGES).rev() {
            assert_eq!(pager.read(page).unwrap()[0], page as u8 + 1);
        }
        assert_eq!(pager.stats().resident, 7);
        assert_eq!(pager.checkpoint().unwrap(), None);
        let device = pager.into_io();
        let firsts = device.pages.lock().unwrap().map(|page| u64::from(page[0]));
        assert!(firsts.iter().eq(&(1..=PAGES).collect::<Vec<_>>()));
    }
}

// The defaults make a pager, whatever the pages and frames are.
#[test]
fn defaults() {
    for (pages, frames) in [(1, 1), (10, 1_000), (1_000, 1), (3, 64), (5_000, 5_000)] {
        let config = PagerConfig::new(pages, SIZE, frames);
        let made = Pager::new(&config, Device::default()).map(drop);
        assert_eq!(made, Ok(()), "{config:?}");
    }
    let given = PagerConfig::in_parts(100, 4096, 50, 7);
    assert_eq!(PagerConfig::new(100, 4096, 50).with_parts(7), given);
    let config = PagerConfig::new(100, 4096, 50);
    assert_eq!((config.parts, config.correlated, config.k), (1, 6, 2));
    assert_eq!(config.pin_wait, Duration::from_secs(10));
}

#[test]
fn shown() {
    let pager = pager(2);
    let shown = format!("{:?} {:?}", pager.read(1).unwrap(), pager.pin(2).unwrap());
    assert_eq!(shown, "PageRef { page: 1, .. } PagePin { page: 2, .. }");
    assert!(format!("{pager:?}").starts_with("Pager"));
}
