//! Pages that are temporary, and puts without a record.
use crate::device::{Asked, Device, Fate, PAGES, SIZE, config, pager, put};
use hojzmated::{Error, Pager};
use std::ops::Range;

fn pager_with(temporary: Range<u64>, parts: usize, frames: usize) -> Pager<Device> {
    let config = config(frames).with_parts(parts).with_temporary(temporary);
    Pager::new(&config, Device::default()).unwrap()
}

/// The pages that are on the device with what was put into them: their number and one.
fn on_device(pager: &Pager<Device>) -> Vec<u64> {
    let pages = pager.io().pages.lock().unwrap();
    (0..PAGES)
        .filter(|page| pages[*page as usize][0] > 0)
        .collect()
}

// ---- Temporary pages

// A checkpoint, and what tells of it, leaves them alone.
#[test]
fn checkpoint_without_temporary_pages() {
    let pager = pager_with(4..9, 3, 24);
    for (page, lsn) in [(1, 5), (12, 6)] {
        put(&pager, page, 1, lsn);
    }
    (4..9).for_each(|page| put(&pager, page, 1, 3));
    pager.io().asked();
    assert_eq!((pager.redo_from(), pager.stats().unsaved), (Some(5), 7));
    let unsaved = pager.unsaved().unwrap();
    assert!(unsaved.iter().map(|it| it.page).eq([1, 12]));
    pager.flush_before(6).unwrap();
    assert_eq!(pager.redo_from(), Some(6));
    assert_eq!(pager.checkpoint().unwrap(), None);
    let asked = [
        Asked::Log(5),
        Asked::Write(1, 1, 5),
        Asked::Log(6),
        Asked::Write(12, 1, 6),
        Asked::Sync,
    ];
    assert_eq!(pager.io().asked(), asked);
    assert_eq!((pager.redo_from(), pager.stats().unsaved), (None, 5));
    pager.mark(9);
    assert_eq!(pager.clean(99).unwrap(), 0);
    // Who asks for one gets it written.
    pager.flush(4).unwrap();
    pager.flush_pages(&[7, 8]).unwrap();
    let asked = [4, 7, 8].map(|page| Asked::Write(page, 1, 0));
    assert_eq!(pager.io().asked(), asked);
}

// One makes way for another page without its log, and is temporary also when it is read again.
#[test]
fn temporary_page_makes_way() {
    let pager = pager_with(4..5, 1, 1);
    for byte in [7, 8] {
        put(&pager, 4, byte, 1_000);
        assert_eq!(pager.read(4).unwrap().lsn(), 0);
        assert_eq!(
            (pager.checkpoint().unwrap(), pager.stats().unsaved),
            (None, 1)
        );
        drop(pager.read(1).unwrap());
        let asked = [
            Asked::Read(4),
            Asked::Sync,
            Asked::Write(4, byte, 0),
            Asked::Read(1),
        ];
        assert_eq!(pager.io().asked(), asked);
    }
    assert_eq!(pager.read(4).unwrap()[0], 8);
}

// All ranges in one to four parts: a checkpoint writes out all other pages, and so does the cleaner.
#[test]
fn ranges_of_temporary_pages() {
    for parts in 1..5 {
        for first in 0..PAGES {
            for end in first..PAGES + 2 {
                let others = (0..PAGES).filter(|page| !(first..end).contains(page));
                let others: Vec<u64> = others.collect();
                let pager = pager_with(first..end, parts, 16 * parts);
                (0..PAGES).for_each(|page| put(&pager, page, 1, page + 1));
                assert_eq!(pager.redo_from(), others.first().map(|page| page + 1));
                pager.checkpoint().unwrap();
                assert_eq!(on_device(&pager), others, "{first}..{end} in {parts}");
                let pager = pager_with(first..end, parts, 16 * parts);
                (0..PAGES).for_each(|page| put(&pager, page, 1, 0));
                let cleaned = (0..9).map(|_| pager.clean(99).unwrap());
                assert_eq!(cleaned.sum::<usize>(), others.len());
                assert_eq!(on_device(&pager), others, "{first}..{end} in {parts}");
            }
        }
    }
}

// ---- Puts without a record

fn put_unlogged(pager: &Pager<Device>, page: u64, byte: u8, lsn: u64) {
    let mut page = pager.write(page).unwrap();
    page.put_unlogged(0, &[byte], lsn).unwrap();
}

// Redo begins at records alone. The log is durable up to the LSN before the page goes out.
#[test]
fn unlogged_pages_hold_no_redo_back() {
    let pager = pager(8);
    put_unlogged(&pager, 2, 20, 9);
    assert_eq!((pager.redo_from(), pager.stats().unsaved), (None, 1));
    put(&pager, 1, 10, 12);
    put(&pager, 3, 30, 14);
    assert_eq!(pager.redo_from(), Some(12));
    assert_eq!(pager.read(2).unwrap().lsn(), 9);
    pager.io().asked();
    pager.flush_before(13).unwrap();
    assert_eq!(
        pager.io().asked(),
        [Asked::Log(12), Asked::Write(1, 10, 12)]
    );
    pager.flush(2).unwrap();
    assert_eq!(pager.io().asked(), [Asked::Write(2, 20, 9)]);
    put_unlogged(&pager, 2, 21, 16);
    assert_eq!(pager.sync().unwrap(), Some(14));
    assert_eq!(pager.checkpoint().unwrap(), None);
    let asked = [
        Asked::Sync,
        Asked::Log(16),
        Asked::Write(2, 21, 16),
        Asked::Write(3, 30, 14),
        Asked::Sync,
    ];
    assert_eq!(pager.io().asked(), asked);
    assert_eq!(pager.stats().unsaved, 0);
}

// A page with both kinds of puts, in each order: redo begins at that with a record. It does so where the
// page could not be written out, and no more where it was.
#[test]
fn puts_of_both_kinds() {
    for is_first in [true, false] {
        let pager = pager(2);
        put(&pager, 1, 1, if is_first { 3 } else { 8 });
        put_unlogged(&pager, 1, 2, 5);
        put(&pager, 1, 3, if is_first { 8 } else { 3 });
        assert_eq!(pager.redo_from(), Some(3));
        pager.mark(8);
        pager.io().is_next(Fate::Fails);
        assert!(pager.flush(1).is_err());
        assert_eq!(pager.redo_from(), Some(3));
        pager.flush(1).unwrap();
        assert_eq!(pager.redo_from(), None);
        put(&pager, 1, 4, 7);
        assert_eq!(pager.redo_from(), Some(7));
        pager.flush(1).unwrap();
        put_unlogged(&pager, 1, 5, 2);
        put(&pager, 1, 6, 9);
        assert_eq!(pager.redo_from(), Some(9));
    }
}

#[test]
fn unlogged_bytes_out_of_the_page() {
    let pager = pager(2);
    let mut page = pager.write(1).unwrap();
    let told = page.put_unlogged(SIZE - 1, &[1, 2], 5);
    let (offset, len) = (SIZE - 1, 2);
    assert_eq!(told, Err(Error::OutOfPage { offset, len }));
    assert_eq!((page.bytes(), page.lsn()), (&[0; SIZE][..], 0));
    drop(page);
    assert_eq!((pager.redo_from(), pager.stats().unsaved), (None, 0));
}

// A page that is temporary and put without a record is temporary.
#[test]
fn unlogged_put_of_a_temporary_page() {
    let pager = pager_with(1..2, 1, 2);
    put_unlogged(&pager, 1, 7, 50);
    assert_eq!(pager.read(1).unwrap().lsn(), 0);
    put(&pager, 2, 7, 3);
    assert_eq!(pager.redo_from(), Some(3));
}
