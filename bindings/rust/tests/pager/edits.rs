//! Changes in place, and puts of bytes that are those of the pool or not.
use crate::device::{Asked, Device, SIZE, config, pager};
use hojzmated::{Error, LogFault, Pager};
use std::cell::RefCell;
use std::ops::Bound;
use std::panic::{AssertUnwindSafe, catch_unwind};
use std::sync::Arc;
use std::thread;

/// A pager with pages of this size, and 16 frames in one part.
fn pager_of(page_size: usize) -> Pager<Whole> {
    let config = config(16).with_page_size(page_size);
    Pager::new(&config, Whole).unwrap()
}

/// A device whose pages have their number in each byte.
struct Whole;

impl hojzmated::PageIo for Whole {
    fn read_page(&self, page: u64, image: &mut [u8]) -> Result<(), hojzmated::ReadFault> {
        image.fill(page as u8);
        Ok(())
    }

    fn write_page(&self, _page: u64, _image: &mut [u8], _lsn: u64) -> std::io::Result<()> {
        Ok(())
    }

    fn make_log_durable(&self, _lsn: u64) -> Result<(), LogFault> {
        Ok(())
    }

    fn sync(&self) -> std::io::Result<()> {
        Ok(())
    }
}

/// Fills page 3 as its thread ends.
struct AtEnd(Arc<Pager<Whole>>);

impl Drop for AtEnd {
    fn drop(&mut self) {
        let mut page = self.0.write(3).unwrap();
        page.edit(.., 1, |bytes| bytes.fill(9)).unwrap();
    }
}

thread_local! {
    static AT_END: RefCell<Option<AtEnd>> = const { RefCell::new(None) };
}

// A thread changes a page by what it does at its end, when the memory that it kept for edits is gone.
#[test]
fn edit_at_the_end_of_a_thread() {
    let pager = Arc::new(pager_of(4096));
    let own = Arc::clone(&pager);
    let work = move || {
        AT_END.set(Some(AtEnd(Arc::clone(&own))));
        let mut page = own.write(2).unwrap();
        page.edit(.., 1, |bytes| bytes.fill(8)).unwrap();
    };
    thread::spawn(work).join().unwrap();
    assert_eq!(*pager.read(2).unwrap(), [8; 4096]);
    assert_eq!(*pager.read(3).unwrap(), [9; 4096]);
}

// The bytes of other pages, of one as a whole and of parts of it, and bytes of the engine's own: the
// page has what was put, and the others stay.
#[test]
fn bytes_of_other_pages_and_of_none() {
    for page_size in [16, 48, 80, 4096, 4112] {
        let pager = pager_of(page_size);
        let mut page = pager.write(0).unwrap();
        let mut wanted = vec![0; page_size];
        for number in 1..12 {
            let other = pager.read(number).unwrap();
            let at = number as usize;
            page.put(at, &other[..page_size - at], 1).unwrap();
            wanted[at..].fill(number as u8);
            assert_eq!(page.bytes(), wanted);
            let own = vec![number as u8 + 100; page_size];
            page.put(0, &own, 1).unwrap();
            wanted.fill(number as u8 + 100);
            assert_eq!(page.bytes(), wanted);
            page.put(0, &other, 1).unwrap();
            wanted.fill(number as u8);
            assert_eq!(page.bytes(), wanted);
            assert!(other.iter().all(|byte| *byte == number as u8));
        }
    }
}

// All kinds of ranges. What the function leaves is in the page, and what it returns is told.
#[test]
fn edit_of_ranges() {
    for page_size in [16, 4096] {
        let pager = pager_of(page_size);
        let mut page = pager.write(7).unwrap();
        let told = page.edit(.., 1, |bytes| {
            assert_eq!(bytes, vec![7; page_size]);
            bytes[page_size - 1] = 1;
            bytes.len()
        });
        assert_eq!(told, Ok(page_size));
        page.edit(3..5, 2, |bytes| bytes.copy_from_slice(&[3, 4]))
            .unwrap();
        page.edit(..=1, 3, |bytes| bytes.fill(9)).unwrap();
        page.edit(14.., 4, |bytes| bytes[0] = bytes[1] + 1).unwrap();
        assert_eq!(page.edit(2..2, 5, |bytes| bytes.is_empty()), Ok(true));
        let mut wanted = vec![7; page_size];
        wanted[page_size - 1] = 1;
        wanted[..5].copy_from_slice(&[9, 9, 7, 3, 4]);
        wanted[14] = wanted[15] + 1;
        assert_eq!(page.bytes(), wanted);
    }
}

// An edit is a write under its LSN, also where it changes nothing.
#[test]
fn edit_under_a_record() {
    let pager = pager(2);
    let mut page = pager.write(1).unwrap();
    page.edit(0..4, 9, |bytes| bytes.fill(5)).unwrap();
    page.edit(0..4, 12, |_| ()).unwrap();
    drop(page);
    assert_eq!(pager.redo_from(), Some(9));
    pager.flush(1).unwrap();
    let asked = [Asked::Read(1), Asked::Log(12), Asked::Write(1, 5, 12)];
    assert_eq!(pager.io().asked(), asked);
}

#[test]
fn edit_out_of_the_page() {
    let pager = pager(2);
    let mut page = pager.write(1).unwrap();
    let was_called = |_: &mut [u8]| panic!("it is not called");
    let beyond = |offset, len| Err(Error::OutOfPage { offset, len });
    let told = page.edit(0..SIZE + 1, 1, was_called);
    assert_eq!(told, beyond(0, SIZE + 1));
    let told = page.edit(SIZE - 1..=SIZE, 1, was_called);
    assert_eq!(told, beyond(SIZE - 1, 2));
    let told = page.edit(SIZE + 1.., 1, was_called);
    assert_eq!(told, beyond(SIZE + 1, usize::MAX));
    let told = page.edit(5..=usize::MAX, 1, was_called);
    assert_eq!(told, beyond(5, usize::MAX));
    #[allow(clippy::reversed_empty_ranges)]
    let reversed = 5..4;
    let told = page.edit(reversed, 1, was_called);
    assert_eq!(told, beyond(5, usize::MAX));
    let after_all = (Bound::Excluded(usize::MAX), Bound::Unbounded);
    let told = page.edit(after_all, 1, was_called);
    assert_eq!(told, beyond(usize::MAX, usize::MAX));
    assert_eq!(page.edit(SIZE.., 1, |bytes| bytes.len()), Ok(0));
}

// The page is as it was, and can be edited again.
#[test]
fn edit_that_panics() {
    for page_size in [16, 4096] {
        let pager = pager_of(page_size);
        let mut page = pager.write(7).unwrap();
        let edited = catch_unwind(AssertUnwindSafe(|| {
            page.edit(.., 1, |bytes| {
                bytes.fill(1);
                std::panic::resume_unwind(Box::new("half of a change"));
            })
        }));
        assert!(edited.is_err());
        assert!(page.bytes().iter().all(|byte| *byte == 7));
        page.edit(.., 1, |bytes| bytes.fill(2)).unwrap();
        assert!(page.bytes().iter().all(|byte| *byte == 2));
    }
}

// The function edits another page, and looks at a third one.
#[test]
fn edit_within_an_edit() {
    let pager = pager_of(4096);
    let mut page = pager.write(1).unwrap();
    page.edit(.., 1, |bytes| {
        let mut other = pager.write(2).unwrap();
        other
            .edit(.., 1, |others| {
                others.copy_from_slice(&pager.read(3).unwrap())
            })
            .unwrap();
        assert_eq!(bytes[0], 1);
        bytes.copy_from_slice(other.bytes());
    })
    .unwrap();
    assert!(page.bytes().iter().all(|byte| *byte == 3));
}

#[test]
fn many_puts_at_once() {
    let pager = pager(3);
    let other = pager.read(2).unwrap();
    let mut page = pager.write(1).unwrap();
    let own = [9; SIZE];
    let parts: [(usize, &[u8]); 4] = [
        (0, &own[..3]),
        (2, &[1, 2]),
        (SIZE - 1, &[5]),
        (8, &other[..2]),
    ];
    page.put_each(&parts, 6).unwrap();
    let mut wanted = [0; SIZE];
    wanted[..4].copy_from_slice(&[9, 9, 1, 2]);
    wanted[SIZE - 1] = 5;
    assert_eq!(page.bytes(), wanted);
    // One is not within the page: so none is put.
    for bad in [(SIZE, &own[..1]), (1, &own[..]), (usize::MAX, &own[..2])] {
        let told = page.put_each(&[(0, &[77]), bad, (1, &[77])], 8);
        let (offset, len) = (bad.0, bad.1.len());
        assert_eq!(told, Err(Error::OutOfPage { offset, len }));
    }
    page.put_each(&[], 8).unwrap();
    assert_eq!(page.bytes(), wanted);
    drop(page);
    pager.flush(1).unwrap();
    let asked = pager.io().asked();
    assert_eq!(asked[2..], [Asked::Log(6), Asked::Write(1, 9, 6)]);
}

// A thread that has its memory for an edit needs none any more, and other threads see all of an edit or
// nothing of it.
#[test]
fn edits_beside_looks() {
    let pager = Pager::new(&config(2), Device::default()).unwrap();
    std::thread::scope(|threads| {
        let edit = threads.spawn(|| {
            for turn in 0..2_000u32 {
                let mut page = pager.write(1).unwrap();
                page.edit(.., 0, |bytes| bytes.fill(turn as u8)).unwrap();
            }
        });
        while !edit.is_finished() {
            let page = pager.read(1).unwrap();
            assert!(page.iter().all(|byte| *byte == page[0]));
        }
    });
}
