//! Pagers over page files: pages come back, and what is not the page that was written is told.
use crate::{Folder, Outcome};
use hojzmated::{
    Device, Error, FileOptions, FilePages, Layout, Log, LogFault, OpenError, Pager, PagerConfig,
    PagerError, ReadFault,
};
use std::fs::{File, read, remove_file, write};
use std::io::{self, ErrorKind};
use std::os::unix::fs::FileExt;
use std::path::Path;
use std::sync::{Arc, Mutex};

const SIZE: usize = 480;
const PAGES: u64 = 40;
const LAYOUTS: [(Layout, usize); 3] = [
    (Layout::Plain, 0),
    (Layout::Numbered, 16),
    (Layout::Checked, 32),
];

/// The log of a test, which notes what it was asked for, and how many pages had gone out then.
#[derive(Default)]
struct Noted(Mutex<Vec<u64>>);

impl Log for &Noted {
    fn make_durable(&self, lsn: u64) -> Result<(), LogFault> {
        self.0.lock().unwrap().push(lsn);
        Ok(())
    }
}

/// A log whose first sync fails. Later ones go well.
#[derive(Default)]
struct FailsOnce(Mutex<u32>);

impl Log for &FailsOnce {
    fn make_durable(&self, _lsn: u64) -> Result<(), LogFault> {
        let mut syncs = self.0.lock().unwrap();
        *syncs += 1;
        let synced = if *syncs > 1 {
            Ok(())
        } else {
            Err(ErrorKind::Other)
        };
        Ok(synced.map_err(io::Error::from)?)
    }
}

fn options(layout: Layout) -> FileOptions {
    FileOptions::new(SIZE).layout(layout).grown_to(PAGES)
}

/// Puts something into each page, under a record that has its number and 100.
fn fill<L: Log>(pages: FilePages, log: L) -> Outcome {
    let pager = Pager::new(&pages.config(16), pages.with_log(log))?;
    for page in 0..PAGES {
        let mut page = pager.write(page)?;
        let (number, lsn) = (page.page() as u8 + 1, page.page() + 100);
        page.edit(.., lsn, |bytes| bytes.fill(number))?;
    }
    Ok(pager.checkpoint().map(drop)?)
}

#[test]
fn pages_come_back() -> Outcome {
    for (layout, head) in LAYOUTS {
        let folder = Folder::new();
        let path = folder.join("pages");
        let log = Noted::default();
        fill(options(layout).create(&path)?, &log)?;
        assert_eq!(log.0.into_inner()?.iter().max(), Some(&(PAGES + 99)));
        let bytes = read(&path)?;
        let slots: Vec<_> = bytes.chunks(head + SIZE).collect();
        assert_eq!(slots.len(), PAGES as usize);
        for (page, slot) in (0..PAGES).zip(slots) {
            let numbers = [page, page + 100].map(u64::to_le_bytes);
            let shown = head.min(16);
            assert_eq!(slot[..shown], numbers.as_flattened()[..shown]);
            assert_eq!(slot[head..], [page as u8 + 1; SIZE]);
        }
        let pages = options(layout).read_only(true).open(&path)?;
        let mut image = [0; SIZE];
        for page in 0..PAGES {
            let lsn = pages.read_with_lsn(page, &mut image)?;
            let wanted = (head > 0).then_some(page + 100);
            assert_eq!((lsn, image), (wanted, [page as u8 + 1; SIZE]));
        }
        let pager = Pager::new(&pages.config(3), pages.without_log())?;
        for page in 0..PAGES {
            assert_eq!(*pager.read(page)?, [page as u8 + 1; SIZE]);
        }
    }
    Ok(())
}

/// No page goes to the file under a record that a sync of the log has lost.
#[test]
fn log_that_failed_stays_failed() -> Outcome {
    let (folder, log) = (Folder::new(), FailsOnce::default());
    let path = folder.join("pages");
    let pages = options(Layout::Checked).create(&path)?;
    let before = read(&path)?;
    let pager = Pager::new(&pages.config(4), pages.with_log(&log))?;
    pager.write(7)?.put(0, b"forty-two", 1)?;
    assert!(matches!(
        pager.checkpoint(),
        Err(PagerError::Log { lsn: 1, .. })
    ));
    for _ in 0..2 {
        assert!(matches!(pager.checkpoint(), Err(PagerError::LogLost)));
        assert!(matches!(pager.flush(7), Err(PagerError::LogLost)));
    }
    assert_eq!((pager.read(6)?[0], pager.stats().unsaved), (0, 1));
    assert_eq!(read(&path)?, before);
    assert_eq!(*log.0.lock().unwrap(), 1);
    Ok(())
}

/// Several pages side by side are read and written by one call, which comes to what single ones do.
#[test]
fn rows_of_pages() -> Outcome {
    for (layout, _) in LAYOUTS {
        let folder = Folder::new();
        let (one, other) = (folder.join("one"), folder.join("other"));
        let (by_row, by_page) = (
            options(layout).create(&one)?,
            options(layout).create(&other)?,
        );
        assert_eq!(by_row.most_pages(), 256);
        let mut images: Vec<u8> = (0..9 * SIZE).map(|at| (at / 7) as u8).collect();
        let lsns: Vec<u64> = (40..49).collect();
        by_row.write_pages(5, &mut images, &lsns)?;
        for ((page, image), lsn) in (5..).zip(images.chunks_mut(SIZE)).zip(&lsns) {
            by_page.write_page(page, image, *lsn)?;
        }
        assert_eq!(read(&one)?, read(&other)?);
        let mut found = vec![0; 10 * SIZE];
        by_page.read_pages(5, 10, &mut found)?;
        assert_eq!(found, [images, vec![0; SIZE]].concat());
        // What is beyond the end, or of another size, is neither read nor written.
        let before = read(&one)?;
        for (first, count) in [(PAGES, 1), (PAGES - 1, 2), (u64::MAX, 1)] {
            let mut images = vec![1; count * SIZE];
            let found = by_row.read_pages(first, count, &mut images);
            let Err(ReadFault::Device(error)) = found else {
                panic!("page {first}");
            };
            assert_eq!(error.kind(), ErrorKind::InvalidInput);
            let lsns = vec![0; count];
            let written = by_row.write_pages(first, &mut images, &lsns);
            assert_eq!(written.unwrap_err().kind(), ErrorKind::InvalidInput);
        }
        let written = by_row.write_page(1, &mut [0; SIZE + 16], 0);
        assert_eq!(written.unwrap_err().kind(), ErrorKind::InvalidInput);
        assert_eq!(read(&one)?, before);
    }
    Ok(())
}

/// A longest row is of a mebibyte, where pages are long.
#[test]
fn rows_of_long_pages() -> Outcome {
    let folder = Folder::new();
    let options = FileOptions::new(65_536).layout(Layout::Checked);
    let pages = options.grown_to(40).create(folder.join("pages"))?;
    assert_eq!(pages.most_pages(), 15);
    let pager = Pager::new(&pages.config(40), pages.without_log())?;
    for page in 0..40 {
        pager.write(page)?.put(65_535, &[page as u8 + 1], 0)?;
    }
    pager.checkpoint()?;
    let pages = pager.into_io().device;
    let mut images = vec![0; 15 * 65_536];
    for first in [0, 25] {
        pages.read_pages(first, 15, &mut images)?;
        let last = images.chunks(65_536).map(|image| u64::from(image[65_535]));
        assert!(last.eq(first + 1..first + 16));
    }
    Ok(())
}

/// Writes over some bytes of a page file, beside its lock.
fn spoil(path: &Path, at: usize, bytes: &[u8]) -> io::Result<()> {
    let file = File::options().write(true).open(path)?;
    file.write_all_at(bytes, at as u64)
}

/// How a page could not be read, in words of the test.
fn fault_of(error: &PagerError) -> (&str, u64) {
    assert_eq!(error.refusal(), Error::WrongPage);
    match error {
        PagerError::Spoilt { page } => ("spoilt", *page),
        PagerError::WrongPage { page } => ("another", *page),
        other => panic!("{other}"),
    }
}

#[test]
fn torn_and_misplaced_pages_are_told() -> Outcome {
    let folder = Folder::new();
    let path = folder.join("pages");
    let layout = Layout::Checked;
    fill(options(layout).create(&path)?, &Noted::default())?;
    let slot = layout.head() + SIZE;
    let before = read(&path)?;
    let of = |page: usize| &before[page * slot..][..slot];
    spoil(&path, 3 * slot + 300, b"x")?; // a byte of page 3
    spoil(&path, 5 * slot, of(6))?; // page 6 in the place of page 5
    spoil(&path, 9 * slot + 256, &vec![0; slot - 256])?; // a half of page 9 did not come
    spoil(&path, 11 * slot + 8, &[1])?; // the LSN of page 11
    spoil(&path, 13 * slot, &vec![0; slot])?; // page 13, as before its first write
    let wanted = [("spoilt", 3), ("another", 5), ("spoilt", 9), ("spoilt", 11)];
    let pages = options(layout).read_only(true).open(&path)?;
    let found: Vec<u64> = (0..PAGES)
        .filter(|page| pages.read_page(*page, &mut [0; SIZE]).is_err())
        .collect();
    assert_eq!(found, wanted.map(|(_, page)| page));
    let fault = pages.read_pages(2, 3, &mut vec![0; 3 * SIZE]);
    assert!(matches!(fault, Err(ReadFault::Spoilt)));
    let pager = Pager::new(&pages.config(16), pages.without_log())?;
    let own = Arc::new(pager);
    let readers = own.start_readers(1)?;
    own.prefetch(0..PAGES);
    let mut found = Vec::new();
    for page in 0..PAGES {
        match own.read(page) {
            Ok(bytes) if page == 13 => assert_eq!(*bytes, [0; SIZE]),
            Ok(bytes) => assert_eq!(*bytes, [page as u8 + 1; SIZE]),
            Err(error) => {
                let (how, page) = fault_of(&error);
                found.push((if how == "spoilt" { "spoilt" } else { "another" }, page));
            }
        }
    }
    drop(readers);
    assert_eq!(found, wanted);
    assert!(!own.is_resident(3) && own.stats().totals.failed >= 4);
    let error = own.read(3).unwrap_err();
    assert_eq!(error.to_string(), "page 3 is torn or spoilt");
    let pages = Arc::into_inner(own).ok_or("it is shared")?.into_io();
    let pager = Pager::new(&PagerConfig::new(PAGES, SIZE, 8), pages)?;
    for (how, page) in wanted {
        let error = pager.read(page).unwrap_err();
        assert_eq!(fault_of(&error), (how, page));
    }
    Ok(())
}

/// A new file of numbered pages has its number in each; a page without it is not taken for a page of zeros.
#[test]
fn numbered_pages_have_their_numbers() -> Outcome {
    let folder = Folder::new();
    let path = folder.join("pages");
    let layout = Layout::Numbered;
    let options = FileOptions::new(SIZE).layout(layout);
    options.grown_to(3).create(&path)?;
    options.grown_to(900).create(&path)?;
    let slots = (0..900_u64).flat_map(|page| {
        let number = page.to_le_bytes().into_iter();
        number.chain([0; SIZE + 8])
    });
    assert!(slots.eq(read(&path)?));
    File::options()
        .write(true)
        .open(&path)?
        .set_len(901 * 496)?;
    let pages = options.open(&path)?;
    let never = pages.read_page(900, &mut [0; SIZE]);
    assert!(matches!(never, Err(ReadFault::WrongPage)));
    let pager = Pager::new(&pages.config(4), pages.without_log())?;
    pager.new_page(900)?.put(0, b"new", 0)?;
    pager.checkpoint()?;
    let pages = pager.into_io().device;
    pages.read_page(900, &mut [0; SIZE])?;
    Ok(())
}

/// A pager with more numbers than the file has pages: these come as the file grows.
#[test]
fn a_file_grows_beside_its_pager() -> Outcome {
    for (layout, head) in LAYOUTS {
        let folder = Folder::new();
        let path = folder.join("pages");
        let options = FileOptions::new(SIZE).layout(layout);
        let pages = options.pages(0).create(&path)?;
        assert_eq!(pages.pages(), 0);
        pages.grow_to(4)?;
        let config = PagerConfig::new(PAGES, SIZE, 8);
        let pager = Pager::new(&config, pages.without_log())?;
        pager.write(3)?.put(0, b"three", 0)?;
        let error = pager.read(4).map(drop).unwrap_err();
        assert!(matches!(&error, PagerError::Read { page: 4, source }
            if source.kind() == ErrorKind::InvalidInput));
        pager.new_page(9)?.put(0, b"nine", 0)?;
        assert!(matches!(
            pager.checkpoint(),
            Err(PagerError::Write { page: 9, .. })
        ));
        let pages = &pager.io().device;
        for wanted in [12, 7, 12] {
            pages.grow_to(wanted)?;
            assert_eq!(pages.pages(), 12);
            assert_eq!(path.metadata()?.len(), 12 * (SIZE + head) as u64);
        }
        assert!(matches!(
            pages.grow_to(u64::MAX),
            Err(OpenError::BadGeometry)
        ));
        assert_eq!(*pager.read(4)?, [0; SIZE]);
        assert_eq!(
            (&pager.read(3)?[..5], &pager.read(9)?[..4]),
            (&b"three"[..], &b"nine"[..])
        );
        pager.checkpoint()?;
        drop(pager);
        let pages = options.read_only(true).open(&path)?;
        assert!(matches!(pages.grow_to(13), Err(OpenError::ReadOnly)));
        let mut image = [0; SIZE];
        pages.read_page(9, &mut image)?;
        assert_eq!(image[..4], *b"nine");
        pages.read_page(11, &mut image)?;
        assert_eq!(image, [0; SIZE]);
    }
    Ok(())
}

#[test]
fn what_is_read_alone_stays() -> Outcome {
    for (layout, _) in LAYOUTS {
        let folder = Folder::new();
        let path = folder.join("pages");
        fill(options(layout).create(&path)?, &Noted::default())?;
        let before = read(&path)?;
        let pages = FileOptions::new(SIZE)
            .layout(layout)
            .read_only(true)
            .open(&path)?;
        let config = pages.config(4).with_parts(1);
        let pager = Pager::new(&config, pages.without_log())?;
        assert_eq!(pager.checkpoint()?, None);
        pager.write(2)?.put(0, b"two", 0)?;
        let error = pager.flush(2).unwrap_err();
        assert!(matches!(&error, PagerError::Write { page: 2, source }
            if source.kind() == ErrorKind::PermissionDenied));
        assert_eq!(read(&path)?, before);
    }
    Ok(())
}

/// A log may also be shared, or chosen at run time, and so may the device.
#[test]
fn halves_behind_pointers() -> Outcome {
    let folder = Folder::new();
    let log = Noted::default();
    let pages = options(Layout::Plain).create(folder.join("pages"))?;
    let config = pages.config(4);
    let device: Box<dyn Device> = Box::new(Arc::new(pages));
    let log: Box<dyn Log + '_> = Box::new(&log);
    let pager = Pager::new(&config, (&device).with_log(&log))?;
    pager.write(1)?.put(0, b"one", 7)?;
    pager.flush(1)?;
    assert_eq!(config.pages, PAGES);
    assert_eq!(pager.io().device.most_pages(), 256);
    let mut image = [0; SIZE];
    device.read_page(1, &mut image)?;
    assert_eq!(image[..3], *b"one");
    Ok(())
}

// A growth writes the pages one after the other, each with its number. One that is killed leaves a file that
// ends with a part of the next page.
#[test]
fn growth_goes_on_after_a_kill() -> Outcome {
    let folder = Folder::new();
    let path = folder.join("pages");
    let options = FileOptions::new(SIZE).layout(Layout::Numbered);
    let slot = 16 + SIZE;
    for left in [1, 7, 8, 16, 17, slot - 1] {
        for pages in [0, 3] {
            let _ = remove_file(&path);
            options.grown_to(pages + 1).create(&path)?;
            let mut bytes = read(&path)?;
            bytes.truncate(pages as usize * slot + left);
            write(&path, &bytes)?;
            let error = options.pages(0).open(&path).unwrap_err();
            assert!(matches!(error, OpenError::BadLength { .. }), "{error}");
            let error = options.grown_to(9).read_only(true).open(&path).unwrap_err();
            assert!(matches!(error, OpenError::BadLength { .. }), "{error}");
            assert_eq!(read(&path)?, bytes);
            if pages > 0 {
                assert_eq!(options.grown_to(pages).open(&path)?.pages(), pages);
                assert_eq!(read(&path)?.len(), pages as usize * slot);
                write(&path, &bytes)?;
            }
            let grown = options.grown_to(9).open(&path)?;
            let mut image = vec![1; SIZE];
            for page in 0..9 {
                assert_eq!(grown.read_with_lsn(page, &mut image)?, Some(0));
                assert_eq!(image, vec![0; SIZE]);
            }
        }
    }
    Ok(())
}

// What no growth has left stays: another byte in the part, or another number in the page before it, as a
// file of another layout has there.
#[test]
fn other_ends_are_no_growth() -> Outcome {
    let folder = Folder::new();
    let path = folder.join("pages");
    let options = FileOptions::new(SIZE).layout(Layout::Numbered);
    let slot = 16 + SIZE;
    options.grown_to(4).create(&path)?;
    let mut whole = read(&path)?;
    whole.truncate(3 * slot + 20);
    for at in [2 * slot, 3 * slot, 3 * slot + 8, 3 * slot + 19] {
        let mut bytes = whole.clone();
        bytes[at] ^= 4;
        write(&path, &bytes)?;
        let error = options.grown_to(9).open(&path).unwrap_err();
        assert!(
            matches!(error, OpenError::BadLength { .. }),
            "{at}: {error}"
        );
        assert_eq!(read(&path)?, bytes);
    }
    Ok(())
}
