//! The page file and the log of the engine, and redo.
use crate::log::{Log, Puts, sum, word};
use crate::model::{Failure, Outcome};
use hojzmated::{LogFault, PageIo, PagerConfig, ReadFault};
use hojzmated_disk::DiskFile;
use std::collections::BTreeMap;
use std::io;
use std::ops::Range;
use std::os::unix::fs::FileExt;
use std::sync::Mutex;

/// A page on the device begins with its page LSN and a checksum. The rest is its body.
pub const BODY: usize = 16;

#[derive(Clone)]
pub struct Shape {
    pub pages: u64,
    pub size: usize,
    pub frames: usize,
    pub parts: usize,
    pub correlated: u64,
    pub temporary: Range<u64>,
    /// How many threads work, and each time with how many one of them flushes.
    pub threads: u64,
    /// Of the ways to write out what is old, this one is taken.
    pub way: u64,
}

pub struct Files {
    pub pages: DiskFile,
    pub log: Log,
    /// Whether a sync has failed. One is made at a time: what one that fails has lost, no other one that
    /// goes well brings back.
    pub has_failed: Mutex<bool>,
}

fn is_whole(page: u64, image: &[u8]) -> bool {
    word(image, 8) == sum(page ^ word(image, 0), &image[BODY..])
}

pub fn stamp(page: u64, image: &mut [u8], lsn: u64) {
    image[..8].copy_from_slice(&lsn.to_le_bytes());
    let sum = sum(page ^ lsn, &image[BODY..]);
    image[8..BODY].copy_from_slice(&sum.to_le_bytes());
}

impl Shape {
    pub fn config(&self) -> PagerConfig {
        PagerConfig::new(self.pages, self.size, self.frames)
            .with_parts(self.parts)
            .with_temporary(self.temporary.clone())
            .with_correlated(self.correlated)
    }
}

impl PageIo for Files {
    fn read_page(&self, page: u64, image: &mut [u8]) -> Result<(), ReadFault> {
        self.pages.read_exact_at(image, page * image.len() as u64)?;
        is_whole(page, image)
            .then_some(())
            .ok_or(ReadFault::WrongPage)
    }

    fn write_page(&self, page: u64, image: &mut [u8], lsn: u64) -> io::Result<()> {
        stamp(page, image, lsn.max(word(image, 0)));
        self.pages.write_all_at(image, page * image.len() as u64)
    }

    fn most_pages(&self) -> usize {
        4
    }

    fn make_log_durable(&self, lsn: u64) -> Result<(), LogFault> {
        Ok(self.log.make_durable(lsn)?)
    }

    fn sync(&self) -> io::Result<()> {
        let mut has_failed = self.has_failed.lock().unwrap();
        if *has_failed {
            return Err(io::Error::other("a sync has failed before"));
        }
        let synced = self.pages.sync_data();
        *has_failed = synced.is_err();
        synced
    }
}

/// Which life of the store it is, and from where redo has to begin: in the sector behind the last page.
#[derive(Clone, Copy)]
pub struct Head {
    pub life: u64,
    pub redo: u64,
}

impl Head {
    pub fn write(self, pages: &DiskFile, shape: &Shape) -> io::Result<()> {
        let words = [self.life, self.redo].map(u64::to_le_bytes).concat();
        let head = [&words[..], &sum(0, &words).to_le_bytes()].concat();
        pages.write_all_at(&head, shape.pages * shape.size as u64)
    }

    pub fn read(pages: &DiskFile, shape: &Shape) -> Outcome<Head> {
        let mut head = [0; 24];
        pages.read_exact_at(&mut head, shape.pages * shape.size as u64)?;
        let (life, redo) = (word(&head, 0), word(&head, 8));
        let is_good = word(&head, 16) == sum(0, &head[..16]);
        is_good
            .then_some(Head { life, redo })
            .ok_or_else(|| Failure::Wrong("no redo point".into()))
    }
}

/// Puts the records into the images of their pages. One that is torn, and has no record of all its bytes
/// yet, is none.
pub fn redo(
    pages: &DiskFile,
    shape: &Shape,
    records: &[(u64, Puts)],
) -> io::Result<BTreeMap<u64, Vec<u8>>> {
    let mut images: BTreeMap<u64, Option<Vec<u8>>> = BTreeMap::new();
    for (lsn, puts) in records {
        for (page, ranges) in puts {
            if !images.contains_key(page) {
                let mut image = vec![0; shape.size];
                pages.read_exact_at(&mut image, page * shape.size as u64)?;
                images.insert(*page, is_whole(*page, &image).then_some(image));
            }
            let image = images.get_mut(page).unwrap();
            if image.is_none() && ranges[0].1.len() == shape.size - BODY {
                *image = Some(vec![0; shape.size]);
            }
            if let Some(image) = image.as_mut().filter(|it| word(it, 0) < *lsn) {
                put(image, ranges);
                image[..8].copy_from_slice(&lsn.to_le_bytes());
            }
        }
    }
    Ok(images
        .into_iter()
        .filter_map(|(page, image)| Some((page, image?)))
        .collect())
}

pub fn put(image: &mut [u8], ranges: &[(usize, Vec<u8>)]) {
    ranges
        .iter()
        .for_each(|(at, bytes)| image[*at..at + bytes.len()].copy_from_slice(bytes));
}
