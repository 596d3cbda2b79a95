//! `DiskFile`, and what of its bytes stays without power.
use crate::Disk;
use crate::random::Random;
use std::os::unix::fs::FileExt;
use std::{io, iter, mem};

/// The bytes that a disk keeps whole, unless it is [told otherwise](Disk::keep_whole): a write is torn between
/// two such sectors, and not within one.
pub const SECTOR: usize = 512;

/// A file of a [`Disk`], which is used as one of the system. Clones of it are the same file.
#[derive(Clone)]
pub struct DiskFile {
    pub(crate) disk: Disk,
    pub(crate) number: usize,
}

/// What a request changes.
#[derive(Clone)]
pub(crate) enum Change {
    Bytes(usize, Vec<u8>),
    Length(usize),
}

/// A file as reads see it, and as it is without power.
#[derive(Default)]
pub(crate) struct Content {
    pub(crate) seen: Vec<u8>,
    kept: Vec<u8>,
    /// What was changed and not synced, each with its number, and how many changes there were in all.
    waiting: Vec<(usize, Change)>,
    changes: usize,
}

impl Change {
    fn make(&self, bytes: &mut Vec<u8>) {
        match self {
            Change::Length(length) => bytes.resize(*length, 0),
            Change::Bytes(at, new) => {
                let end = at + new.len();
                bytes.resize(bytes.len().max(end), 0);
                bytes[*at..end].copy_from_slice(new);
            }
        }
    }

    /// The pieces that each come whole or not at all.
    fn sectors(&self, sector: usize) -> Vec<Change> {
        let Change::Bytes(at, bytes) = self else {
            return vec![self.clone()];
        };
        let (mut pieces, mut at, mut rest) = (Vec::new(), *at, &bytes[..]);
        while !rest.is_empty() {
            let (piece, more) = rest.split_at(rest.len().min(sector - at % sector));
            pieces.push(Change::Bytes(at, piece.to_vec()));
            (at, rest) = (at + piece.len(), more);
        }
        pieces
    }

    /// The first pieces of it: none, some or all.
    fn torn(&self, sector: usize, random: &mut Random) -> Vec<Change> {
        let mut pieces = self.sectors(sector);
        pieces.truncate(random.below(pieces.len() + 1));
        pieces
    }
}

impl Content {
    pub(crate) fn change(&mut self, change: Change) {
        change.make(&mut self.seen);
        self.waiting.push((self.changes, change));
        self.changes += 1;
    }

    /// A change that fails: some of it may have come.
    pub(crate) fn tear(&mut self, change: &Change, sector: usize, random: &mut Random) {
        for piece in change.torn(sector, random) {
            self.change(piece);
        }
    }

    /// How many changes there were.
    pub(crate) fn changes(&self) -> usize {
        self.changes
    }

    /// Keeps the first so many changes of all that there were, but for those that are lost.
    pub(crate) fn sync(&mut self, changes: usize) {
        let count = self.waiting.partition_point(|it| it.0 < changes);
        for (_, change) in self.waiting.drain(..count) {
            change.make(&mut self.kept);
        }
    }

    /// A sync of the first so many changes that fails: half of them are seen, and no later sync keeps them.
    pub(crate) fn fail_to_sync(&mut self, changes: usize, random: &mut Random) {
        self.waiting
            .retain(|it| it.0 >= changes || random.below(2) == 0);
    }

    /// What is kept, and then each change that waits: its place, its length and its bytes. A new length has the place
    /// `u64::MAX`, and no bytes.
    pub(crate) fn save(&self) -> Vec<u8> {
        let kept = Change::Bytes(0, self.kept.clone());
        let waiting = self.waiting.iter().map(|it| &it.1);
        let mut saved = Vec::new();
        for change in iter::once(&kept).chain(waiting) {
            let (at, length, bytes) = match change {
                Change::Bytes(at, bytes) => (*at as u64, bytes.len(), &bytes[..]),
                Change::Length(length) => (u64::MAX, *length, &[][..]),
            };
            saved.extend(at.to_le_bytes());
            saved.extend((length as u64).to_le_bytes());
            saved.extend(bytes);
        }
        saved
    }

    /// Has the file be what was saved.
    pub(crate) fn restore(&mut self, mut saved: &[u8]) -> Option<()> {
        let mut changes = Vec::new();
        while !saved.is_empty() {
            let (at, rest) = saved.split_first_chunk()?;
            let (length, rest) = rest.split_first_chunk()?;
            let (at, length) = (
                u64::from_le_bytes(*at),
                u64::from_le_bytes(*length) as usize,
            );
            let count = if at == u64::MAX { 0 } else { length };
            let (bytes, rest) = rest.split_at_checked(count)?;
            changes.push(match at {
                u64::MAX => Change::Length(length),
                _ => Change::Bytes(at as usize, bytes.to_vec()),
            });
            saved = rest;
        }
        *self = Content::default();
        let mut changes = changes.into_iter();
        changes.next().into_iter().for_each(|it| self.change(it));
        self.sync(self.changes);
        changes.for_each(|it| self.change(it));
        Some(())
    }

    /// Of what was not synced some is kept: nothing, all, what came first, or any sectors in any order.
    pub(crate) fn lose_power(&mut self, sector: usize, random: &mut Random) {
        let waiting = mem::take(&mut self.waiting).into_iter();
        let mut changes: Vec<Change> = waiting.map(|it| it.1).collect();
        match random.below(6) {
            0 => changes.clear(),
            1 => {}
            2 => {
                changes.truncate(random.below(changes.len() + 1));
                let last = changes.pop();
                changes.extend(last.into_iter().flat_map(|it| it.torn(sector, random)));
            }
            odds => {
                let pieces = changes.iter().flat_map(|it| it.sectors(sector));
                changes = pieces.collect();
                changes.retain(|_| random.below(8) < 2 * odds - 5);
                for at in (1..changes.len()).rev() {
                    changes.swap(at, random.below(at + 1));
                }
            }
        }
        changes.iter().for_each(|it| it.make(&mut self.kept));
        self.seen.clone_from(&self.kept);
    }
}

impl DiskFile {
    /// Keeps all that was written before. While it waits others may write, whose writes are not kept by
    /// it.
    ///
    /// # Errors
    /// Where the power is off, or the sync was to fail. Then some of what was not synced is lost for
    /// good, and is seen until the power fails.
    pub fn sync_data(&self) -> io::Result<()> {
        self.disk.sync(self.number)
    }

    /// Sets how many bytes there are. It stays by a sync, as a write does.
    ///
    /// # Errors
    /// Where the power is off, or this write was to fail.
    pub fn set_len(&self, length: u64) -> io::Result<()> {
        self.disk
            .change(self.number, Change::Length(length as usize))
    }

    /// What the file has, with what waits for a sync, for another process that is to go on with it. It is no request.
    pub fn save(&self) -> Vec<u8> {
        self.disk.save(self.number)
    }

    /// Has the file be what was saved, whatever it was. It is no request.
    ///
    /// # Errors
    /// Where these bytes are not those of [`DiskFile::save`]. The file is then as it was.
    pub fn restore(&self, saved: &[u8]) -> io::Result<()> {
        let restored = self.disk.restore(self.number, saved);
        restored.ok_or_else(|| io::Error::other("these bytes were not saved"))
    }

    /// How many bytes there are. It is no request, and does not fail.
    pub fn len(&self) -> u64 {
        self.disk.look(self.number, |seen| seen.len() as u64)
    }

    /// Whether there are none.
    pub fn is_empty(&self) -> bool {
        self.len() == 0
    }
}

/// Each call is one request. A write is seen at once, and stays once it was synced.
impl FileExt for DiskFile {
    fn read_at(&self, bytes: &mut [u8], offset: u64) -> io::Result<usize> {
        self.disk.read(self.number, bytes, offset as usize)
    }

    fn write_at(&self, bytes: &[u8], offset: u64) -> io::Result<usize> {
        let change = Change::Bytes(offset as usize, bytes.to_vec());
        self.disk.change(self.number, change)?;
        Ok(bytes.len())
    }
}

// A sync that is slow, and goes well, keeps what was written before it began, also where another one fails
// meanwhile, but for what that has lost.
#[test]
fn a_sync_beside_one_that_fails() {
    for seed in 0..50 {
        let (mut file, mut random) = (Content::default(), Random(seed));
        (0..4).for_each(|at| file.change(Change::Bytes(at, vec![1])));
        let began = file.changes();
        (4..8).for_each(|at| file.change(Change::Bytes(at, vec![1])));
        file.fail_to_sync(file.changes(), &mut random);
        let waits = |file: &Content| -> Vec<usize> { file.waiting.iter().map(|it| it.0).collect() };
        let (early, late): (Vec<_>, Vec<_>) = waits(&file).into_iter().partition(|at| *at < began);
        file.sync(began);
        assert_eq!(waits(&file), late);
        assert!(early.iter().all(|at| file.kept[*at] == 1));
    }
}
