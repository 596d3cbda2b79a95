//! The write-ahead log: one file of two halves. While records go into one half, a checkpoint brings
//! the changes of the other into the page file. After that the other may be written over.
//!
//! Each half begins with a mark, and then has records, one after the other. The LSN of a record is
//! where it begins in a log without end. A mark has a number, its turn, which the records behind it
//! have too: so what the half had before is not taken for them. Redo reads both halves.
//!
//! Records go into a buffer, and many of them to the device by one write: where somebody wants them
//! durable, or the buffer is full.
use crate::device::Device;
use crate::node::word;
use crate::sum::{self, crc32c};
use crate::{Error, Result, bad};
use std::sync::atomic::{AtomicU64, Ordering};
use std::sync::{Mutex, MutexGuard, OnceLock};
use std::{array, fmt, io, mem};

/// A record begins with its LSN, its turn, its length and the checksum of all but that.
const HEAD: usize = 24;
const SUM: usize = 20;
/// A mark has seven numbers and their checksum, and so many bytes to itself: a record that is torn
/// does not spoil it.
const MARK_SUM: usize = 56;
const MARK: u64 = 4096;
/// No record has LSN 0, which the pager takes for none.
const FIRST: u64 = 64;
/// The buffer goes out where it would have more than this, or more than a part of a half.
const MOST_BUFFERED: u64 = 1 << 18;
const BUFFERS_OF_HALF: u64 = 8;

/// The half into which records go, and those that are not written out.
struct Tail {
    turn: u64,
    start: u64,
    end: u64,
    /// The redo point: what records say that begin before is in the page file. And the one that is
    /// written down: redo begins there after a crash.
    redo: u64,
    marked: u64,
    /// The records up to the end that are not on the device.
    buffer: Vec<u8>,
}

/// A half that redo reads: its turn, where its records begin, and where they end.
type Half = [u64; 3];

/// The log, and what is known of its device.
pub struct Log {
    device: Box<dyn Device>,
    /// What never changes: the store's own number, which its page file has too, its pages, their
    /// size, and how many bytes the log has.
    pub fixed: [u64; 4],
    tail: Mutex<Tail>,
    /// Whoever has it writes the buffer out, and syncs for all. A failed sync may be told once only, so
    /// it is one at a time. What it has is the buffer to go on with meanwhile.
    writing: Mutex<Vec<u8>>,
    /// Records that begin before are durable.
    durable: AtomicU64,
    /// The halves that redo has to read.
    redone: Vec<Half>,
    /// Why nothing is logged any more.
    stopped: OnceLock<String>,
}

impl Log {
    /// Makes an empty log of a store for which these numbers never change.
    pub fn create(device: &dyn Device, fixed: [u64; 4]) -> Result<()> {
        device.fill(fixed[3])?;
        Ok(write_mark(device, fixed, [0, FIRST, FIRST])?)
    }

    /// Opens a log, and finds its end. Tells whether a part of a record follows. Then comes
    /// [`redo`](Log::redo), and once its changes are in the page file [`turn_over`](Log::turn_over).
    pub fn open(device: Box<dyn Device>) -> Result<(Log, bool)> {
        let (size, marks) = (device.size()?, marks_of(&*device)?);
        let Some(&[fixed @ .., turn, start, redo]) = marks.last() else {
            return bad("the log has no good mark");
        };
        if size != fixed[3] {
            return bad(format!("the log has {size} bytes, and not {}", fixed[3]));
        }
        let mut log = Log {
            device,
            fixed,
            tail: Mutex::new(Tail {
                turn,
                start,
                end: start,
                redo,
                marked: redo,
                buffer: Vec::new(),
            }),
            writing: Mutex::default(),
            durable: AtomicU64::new(start),
            redone: Vec::new(),
            stopped: OnceLock::new(),
        };
        let mut is_torn = false;
        for [.., turn, start, _] in marks.into_iter().filter(|mark| mark[5] >= redo) {
            let mut end = start;
            // What a process wrote that has ended may be in the system's memory alone, and if its sync failed no
            // later one keeps it: so each record is written once more, before its pages are.
            is_torn |= log.each([turn, start, u64::MAX], |lsn, record| {
                end = lsn + record.len() as u64;
                let place = turn % 2 * (size / 2) + MARK + lsn - start;
                Ok(log.device.write_all_at(record, place)?)
            })?;
            log.device.sync()?;
            // Records came here only once those before the mark were durable.
            let older = log.redone.last().map_or(start, |half| half[2]);
            if older < start && start < end {
                return bad(format!("the log lost its records from {older} on"));
            }
            log.redone.push([turn, start, end]);
            let mut tail = log.tail();
            (tail.end, tail.redo) = (end, end);
            log.durable.store(end, Ordering::Release);
        }
        Ok((log, is_torn))
    }

    /// Goes over the records of a half up to an end, each with its LSN and its head. Tells whether a part
    /// of one follows.
    fn each(
        &self,
        [turn, start, end]: Half,
        mut work: impl FnMut(u64, &[u8]) -> Result<()>,
    ) -> Result<bool> {
        let (size, mut lsn, mut record) = (self.fixed[3] / 2, start, Vec::new());
        while lsn < end {
            let at = MARK + lsn - start;
            let place = turn % 2 * size + at;
            record.clear();
            record.resize(HEAD, 0);
            if at + HEAD as u64 <= size {
                self.device.read_exact_at(&mut record, place)?;
            }
            if word(&record, 0) != lsn || word(&record, 8) != turn {
                return Ok(false);
            }
            let length = word(&record, 16) & 0xffff_ffff;
            if length < HEAD as u64 || at + length > size {
                return Ok(true);
            }
            record.resize(length as usize, 0);
            self.device.read_exact_at(&mut record, place)?;
            if record[SUM..HEAD] != crc32c(&[&record[HEAD..], &record[..SUM]]).to_le_bytes() {
                return Ok(true);
            }
            work(lsn, &record)?;
            lsn += length;
        }
        Ok(false)
    }

    /// Has the work redo each record from the redo point on, in their order: it gets its LSN and body.
    pub fn redo(&self, mut work: impl FnMut(u64, &[u8]) -> Result<()>) -> Result<()> {
        for half in &self.redone {
            self.each(*half, |lsn, record| work(lsn, &record[HEAD..]))?;
        }
        Ok(())
    }

    /// Where the half begins into which records go.
    pub fn start(&self) -> u64 {
        self.tail().start
    }

    /// Where the next record begins.
    pub fn end(&self) -> u64 {
        self.tail().end
    }

    /// Where redo begins after a crash.
    pub fn marked(&self) -> u64 {
        self.tail().marked
    }

    /// Records that begin before this are durable.
    pub fn durable(&self) -> u64 {
        self.durable.load(Ordering::Acquire)
    }

    fn tail(&self) -> MutexGuard<'_, Tail> {
        self.tail.lock().unwrap()
    }

    /// Puts a record behind the others and gives its LSN. None where the half has no room: then a
    /// checkpoint makes some. The record is not durable yet.
    pub fn append(&self, body: &[u8]) -> Result<Option<u64>> {
        self.is_running()?;
        let (half, size) = (self.fixed[3] / 2, (HEAD + body.len()) as u64);
        if MARK + size > half {
            return Err(Error::NoRoom("the transaction is too large for the log"));
        }
        // The body goes first into the checksum, so that nobody waits for that.
        let (sum, most) = (crc32c(&[body]), MOST_BUFFERED.min(half / BUFFERS_OF_HALF));
        let mut tail = self.tail();
        while !tail.buffer.is_empty() && tail.buffer.len() as u64 + size > most {
            drop(tail);
            self.write_out(&mut self.writing.lock().unwrap())?;
            tail = self.tail();
        }
        let lsn = tail.end;
        if MARK + lsn - tail.start + size > half {
            return Ok(None);
        }
        let mut head = [0; HEAD];
        for (at, number) in [lsn, tail.turn, size].into_iter().enumerate() {
            head[8 * at..][..8].copy_from_slice(&number.to_le_bytes());
        }
        let sum = sum::add(sum, &head[..SUM]);
        head[SUM..].copy_from_slice(&sum.to_le_bytes());
        tail.buffer.extend_from_slice(&head);
        tail.buffer.extend_from_slice(body);
        tail.end += size;
        Ok(Some(lsn))
    }

    /// Writes the buffer out, for whoever has the turn. Gives where the records end that are written.
    fn write_out(&self, spare: &mut Vec<u8>) -> io::Result<u64> {
        let mut tail = self.tail();
        mem::swap(&mut tail.buffer, spare);
        let (end, size) = (tail.end, spare.len() as u64);
        let place = tail.turn % 2 * (self.fixed[3] / 2) + MARK + end - size - tail.start;
        drop(tail);
        if size > 0 {
            self.stop_unless(self.device.write_all_at(spare, place))?;
            spare.clear();
        }
        Ok(end)
    }

    /// Makes the record with this LSN durable, and all others that there are. One thread does it for
    /// those that come meanwhile: that is group commit.
    pub fn make_durable(&self, lsn: u64) -> io::Result<()> {
        if self.durable() > lsn {
            return Ok(());
        }
        let mut spare = self.writing.lock().unwrap();
        if self.durable() <= lsn {
            self.is_running()?;
            let end = self.write_out(&mut spare)?;
            self.stop_unless(self.device.sync())?;
            self.durable.fetch_max(end, Ordering::AcqRel);
        }
        Ok(())
    }

    /// Has records go to the other half from now on, unless redo wants that. The mark is durable
    /// before them, and so is all that was before. Gives where the half begins.
    pub fn turn_over(&self) -> io::Result<u64> {
        let mut spare = self.writing.lock().unwrap();
        self.is_running()?;
        self.write_out(&mut spare)?;
        let mut tail = self.tail();
        if tail.redo >= tail.start {
            let (turn, start) = (tail.turn + 1, tail.end);
            let written = write_mark(&*self.device, self.fixed, [turn, start, tail.redo]);
            self.stop_unless(written)?;
            (tail.turn, tail.start, tail.marked) = (turn, start, tail.redo);
            self.durable.fetch_max(start, Ordering::AcqRel);
        }
        Ok(tail.start)
    }

    /// Cuts the log: redo wants no record before this LSN any more.
    pub fn cut(&self, redo: u64) {
        self.tail().redo = redo;
    }

    /// Refuses where the store has stopped.
    pub fn is_running(&self) -> io::Result<()> {
        match self.stopped.get() {
            Some(why) => Err(io::Error::other(format!("the store has stopped: {why}"))),
            None => Ok(()),
        }
    }

    /// Has nothing logged any more where this failed. After a failed write or sync nobody knows what
    /// the device has: that is found out by the next start.
    pub fn stop_unless<T, E: fmt::Display>(&self, done: Result<T, E>) -> Result<T, E> {
        // The first reason is the one that counts.
        done.inspect_err(|why| drop(self.stopped.set(why.to_string())))
    }
}

/// Begins a half by its mark, and has that stay.
fn write_mark(device: &dyn Device, fixed: [u64; 4], half: [u64; 3]) -> io::Result<()> {
    let words = [&fixed[..], &half].concat();
    let mut mark: Vec<u8> = words.into_iter().flat_map(u64::to_le_bytes).collect();
    mark.extend(crc32c(&[&mark]).to_le_bytes());
    device.write_all_at(&mark, half[0] % 2 * (fixed[3] / 2))?;
    device.sync()
}

/// The good marks of a log, the older first.
fn marks_of(device: &dyn Device) -> io::Result<Vec<[u64; 7]>> {
    let (size, mut marks) = (device.size()?, Vec::new());
    for place in [0, size / 2] {
        let mut mark = [0; MARK_SUM + 4];
        if size >= 2 * MARK {
            device.read_exact_at(&mut mark, place)?;
        }
        let (words, sum) = mark.split_at(MARK_SUM);
        if sum == crc32c(&[words]).to_le_bytes() {
            marks.push(array::from_fn(|at| word(words, 8 * at)));
        }
    }
    marks.sort_by_key(|mark| mark[4]);
    Ok(marks)
}
