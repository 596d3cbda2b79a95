//! The log: records one behind the other. The LSN of a record is the place where it begins.
use hojzmated_disk::DiskFile;
use std::collections::BTreeMap;
use std::io;
use std::os::unix::fs::FileExt;
use std::sync::{Mutex, MutexGuard};

/// Bytes of a page, from an offset on, one range after the other.
pub type Ranges = Vec<(usize, Vec<u8>)>;
/// What a record writes, to each page.
pub type Puts = BTreeMap<u64, Ranges>;

/// No record has LSN 0, which the pager takes for none.
pub const FIRST: u64 = 64;
/// A record begins with its checksum, its LSN, the life that wrote it, and the length of the rest.
const HEAD: usize = 32;

pub fn word(bytes: &[u8], at: usize) -> u64 {
    u64::from_le_bytes(bytes[at..at + 8].try_into().unwrap())
}

pub fn sum(number: u64, bytes: &[u8]) -> u64 {
    let add = |sum: u64, byte: &u8| (sum ^ u64::from(*byte)).wrapping_mul(0x100_0000_01b3);
    bytes.iter().fold(number ^ 0xcbf2_9ce4_8422_2325, add)
}

fn encode(lsn: u64, life: u64, puts: &Puts) -> Vec<u8> {
    let mut rest = Vec::new();
    for (page, ranges) in puts {
        for (at, bytes) in ranges {
            rest.extend(
                [*page, *at as u64, bytes.len() as u64]
                    .map(u64::to_le_bytes)
                    .concat(),
            );
            rest.extend(bytes);
        }
    }
    let mut record = [lsn, life, rest.len() as u64]
        .map(u64::to_le_bytes)
        .concat();
    record.append(&mut rest);
    [&sum(0, &record).to_le_bytes()[..], &record].concat()
}

/// The record with this LSN at the start of the bytes, if there is one: its life, its length and what it
/// writes.
fn decode(bytes: &[u8], lsn: u64) -> Option<(u64, usize, Puts)> {
    let head = bytes.get(..HEAD)?;
    let size = HEAD.checked_add(usize::try_from(word(head, 24)).ok()?)?;
    let record = bytes.get(..size)?;
    if word(head, 8) != lsn || word(head, 0) != sum(0, &record[8..]) {
        return None;
    }
    let (mut puts, mut at) = (Puts::new(), HEAD);
    while at < size {
        let [page, offset, len] = [0, 8, 16].map(|of| word(record, at + of));
        at += 24 + len as usize;
        let bytes = record[at - len as usize..at].to_vec();
        puts.entry(page).or_default().push((offset as usize, bytes));
    }
    Some((word(head, 16), size, puts))
}

pub struct Log {
    device: DiskFile,
    life: u64,
    state: Mutex<State>,
    /// A failed sync may be told once only: so it is one at a time.
    syncing: Mutex<()>,
}

struct State {
    end: u64,
    /// The LSN of the newest record.
    last: u64,
    /// Records that begin before are durable.
    durable: u64,
    is_broken: bool,
}

impl State {
    fn check(&self) -> io::Result<()> {
        match self.is_broken {
            false => Ok(()),
            true => Err(io::Error::other("the log has failed before")),
        }
    }
}

impl Log {
    /// Reads the records from the redo point on, which are of the life that wrote it down or a later one.
    /// They are durable then.
    pub fn open(device: DiskFile, redo: u64, life: u64) -> io::Result<(Log, Vec<(u64, Puts)>)> {
        let mut bytes = vec![0; (device.len() - redo) as usize];
        device.read_exact_at(&mut bytes, redo)?;
        let (mut records, mut at, mut newest) = (Vec::new(), 0, life);
        while let Some((of, size, puts)) = decode(&bytes[at..], redo + at as u64) {
            if of < newest {
                // It is left of a life whose records before it were lost.
                break;
            }
            newest = of;
            records.push((redo + at as u64, puts));
            at += size;
        }
        if at > 0 {
            // After a failed sync the disk may lack what is read here.
            device.write_all_at(&bytes[..at], redo)?;
            device.sync_data()?;
        }
        let (end, last) = (redo + at as u64, records.last().map_or(redo - 1, |it| it.0));
        let state = State {
            end,
            last,
            durable: end,
            is_broken: false,
        };
        let log = Log {
            device,
            life: life + 1,
            state: Mutex::new(state),
            syncing: Mutex::new(()),
        };
        Ok((log, records))
    }

    fn state(&self) -> MutexGuard<'_, State> {
        self.state.lock().unwrap()
    }

    /// Where the next record begins, and the LSN of the newest one.
    pub fn end(&self) -> (u64, u64) {
        let state = self.state();
        (state.end, state.last)
    }

    /// Appends a record, whose LSN is told before anything is written.
    pub fn append(&self, puts: &Puts, tell: impl FnOnce(u64)) -> io::Result<u64> {
        let mut state = self.state();
        state.check()?;
        let lsn = state.end;
        tell(lsn);
        let record = encode(lsn, self.life, puts);
        state.is_broken = true;
        self.device.write_all_at(&record, lsn)?;
        (state.is_broken, state.last) = (false, lsn);
        state.end += record.len() as u64;
        Ok(lsn)
    }

    pub fn make_durable(&self, lsn: u64) -> io::Result<()> {
        let _alone = self.syncing.lock().unwrap();
        let end = {
            let state = self.state();
            state.check()?;
            if lsn < state.durable {
                return Ok(());
            }
            state.end
        };
        let synced = self.device.sync_data();
        let mut state = self.state();
        match synced {
            Ok(()) => state.durable = end,
            Err(_) => state.is_broken = true,
        }
        synced
    }
}
