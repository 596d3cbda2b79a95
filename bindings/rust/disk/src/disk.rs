//! `Disk`: its files, its power, and the requests that fail.
use crate::file::{Change, Content};
use crate::random::Random;
use crate::{DiskFile, DiskPages, SECTOR};
use std::sync::{Arc, Mutex, MutexGuard, PoisonError};
use std::time::Duration;
use std::{io, thread};

/// What goes wrong, at which request of its kind, from 1 on.
#[derive(Clone, Copy, Debug, PartialEq, Eq)]
pub enum Fault {
    /// The power fails at this request of any kind.
    Cut(u64),
    /// The power fails at this sync.
    CutAtSync(u64),
    /// The process is killed at this request of any kind, and soon after its next start the power fails:
    /// see [`Disk::come_back`].
    Kill(u64),
    /// This read fails.
    Read(u64),
    /// This write fails, and some of it may have come. Each other one finds the disk full.
    Write(u64),
    /// This sync fails.
    Sync(u64),
}

/// How many requests there were.
#[derive(Clone, Copy, Debug, Default, PartialEq, Eq)]
pub struct Counts {
    /// Those of all kinds.
    pub all: u64,
    /// Reads.
    pub reads: u64,
    /// Writes, and changes of a file's length.
    pub writes: u64,
    /// Syncs.
    pub syncs: u64,
}

/// After a kill the power fails within so many requests.
const SOON: usize = 60;

struct State {
    names: Vec<String>,
    files: Vec<Content>,
    counts: Counts,
    fault: Option<Fault>,
    failures: u64,
    is_off: bool,
    longest_sync: Duration,
    sector: usize,
    random: Random,
}

/// A disk with files. Clones of it are the same disk, also in other threads.
#[derive(Clone)]
pub struct Disk(Arc<Mutex<State>>);

impl Disk {
    /// Makes a disk without files. What is lost when its power fails comes from the seed.
    pub fn new(seed: u64) -> Disk {
        Disk(Arc::new(Mutex::new(State {
            names: Vec::new(),
            files: Vec::new(),
            counts: Counts::default(),
            fault: None,
            failures: 0,
            is_off: false,
            longest_sync: Duration::ZERO,
            sector: SECTOR,
            random: Random(seed),
        })))
    }

    /// The file of this name. It is empty where there was none, and its name is kept at once.
    pub fn file(&self, name: &str) -> DiskFile {
        let mut state = self.state();
        let found = state.names.iter().position(|it| it == name);
        let number = found.unwrap_or_else(|| {
            state.names.push(name.into());
            state.files.push(Content::default());
            state.files.len() - 1
        });
        drop(state);
        let disk = self.clone();
        DiskFile { disk, number }
    }

    /// Two files as the device and the log of a pager.
    pub fn pages(&self, pages: &str, log: &str) -> DiskPages {
        DiskPages {
            pages: self.file(pages),
            log: self.file(log),
        }
    }

    /// Counts requests from here on, and has this go wrong, or nothing.
    pub fn set_fault(&self, fault: Option<Fault>) {
        let mut state = self.state();
        (state.fault, state.failures, state.counts) = (fault, 0, Counts::default());
    }

    /// Has each sync take up to so long, in which other requests go on. It counts as a request when it ends.
    pub fn slow_syncs(&self, longest: Duration) {
        self.state().longest_sync = longest;
    }

    /// Has the disk keep so many bytes whole, from each multiple of them on, as some disks do with 4,096: for
    /// engines that do not mend torn pages. 0 counts as 1.
    pub fn keep_whole(&self, bytes: usize) {
        self.state().sector = bytes.max(1);
    }

    /// The requests since the fault was set.
    pub fn counts(&self) -> Counts {
        self.state().counts
    }

    /// How often something went wrong since the fault was set.
    pub fn failures(&self) -> u64 {
        self.state().failures
    }

    /// Whether each request fails, as the power is off or the process was killed.
    pub fn is_off(&self) -> bool {
        self.state().is_off
    }

    /// The power fails, if it has not yet, and is there again. Of what was not synced some is lost.
    pub fn lose_power(&self) {
        let mut state = self.state();
        let State {
            files,
            random,
            sector,
            ..
        } = &mut *state;
        for file in files {
            file.lose_power(*sector, random);
        }
        state.is_off = false;
    }

    /// The process has ended, and the power was never off: what was written is seen.
    pub fn restart(&self) {
        self.state().is_off = false;
    }

    /// What comes after a request at which the disk went off. After [`Fault::Cut`] power is lost, and is
    /// there again. After [`Fault::Kill`] the process is started anew, and one of its next requests is the
    /// cut: what a start takes for kept, since it can read it, may then be lost.
    pub fn come_back(&self) {
        let mut state = self.state();
        if let Some(Fault::Kill(_)) = state.fault {
            let soon = 1 + state.random.below(SOON) as u64;
            state.fault = Some(Fault::Cut(state.counts.all + soon));
            state.is_off = false;
        } else {
            drop(state);
            self.lose_power();
        }
    }

    pub(crate) fn read(&self, file: usize, bytes: &mut [u8], at: usize) -> io::Result<usize> {
        let mut state = self.state();
        if state.request(|it| &mut it.reads, Fault::Read) {
            return Err(state.error());
        }
        let found = state.files[file].seen.get(at..).unwrap_or_default();
        let count = found.len().min(bytes.len());
        bytes[..count].copy_from_slice(&found[..count]);
        Ok(count)
    }

    pub(crate) fn change(&self, file: usize, change: Change) -> io::Result<()> {
        let mut state = self.state();
        let was_off = state.is_off;
        let fails = state.request(|it| &mut it.writes, Fault::Write);
        let State {
            files,
            random,
            sector,
            ..
        } = &mut *state;
        match (fails, was_off) {
            (false, _) => files[file].change(change),
            (true, false) => files[file].tear(&change, *sector, random),
            (true, true) => {}
        }
        if fails { Err(state.error()) } else { Ok(()) }
    }

    pub(crate) fn sync(&self, file: usize) -> io::Result<()> {
        let mut state = self.state();
        let changes = state.files[file].changes();
        if !state.longest_sync.is_zero() {
            let most = state.longest_sync.as_micros() as usize;
            let rest = Duration::from_micros(state.random.below(most.max(1)) as u64);
            drop(state);
            thread::sleep(rest);
            state = self.state();
        }
        // It is counted as it ends: so others go on until it fails, or the power does.
        let was_off = state.is_off;
        if state.request(|it| &mut it.syncs, Fault::Sync) {
            if !was_off && !state.is_off {
                let State { files, random, .. } = &mut *state;
                files[file].fail_to_sync(changes, random);
            }
            return Err(state.error());
        }
        state.files[file].sync(changes);
        Ok(())
    }

    pub(crate) fn save(&self, file: usize) -> Vec<u8> {
        self.state().files[file].save()
    }

    pub(crate) fn restore(&self, file: usize, saved: &[u8]) -> Option<()> {
        self.state().files[file].restore(saved)
    }

    pub(crate) fn look<T>(&self, file: usize, look: impl FnOnce(&[u8]) -> T) -> T {
        look(&self.state().files[file].seen)
    }

    fn state(&self) -> MutexGuard<'_, State> {
        self.0.lock().unwrap_or_else(PoisonError::into_inner)
    }
}

impl State {
    /// Counts a request. Gives whether it fails.
    fn request(&mut self, of_kind: fn(&mut Counts) -> &mut u64, kind: fn(u64) -> Fault) -> bool {
        self.counts.all += 1;
        *of_kind(&mut self.counts) += 1;
        let kind = kind(*of_kind(&mut self.counts));
        let ends = match self.fault {
            Some(Fault::Cut(number) | Fault::Kill(number)) => number == self.counts.all,
            Some(Fault::CutAtSync(number)) => kind == Fault::Sync(number),
            _ => false,
        };
        self.is_off |= ends;
        let fails = self.fault == Some(kind);
        self.failures += u64::from(ends || fails);
        fails || self.is_off
    }

    fn error(&self) -> io::Error {
        if self.is_off {
            return io::Error::other("the power is off");
        }
        match self.fault {
            Some(Fault::Write(number)) if number % 2 == 0 => io::ErrorKind::StorageFull.into(),
            _ => io::Error::other("the device has failed"),
        }
    }
}
