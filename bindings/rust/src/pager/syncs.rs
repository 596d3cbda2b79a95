//! Syncs of the device: one at a time, for all threads that came before it began.
use super::watch::{For, Waited, Watch};
use super::within::{self, Work};
use crate::{PageIo, PagerError};
use std::io;
use std::sync::{Condvar, Mutex, MutexGuard, PoisonError};

/// The turns to sync the device, and whether a sync failed.
#[derive(Default)]
pub(super) struct Syncs {
    turns: Mutex<Turns>,
    ended: Condvar,
}

/// Syncs are numbered from 1 as they begin.
#[derive(Default)]
struct Turns {
    begun: u64,
    /// The number of the newest sync that went well.
    done: u64,
    is_taken: bool,
    has_failed: bool,
    /// The number of times that a thread slept for another's sync.
    waits: u64,
}

impl Turns {
    fn check(&self) -> Result<(), PagerError> {
        match self.has_failed {
            false => Ok(()),
            true => Err(PagerError::SyncFailedBefore),
        }
    }
}

impl Syncs {
    fn lock(&self) -> MutexGuard<'_, Turns> {
        self.turns.lock().unwrap_or_else(PoisonError::into_inner)
    }

    /// The number of times that a thread slept until another had synced the device.
    pub(super) fn waits(&self) -> u64 {
        self.lock().waits
    }

    /// # Errors
    /// [`PagerError::SyncFailedBefore`] where an earlier sync failed.
    pub(super) fn check(&self) -> Result<(), PagerError> {
        self.lock().check()
    }

    /// Has the device synced, by a sync that begins after this call: its own or another's. One thread syncs at a time: a sync that goes well beside one that fails does not say
    /// that all was kept.
    pub(super) fn sync<F: PageIo>(&self, io: &F, watch: &Watch) -> Result<(), PagerError> {
        if within::is_within(watch.pager, |work| work == Work::Sync) {
            let why = "sync called for a checkpoint, which needs another sync";
            let source = io::Error::new(io::ErrorKind::Deadlock, why);
            return Err(PagerError::Sync { source });
        }
        let waited = Waited::new(watch, 0);
        let mut turns = self.lock();
        let wanted = turns.begun + 1;
        while turns.is_taken && turns.done < wanted {
            turns.waits += 1;
            let woken = waited.sleep(For::Sync, || self.ended.wait(turns));
            turns = woken.unwrap_or_else(PoisonError::into_inner);
        }
        turns.check()?;
        if turns.done >= wanted {
            return Ok(());
        }
        turns.is_taken = true;
        turns.begun += 1;
        drop(turns);
        let mut syncing = Syncing {
            syncs: self,
            went_well: false,
        };
        let fault = |source| PagerError::Sync { source };
        let synced = watch.have(Work::Sync, || io.sync(), fault);
        syncing.went_well = synced.is_ok();
        synced
    }
}

/// A sync that is under way. If it is dropped before it went well it has failed.
struct Syncing<'a> {
    syncs: &'a Syncs,
    went_well: bool,
}

impl Drop for Syncing<'_> {
    fn drop(&mut self) {
        let mut turns = self.syncs.lock();
        turns.is_taken = false;
        if self.went_well {
            turns.done = turns.begun;
        } else {
            turns.has_failed = true;
        }
        drop(turns);
        self.syncs.ended.notify_all();
    }
}
