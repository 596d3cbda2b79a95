//! How far the log is durable, whose turn it is to make it durable further, and whether it failed.
use super::watch::{For, Waited, Watch};
use super::within::{self, Work};
use crate::{LogFault, PageIo, PagerError};
use std::mem;
use std::sync::atomic::{AtomicU64, Ordering};
use std::sync::{Condvar, Mutex, MutexGuard, PoisonError};

/// The LSN up to which the engine's log is durable. One thread at a time makes it durable further,
/// for all threads that wait.
#[derive(Default)]
pub(super) struct Log {
    /// It changes under the lock of the turn, and no more once the log is lost.
    durable: AtomicU64,
    turn: Mutex<Turn>,
    ended: Condvar,
}

#[derive(Default)]
struct Turn {
    is_taken: bool,
    /// The log failed or panicked. It is not asked again.
    is_lost: bool,
    /// The greatest LSN that a thread waits for.
    wanted: u64,
    /// The number of times that a thread slept for another's turn.
    waits: u64,
}

impl Turn {
    fn check(&self) -> Result<(), PagerError> {
        match self.is_lost {
            false => Ok(()),
            true => Err(PagerError::LogLost),
        }
    }
}

/// What a call of the pager found that the log does not reach yet: the least LSN up to which it could not
/// be made durable.
#[derive(Default)]
pub(super) struct NotReached(Option<u64>);

impl NotReached {
    pub(super) fn note(&mut self, fault: &PagerError) {
        if let PagerError::LogNotYet { lsn } = fault {
            self.0 = self.0.into_iter().chain([*lsn]).min();
        }
    }

    /// # Errors
    /// [`PagerError::LogNotYet`] where the log did not reach so far before, and does not by now.
    pub(super) fn check(&self, log: &Log, lsn: u64) -> Result<(), PagerError> {
        if self.0.is_none_or(|least| lsn < least) || log.durable() >= lsn {
            return Ok(());
        }
        Err(PagerError::LogNotYet { lsn })
    }
}

impl Log {
    pub(super) fn durable(&self) -> u64 {
        self.durable.load(Ordering::Acquire)
    }

    /// The number of times that a thread slept until another had made the log durable.
    pub(super) fn waits(&self) -> u64 {
        self.turn().waits
    }

    /// Notes that the log is durable up to this LSN, unless it is lost: a later sync says nothing of what an
    /// earlier one has lost.
    pub(super) fn mark(&self, lsn: u64) {
        let turn = self.turn();
        if !turn.is_lost {
            self.durable.fetch_max(lsn, Ordering::AcqRel);
        }
    }

    /// # Errors
    /// [`PagerError::LogLost`] where the log failed before.
    pub(super) fn check(&self) -> Result<(), PagerError> {
        self.turn().check()
    }

    /// Makes the log durable up to this LSN, for the pager with this number. A thread that comes while
    /// another does this waits, and has the next turn if that was not far enough.
    ///
    /// Who has the turn asks for the greatest LSN that a thread waits for. If the log does not reach so far
    /// it asks for its own alone: that of the others may never come.
    pub(super) fn reach<F: PageIo>(
        &self,
        io: &F,
        watch: &Watch,
        own: u64,
    ) -> Result<(), PagerError> {
        let waited = Waited::new(watch, own);
        let mut is_alone = false;
        let mut turn = self.turn();
        while self.durable() < own {
            turn.check()?;
            if turn.is_taken {
                turn = self.wait_for_turn(turn, &waited, watch.pager, own)?;
                continue;
            }
            turn.is_taken = true;
            // A thread that still waits after this turn asks for its own LSN again.
            let wanted = if is_alone {
                own
            } else {
                own.max(mem::take(&mut turn.wanted))
            };
            drop(turn);
            match self.make_durable(io, watch, wanted) {
                Err(PagerError::LogNotYet { .. }) if wanted != own => is_alone = true,
                // The engine may have marked it meanwhile.
                Err(PagerError::LogNotYet { .. }) if self.durable() >= own => {}
                Err(PagerError::Log { source, .. }) => {
                    return Err(PagerError::Log { lsn: own, source });
                }
                made => made?,
            }
            turn = self.turn();
        }
        Ok(())
    }

    /// Sleeps until a turn ends. It does not within the turn of this thread, which would not end.
    fn wait_for_turn<'a>(
        &'a self,
        mut turn: MutexGuard<'a, Turn>,
        waited: &Waited<'_>,
        pager: u64,
        own: u64,
    ) -> Result<MutexGuard<'a, Turn>, PagerError> {
        if within::is_within(pager, |work| matches!(work, Work::Log(_))) {
            return Err(PagerError::LogNotYet { lsn: own });
        }
        turn.wanted = turn.wanted.max(own);
        turn.waits += 1;
        let woken = waited.sleep(For::Log, || self.ended.wait(turn));
        Ok(woken.unwrap_or_else(PoisonError::into_inner))
    }

    /// Has the engine make the log durable, in this thread's turn, which ends here.
    fn make_durable<F: PageIo>(&self, io: &F, watch: &Watch, lsn: u64) -> Result<(), PagerError> {
        let mut taken = Taken {
            log: self,
            is_lost: true,
        };
        let make = || io.make_log_durable(lsn);
        let made = watch.have(Work::Log(lsn), make, |fault| match fault {
            LogFault::Lost(source) => PagerError::Log { lsn, source },
            LogFault::NotYet => PagerError::LogNotYet { lsn },
        });
        taken.is_lost = matches!(made, Err(PagerError::Log { .. }));
        made?;
        self.mark(lsn);
        Ok(())
    }

    fn turn(&self) -> MutexGuard<'_, Turn> {
        self.turn.lock().unwrap_or_else(PoisonError::into_inner)
    }
}

/// A thread's turn, which ends on every way out. By a panic the log is lost too: what failed before it is not
/// known.
struct Taken<'log> {
    log: &'log Log,
    is_lost: bool,
}

impl Drop for Taken<'_> {
    fn drop(&mut self) {
        let mut turn = self.log.turn();
        turn.is_taken = false;
        turn.is_lost |= self.is_lost;
        drop(turn);
        self.log.ended.notify_all();
    }
}
