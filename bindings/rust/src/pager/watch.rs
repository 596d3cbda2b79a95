//! How a pager has the engine do its work, and tells an observer what goes on, if there is one.
use super::part::Part;
use super::within::{self, Work};
use crate::observer::Observed;
use crate::{Observer, PagerError, Result, Wait};
use std::cell::Cell;
use std::panic::{AssertUnwindSafe, catch_unwind};
use std::thread;
use std::time::{Duration, Instant};

/// The number of a pager, which no other of this process has, and who is told what goes on there.
#[derive(Clone)]
pub(super) struct Watch {
    pub(super) pager: u64,
    observer: Observed,
}

impl Watch {
    pub(super) fn new(pager: u64, observer: Observed) -> Watch {
        Watch { pager, observer }
    }

    /// Calls a function of the engine, and tells how long it took, or its fault.
    #[inline]
    pub(super) fn have<E>(
        &self,
        work: Work,
        function: impl FnOnce() -> Result<(), E>,
        fault: impl FnOnce(E) -> PagerError,
    ) -> Result<(), PagerError> {
        if self.observer.get().is_some() {
            return self.have_told(work, || function().map_err(fault));
        }
        within::call(self.pager, work, function).map_err(fault)
    }

    #[cold]
    #[inline(never)]
    fn have_told(
        &self,
        work: Work,
        function: impl FnOnce() -> Result<(), PagerError>,
    ) -> Result<(), PagerError> {
        within::call(self.pager, work, || {
            let began = Instant::now();
            let done = function();
            self.tell_work(work, began.elapsed(), &done);
            done
        })
    }

    fn tell_work(&self, work: Work, time: Duration, done: &Result<(), PagerError>) {
        self.tell(|observer| match (done, work) {
            (Err(fault), _) => observer.fault(fault, time),
            (Ok(()), Work::Read(first, count)) => observer.read(first..first + count, time),
            (Ok(()), Work::Write(first, count)) => observer.write_out(first..first + count, time),
            (Ok(()), Work::Log(lsn)) => observer.log(lsn, time),
            (Ok(()), Work::Sync) => observer.sync(time),
            (Ok(()), Work::Tell) => {}
        });
    }

    /// Tells the observer something, if there is one. No lock of a part, of the log or of the syncs is held. Its panics
    /// end here; and a call of the pager which it makes all the same does not wait for ever.
    fn tell(&self, event: impl FnOnce(&dyn Observer)) {
        if let Some(observer) = self.observer.get() {
            let told = || within::call(self.pager, Work::Tell, || event(observer));
            let _ = catch_unwind(AssertUnwindSafe(told));
        }
    }

    /// Tells what a thread of the pager was refused. It returns what it got, if it was not. The faults of the engine's
    /// functions were told as these ended.
    pub(super) fn or_tell<T>(&self, done: Result<T, PagerError>) -> Option<T> {
        match done {
            Ok(got) => return Some(got),
            Err(fault @ (PagerError::Refused(_) | PagerError::RefusedPage { .. })) => {
                self.tell(|observer| observer.fault(&fault, Duration::ZERO));
            }
            Err(_) => {}
        }
        None
    }

    /// Does something in a thread of the pager that has the engine do work. That may panic, and is called again all the
    /// same.
    pub(super) fn go_on<T>(&self, work: impl FnOnce() -> T) -> Option<T> {
        let done: thread::Result<T> = catch_unwind(AssertUnwindSafe(work));
        done.inspect_err(|with| self.tell(|observer| observer.panicked(&**with)))
            .ok()
    }
}

impl Part {
    /// Tells which page of this part has left its frame for another, if one has. The lock is open.
    #[inline]
    pub(super) fn tell_evicted(&self, evicted: Option<u64>) {
        if self.watch().observer.get().is_some() {
            evicted.into_iter().for_each(|page| self.tell_gone(page));
        }
    }

    #[cold]
    #[inline(never)]
    fn tell_gone(&self, page: u64) {
        let page = self.in_file(page);
        self.watch().tell(|observer| observer.evict(page));
    }
}

/// What a call sleeps for.
#[derive(Clone, Copy)]
pub(super) enum For {
    Page,
    Latch,
    Frame,
    Pins,
    Log,
    Sync,
}

/// For each of these, what is told of it, with the page or the LSN of the call.
const WAITS: [fn(u64) -> Wait; 6] = [
    Wait::Page,
    Wait::Latch,
    Wait::Frame,
    Wait::Pins,
    Wait::Log,
    |_| Wait::Sync,
];

/// When a call first had to wait, and how long it slept for what. That is told as this is dropped: so it outlives the
/// locks of the call.
pub(super) struct Waited<'a> {
    watch: &'a Watch,
    /// The page that it is for, or the LSN.
    of: u64,
    since: Cell<Option<Instant>>,
    begun: Cell<Option<u64>>,
    slept: Cell<Option<[Duration; WAITS.len()]>>,
}

impl<'a> Waited<'a> {
    /// Of a call for this page of the file, or for the log up to this LSN.
    #[inline]
    pub(super) fn new(watch: &'a Watch, of: u64) -> Waited<'a> {
        Waited {
            watch,
            of,
            since: Cell::new(None),
            begun: Cell::new(None),
            slept: Cell::new(None),
        }
    }

    /// Returns what is left of so long a time since then. None where nothing is. So all that a call waits for
    /// in a function of the engine has one end.
    pub(super) fn left(&self, most: Duration) -> Option<Duration> {
        let since = self.since.get().unwrap_or_else(Instant::now);
        self.since.set(Some(since));
        most.checked_sub(since.elapsed()).filter(|it| !it.is_zero())
    }

    /// Returns how many reads of the part had begun when the call first waited for one, if that is now so many.
    pub(super) fn begun(&self, now: u64) -> u64 {
        let begun = self.begun.get().unwrap_or(now);
        self.begun.set(Some(begun));
        begun
    }

    /// Sleeps, and adds up how long, where somebody is told of that.
    pub(super) fn sleep<T>(&self, what: For, sleep: impl FnOnce() -> T) -> T {
        if self.watch.observer.get().is_none() {
            return sleep();
        }
        let began = Instant::now();
        let woken = sleep();
        let mut slept = self.slept.get().unwrap_or_default();
        slept[what as usize] += began.elapsed();
        self.slept.set(Some(slept));
        woken
    }

    #[cold]
    fn tell(&self, slept: [Duration; WAITS.len()]) {
        let waits = WAITS.iter().zip(slept).filter(|(_, time)| !time.is_zero());
        for (wait, time) in waits {
            self.watch
                .tell(|observer| observer.wait(wait(self.of), time));
        }
    }
}

impl Drop for Waited<'_> {
    #[inline]
    fn drop(&mut self) {
        if let Some(slept) = self.slept.get() {
            self.tell(slept);
        }
    }
}
