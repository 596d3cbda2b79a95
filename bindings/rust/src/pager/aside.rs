//! Victims that could not be written out. The call that found that sets them aside: it goes on with
//! other victims, and is refused only where none is left.
use super::guards::PagePin;
use super::log::NotReached;
use super::part::{Locked, Part, State};
use crate::{Error, PagerError, Result};

/// A page that is pinned by a call which could not write it out, so that the pool chooses another
/// victim while that call goes on. It takes the part's lock when it is dropped.
pub(super) struct SetAside<'a> {
    // First the count, then the pin: so no thread counts a pin as set aside that is no more.
    _counted: Counted<'a>,
    _pin: PagePin<'a>,
}

/// One of the pages that calls have set aside.
struct Counted<'a>(&'a Part);

impl Drop for Counted<'_> {
    fn drop(&mut self) {
        self.0.lock().aside -= 1;
    }
}

impl Part {
    /// Sets a page aside that is in a frame, and wakes who waits for the end of its write-out, or for a
    /// frame: that may be in vain now. The lock is opened.
    pub(super) fn set_aside<'a>(
        &'a self,
        mut state: Locked<'a>,
        victim: u64,
    ) -> Result<SetAside<'a>> {
        state.aside += 1;
        self.wake_under(&state, victim);
        let counted = Counted(self);
        let pin = self.pin_under(state, victim)?;
        Ok(SetAside {
            _counted: counted,
            _pin: pin,
        })
    }

    /// Whether no page may make way soon: all are set aside, and none is read or written out.
    fn has_no_other(&self, state: &State) -> bool {
        let counts = state.pool.stats();
        counts.loading + counts.writing == 0 && counts.pinned <= state.aside
    }
}

/// What a call could not write out.
#[derive(Default)]
pub(super) struct Failed<'a> {
    pages: Vec<SetAside<'a>>,
    /// The first fault.
    fault: Option<PagerError>,
    pub(super) not_reached: NotReached,
}

impl<'a> Failed<'a> {
    pub(super) fn note(&mut self, fault: PagerError) {
        self.not_reached.note(&fault);
        self.fault.get_or_insert(fault);
    }

    /// Keeps a page set aside until the call ends. The part's lock is open.
    ///
    /// # Errors
    /// The first fault, where that can't be.
    pub(super) fn keep(&mut self, page: Result<SetAside<'a>>) -> Result<(), PagerError> {
        let room = self.pages.try_reserve(1);
        match (page, room) {
            (Ok(page), Ok(())) => self.pages.push(page),
            (Err(error), _) => return Err(self.refusal(error)),
            (_, Err(_)) => return Err(self.refusal(Error::OutOfMemory)),
        }
        Ok(())
    }

    pub(super) fn has_fault(&self) -> bool {
        self.fault.is_some()
    }

    /// Whether the call is to be refused at once where the pool has no victim.
    pub(super) fn is_in_vain(&self, part: &Part, state: &State) -> bool {
        self.has_fault() && part.has_no_other(state)
    }

    /// The first fault, or what is given where there is none.
    pub(super) fn refusal(&mut self, error: Error) -> PagerError {
        self.fault.take().unwrap_or(error.into())
    }
}

/// A victim whose log record is made durable. If this is dropped before that, by a panic, the victim is
/// passed over.
pub(super) struct Unlogged<'a> {
    part: &'a Part,
    victim: Option<u64>,
}

impl<'a> Unlogged<'a> {
    pub(super) fn new(part: &'a Part, victim: u64) -> Unlogged<'a> {
        let victim = Some(victim);
        Unlogged { part, victim }
    }

    /// Notes that the log has answered.
    pub(super) fn end(mut self) {
        self.victim = None;
    }
}

impl Drop for Unlogged<'_> {
    fn drop(&mut self) {
        if let Some(victim) = self.victim {
            self.part.pass_over(victim);
        }
    }
}
