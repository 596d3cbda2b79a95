//! Pages that are dropped unwritten.
use super::Pager;
use super::part::{Locked, Part, State};
use super::watch::Waited;
use crate::{Error, PageIo, PagerError, Result};
use std::time::{Duration, Instant};

impl<F: PageIo> Pager<F> {
    /// Drops a page: it leaves its frame without being written out, and its references are
    /// forgotten. It is for a page that is of no use any longer, as one of a table that is dropped or
    /// of a file that is truncated. What was put there and is not on the device is lost, and holds
    /// [`redo_from`](Pager::redo_from) back no longer. The device and the log are not called.
    ///
    /// It waits while the page is read or written out, and at most the
    /// [`pin_wait`](super::PagerConfig::pin_wait) for other threads to let the page go. It returns
    /// true if the page was in a frame.
    ///
    /// Make durable first what frees the page for good, as the commit record of the transaction that
    /// drops its table: else it may come back, by a crash or by the end of a transaction that does not
    /// commit, and lacks what was lost here. A page that is used again begins with
    /// [`new_page`](Pager::new_page), and its first record has all of its bytes.
    ///
    /// # Errors
    /// [`PagerError::Refused`] with [`NoSuchPage`](Error::NoSuchPage) where the file has no such page;
    /// [`PagePinned`](Error::PagePinned) where a guard of the page was there for too long;
    /// [`Busy`](Error::Busy) in a function of the engine. Then nothing has changed.
    pub fn discard(&self, page: u64) -> Result<bool, PagerError> {
        let (part, own) = self.place(page)?;
        Ok(part.discard(own, self.config().pin_wait)?)
    }

    /// Drops so many pages from the first one on, in the order of the file, as
    /// [`discard`](Pager::discard) does each. It returns how many of them were in frames.
    ///
    /// # Errors
    /// [`PagerError::RefusedPage`] with those of [`discard`](Pager::discard), of the first page that
    /// is refused: those before it were dropped, and it and those after it were not.
    /// [`PagerError::Refused`] with [`NoSuchPage`](Error::NoSuchPage) where the file has not all of them:
    /// then none was dropped.
    pub fn discard_from(&self, first: u64, count: u64) -> Result<u64, PagerError> {
        let pages = self.config().pages;
        let end = first.checked_add(count).filter(|end| *end <= pages);
        let page = first.max(pages);
        let end = end.ok_or(Error::NoSuchPage { page })?;
        (first..end).try_fold(0, |resident, page| match self.discard(page) {
            Ok(was_resident) => Ok(resident + u64::from(was_resident)),
            Err(fault) => {
                let error = fault.refusal();
                Err(PagerError::RefusedPage { page, error })
            }
        })
    }
}

/// So long flushes of a page stand back for a call that is to discard it, while another thread uses it. Not
/// longer: a thread that has the page pinned may flush it.
const SOON: Duration = Duration::from_millis(1);

impl Part {
    fn discard(&self, own: u64, most: Duration) -> Result<bool> {
        let waited = Waited::new(self.watch(), self.in_file(own));
        let mut began = None;
        let mut state = self.lock();
        loop {
            if self.let_go(&mut state, own) {
                match state.pool.discard(0, own) {
                    Err(Error::Busy) => state = self.wait_to_discard(state, own, &waited)?,
                    Ok(was_resident) => {
                        self.forget(state, own);
                        return Ok(was_resident);
                    }
                    Err(error) => return Err(error),
                }
                continue;
            }
            let began = *began.get_or_insert_with(Instant::now);
            let left = most.saturating_sub(began.elapsed());
            if left.is_zero() {
                return Err(Error::PagePinned);
            }
            let is_let_go = |state: &mut _| self.let_go(state, own);
            state = self.wait_for_page(state, left, &waited, is_let_go);
        }
    }

    /// Sleeps until the device work on a page has ended, and a moment more if the page is used then. Who
    /// would write it out once more stands back until this call has had its turn.
    fn wait_to_discard<'a>(
        &'a self,
        mut state: Locked<'a>,
        own: u64,
        waited: &Waited<'_>,
    ) -> Result<Locked<'a>> {
        let Some(seat) = self.seats.of(own) else {
            return self.wait_for_work(state, own, waited);
        };
        state.firsts.begin_wait(seat, own);
        let worked = self.wait_for_work(state, own, waited);
        let is_let_go = |state: &mut _| self.let_go(state, own);
        let worked = worked.map(|state| self.wait_for_page(state, SOON, waited, is_let_go));
        let (mut state, error) = match worked {
            Ok(state) => (state, None),
            Err(error) => (self.lock(), Some(error)),
        };
        state.firsts.end_wait(seat, own);
        self.wake_for_work(own, state.has_sleepers(own));
        error.map_or(Ok(state), Err)
    }

    /// Has a page leave its frame that was read ahead and that nobody has used, since it is made anew: what the
    /// device has of it is of no use. It returns true if it did, and a frame is free for the call.
    pub(super) fn drop_ahead(&self, state: &mut State, own: u64) -> bool {
        let Some(number) = self.seats.of(own) else {
            return false;
        };
        let seat = self.seats.seat(number);
        if seat.word().is_out() {
            self.count_under(state, number);
        }
        // Once its pass is not out, each use of it is seen.
        let leaves = state.kept.is_ahead(number)
            && self.let_go(state, own)
            && !seat.is_touched()
            && state.pool.discard(0, own).is_ok();
        if leaves {
            self.forget_under(state, own, number);
        }
        leaves
    }

    /// Gives the pass of a page back if it is out and nobody uses the page. It returns true if it is
    /// not out then.
    fn let_go(&self, state: &mut State, own: u64) -> bool {
        let seat = self.seats.of(own).map(|number| self.seats.seat(number));
        let out = seat.filter(|it| it.word().is_out());
        out.is_none_or(|seat| self.give_back(state, seat))
    }

    /// Notes that a page was discarded. If it was in a frame, that is free now.
    fn forget(&self, mut state: Locked<'_>, own: u64) {
        let Some(seat) = self.seats.of(own) else {
            let now = state.now;
            state.away.come(&self.seats, own, now);
            self.seats.set_unknown(own, now);
            return;
        };
        self.forget_under(&mut state, own, seat);
        self.wake_for_frame(state);
    }

    /// Takes the seat back of a page that was discarded.
    fn forget_under(&self, state: &mut State, own: u64, seat: usize) {
        state.firsts.leave(seat);
        let now = state.now;
        state.free.take_discarded(&self.seats, own, seat, now);
    }
}
