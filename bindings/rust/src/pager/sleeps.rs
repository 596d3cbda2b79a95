//! What threads sleep for in a part, and who wakes them.
use super::faults::Fault;
use super::part::{Locked, Part, State, place_of};
use super::watch::{For, Waited};
use super::within;
use crate::{Error, Result};
use std::sync::atomic::Ordering;
use std::sync::{Condvar, PoisonError};
use std::time::Duration;

impl Part {
    /// Sleeps until the device work on a page has ended, or some on another page that has its place.
    ///
    /// # Errors
    /// [`Error::Busy`] in a function of the engine which does that work itself, or which another
    /// thread waits for: there a call waits for the pin wait at most, however often it is woken.
    pub(super) fn wait_for_work<'a>(
        &self,
        mut state: Locked<'a>,
        page: u64,
        waited: &Waited<'_>,
    ) -> Result<Locked<'a>> {
        let page_in_file = self.in_file(page);
        if within::is_within(self.watch().pager, |work| work.has_page(page_in_file)) {
            return Err(Error::Busy);
        }
        let left = match self.is_within() {
            true => Some(waited.left(self.pin_wait).ok_or(Error::Busy)?),
            false => None,
        };
        let place = place_of(page);
        let worked = &self.locked.worked[place];
        state.for_work[place] += 1;
        state.waits += 1;
        state = waited.sleep(For::Page, || match left {
            Some(left) => {
                let woken = worked.wait_timeout(state, left);
                woken.unwrap_or_else(PoisonError::into_inner).0
            }
            None => worked.wait(state).unwrap_or_else(PoisonError::into_inner),
        });
        state.for_work[place] -= 1;
        Ok(state)
    }

    /// The same until a read of the page has ended. It also returns the fault of one that failed, if that began
    /// after this call came to wait and the page is not in a frame since.
    pub(super) fn wait_for_read<'a>(
        &self,
        state: Locked<'a>,
        page: u64,
        waited: &Waited<'_>,
    ) -> Result<(Locked<'a>, Option<Fault>)> {
        let begun = waited.begun(state.faults.begun());
        let state = self.wait_for_work(state, page, waited)?;
        let is_away = self.seats.of(page).is_none();
        let fault = is_away.then(|| state.faults.since(page, begun));
        Ok((state, fault.flatten()))
    }

    /// Sleeps until some page is unpinned, or for at most `most`. It does not where what is waited for has
    /// come: that is asked once other threads see that one waits.
    pub(super) fn wait_for_page<'a>(
        &self,
        mut state: Locked<'a>,
        most: Duration,
        waited: &Waited<'_>,
        has_come: impl FnOnce(&mut State) -> bool,
    ) -> Locked<'a> {
        self.waiting.fetch_add(1, Ordering::SeqCst);
        if !has_come(&mut state) {
            state.waits += 1;
            let woken = waited.sleep(For::Pins, || self.locked.let_go.wait_timeout(state, most));
            (state, _) = woken.unwrap_or_else(PoisonError::into_inner);
        }
        self.waiting.fetch_sub(1, Ordering::SeqCst);
        state
    }

    /// Where the group with this place in line sleeps.
    pub(super) fn turns(&self, place: usize) -> &Condvar {
        &self.locked.turns[place]
    }

    /// Wakes who is first in line for a frame, if anybody is.
    pub(super) fn wake_first(&self, state: &State) {
        if let Some(place) = state.line.first_place() {
            self.wake_turn(place, state.aside > 0);
        }
    }

    /// Wakes one call of a group in line. But all where some may have to be refused: while pages are set
    /// aside, those that did so are in the first group.
    fn wake_turn(&self, place: usize, has_aside: bool) {
        match has_aside {
            true => self.turns(place).notify_all(),
            false => self.turns(place).notify_one(),
        }
    }

    /// Wakes the calls in line that want a page which has come into a frame.
    pub(super) fn wake_in_line(&self, state: &State, page: u64) {
        for place in state.line.places_of(page) {
            self.turns(place).notify_all();
        }
    }

    /// Unlocks the part, and wakes who is first in line for a frame, and all that wait for one page. What
    /// has happened did so under the lock, or the lock was taken since.
    pub(super) fn wake_for_frame(&self, state: Locked<'_>) {
        if !self.has_waiting() {
            return;
        }
        let (first, has_aside) = (state.line.first_place(), state.aside > 0);
        drop(state);
        if let Some(place) = first {
            self.wake_turn(place, has_aside);
        }
        self.locked.let_go.notify_all();
    }

    /// Unlocks the part, and wakes the threads that wait for the end of the device work on a page.
    pub(super) fn wake(&self, state: Locked<'_>, page: u64) {
        let has_sleepers = state.has_sleepers(page);
        self.wake_for_frame(state);
        self.wake_for_work(page, has_sleepers);
    }

    /// The same with the lock kept, of a page that nobody waits for alone.
    pub(super) fn wake_under(&self, state: &State, page: u64) {
        self.wake_for_work(page, state.has_sleepers(page));
        self.wake_first(state);
    }

    pub(super) fn wake_for_work(&self, page: u64, has_sleepers: bool) {
        if has_sleepers {
            self.locked.worked[place_of(page)].notify_all();
        }
    }

    /// Whether this thread is in a function of the engine that the pager called.
    pub(super) fn is_within(&self) -> bool {
        within::is_within(self.watch().pager, |_| true)
    }
}
