//! How the guards of a part's pages are made and end, and which passes of the pool stay out.
use super::guards::{PageMut, PagePin, PageRef, Share};
use super::part::{Locked, Part, State};
use super::seats::{Pinned, Seat};
use super::word::{PIN, READER, WRITER, Word};
use crate::core::Pass;
use crate::{Error, Result};

/// What came of a shared latch without the lock.
pub(super) enum Joined<'a> {
    /// The page is pinned, with its latch.
    Latched(PageRef<'a>),
    /// The page is pinned. Its latch was not free.
    Pinned(PagePin<'a>),
    /// The pass of the page is not out.
    Not,
}

/// What a shared latch that was not had at once left: a seat whose word has a share more, and what that
/// word was; or nothing. It is two words, so that it is passed on in registers.
///
/// It goes back to the pager that gave it, for the same page. The compiler refuses a program that goes on
/// with another's and does not say that it answers for that:
///
/// ```compile_fail,E0133
/// use hojzmated::{PageIo, PageRef, PagerError, Pager};
///
/// fn mixed<'a, F: PageIo>(
///     one: &'a Pager<F>,
///     other: &'a Pager<F>,
/// ) -> Result<PageRef<'a>, PagerError> {
///     match one.read_at_once(3) {
///         Ok(page) => Ok(page),
///         Err(missed) => other.read_slowly(3, missed),
///     }
/// }
/// ```
#[must_use = "the share is still in the word"]
pub struct Missed<'a> {
    seat: Option<&'a Seat>,
    before: Word,
}

/// The same of an exclusive latch: that of another page, which has the seat by now. It has its part with it,
/// and lets the latch go as it is dropped: so it does no harm whichever pager, and page, it is given to.
#[must_use = "the latch of another page is taken while it is there"]
pub struct MissedAlone<'a>(
    #[expect(dead_code, reason = "it is only dropped")] Option<Share<'a, WRITER>>,
);

/// How a page came to be in its frame.
#[derive(Clone, Copy, PartialEq, Eq)]
pub(super) enum Came {
    /// It was there.
    Here,
    Read,
    /// It was read before anybody asked for it.
    Ahead,
}

/// At most so many passes are looked at before a page is read.
pub(super) const PASSES: usize = 32;

impl Part {
    /// Pins a page whose pass is out under its shared latch, without the lock and without asking the
    /// pool.
    // Always: else what it gives goes through memory.
    #[inline(always)]
    pub(super) fn join_read(&self, page: u64) -> Result<PageRef<'_>, Missed<'_>> {
        let seat = self.seats.out(page);
        let Some(found) = seat else {
            let before = Word::default();
            return Err(Missed { seat, before });
        };
        let before = found.join(READER);
        if !before.is_readable_at_once() || found.page() != page {
            return Err(Missed { seat, before });
        }
        found.touch(self.now());
        // SAFETY: the pass was out, and the latch free.
        Ok(PageRef::at_once(unsafe { Share::new(self, found) }))
    }

    /// Goes on where that was not had.
    #[cold]
    #[inline(never)]
    pub(super) fn join_read_slowly<'a>(&'a self, page: u64, missed: Missed<'a>) -> Joined<'a> {
        let Missed { seat, before } = missed;
        let Some(seat) = seat else {
            return Joined::Not;
        };
        if !before.is_pinnable() || seat.page() != page {
            self.leave(seat, READER);
            return Joined::Not;
        }
        seat.touch(self.now());
        if before.is_readable() {
            self.count(seat);
            // SAFETY: the pass was out, and the latch free.
            return Joined::Latched(PageRef::new(unsafe { Share::new(self, seat) }));
        }
        // The share may have been in the way of a thread that waits.
        if seat.turn_to_pin().is_awaited() {
            self.hand_over(seat);
        }
        // SAFETY: the pass was out.
        Joined::Pinned(PagePin::new(unsafe { Share::new(self, seat) }))
    }

    /// The same with the exclusive latch, if that is free and it is not time for a reference.
    // Always: else what it gives goes through memory.
    #[inline(always)]
    pub(super) fn join_write(&self, page: u64) -> Result<PageMut<'_>, MissedAlone<'_>> {
        let free = self.seats.out(page).filter(|seat| seat.join_alone());
        let Some(seat) = free else {
            return Err(MissedAlone(None));
        };
        // Another page may have the seat since it was looked up.
        if seat.page() != page {
            // SAFETY: the pass was out, and the latch free.
            return Err(unsafe { self.missed_alone(seat) });
        }
        seat.touch(self.now());
        // SAFETY: the pass was out, and the latch free.
        Ok(PageMut::at_once(unsafe { Share::new(self, seat) }))
    }

    /// Returns the latch of another page, which was taken in vain. It stands apart: else what is returned there
    /// is in the way of the registers of who has its page.
    ///
    /// # Safety
    /// It was taken just now, while the pass is out.
    #[cold]
    #[inline(never)]
    unsafe fn missed_alone<'a>(&'a self, seat: &'a Seat) -> MissedAlone<'a> {
        // SAFETY: the caller says so.
        MissedAlone(Some(unsafe { Share::new(self, seat) }))
    }

    /// The same without a latch.
    #[inline]
    pub(super) fn join(&self, page: u64) -> Option<PagePin<'_>> {
        let seat = self.seats.out(page)?;
        let before = seat.join(PIN);
        if !before.is_pinnable() || seat.page() != page {
            self.leave(seat, PIN);
            return None;
        }
        seat.touch(self.now());
        if before.is_due() {
            self.count(seat);
        }
        // SAFETY: the pass was out.
        Some(PagePin::new(unsafe { Share::new(self, seat) }))
    }

    /// Takes a share of a seat's word back.
    #[inline]
    pub(super) fn leave(&self, seat: &Seat, share: u64) {
        let left = seat.leave(share);
        if !self.is_left_so(left) {
            self.leave_slowly(seat, left);
        }
    }

    /// Whether nothing has to be done by who left a word so.
    #[inline]
    pub(super) fn is_left_so(&self, left: Word) -> bool {
        left.is_quiet() && !self.has_waiting_or_notes()
    }

    #[cold]
    #[inline(never)]
    pub(super) fn leave_slowly(&self, seat: &Seat, left: Word) {
        if left.is_awaited() {
            self.hand_over(seat);
        }
        if left.is_over() || (!left.is_used() && self.has_waiting()) {
            let mut state = self.lock();
            self.end_use(&mut state, seat);
            self.wake_for_frame(state);
        }
    }

    /// Gives the pass of a seat back, if nobody uses the page and it need not stay out. It stays
    /// where others joined who used the page.
    fn end_use(&self, state: &mut State, seat: &Seat) {
        let word = seat.word();
        if word.is_over() {
            if self.keeps && word.joins() > 0 {
                seat.stay();
                self.keep(state, self.seats.number_of(seat), Came::Here);
            } else {
                self.give_back(state, seat);
            }
        }
    }

    /// Notes that a pass stays out. That of a page which was read ahead waits longer for its use.
    fn keep(&self, state: &mut State, number: usize, came: Came) {
        let period = match came {
            Came::Ahead => self.ahead,
            _ => state.pool.config().correlated,
        };
        state.kept.put(number, state.now.saturating_add(period));
    }

    /// Pins the page of a pass that was just given, and notes how it came to be in its frame. The lock is opened.
    #[inline]
    pub(super) fn pinned<'a>(
        &'a self,
        mut state: Locked<'a>,
        pass: Pass,
        came: Came,
    ) -> Result<PagePin<'a>> {
        let number = self.seats.of(pass.page());
        if let Some(number) = number.filter(|it| self.seats.seat(*it).word().is_out()) {
            // All pins of a page share one pass.
            let now = state.now;
            state.kept.refer(number, now);
            let _ = state.pool.unfix_by(&pass);
            let seat = self.seats.seat(number);
            let before = seat.add_pin();
            return self.with_pin(state, seat, before);
        }
        let seat = self.begin(&mut state, &pass, came)?;
        drop(state);
        // SAFETY: the pass is out, and the pin in the word.
        Ok(PagePin::new(unsafe { Share::new(self, seat) }))
    }

    /// Has the pass out of a page that was just read ahead. While the lock was open nobody has seen a pin of it.
    pub(super) fn keep_ahead(&self, state: &mut State, pass: &Pass) -> Result<()> {
        let seat = self.begin(state, pass, Came::Ahead)?;
        let left = seat.leave(PIN);
        if left.is_awaited() {
            self.hand_over(seat);
        }
        self.end_use(state, seat);
        Ok(())
    }

    /// Has a pass out that was just given, with a pin, and notes how its page came to be in its frame.
    fn begin(&self, state: &mut State, pass: &Pass, came: Came) -> Result<&Seat> {
        let page = pass.page();
        let (Some(number), Ok(bytes)) = (self.seats.of(page), state.pool.place(pass)) else {
            // This can't be: the page is in a frame, and its pass is out.
            let _ = state.pool.unfix_by(pass);
            return Err(Error::UnknownPass);
        };
        let (seat, now) = (self.seats.seat(number), state.now);
        let (bytes, serial) = (bytes.cast(), pass.serial());
        state.kept.refer(number, now);
        state.places.note(bytes);
        let stays = match came {
            Came::Here => self.keeps,
            Came::Read => false,
            Came::Ahead => !self.tells_each,
        };
        state.kept.set_ahead(number, came == Came::Ahead);
        let touched = if came == Came::Ahead { 0 } else { now };
        seat.begin(page, &Pinned { bytes, serial }, touched, stays);
        if self.joins {
            self.seats.set_out(page, number, true);
        }
        if stays {
            self.keep(state, number, came);
        }
        Ok(seat)
    }

    /// Returns the seat of a page whose pass is out, while the lock is held, if not each pin is told to the pool.
    pub(super) fn out_under(&self, page: u64) -> Option<&Seat> {
        let number = self.seats.of(page).filter(|_| !self.tells_each)?;
        Some(self.seats.seat(number)).filter(|it| it.word().is_out())
    }

    /// Pins a page whose pass is out, without asking the pool. The lock is opened.
    pub(super) fn join_under<'a>(
        &'a self,
        mut state: Locked<'_>,
        seat: &'a Seat,
    ) -> Result<PagePin<'a>> {
        seat.touch(state.now);
        let before = seat.join(PIN);
        if before.is_due() {
            self.count_under(&mut state, self.seats.number_of(seat));
        }
        self.with_pin(state, seat, before)
    }

    /// Pins a page if it is in a frame, without waiting.
    #[cold]
    pub(super) fn pin_resident(&self, page: u64) -> Option<PagePin<'_>> {
        let mut state = self.lock();
        if let Some(seat) = self.out_under(page) {
            return self.join_under(state, seat).ok();
        }
        self.seats.of(page)?;
        self.tick_for_call(&mut state).ok()?;
        let pass = self.hit(&mut state, page)?.into_pass();
        self.pinned(state, pass, Came::Here).ok()
    }

    /// Pins a page that is in a frame, for the pager itself. The lock is opened.
    pub(super) fn pin_under<'a>(&'a self, mut state: Locked<'a>, page: u64) -> Result<PagePin<'a>> {
        let seat = self.seats.of(page).map(|number| self.seats.seat(number));
        if let Some(seat) = seat.filter(|it| it.word().is_out()) {
            let before = seat.add_pin();
            return self.with_pin(state, seat, before);
        }
        let hit = self.hit(&mut state, page).ok_or(Error::UnknownPass)?;
        let pass = hit.into_pass();
        self.pinned(state, pass, Came::Here)
    }

    /// Whether a thread has the exclusive latch of a seat's page. If none has it nobody writes to the
    /// page before the lock is open, and what was written before is there.
    pub(super) fn is_written(&self, number: usize) -> bool {
        self.seats.seat(number).word().is_written()
    }

    /// Opens the lock, under which a pin was added while the pass is out, and returns the pin.
    fn with_pin<'a>(
        &'a self,
        state: Locked<'_>,
        seat: &'a Seat,
        before: Word,
    ) -> Result<PagePin<'a>> {
        drop(state);
        // SAFETY: the pass is out, and the pin in the word.
        let pin = PagePin::new(unsafe { Share::new(self, seat) });
        // One that has no room goes back.
        let had = before.is_pinnable().then_some(pin);
        had.ok_or(Error::TooManyGuards)
    }

    /// Gives a pass back, if it is out and nobody uses its page.
    pub(super) fn give_back(&self, state: &mut State, seat: &Seat) -> bool {
        let Some(joins) = seat.end() else {
            return false;
        };
        state.joined += joins;
        let page = seat.page();
        self.seats.set_out(page, self.seats.number_of(seat), false);
        let pass = state.pool.pass_of(page, seat.serial());
        // A pass of this pool that is out is always taken.
        let _ = state.pool.unfix_by(&pass);
        true
    }

    /// Counts the pins that were made without the lock, of a page that the caller has pinned.
    #[cold]
    fn count(&self, seat: &Seat) {
        self.count_under(&mut self.lock(), self.seats.number_of(seat));
    }

    /// Counts the pins of a seat's page, while its pass is out, that were made without the lock. The
    /// clock moves on by their number. They are one reference, if the newest of them is: with the
    /// one before it, if it came within the correlated period. The first use of a page that was read
    /// ahead is the one for which it was read: the reference and the tick were had then.
    pub(super) fn count_under(&self, state: &mut State, number: usize) {
        let seat = self.seats.seat(number);
        if seat.word().joins() == 0 {
            return;
        }
        let joins = seat.take_joins();
        state.joined += joins;
        if !seat.is_touched() {
            // They took the seat for that of another page, or are about to note that.
            return;
        }
        let (last, period) = (state.kept.newest(number), state.pool.config().correlated);
        let is_new = seat.touched().saturating_sub(last) > period || period == 0;
        let was_ahead = state.kept.take_ahead(number);
        if is_new && was_ahead {
            state.kept.use_first(number, seat.touched());
        } else if is_new || state.now - last <= period {
            // If it is too late for one that moves LAST of the page, LAST stays.
            if self.refer_to(state, seat.page()) {
                state.referred += 1;
            }
        }
        let ticks = joins - u64::from(was_ahead);
        if ticks > 0 {
            // At the end of its clock the part goes on.
            let _ = self.tick(state, ticks);
        }
    }

    /// Gives passes back that were not touched for the correlated period, and returns how many.
    /// Until then their pages may not be evicted anyway. It looks at no more than `most` passes.
    pub(super) fn make_way(&self, state: &mut State, most: usize) -> usize {
        let mut given = 0;
        for _ in 0..most.min(state.kept.len()) {
            if state.kept.next(state.now).is_none() {
                break;
            }
            given += usize::from(self.look_at_next(state, false));
        }
        given
    }

    /// Gives all passes back whose pages nobody uses, and returns how many.
    pub(super) fn give_all_back(&self, state: &mut State) -> usize {
        let looks = 0..state.kept.len();
        looks.filter(|_| self.look_at_next(state, true)).count()
    }

    /// Gives the pass back that is next, if it is time for that or `at_once` is so, and its page is
    /// not used. Else it is last.
    fn look_at_next(&self, state: &mut State, at_once: bool) -> bool {
        let Some(number) = state.kept.take_next() else {
            return false;
        };
        let seat = self.seats.seat(number);
        if !seat.word().is_out() {
            // Its page was discarded.
            return false;
        }
        self.count_under(state, number);
        let period = state.pool.config().correlated;
        let last = seat.touched().max(state.kept.newest(number));
        let mut due = last.saturating_add(period);
        if due <= state.now || at_once {
            if self.give_back(state, seat) {
                return true;
            }
            due = due.max(state.now.saturating_add(period));
        }
        state.kept.put(number, due);
        false
    }

    /// Of the passes that stay out, returns the number of those whose pages nobody uses, and the
    /// number of pins that were not counted so far.
    pub(super) fn kept(&self, state: &State) -> (usize, u64) {
        let words = state.kept.seats().map(|seat| self.seats.seat(seat).word());
        words.fold((0, 0), |(unused, joins), word| {
            let is_unused = word.is_out() && !word.is_used();
            (unused + usize::from(is_unused), joins + word.joins())
        })
    }

    /// Whether a page could make way if it were old enough: one that nobody uses and on which the
    /// device does not work. The passes of pages that nobody uses are not out.
    pub(super) fn has_unused(&self, state: &State) -> bool {
        let counts = state.pool.stats();
        let unused = counts.resident - counts.pinned;
        if unused == 0 || unused > counts.writing {
            return unused > 0;
        }
        let used = |seat: &usize| self.seats.seat(*seat).word().is_out();
        let going_out = state.firsts.going_out();
        unused + going_out.filter(used).count() > counts.writing
    }
}

#[cfg(test)]
#[allow(clippy::unwrap_used)]
mod tests {
    use super::*;
    use crate::{LogFault, PageIo, Pager, PagerConfig, PagerError, ReadFault};
    use std::io;
    use std::time::Duration;

    /// Each page has its number in all of its bytes.
    struct Numbered;

    impl PageIo for Numbered {
        fn read_page(&self, page: u64, image: &mut [u8]) -> Result<(), ReadFault> {
            image.fill(page as u8);
            Ok(())
        }

        fn write_page(&self, _page: u64, _image: &mut [u8], _lsn: u64) -> io::Result<()> {
            Ok(())
        }

        fn make_log_durable(&self, _lsn: u64) -> Result<(), LogFault> {
            Ok(())
        }

        fn sync(&self) -> io::Result<()> {
            Ok(())
        }
    }

    /// A pager with one frame.
    fn pager() -> Pager<Numbered> {
        let config = PagerConfig {
            correlated: 0,
            pin_wait: Duration::from_millis(20),
            ..PagerConfig::in_parts(8, 64, 1, 1)
        };
        Pager::new(&config, Numbered).unwrap()
    }

    // What was missed of one pager goes to the call of another, in which a page is looked at: that one stays in its
    // frame, as it is, and the latch is free again where it was taken. The seat had another page, as where that comes
    // between two looks at it.
    #[test]
    fn latch_missed_of_another_pager() {
        let (one, other) = (pager(), pager());
        let look = other.read(3).unwrap();
        let pin = one.pin(3).unwrap();
        let part = &one.parts[0];
        let seat = part.seats.out(3).unwrap();
        assert!(seat.join_alone());
        drop(pin);
        // SAFETY: the pass is out, and the latch was taken just now.
        let missed = MissedAlone(Some(unsafe { Share::new(part, seat) }));
        assert!(one.try_read(3).unwrap().is_none());
        let told = other.write_slowly(5, missed).map(drop).unwrap_err();
        assert!(matches!(told, PagerError::Refused(Error::NoVictim)));
        assert!(other.is_resident(3));
        assert_eq!(*look, [3; 64]);
        assert_eq!(one.try_read(3).unwrap().unwrap()[0], 3);
        assert_eq!((one.stats().pinned, other.stats().pinned), (0, 1));
    }
}
