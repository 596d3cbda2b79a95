//! Seats: for each frame of a part its page, and in one word the page's latch and its pins.
//!
//! # Which field changes under what, and who sees it
//!
//! - **Shares.** A guard is a share in the word of its page's seat: a READER, a PIN or a WRITER. Each
//!   share keeps the page in its frame. Every change of a word is one atomic read-modify-write, so
//!   what a release wrote is seen by each later acquire, whatever changes are between.
//! - **The pass.** `page`, `bytes` and `serial` are stored under the part's lock while the word has
//!   no OUT; then OUT is set (Release). Who adds a share (Acquire) and finds OUT sees them. They stay
//!   as long as the share: OUT goes by a compare-and-swap under the lock that finds no share. A share
//!   that was added where there was no OUT, or whose seat has another page, is taken back at once: so
//!   any word may have shares for a moment that are no guards, and no rule here relies on their
//!   absence.
//! - **Latches.** A READER is added blindly (Acquire). It is a latch if OUT was there, and neither
//!   WRITER nor CLOSED; else it is turned into a PIN, or taken back. A WRITER is added by a
//!   compare-and-swap (Acquire) that finds OUT and no READER, WRITER or CLOSED.
//! - **Letting go** takes the share from the word (SeqCst, so a Release): all use of the page is before
//!   the next latch, and before OUT goes (SeqCst, so an Acquire).
//! - **Bytes** of a page change by [`Part::write`] and its like, under a WRITER and the part's lock. They
//!   are looked at under a READER or by the WRITER, or are copied under the lock where there is no
//!   WRITER: one that comes then writes nothing before the lock is open.
//! - **Places** of pages in memory are noted under the lock before OUT is set, and never taken back. So who
//!   has the lock, and bytes whose place is not noted, has none of a page of the part.
//! - **QUEUED and CLOSED** change under the mutex of [`Queues`] alone. They are set where the latch is
//!   not free, and go as the last thread of the queue is let in. While CLOSED is there who comes does
//!   not get the latch. Who leaves a word that has QUEUED, and no READER or WRITER any more, calls
//!   [`Queues::hand_over`], which adds the shares of those who are next (AcqRel). They see that by the
//!   mutex. Or it wakes the first writer, and CLOSED goes: that writer takes the latch itself (AcqRel),
//!   or sets CLOSED as it finds the latch taken, in one change. So while threads wait QUEUED is there,
//!   and who has the latch or leaves it calls them, or the first is awake and looks.
//! - **Who waits for a frame** adds to the part's `waiting` (SeqCst), looks at the words (SeqCst), and
//!   sleeps, all under the part's lock. Who lets go looks at `waiting` (SeqCst) after it took its share
//!   back (SeqCst), and takes the lock before it wakes: so one of both sees the other.
//!   Of those in line for a frame only who is first looks, and who leaves the line as the first wakes the next:
//!   see [`Line`].
//! - **STAYS and joins** are for [`Part::make_way`]. Without STAYS the last share gives the pass back,
//!   under the lock. Joins are counted as shares are added, and taken under the lock. A page that was read
//!   ahead has STAYS from the first, before any share but the reader's.
//! - **The seat of a page** changes under the lock, and else is a hint (Relaxed): `page` is compared
//!   under a share. So are `touched` and the part's `now` (Relaxed), on which no safety relies. Who uses a page
//!   notes that in `touched` before it lets go: so it is seen once OUT is gone.
//! - **Order of locks:** a latch, then the part's lock, then the mutex of the queues. Nobody waits for a
//!   latch, sleeps for anything else than the lock itself, or calls the engine or its observer with the part's lock.
//! - **Tickets.** Who has tickets of pages, to read them or write them out, waits for no latch, log, page or
//!   frame, and begins no other device work, until they have ended: it takes the locks of parts alone, for
//!   more tickets of a row. Others may wait for these tickets with latches.
//!
//! [`Part::write`]: super::part::Part::write
//! [`Part::make_way`]: super::part::Part::make_way
//! [`Line`]: super::line::Line
//! [`Queues`]: super::latch::Queues
//! [`Queues::hand_over`]: super::latch::Queues::hand_over
use super::waiters::{Change, Place, Waiters};
use super::word::{JOIN, PIN, READER, Word};
use crate::{Error, Result};
use std::sync::atomic::{AtomicPtr, AtomicU32, AtomicU64, Ordering};

/// The part of a frame that this crate adds, on a cache line of its own. All guards of a page share
/// one pass of the pool.
#[derive(Default)]
#[repr(align(64))]
pub(super) struct Seat {
    word: AtomicU64,
    /// The page, the place of its bytes, and the serial number of its pass. They change only while
    /// the pass is not out.
    page: AtomicU64,
    bytes: AtomicPtr<u8>,
    serial: AtomicU64,
    /// What the part's clock was when the page was pinned without the lock. 0 where it was read ahead, until its
    /// first use.
    touched: AtomicU64,
}

/// How often a thread looks whether the latch is free before it waits in the queue.
const LOOKS: u32 = 60;

/// What a seat has of a page whose pass is out.
pub(super) struct Pinned {
    pub(super) bytes: *const u8,
    pub(super) serial: u64,
}

impl Seat {
    #[inline]
    pub(super) fn word(&self) -> Word {
        Word(self.word.load(Ordering::SeqCst))
    }

    /// Adds a share and a join, and returns what was there. If the pass was out, its page and bytes
    /// are those that were written before, and stay.
    #[inline]
    pub(super) fn join(&self, share: u64) -> Word {
        // Acquire: who comes has nothing to tell.
        // step: Visitor::join_read, Visitor::join_pin
        Word(self.word.fetch_add(share + JOIN, Ordering::Acquire))
    }

    /// Takes the exclusive latch with a join, if the pass is out and nobody has a latch or is to get it,
    /// and it is not time for a reference.
    #[inline]
    pub(super) fn join_alone(&self) -> bool {
        let word = Word(self.word.load(Ordering::Relaxed));
        let Some(next) = word.with_writer_at_once() else {
            return false;
        };
        // Relaxed: what was loaded is a guess, and where the swap fails nothing is looked at.
        // Acquire: who comes has nothing to tell.
        // step: Visitor::join_write
        let swapped =
            self.word
                .compare_exchange(word.0, next, Ordering::Acquire, Ordering::Relaxed);
        swapped.is_ok()
    }

    /// Takes a share back, and returns what is left. All use of the page comes before whatever
    /// happens once nobody uses it. The order with the look at the part's waiting threads is that of
    /// all such calls: a thread that is to wait notes so before it looks at the words.
    #[inline]
    pub(super) fn leave(&self, share: u64) -> Word {
        // step: Reader::leave, Pin::leave, Writer::leave
        Word(self.word.fetch_sub(share, Ordering::SeqCst)).without(share)
    }

    /// Turns a shared latch that was added into a pin, and returns what is there then.
    pub(super) fn turn_to_pin(&self) -> Word {
        // step: Visitor::join_read
        let before = self.word.fetch_add(PIN - READER, Ordering::SeqCst);
        Word(before).turned_to_pin()
    }

    /// Makes a pin under the part's lock, while the pass is out.
    pub(super) fn add_pin(&self) -> Word {
        // Acquire: who comes has nothing to tell.
        // step: Visitor::add_pin
        Word(self.word.fetch_add(PIN, Ordering::Acquire))
    }

    /// Takes a latch in place of another share, if that is free and nobody is to get it.
    #[inline]
    pub(super) fn try_latch(&self, latch: u64, in_place_of: u64) -> bool {
        // Acquire: where it takes the place of a pin, this thread still has a share to give back.
        // step: Pin::try_read, Pin::try_write, Pin::try_read_beside, Pin::try_write_beside
        let latched = |word| Word(word).with_latch(latch, in_place_of);
        self.change(Ordering::Acquire, latched).is_ok()
    }

    /// The same, and looks for a while whether the latch comes free.
    pub(super) fn latch_soon(&self, latch: u64, in_place_of: u64) -> bool {
        (0..LOOKS).any(|_| {
            std::hint::spin_loop();
            self.try_latch(latch, in_place_of)
        })
    }

    /// Takes a latch beside a pin, if that is free and nobody waits for it. Else it adds a thread to those
    /// that wait, and returns where that sleeps. The queues are locked.
    ///
    /// # Errors
    /// [`Error::TooManyGuards`]: then nothing is changed.
    pub(super) fn latch_or_queue(
        &self,
        waiters: &mut Waiters,
        latch: u64,
        now: u64,
    ) -> Result<Option<Place>> {
        loop {
            if self.try_latch(latch, 0) {
                return Ok(None);
            }
            // Only where the latch is not free now: so who lets it go finds this.
            // Acquire: what it tells, the queues' mutex tells too.
            // step: Queue::try_wait_to_read, Queue::try_wait_to_write
            let entered = |waiters: Waiters, word| waiters.entered(word, latch, now);
            match self.change_queue(Ordering::Acquire, waiters, entered) {
                Ok(place) => return Ok(place),
                Err(word) if !word.has_room() => return Err(Error::TooManyGuards),
                Err(_) => {}
            }
        }
    }

    /// Hands the latch over to who is next, or opens the word for a writer that is next, and returns where
    /// those sleep that are to be woken. The queues are locked.
    pub(super) fn hand_over(&self, waiters: &mut Waiters, now: u64) -> Option<Place> {
        // AcqRel: this sees what was written under the latch, and those let in see it by the mutex.
        // step: Queue::try_let_readers_in, Queue::try_let_writer_in, Visitor::try_open
        let handed = |waiters: Waiters, word| Some(waiters.handed_over(word, now));
        let place = self.change_queue(Ordering::AcqRel, waiters, handed);
        place.ok().flatten()
    }

    /// Takes the latch for a writer that woke, if it is its turn and nobody has the latch. Else it notes
    /// that threads wait. The queues are locked.
    pub(super) fn look(&self, waiters: &mut Waiters, ticket: u64, now: u64) {
        // AcqRel: as for those that are let in.
        // step: Queue::try_let_writer_in
        let looked = |waiters: Waiters, word| Some(waiters.looked(word, ticket, now));
        let _ = self.change_queue(Ordering::AcqRel, waiters, looked);
    }

    /// Changes the word and those that wait for the latch, if there is a change, and returns where threads
    /// sleep. Else it returns what was there. The queues are locked.
    fn change_queue(
        &self,
        order: Ordering,
        waiters: &mut Waiters,
        change: impl Fn(Waiters, Word) -> Option<Change>,
    ) -> Result<Option<Place>, Word> {
        let next = |word| change(*waiters, Word(word));
        // Where the word stays as it is nothing is swapped: who leaves it later finds those that wait.
        let swapped = |word: u64| Some(next(word)?.word).filter(|it| *it != word);
        let (Ok(found) | Err(found)) = self.change(order, swapped);
        let change = next(found.0).ok_or(found)?;
        *waiters = change.waiters;
        Ok(change.place)
    }

    /// Changes the word, if it is to be changed, and returns what was there.
    #[inline]
    fn change(&self, order: Ordering, change: impl Fn(u64) -> Option<u64>) -> Result<Word, Word> {
        // Relaxed: where nothing changes nothing of the page is looked at.
        let changed = self.word.fetch_update(order, Ordering::Relaxed, change);
        changed.map(Word).map_err(Word)
    }

    /// Returns the page. It is valid while the pass is out, or the part's lock is held.
    #[inline]
    pub(super) fn page(&self) -> u64 {
        self.page.load(Ordering::Relaxed)
    }

    /// Returns where the bytes are, while the pass is out.
    #[inline]
    pub(super) fn bytes(&self) -> *const u8 {
        self.bytes.load(Ordering::Relaxed)
    }

    #[inline]
    pub(super) fn serial(&self) -> u64 {
        self.serial.load(Ordering::Relaxed)
    }

    /// Notes when the page was pinned without the lock.
    #[inline]
    pub(super) fn touch(&self, now: u64) {
        if self.touched.load(Ordering::Relaxed) != now {
            self.touched.store(now, Ordering::Relaxed);
        }
    }

    pub(super) fn touched(&self) -> u64 {
        self.touched.load(Ordering::Relaxed)
    }

    /// Whether the page was pinned, and not only read ahead.
    pub(super) fn is_touched(&self) -> bool {
        self.touched() != 0
    }

    /// Notes that the pass of a page is out, and makes a pin, under the part's lock. Threads that
    /// took the seat for that of another page may be in the word for a moment.
    #[inline]
    pub(super) fn begin(&self, page: u64, pinned: &Pinned, touched: u64, stays: bool) {
        // Relaxed: the step below makes them seen.
        // step: Keeper::try_begin
        self.page.store(page, Ordering::Relaxed);
        self.bytes.store(pinned.bytes.cast_mut(), Ordering::Relaxed);
        self.serial.store(pinned.serial, Ordering::Relaxed);
        self.touched.store(touched, Ordering::Relaxed);
        // Release: who finds that it is out sees all this.
        // step: Keeper::try_begin
        let _ = self.change(Ordering::Release, |word| Some(Word(word).with_pass(stays)));
    }

    /// Has the pass stay out when nobody uses the page, under the part's lock.
    pub(super) fn stay(&self) {
        // Relaxed: it tells nothing of the page.
        // step: Keeper::try_stay
        let _ = self.change(Ordering::Relaxed, |word| Some(Word(word).staying()));
    }

    /// Takes the joins that were not counted so far.
    pub(super) fn take_joins(&self) -> u64 {
        // Relaxed: it tells nothing of the page.
        // step: Keeper::try_take_joins
        let taken = self.change(Ordering::Relaxed, |word| Some(Word(word).without_joins()));
        taken.map_or(0, Word::joins)
    }

    /// Ends that the pass is out, under the part's lock, if nobody uses the page. It returns the
    /// joins that were not counted so far.
    #[inline]
    pub(super) fn end(&self) -> Option<u64> {
        // This sees all use of the page.
        // step: Keeper::try_end
        let ended = self.change(Ordering::SeqCst, |word| Word(word).without_pass());
        ended.ok().map(Word::joins)
    }
}

/// The seats of a part, and the seat of each page that is in a frame.
pub(super) struct Seats {
    seats: Box<[Seat]>,
    /// For each page of the part its seat plus one, twice, and one more while its pass is out. Or AWAY
    /// and the end of the time of its newest reference, if it left its frame; or UNKNOWN and that of when
    /// its references were forgotten, twice; or 0. It changes under the part's lock.
    of_page: Box<[AtomicU32]>,
}

/// Beyond what a page has that is in a frame: there are at most 65,536.
const UNKNOWN: u32 = 1 << 30;
const AWAY: u32 = 1 << 31;

/// Returns an empty list with memory for so many.
pub(super) fn list_of<T>(most: usize) -> Result<Vec<T>> {
    let mut list = Vec::new();
    let room = list.try_reserve_exact(most);
    room.map(|()| list).map_err(|_| Error::OutOfMemory)
}

/// Returns a list of so many default values.
pub(super) fn filled<T: Default>(count: usize) -> Result<Vec<T>> {
    let mut list = list_of(count)?;
    list.resize_with(count, T::default);
    Ok(list)
}

impl Seats {
    pub(super) fn new(pages: u64, frames: usize) -> Result<Seats> {
        Ok(Seats {
            seats: filled(frames)?.into_boxed_slice(),
            of_page: filled(pages as usize)?.into_boxed_slice(),
        })
    }

    #[inline]
    pub(super) fn seat(&self, seat: usize) -> &Seat {
        &self.seats[seat]
    }

    /// Returns the number of a seat of these.
    #[inline]
    pub(super) fn number_of(&self, seat: &Seat) -> usize {
        let (first, this) = (self.seats.as_ptr(), std::ptr::from_ref(seat));
        (this.addr() - first.addr()) / size_of::<Seat>()
    }

    /// Returns the seat of a page. Without the part's lock the seat may be another page's by now.
    #[inline]
    pub(super) fn of(&self, page: u64) -> Option<usize> {
        let found = self.of_page.get(page as usize)?.load(Ordering::Relaxed);
        if found >= UNKNOWN {
            return None;
        }
        (found as usize / 2).checked_sub(1)
    }

    /// Returns what is noted of a page. It changes each time that the page comes into a frame or leaves
    /// it. Without the part's lock it may be that of a moment ago.
    pub(super) fn noted(&self, page: u64) -> u32 {
        let found = self.of_page.get(page as usize);
        found.map_or(0, |it| it.load(Ordering::Relaxed))
    }

    /// Returns how many ticks ago the newest reference was of a page that left its frame, but for a
    /// multiple of 2^31. The part is locked.
    pub(super) fn age_of(&self, page: u64, now: u64) -> Option<u64> {
        let found = self.of_page.get(page as usize)?.load(Ordering::Relaxed);
        let last = found.checked_sub(AWAY)?;
        Some(u64::from((now as u32).wrapping_sub(last) % AWAY))
    }

    /// Notes that a page left its frame, whose newest reference was then. The part is locked.
    fn set_away(&self, page: u64, last: u64) {
        self.of_page[page as usize].store(AWAY | (last as u32 % AWAY), Ordering::Relaxed);
    }

    /// Notes that nothing is known any more of a page that is in no frame, since then. The part is locked.
    pub(super) fn set_unknown(&self, page: u64, now: u64) {
        let noted = UNKNOWN | ((now as u32).wrapping_mul(2) % UNKNOWN);
        self.of_page[page as usize].store(noted, Ordering::Relaxed);
    }

    /// Returns the seat of a page whose pass was out just now.
    #[inline]
    pub(super) fn out(&self, page: u64) -> Option<&Seat> {
        let found = self.of_page.get(page as usize)?.load(Ordering::Relaxed);
        if found % 2 == 0 {
            return None;
        }
        self.seats.get((found as usize / 2).wrapping_sub(1))
    }

    fn set(&self, page: u64, seat: u32) {
        self.of_page[page as usize].store(2 * seat, Ordering::Relaxed);
    }

    /// Notes whether the pass of a page is out, which has this seat.
    pub(super) fn set_out(&self, page: u64, seat: usize, is_out: bool) {
        let found = 2 * (seat as u32 + 1) + u32::from(is_out);
        self.of_page[page as usize].store(found, Ordering::Relaxed);
    }
}

/// The seats that no page has.
pub(super) struct FreeSeats {
    free: Vec<u32>,
    /// The most seats that pages had at the same time.
    most: usize,
    seats: usize,
}

impl FreeSeats {
    pub(super) fn new(seats: usize) -> Result<FreeSeats> {
        let mut free = list_of(seats)?;
        free.extend((0..seats as u32).rev());
        Ok(FreeSeats {
            free,
            most: 0,
            seats,
        })
    }

    /// Gives a seat to a page that came into a frame. There are as many seats as frames.
    pub(super) fn give(&mut self, seats: &Seats, page: u64) -> usize {
        let seat = self.free.pop().unwrap_or_default();
        seats.set(page, seat + 1);
        self.most = self.most.max(self.taken());
        seat as usize
    }

    /// Takes back the seat of a page that left its frame, whose newest reference was then.
    pub(super) fn take(&mut self, seats: &Seats, page: u64, seat: usize, last: u64) {
        seats.set_away(page, last);
        self.free.push(seat as u32);
    }

    /// Takes back the seat of a page that was discarded: no reference of it is known any more.
    pub(super) fn take_discarded(&mut self, seats: &Seats, page: u64, seat: usize, now: u64) {
        seats.set_unknown(page, now);
        self.free.push(seat as u32);
    }

    /// Returns the number of seats that pages have.
    pub(super) fn taken(&self) -> usize {
        self.seats - self.free.len()
    }

    /// Returns the most seats that pages had at the same time.
    pub(super) fn most(&self) -> usize {
        self.most
    }
}
