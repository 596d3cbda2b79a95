//! A part: one proved pool under a lock, with what its pins, latches and waiting threads need.
use super::PagerConfig;
use super::away::Away;
use super::faults::Faults;
use super::firsts::Firsts;
use super::kept::Kept;
use super::latch::Queues;
use super::line::{GROUPS, Line};
use super::own;
use super::places::Places;
use super::seats::{FreeSeats, Seat, Seats, filled, list_of};
use super::watch::Watch;
use crate::core::{Config, Fixed, Flushed, PageGuard, Pass, Pool, ReadTicket, WriteTicket};
use crate::image::Image;
use crate::{Error, Result, UnsavedPage};
use std::hint::spin_loop;
use std::mem;
use std::ops::Range;
use std::sync::atomic::{AtomicU64, AtomicUsize, Ordering};
use std::sync::{Condvar, Mutex, MutexGuard, PoisonError, TryLockError};
use std::time::Duration;

/// A proved pool under a lock, with the latches of the pages in its frames. It has cache lines of
/// its own. No thread does device work or waits while it holds the lock.
///
/// Where the correlated period is not 0, the pass of a page that was found in its frame stays out
/// when the last guard is dropped: so the next one is made without the lock. [`Part::make_way`]
/// gives the pass back.
#[repr(C, align(128))]
pub(super) struct Part {
    // What each call reads, on a line of its own, which seldom changes.
    pub(super) seats: Seats,
    pub(super) page_size: usize,
    /// What the clock of the pool is. It changes under the lock.
    now: AtomicU64,
    /// The number of threads that wait for a frame, or for a page to be unpinned, and [`NOTES`] where latches
    /// are noted.
    pub(super) waiting: AtomicUsize,
    /// Whether any pass stays out.
    pub(super) keeps: bool,
    /// Whether each pin is told to the pool.
    pub(super) tells_each: bool,
    /// Whether each thread notes the latches that it has.
    pub(super) notes: bool,
    /// Whether a page whose pass is out is pinned without the lock.
    pub(super) joins: bool,
    /// The number of this part and of all parts.
    number: u64,
    parts: u64,
    /// The temporary pages, by their numbers in the file.
    temporary: Range<u64>,
    /// So many ticks a page that was read ahead waits for its use.
    pub(super) ahead: u64,
    pub(super) pin_wait: Duration,
    pub(super) locked: Apart,
}

/// What changes often, and what few calls need, on other lines.
#[repr(align(128))]
pub(super) struct Apart {
    state: Mutex<State>,
    queues: Queues,
    /// The device work on a page has ended, which has the place of its number.
    pub(super) worked: [Condvar; PLACES],
    /// It is the turn of a group in line for a frame, and one may be had; or its page is in a frame.
    pub(super) turns: [Condvar; GROUPS],
    /// A page was unpinned, for threads that wait for one page alone, all of which are told.
    pub(super) let_go: Condvar,
    watch: Watch,
}

pub(super) struct State {
    pub(super) pool: Pool,
    pub(super) free: FreeSeats,
    pub(super) firsts: Firsts,
    /// Buffers of the page size that no call uses.
    images: Vec<Image>,
    /// A buffer for a page, and where pages are: see [`Part::write`].
    scratch: Vec<u8>,
    pub(super) places: Places,
    /// The passes that are out, where they stay out.
    pub(super) kept: Kept,
    pub(super) away: Away,
    /// The clock of the pool, and when it is to forget pages next.
    pub(super) now: u64,
    purge_at: u64,
    /// The ticks of calls that were refused since all pages were pinned. Later calls use them.
    pub(super) unused_ticks: u64,
    /// The number of threads at each place that sleep until the device work on their page has ended.
    pub(super) for_work: [usize; PLACES],
    pub(super) faults: Faults,
    /// The pins that were made without asking the pool, as far as they were counted; and the
    /// references that the pool was asked for afterwards, which are hits to it.
    pub(super) joined: u64,
    pub(super) referred: u64,
    pub(super) line: Line,
    /// The number of pages that calls have set aside, since they could not be written out.
    pub(super) aside: usize,
    /// The number of times that a thread slept.
    pub(super) waits: u64,
    /// The page from which the next unsaved page to clean is looked for, and the victim that was
    /// cleaned last, or was not to be had.
    pub(super) clean_from: u64,
    pub(super) cleaned_victim: Option<u64>,
}

pub(super) type Locked<'a> = MutexGuard<'a, State>;

/// What a fix needs while the lock is open.
pub(super) enum Fix {
    Here(Pass),
    /// With the page that has left its frame for it, if one has.
    Read(ReadTicket, Option<u64>),
    Write(WriteTicket),
}

/// The buffers that a part keeps for later calls. With more threads at the device the others are
/// allocated again.
const KEPT_IMAGES: usize = 4;
/// The number of times that a thread tries the lock before it sleeps. A call holds it for some
/// hundred nanoseconds.
const LOOKS: u32 = 12;
/// The places at which threads sleep that wait for device work. Those that wait for different pages
/// may share one, and then are woken in vain.
pub(super) const PLACES: usize = 8;
/// More than the threads that wait.
const NOTES: usize = 1 << 24;
/// Whether a latch is noted where it is taken without the lock. That would cost each such latch more than one
/// hundredth: so without debug assertions a pager that notes latches takes them under the lock alone.
pub(super) const NOTES_AT_ONCE: bool = cfg!(debug_assertions);
/// So many bytes are copied without the lock.
const FEW: usize = 64;
/// So many unsaved pages are looked at in one go under the lock.
pub(super) const FEW_PAGES: usize = 64;
/// After so many ticks a part forgets what is too old. As each tick has one reference or so, that is no
/// more than as many pages in one go: a few microseconds.
const PURGE_TICKS: u64 = 16;

impl Part {
    pub(super) fn new(config: &PagerConfig, number: usize, watch: &Watch) -> Result<Part> {
        let (parts, pin_wait) = (config.parts as u64, config.pin_wait);
        let (tells_each, temporary) = (config.tells_each_pin, config.temporary.clone());
        let notes = config.notes_latches;
        // The limits are checked before the lists take memory.
        let config = config.of_part(number)?;
        let state = State::new(&config)?;
        Ok(Part {
            seats: Seats::new(config.pages, config.frames)?,
            page_size: config.page_size,
            now: AtomicU64::new(1),
            waiting: AtomicUsize::new(if notes { NOTES } else { 0 }),
            keeps: config.correlated > 0 && !tells_each,
            tells_each,
            notes,
            joins: !tells_each && (NOTES_AT_ONCE || !notes),
            number: number as u64,
            parts,
            temporary,
            ahead: config.correlated.max(config.frames as u64 / 4),
            pin_wait,
            locked: Apart {
                state: Mutex::new(state),
                queues: Queues::new(config.frames)?,
                worked: [const { Condvar::new() }; PLACES],
                turns: [const { Condvar::new() }; GROUPS],
                let_go: Condvar::new(),
                watch: watch.clone(),
            },
        })
    }

    /// The number of the pager, and who is told what goes on.
    #[inline]
    pub(super) fn watch(&self) -> &Watch {
        &self.locked.watch
    }

    /// Whether it is a part of the pager with this number.
    pub(super) fn is_of(&self, pager: u64) -> bool {
        self.watch().pager == pager
    }

    /// Returns the number in the file of a page of this part.
    pub(super) fn in_file(&self, page: u64) -> u64 {
        let row = self.number + self.parts - turn_of(page, self.parts);
        page * self.parts + row % self.parts
    }

    #[inline]
    pub(super) fn lock(&self) -> Locked<'_> {
        match self.locked.state.try_lock() {
            Ok(state) => state,
            Err(TryLockError::Poisoned(poisoned)) => poisoned.into_inner(),
            Err(TryLockError::WouldBlock) => self.lock_soon(),
        }
    }

    #[cold]
    fn lock_soon(&self) -> Locked<'_> {
        for look in 0..LOOKS {
            for _ in 0..1 << look.min(6) {
                spin_loop();
            }
            match self.locked.state.try_lock() {
                Ok(state) => return state,
                Err(TryLockError::Poisoned(poisoned)) => return poisoned.into_inner(),
                Err(TryLockError::WouldBlock) => {}
            }
        }
        self.locked
            .state
            .lock()
            .unwrap_or_else(PoisonError::into_inner)
    }

    /// Makes sure that a buffer is kept, as each fix and flush needs one.
    #[inline]
    pub(super) fn with_image<'a>(&'a self, state: Locked<'a>) -> Result<Locked<'a>> {
        if state.images.is_empty() {
            return self.with_new_image(state);
        }
        Ok(state)
    }

    /// Allocates a buffer with the lock open.
    #[cold]
    fn with_new_image<'a>(&'a self, mut state: Locked<'a>) -> Result<Locked<'a>> {
        while state.images.is_empty() {
            let size = state.pool.config().page_size;
            drop(state);
            let image = Image::zeros(size)?;
            state = self.lock();
            state.keep(image);
        }
        Ok(state)
    }

    /// Whether threads wait for a frame, or for a page to be unpinned.
    pub(super) fn has_waiting(&self) -> bool {
        self.waiting.load(Ordering::SeqCst) % NOTES != 0
    }

    /// Whether they do, or the thread that lets a latch go has noted it: one look for both.
    #[inline]
    pub(super) fn has_waiting_or_notes(&self) -> bool {
        self.waiting.load(Ordering::SeqCst) != 0
    }

    /// Whether this thread has a latch of a seat's page, as far as latches are noted.
    pub(super) fn is_own(&self, seat: &Seat) -> bool {
        self.notes && own::has(self.watch().pager, seat)
    }

    /// Notes that this thread has a latch of a seat's page.
    #[inline]
    pub(super) fn note_latch(&self, seat: &Seat) {
        if self.notes {
            own::note(self.watch().pager, seat);
        }
    }

    /// Notes that this thread has let it go.
    pub(super) fn forget_latch(&self, seat: &Seat) {
        if self.notes {
            own::forget(self.watch().pager, seat);
        }
    }

    /// The queues for the latches of this part's pages.
    pub(super) fn queues(&self) -> &Queues {
        &self.locked.queues
    }

    #[inline]
    pub(super) fn now(&self) -> u64 {
        self.now.load(Ordering::Relaxed)
    }

    /// Moves the clock on.
    #[inline]
    pub(super) fn tick(&self, state: &mut State, n: u64) -> Result<()> {
        state.pool.tick(0, n)?;
        state.now += n;
        self.now.store(state.now, Ordering::Relaxed);
        if state.now >= state.purge_at {
            // Refused at the end of the pool's calls alone.
            let _ = self.purge(state);
        }
        Ok(())
    }

    /// Forgets pages that are away for longer than the retained period, and returns how many.
    pub(super) fn purge(&self, state: &mut State) -> Result<u64> {
        let forgotten = state.pool.purge(0)?;
        state.away.forget(forgotten, state.now);
        state.purge_at = state.now.saturating_add(PURGE_TICKS);
        Ok(forgotten)
    }

    /// Moves the clock on by one, for a call that is to return a page.
    #[inline]
    pub(super) fn tick_for_call(&self, state: &mut State) -> Result<()> {
        match state.unused_ticks.checked_sub(1) {
            Some(left) => state.unused_ticks = left,
            None => self.tick(state, 1)?,
        }
        Ok(())
    }

    /// Writes to a pinned page. The bytes may be those of another page of the pool, whose own memory
    /// the library does not accept: then they are copied first.
    #[inline]
    pub(super) fn write(&self, seat: &Seat, offset: usize, bytes: &[u8], lsn: u64) -> Result<()> {
        let mut few = [0; FEW];
        if let Some(copy) = few.get_mut(..bytes.len()) {
            copy.copy_from_slice(bytes);
            fetch(seat.bytes().wrapping_add(offset));
            return self.write_apart(&mut self.lock(), seat, offset, copy, lsn);
        }
        self.write_under(&mut self.lock(), seat, offset, bytes, lsn)
    }

    /// The same with a copy, which is no memory of the pool.
    #[inline]
    pub(super) fn write_copy(
        &self,
        seat: &Seat,
        offset: usize,
        copy: &[u8],
        lsn: u64,
    ) -> Result<()> {
        self.write_apart(&mut self.lock(), seat, offset, copy, lsn)
    }

    /// Writes to many places of a pinned page, or to none where one is not within it.
    pub(super) fn write_each(&self, seat: &Seat, parts: &[(usize, &[u8])], lsn: u64) -> Result<()> {
        let is_beyond = |(offset, bytes): &&(usize, &[u8])| {
            let rest = self.page_size.checked_sub(*offset);
            rest.is_none_or(|rest| bytes.len() > rest)
        };
        if let Some((offset, bytes)) = parts.iter().find(is_beyond) {
            let (offset, len) = (*offset, bytes.len());
            return Err(Error::OutOfPage { offset, len });
        }
        let mut state = self.lock();
        for (offset, bytes) in parts {
            self.write_under(&mut state, seat, *offset, bytes, lsn)?;
        }
        Ok(())
    }

    /// The same as [`write`](Part::write), with the lock held.
    fn write_under(
        &self,
        state: &mut State,
        seat: &Seat,
        offset: usize,
        bytes: &[u8],
        lsn: u64,
    ) -> Result<()> {
        if !state.places.may_have(bytes) {
            return self.write_apart(state, seat, offset, bytes, lsn);
        }
        let mut scratch = mem::take(&mut state.scratch);
        let written = match scratch.get_mut(..bytes.len()) {
            Some(copy) => {
                copy.copy_from_slice(bytes);
                self.write_apart(state, seat, offset, copy, lsn)
            }
            None => Err(Error::OutOfPage {
                offset,
                len: bytes.len(),
            }),
        };
        state.scratch = scratch;
        written
    }

    /// Writes bytes that are no memory of the pool, with the lock held.
    #[inline]
    fn write_apart(
        &self,
        state: &mut State,
        seat: &Seat,
        offset: usize,
        bytes: &[u8],
        lsn: u64,
    ) -> Result<()> {
        let page = seat.page();
        let lsn = if self.is_temporary(page) { 0 } else { lsn };
        let pass = state.pool.pass_of(page, seat.serial());
        state.pool.put_apart(&pass, offset, bytes, lsn)?;
        state.firsts.write(self.seats.number_of(seat), lsn);
        Ok(())
    }

    /// Writes to a pinned page without a record. The LSN is one up to which the log has to be durable
    /// before the page goes out.
    pub(super) fn write_unlogged(
        &self,
        seat: &Seat,
        offset: usize,
        bytes: &[u8],
        lsn: u64,
    ) -> Result<()> {
        let mut state = self.lock();
        let (number, before) = (self.seats.number_of(seat), seat.page());
        let firsts = state.firsts.of_seat(number);
        self.write_under(&mut state, seat, offset, bytes, lsn)?;
        if !self.is_temporary(before) {
            state.firsts.unlog(number, firsts);
        }
        Ok(())
    }

    /// Whether a page of this part is temporary.
    #[inline]
    pub(super) fn is_temporary(&self, page: u64) -> bool {
        !self.temporary.is_empty() && self.temporary.contains(&self.in_file(page))
    }

    /// Returns from where to look for pages that are not temporary, if those of this number are.
    pub(super) fn after_temporary(&self, page: u64) -> u64 {
        (self.temporary.end / self.parts).max(page + 1)
    }

    /// Asks the pool for a page once.
    #[inline]
    pub(super) fn ask(&self, state: &mut State, page: u64) -> Result<Fix> {
        let image = state.images.last_mut().ok_or(Error::OutOfMemory)?;
        let fix = match state.pool.fix(0, page, image)? {
            Fixed::Hit(page) => Fix::Here(page.into_pass()),
            Fixed::Load { ticket, evicted } => {
                state.away.come(&self.seats, page, state.now);
                if let Some((gone, seat)) = evicted.and_then(|it| Some((it, self.seats.of(it)?))) {
                    let last = state.kept.last(seat);
                    state.free.take(&self.seats, gone, seat, last);
                    state.away.leave();
                }
                Fix::Read(ticket, evicted)
            }
            Fixed::WriteFirst(ticket) => Fix::Write(ticket),
        };
        if let Fix::Write(ticket) = &fix {
            self.go_out(state, ticket.page());
        }
        Ok(fix)
    }

    /// Adds a reference to a page, if it is still in a frame. It returns true if the pool has counted
    /// a hit.
    pub(super) fn refer_to(&self, state: &mut State, page: u64) -> bool {
        let Some(seat) = self.seats.of(page) else {
            return false;
        };
        let is_hit = self.hit(state, page).is_some();
        if is_hit {
            state.kept.refer(seat, state.now);
        }
        is_hit
    }

    /// Asks the pool for a page that is in a frame. Such a page needs no image.
    pub(super) fn hit<'s>(&self, state: &'s mut State, page: u64) -> Option<PageGuard<'s>> {
        let State { pool, scratch, .. } = state;
        match pool.fix(0, page, scratch) {
            Ok(Fixed::Hit(page)) => Some(page),
            _ => None,
        }
    }

    /// Whether a thread reads a page that is in no frame.
    pub(super) fn is_read(&self, state: &mut State, page: u64) -> bool {
        let State { pool, scratch, .. } = state;
        matches!(pool.flush(0, page, scratch), Err(Error::Busy))
    }

    /// Has the next call choose another victim than this one, for which the log panicked: if it still is
    /// the victim, it counts as used now.
    pub(super) fn pass_over(&self, victim: u64) {
        let mut state = self.lock();
        if state.pool.victim() == Some(victim) {
            self.refer_to(&mut state, victim);
        }
    }

    /// Returns the seat of a page if the page is unsaved.
    pub(super) fn unsaved_seat(&self, state: &State, page: u64) -> Option<usize> {
        self.unsaved(state, page)?;
        self.seats.of(page)
    }

    /// Returns what is told of a page if it is unsaved.
    pub(super) fn unsaved(&self, state: &State, page: u64) -> Option<UnsavedPage> {
        state.pool.next_unsaved(page).filter(|it| it.page == page)
    }

    /// Returns the least LSN of a write that has a log record and is in no image on the device. A
    /// write that comes meanwhile may be left out.
    pub(super) fn redo_from(&self) -> Option<u64> {
        let mut state = self.lock();
        let mut least = state.pool.redo_from();
        // A write without a record hides the others.
        if least == Some(0) || state.firsts.has_unlogged() {
            let mut from = Some(0);
            least = None;
            while let Some(first) = from {
                let (few, next) = self.least_of(&state, first);
                least = few.into_iter().chain(least).min();
                from = next;
                // Other threads may have the lock now and then.
                drop(state);
                state = self.lock();
            }
        }
        least
    }

    /// Returns the least LSN of a write with a record among some unsaved pages, from this number on,
    /// and the number from which the next ones are to be looked for.
    fn least_of(&self, state: &State, first: u64) -> (Option<u64>, Option<u64>) {
        let (mut least, mut from) = (None, first);
        for _ in 0..FEW_PAGES {
            let Some(found) = state.pool.next_unsaved(from) else {
                return (least, None);
            };
            if self.is_temporary(found.page) {
                from = self.after_temporary(found.page);
                continue;
            }
            let seat = self.seats.of(found.page);
            let lsn = seat.and_then(|seat| state.firsts.of(seat));
            least = lsn.into_iter().chain(least).min();
            from = found.page + 1;
        }
        (least, Some(from))
    }

    /// Asks once that a page be written out. It returns None where the page is clean or in no
    /// frame.
    pub(super) fn ask_out(&self, state: &mut State, page: u64) -> Result<Option<WriteTicket>> {
        let mut image = state.images.pop().ok_or(Error::OutOfMemory)?;
        let asked = self.ask_out_to(state, page, &mut image);
        state.images.push(image);
        asked
    }

    /// The same, with a buffer for the image.
    pub(super) fn ask_out_to(
        &self,
        state: &mut State,
        page: u64,
        image: &mut [u8],
    ) -> Result<Option<WriteTicket>> {
        match state.pool.flush(0, page, image)? {
            Flushed::WriteFirst(ticket) => {
                self.go_out(state, page);
                Ok(Some(ticket))
            }
            Flushed::Clean | Flushed::Absent => Ok(None),
        }
    }

    fn go_out(&self, state: &mut State, page: u64) {
        if let Some(seat) = self.seats.of(page) {
            state.firsts.go_out(seat);
        }
    }
}

/// Has the processor fetch a line of memory into its cache, as one to which this thread will write,
/// while it does other work.
#[inline]
fn fetch(byte: *const u8) {
    #[cfg(target_arch = "x86_64")]
    // SAFETY: it is a hint, whatever the address is.
    unsafe {
        use std::arch::x86_64::{_MM_HINT_ET0, _mm_prefetch};
        _mm_prefetch::<_MM_HINT_ET0>(byte.cast());
    }
    #[cfg(not(target_arch = "x86_64"))]
    let _ = byte;
}

/// By how much the parts of a row of pages are turned: else pages that are a multiple of the parts
/// apart were all in one. A row is as many pages as there are parts.
#[inline]
pub(super) fn turn_of(row: u64, parts: u64) -> u64 {
    let mixed = row.wrapping_mul(MIXER) >> 32;
    (mixed * parts) >> 32
}

/// The same where the parts are a power of two: it is the highest bits of the product, and comes in the
/// lowest ones, with others above it.
#[inline]
pub(super) fn turn_of_power(row: u64, exponent: u32) -> u64 {
    row.wrapping_mul(MIXER).rotate_left(exponent)
}

const MIXER: u64 = 0x9e37_79b9_7f4a_7c15;

/// Returns the place where threads sleep that wait for the device work on a page.
pub(super) fn place_of(page: u64) -> usize {
    (page % PLACES as u64) as usize
}

impl State {
    fn new(config: &Config) -> Result<State> {
        let pool = Pool::new(config)?;
        let mut images = list_of(KEPT_IMAGES)?;
        images.push(Image::zeros(config.page_size)?);
        Ok(State {
            pool,
            free: FreeSeats::new(config.frames)?,
            firsts: Firsts::new(config.frames)?,
            images,
            scratch: filled(config.page_size)?,
            places: Places::new(config.frames, config.page_size)?,
            kept: Kept::new(config.frames)?,
            away: Away::new(config.retained),
            now: 1,
            // Before there is nothing to forget.
            purge_at: config.retained.saturating_add(PURGE_TICKS),
            unused_ticks: 0,
            for_work: [0; PLACES],
            faults: Faults::new()?,
            joined: 0,
            referred: 0,
            line: Line::new(),
            aside: 0,
            waits: 0,
            clean_from: 0,
            cleaned_victim: None,
        })
    }

    /// Keeps a buffer for later calls, or returns it where enough are kept.
    pub(super) fn keep(&mut self, image: Image) -> Option<Image> {
        if self.images.len() == KEPT_IMAGES || image.is_empty() {
            return Some(image);
        }
        self.images.push(image);
        None
    }

    /// Whether threads sleep until the device work on a page has ended.
    pub(super) fn has_sleepers(&self, page: u64) -> bool {
        self.for_work[place_of(page)] > 0
    }

    pub(super) fn image(&mut self) -> Image {
        self.images.pop().unwrap_or_default()
    }
}

#[cfg(test)]
mod tests {
    use super::*;

    // Where a page is found at once has to be where the others look for it.
    #[test]
    fn turns_of_powers() {
        for exponent in 0..7u32 {
            let parts = 1u64 << exponent;
            let rows = (0..1000).chain([u64::MAX - 1, u64::MAX]);
            for row in rows {
                let turn = turn_of_power(row, exponent) % parts;
                assert_eq!(turn, turn_of(row, parts));
            }
        }
    }
}
