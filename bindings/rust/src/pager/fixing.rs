//! `Pager`: how it is made, and how it pins a page, or waits for one.
use super::PagerConfig;
use super::ahead::Ahead;
use super::aside::{Failed, Unlogged};
use super::closing::Parts;
use super::faults::Fault;
use super::guards::{PageMut, PagePin, PageRef};
use super::line::Patience;
use super::log::Log;
use super::part::{Fix, Locked, Part, turn_of, turn_of_power};
use super::pins::{Came, Joined, Missed, MissedAlone, PASSES};
use super::seats::list_of;
use super::syncs::Syncs;
use super::watch::{Waited, Watch};
use super::within::Work;
use super::work::{Reading, Writing};
use crate::{Error, PageIo, PagerError, Result};
use std::fmt;
use std::sync::atomic::{AtomicU64, AtomicUsize, Ordering};

/// A pool for many threads, with its device and log. `docs/C.md` of the repository has an engine
/// over it.
///
/// ```
/// use hojzmated::{LogFault, PageIo, Pager, PagerConfig, ReadFault};
/// use std::{io, thread};
///
/// /// A device that has zeros, and keeps nothing.
/// struct Zeros;
///
/// impl PageIo for Zeros {
///     fn read_page(&self, _page: u64, image: &mut [u8]) -> Result<(), ReadFault> {
///         image.fill(0);
///         Ok(())
///     }
/// #   fn write_page(&self, _page: u64, _image: &mut [u8], _lsn: u64) -> io::Result<()> {
/// #       Ok(())
/// #   }
/// #   fn make_log_durable(&self, _lsn: u64) -> Result<(), LogFault> {
/// #       Ok(())
/// #   }
/// #   fn sync(&self) -> io::Result<()> {
/// #       Ok(())
/// #   }
///     // .. and three more
/// }
///
/// # fn main() -> Result<(), Box<dyn std::error::Error>> {
/// // 1,000 pages of 4,096 bytes, of which 64 are in memory.
/// let pager = Pager::new(&PagerConfig::new(1_000, 4096, 64), Zeros)?;
/// thread::scope(|scope| {
///     for number in 0..4 {
///         let pager = &pager;
///         scope.spawn(move || {
///             // Nobody else looks at page 7 meanwhile.
///             let mut page = pager.write(7)?;
///             let count = page.bytes()[0];
///             page.put(0, &[count + 1], 1 + number)?;
///             Ok::<_, hojzmated::PagerError>(())
///         });
///     }
/// });
/// assert_eq!(pager.read(7)?[0], 4);
/// // Each page that was written to goes out, its log record first.
/// pager.checkpoint()?;
/// assert_eq!(pager.stats().unsaved, 0);
/// # Ok(())
/// # }
/// ```
///
/// A call names a page. [`read`](Pager::read) gives its bytes under a shared *latch*, which is
/// a lock on one page: several threads may look at it. [`write`](Pager::write) gives it under
/// an exclusive latch. While such a guard is there the page stays in its frame.
///
/// The pages are divided into *parts*, which are proved pools, each with a lock of its own:
/// [`PagerConfig::parts`] says what more of them change. What this pager adds to them is tested
/// and not proved, but for each change of the words that count its pins and latches.
///
/// # What waits for what
/// No lock is held while the device works: reads and write-outs of different pages overlap. A
/// thread that wants a page that is being read sleeps until the read ends. Where a victim's log
/// record is not durable, one thread makes the log durable for all. One sync of the device serves all
/// threads that came before it began, and so does one write-out of a page those that flush it.
///
/// Where all possible victims are pinned, a call waits for [`PagerConfig::pin_wait`]. Calls that wait get
/// frames in the order in which they came. A call that comes later stands behind them, once the first of
/// them has been the first for a tenth of a millisecond. Where 64 wait in a part, those that come then have
/// the last place together. A call whose page comes into a frame meanwhile goes on at once.
///
/// Latches are fair by phase. Who waits to read gets a page's latch after the writer that has it, or
/// the one that is next, with all others that wait to read. [`flush`](Pager::flush) waits as one
/// who reads. Writers that wait get it in the order in which they came. A writer that comes later may
/// be before them, but no longer than half a millisecond before the one that is next. So nobody waits
/// without end while others let their latches go, and a checkpoint ends beside any number of readers
/// and writers.
///
/// Threads that hold a latch and want another could wait for each other for ever. So an engine takes
/// latches in one order, such as from the root of a tree down and from left to right. Against that
/// order it takes them by [`try_read`](Pager::try_read) and
/// [`try_write`](Pager::try_write), and frees its own latches where they return None. A thread
/// that has a latch must not ask for the same page again, nor have it written out: with
/// [`PagerConfig::notes_latches`] a call that would wait for a latch of its own thread is refused with
/// [`Error::Deadlock`], and else it waits for ever.
///
/// # What the functions of the engine may call
/// While the device or the log works the pager has no latch of a page. One is excepted:
/// [`flush`](Pager::flush) keeps the shared latch of its page while the log is made durable, where
/// the page was written to each time before. The calling thread may have latches. So
/// [`make_log_durable`](PageIo::make_log_durable) must not need a lock that a thread has while it waits
/// for a page.
///
/// These functions may call the pager, but what they wait for there may wait for them. So such a call
/// is refused where it would wait for the function that it is in: with [`Error::Busy`] for a page that
/// the function is to read or write out; with [`PagerError::LogNotYet`] in `make_log_durable`, where no page can
/// make way but those whose records are not durable; with [`PagerError::Sync`] in [`sync`](PageIo::sync).
/// And it waits for a page that another thread reads or writes out, and for its latch, no longer than
/// [`PagerConfig::pin_wait`] in all, whatever others do meanwhile. After that it is refused with
/// [`Error::Busy`]. A call for several pages has so long for each. Turns at the log and at
/// the sync have no such end: `sync` must not wait for the log, nor `make_log_durable` for a sync.
///
/// # What counts as a reference
/// Each call that returns a page is a reference to it, by which LRU-K chooses victims, and moves
/// the clock of its part on by one. But a page that is pinned already is pinned again without a
/// lock. So is one that was used a short while ago, where the [correlated
/// period](PagerConfig::correlated) is not 0: within it the page could not be evicted anyway, and
/// further references would count as the same one.
///
/// Such pins are told to LRU-K later: when a page is to make way, and at the latest after 32 of them.
/// The clock moves on by their number, and they are one reference. Three things are given up by that, the
/// first two of pages that are pinned or were used within the period:
///
/// - The order of their uses between two reads of pages. LRU-K learns them page by page. Where they go
///   on for longer than the period while no page is read, they may count as fewer references.
/// - When the newest use of a page was, to the tick, where others joined it within the period.
/// - A read that needs a frame gives back 32 such pages at most, those that wait longest. Others that
///   nobody uses either stay for now, and the victim is the one of LRU-K among the rest.
///
/// A page that was [read ahead](Pager::prefetch) has one reference, of when it was read. Its first use
/// is told as that same one if it comes within the correlated period, and not at all if it comes later,
/// but before its frame is wanted: at least a quarter of the frames of its part have been asked for
/// meanwhile. Later than that it is a second reference, and so it is with
/// [`PagerConfig::tells_each_pin`] where it comes after the period. Where the first use is counted with
/// others that came soon after it, all of them are that one.
///
/// With a correlated period of 0 only a page that is pinned already is pinned without a lock: 32 such
/// pins are one reference, and fewer are none. Nothing is given up with
/// [`PagerConfig::tells_each_pin`].
///
/// # Where a call fails
/// No page is lost where the device or the log fails or panics: the one that was to be read is in
/// no frame, and the one that was to be written out is unsaved. Where a read fails, the threads that
/// waited for the page as that read began have a fault of the same kind, text and number; who comes later has
/// the page read anew.
///
/// Other pages can be used: where a victim could not be written out, or its log record not be made durable,
/// the call goes on with the next one, and keeps the page in its frame meanwhile, without a latch. It counts
/// as used just then. So a call is refused only where no page can make way, with the first fault. If other
/// pages are pinned it waits for them before, for 5 milliseconds at most: so long no other call tries the pages
/// that it keeps. It does not ask the log again for what that does not reach yet.
///
/// A log that [failed](crate::LogFault::Lost) or panicked is asked by no call any more, and [`mark`](Pager::mark)
/// changes nothing: a later sync that goes well says nothing of what an earlier one has lost. So no page goes out
/// under a record that is lost. Each call that needs such a record, each checkpoint and each sync is refused with
/// [`PagerError::LogLost`], for as long as the pager is there. Pages can be read as long as others can make way,
/// and those whose records were durable before go out.
///
/// Where the device or the log panics, so does the call. A later one chooses another victim: the next one,
/// or with a correlated period of 0 one after up to K such calls.
///
/// [`close`](Pager::close) saves all, and gives the device and log back. Where the pager is dropped, pages that
/// were not written out are lost: in a program with debug assertions a line on standard error says so, once.
pub struct Pager<F> {
    pub(super) parts: Parts,
    /// If the number of parts is a power of two, its exponent.
    shift: Option<u32>,
    pub(super) watch: Watch,
    pub(super) log: Log,
    pub(super) syncs: Syncs,
    /// The number of calls of `clean`, which begin with the parts in turn.
    pub(super) cleaned: AtomicUsize,
    pub(super) ahead: Ahead,
    config: PagerConfig,
    pub(super) io: F,
}

static NUMBERS: AtomicU64 = AtomicU64::new(0);

/// What a call wants of a page that is in no frame, and whether it waits for a pin.
#[derive(Clone, Copy)]
struct Asked {
    is_new: bool,
    may_wait: bool,
}

const WAITING: Asked = Asked {
    is_new: false,
    may_wait: true,
};
const NOT_WAITING: Asked = Asked {
    is_new: false,
    may_wait: false,
};
const NEW: Asked = Asked {
    is_new: true,
    may_wait: true,
};

impl<F> Pager<F> {
    /// Makes a pager with empty frames.
    ///
    /// # Errors
    /// [`BadSetting`](Error::BadSetting) where a setting is out of its limits;
    /// [`OutOfMemory`](Error::OutOfMemory).
    pub fn new(config: &PagerConfig, io: F) -> Result<Pager<F>> {
        config.of_part(0)?;
        let number = NUMBERS.fetch_add(1, Ordering::Relaxed);
        let watch = Watch::new(number, config.observer.clone());
        let mut parts = list_of(config.parts)?;
        for number in 0..config.parts {
            parts.push(Part::new(config, number, &watch)?);
        }
        let is_power = config.parts.is_power_of_two();
        Ok(Pager {
            parts: Parts::new(parts),
            shift: is_power.then(|| config.parts.ilog2()),
            watch,
            log: Log::default(),
            syncs: Syncs::default(),
            cleaned: AtomicUsize::default(),
            ahead: Ahead::default(),
            config: config.clone(),
            io,
        })
    }

    /// The settings that it was made with.
    pub fn config(&self) -> &PagerConfig {
        &self.config
    }

    /// The device and log.
    pub fn io(&self) -> &F {
        &self.io
    }

    /// Gives the device and log back. Pages that were not written out are lost: [`close`](Pager::close) saves
    /// them.
    pub fn into_io(mut self) -> F {
        self.parts.be_quiet();
        self.io
    }

    /// Notes that the log is durable up to this LSN, as after the engine made it durable itself. After the log
    /// [failed](crate::LogFault::Lost) it notes nothing.
    ///
    /// An engine that syncs its log by itself marks nothing after a sync that failed, be it its own or one of
    /// [`make_log_durable`](PageIo::make_log_durable): the pager does not know of that until `make_log_durable` has
    /// returned, and a mark counts at once. So all syncs of the log take one lock of the engine's then.
    pub fn mark(&self, lsn: u64) {
        self.log.mark(lsn);
    }

    /// Returns the part of a page, and the page's number there.
    #[inline]
    pub(super) fn place(&self, page: u64) -> Result<(&Part, u64)> {
        if page >= self.config.pages {
            return Err(Error::NoSuchPage { page });
        }
        Ok(self.place_of_any(page))
    }

    /// The same of any number. Each part has as many places for pages as another: so some numbers beyond
    /// the last page have one too, at which there is never a page.
    #[inline]
    fn place_of_any(&self, page: u64) -> (&Part, u64) {
        let parts = self.parts.len() as u64;
        let (part, own) = match self.shift {
            Some(shift) => {
                let row = page >> shift;
                let turned = page.wrapping_add(turn_of_power(row, shift));
                (turned & (parts - 1), row)
            }
            None => {
                let (place, row) = (page % parts, page / parts);
                let turned = place + turn_of(row, parts);
                let beyond = if turned < parts { 0 } else { parts };
                (turned - beyond, row)
            }
        };
        (&self.parts[part as usize], own)
    }

    /// Returns a page under its shared latch, if it is in a frame and that latch is free: else None, also where the
    /// file has no such page, or the page has 524,288 guards.
    ///
    /// It never waits: for no latch and no pin, for no device and no log. It takes the lock of the page's part for a
    /// moment at most, and nobody waits under that. So a task of an async runtime may call it; what comes
    /// of None is for a thread that may wait, as `docs/RUST.md` of the repository shows. It is a reference as
    /// [`read`](Pager::read) is, where it gives the page.
    ///
    /// ```
    /// # use hojzmated::{PageIo, ReadFault, PagerConfig, Pager};
    /// # struct Zeros;
    /// # impl PageIo for Zeros {
    /// #     fn read_page(&self, _: u64, image: &mut [u8]) -> Result<(), ReadFault> { Ok(image.fill(0)) }
    /// #     fn write_page(&self, _: u64, _: &mut [u8], _: u64) -> std::io::Result<()> { Ok(()) }
    /// #     fn make_log_durable(&self, _: u64) -> Result<(), hojzmated::LogFault> { Ok(()) }
    /// #     fn sync(&self) -> std::io::Result<()> { Ok(()) }
    /// # }
    /// # fn main() -> Result<(), hojzmated::PagerError> {
    /// # let pager = Pager::new(&PagerConfig::new(100, 4096, 8), Zeros)?;
    /// assert!(pager.read_resident(7).is_none());
    /// pager.write(7)?.put(0, b"seven", 0)?;
    /// let page = pager.read_resident(7);
    /// assert!(page.is_some_and(|page| page[..5] == *b"seven"));
    /// # Ok(())
    /// # }
    /// ```
    pub fn read_resident(&self, page: u64) -> Option<PageRef<'_>> {
        let (part, own) = self.place(page).ok()?;
        let missed = match part.join_read(own) {
            Ok(page) => return Some(page),
            Err(missed) => missed,
        };
        match part.join_read_slowly(own, missed) {
            Joined::Latched(page) => Some(page),
            Joined::Pinned(pin) => pin.try_into_read(),
            Joined::Not => part.pin_resident(own)?.try_into_read(),
        }
    }
}

impl<F: PageIo> Pager<F> {
    /// Returns a page under its shared latch. The page is read if it is in no frame. Another page
    /// may be written out for that.
    ///
    /// # Errors
    /// [`PagerError::Read`] where the device failed. [`PagerError::Write`], [`PagerError::Log`],
    /// [`PagerError::LogNotYet`] and [`PagerError::LogLost`] where no page could make way, since the device or
    /// the log failed for one of them, which is told.
    /// [`PagerError::Refused`] with [`NoSuchPage`](Error::NoSuchPage) where the file has
    /// no such page; [`NoVictim`](Error::NoVictim) where all possible victims were pinned for too
    /// long; [`PagerError::WrongPage`] where another page was found in the page's place, and
    /// [`PagerError::Spoilt`] where it is torn or spoilt;
    /// [`OutOfMemory`](Error::OutOfMemory); [`Busy`](Error::Busy) in a function of the engine;
    /// [`Deadlock`](Error::Deadlock) where it would wait for a latch of this thread, if
    /// [latches are noted](PagerConfig::notes_latches).
    // Always: else what it gives goes through memory.
    #[inline(always)]
    pub fn read(&self, page: u64) -> Result<PageRef<'_>, PagerError> {
        match self.read_at_once(page) {
            Ok(latched) => Ok(latched),
            // SAFETY: it was missed just now.
            Err(missed) => unsafe { self.read_slowly(page, missed) },
        }
    }

    /// The first step of [`read`](Pager::read): the page, where its pass is out and its latch
    /// free. Else what [`read_slowly`](Pager::read_slowly) has to go on with. It can't panic.
    #[doc(hidden)]
    #[inline(always)]
    pub fn read_at_once(&self, page: u64) -> Result<PageRef<'_>, Missed<'_>> {
        let (part, own) = self.place_of_any(page);
        part.join_read(own)
    }

    /// The second step: it may wait, use the device, and fail.
    ///
    /// # Safety
    /// What was missed is of this page of this pager: else another page's bytes are lent as so many as
    /// this pager's pages have.
    #[doc(hidden)]
    #[cold]
    #[inline(never)]
    pub unsafe fn read_slowly<'a>(
        &'a self,
        page: u64,
        missed: Missed<'a>,
    ) -> Result<PageRef<'a>, PagerError> {
        let (part, own) = self.place(page)?;
        let waited = Waited::new(&self.watch, page);
        let pin = match part.join_read_slowly(own, missed) {
            Joined::Latched(page) => return Ok(page),
            Joined::Pinned(pin) => pin,
            Joined::Not => self.fix(part, own, WAITING, &waited)?,
        };
        Ok(pin.into_read(&waited)?)
    }

    /// Returns a page under its shared latch, without waiting for a latch or a pin: None where the
    /// latch can't be had at once. It waits for the device and the log, also where other threads
    /// use them.
    ///
    /// # Errors
    /// Those of [`Pager::read`]; [`NoVictim`](Error::NoVictim) comes at once.
    #[inline]
    pub fn try_read(&self, page: u64) -> Result<Option<PageRef<'_>>, PagerError> {
        let (part, own) = self.place(page)?;
        let missed = match part.join_read(own) {
            Ok(page) => return Ok(Some(page)),
            Err(missed) => missed,
        };
        match part.join_read_slowly(own, missed) {
            Joined::Latched(page) => Ok(Some(page)),
            Joined::Pinned(pin) => Ok(pin.try_into_read()),
            Joined::Not => {
                let waited = Waited::new(&self.watch, page);
                let pin = self.fix(part, own, NOT_WAITING, &waited);
                pin.map(PagePin::try_into_read)
            }
        }
    }

    /// Returns a page under its exclusive latch.
    ///
    /// # Errors
    /// Those of [`Pager::read`].
    // Always: else what it gives goes through memory.
    #[inline(always)]
    pub fn write(&self, page: u64) -> Result<PageMut<'_>, PagerError> {
        match self.write_at_once(page) {
            Ok(latched) => Ok(latched),
            Err(missed) => self.write_slowly(page, missed),
        }
    }

    /// The first step of [`write`](Pager::write): the page, where its pass is out and its latch
    /// free. Else what [`write_slowly`](Pager::write_slowly) has to go on with. It can't panic.
    #[doc(hidden)]
    #[inline(always)]
    pub fn write_at_once(&self, page: u64) -> Result<PageMut<'_>, MissedAlone<'_>> {
        let (part, own) = self.place_of_any(page);
        part.join_write(own)
    }

    /// The second step: it may wait, use the device, and fail. What was missed is let go first: of whichever
    /// pager it is.
    #[doc(hidden)]
    #[cold]
    #[inline(never)]
    pub fn write_slowly<'a>(
        &'a self,
        page: u64,
        missed: MissedAlone<'a>,
    ) -> Result<PageMut<'a>, PagerError> {
        drop(missed);
        self.latched_alone(page, WAITING)
    }

    /// Returns a page under its exclusive latch, without waiting for a latch or a pin: None where
    /// the latch can't be had at once.
    ///
    /// # Errors
    /// Those of [`Pager::try_read`].
    #[inline]
    pub fn try_write(&self, page: u64) -> Result<Option<PageMut<'_>>, PagerError> {
        let (part, own) = self.place(page)?;
        match part.join_write(own) {
            Ok(page) => Ok(Some(page)),
            Err(missed) => {
                drop(missed);
                let pin = self.pinned(part, own, NOT_WAITING);
                pin.map(PagePin::try_into_write)
            }
        }
    }

    /// Pins a page, without a latch.
    ///
    /// # Errors
    /// Those of [`Pager::read`].
    #[inline]
    pub fn pin(&self, page: u64) -> Result<PagePin<'_>, PagerError> {
        let (part, own) = self.place(page)?;
        self.pinned(part, own, WAITING)
    }

    /// Pins a page, without waiting for a pin of another thread.
    ///
    /// # Errors
    /// Those of [`Pager::try_read`].
    #[inline]
    pub fn try_pin(&self, page: u64) -> Result<PagePin<'_>, PagerError> {
        let (part, own) = self.place(page)?;
        self.pinned(part, own, NOT_WAITING)
    }

    /// Returns a page that was never written under its exclusive latch: its bytes are zeros, and it
    /// is not read. If it is in a frame, it is as it is there: but where it was
    /// [read ahead](Pager::prefetch) alone, and nobody used it, it leaves that frame and is zeros too.
    ///
    /// Put something there: until then the pager counts the page as saved, and it may leave its
    /// frame without being written out.
    ///
    /// # Errors
    /// Those of [`Pager::read`], except for [`PagerError::Read`].
    pub fn new_page(&self, page: u64) -> Result<PageMut<'_>, PagerError> {
        self.latched_alone(page, NEW)
    }

    /// Returns a page under its exclusive latch, for which it waits.
    #[inline(always)]
    fn latched_alone(&self, page: u64, asked: Asked) -> Result<PageMut<'_>, PagerError> {
        let (part, own) = self.place(page)?;
        let waited = Waited::new(&self.watch, page);
        // A pin would be a use of the page, which is not to be used as it is where it was read ahead.
        let joined = if asked.is_new { None } else { part.join(own) };
        let pin = match joined {
            Some(pin) => pin,
            None => self.fix(part, own, asked, &waited)?,
        };
        Ok(pin.into_write(&waited)?)
    }

    #[inline]
    fn pinned<'a>(
        &'a self,
        part: &'a Part,
        own: u64,
        asked: Asked,
    ) -> Result<PagePin<'a>, PagerError> {
        match part.join(own) {
            Some(pin) => Ok(pin),
            None => self.pin_slowly(part, own, asked),
        }
    }

    // It stands apart: else what it needs is in the way of the registers of who has the page at once.
    #[inline(never)]
    fn pin_slowly<'a>(
        &'a self,
        part: &'a Part,
        own: u64,
        asked: Asked,
    ) -> Result<PagePin<'a>, PagerError> {
        let waited = Waited::new(&self.watch, part.in_file(own));
        self.fix(part, own, asked, &waited)
    }

    /// Pins a page whose pass was not out.
    #[inline(never)]
    fn fix<'a>(
        &'a self,
        part: &'a Part,
        own: u64,
        asked: Asked,
        waited: &Waited<'_>,
    ) -> Result<PagePin<'a>, PagerError> {
        let mut state = part.with_image(part.lock())?;
        let has_frame = asked.is_new && part.drop_ahead(&mut state, own);
        if let Some(seat) = part.out_under(own) {
            return Ok(part.join_under(state, seat)?);
        }
        let is_away = part.seats.of(own).is_none();
        if is_away {
            part.make_way(&mut state, PASSES);
        }
        part.tick_for_call(&mut state)?;
        let fixed = match is_away {
            true => part.ask_in_turn(&mut state, own, has_frame),
            false => part.ask(&mut state, own),
        };
        match fixed {
            Ok(Fix::Here(pass)) => Ok(part.pinned(state, pass, Came::Here)?),
            Ok(Fix::Read(ticket, evicted)) => {
                let reading = Reading::new(part, state, ticket);
                part.tell_evicted(evicted);
                self.load(part, own, asked, reading)
            }
            fixed => self.go_on(part, own, state, asked, fixed, waited),
        }
    }

    /// Does the device work that a fix needs, and asks again, until the page is resident. What cannot be
    /// written out is set aside.
    #[inline(never)]
    fn go_on<'a>(
        &'a self,
        part: &'a Part,
        own: u64,
        state: Locked<'a>,
        asked: Asked,
        mut fixed: Result<Fix>,
        waited: &Waited<'_>,
    ) -> Result<PagePin<'a>, PagerError> {
        let most = asked.may_wait.then_some(self.config.pin_wait);
        let mut patience = Patience::new(most, asked.is_new, waited);
        let mut failed = Failed::default();
        // It is dropped first: what is set aside takes the lock as it goes.
        let mut state = state;
        loop {
            state = match fixed {
                Ok(Fix::Here(pass)) => return Ok(part.pinned(state, pass, Came::Here)?),
                Ok(Fix::Read(ticket, evicted)) => {
                    let reading = Reading::new(part, state, ticket);
                    part.tell_evicted(evicted);
                    drop(failed);
                    return self.load(part, own, asked, reading);
                }
                Ok(Fix::Write(ticket)) => {
                    patience.had_turn = true;
                    let lsn = ticket.lsn();
                    let writing = Writing::new(part, state, ticket, true);
                    self.write_victim(part, lsn, writing, &mut failed)?
                }
                Err(Error::NeedLog { lsn }) => {
                    patience.had_turn = true;
                    self.log_victim(part, lsn, state, &mut failed)?
                }
                Err(Error::Busy) => {
                    let (locked, fault) = part.wait_for_read(state, own, waited)?;
                    if let Some(fault) = fault.filter(|_| !asked.is_new) {
                        drop(locked);
                        return Err(fault.of_page(part.in_file(own)));
                    }
                    locked
                }
                Err(Error::NoVictim) => {
                    (state, fixed) = part.find_frame(state, own, &mut patience, &failed);
                    if let Err(Error::NoVictim) = fixed {
                        state.unused_ticks += 1;
                        return Err(failed.refusal(Error::NoVictim));
                    }
                    continue;
                }
                Err(error) => return Err(error.into()),
            };
            state = part.with_image(state)?;
            patience.had_turn |= asked.is_new && part.drop_ahead(&mut state, own);
            fixed = part.ask_in_turn(&mut state, own, patience.had_turn);
        }
    }

    /// Writes a victim out, or sets it aside. The part is locked then.
    fn write_victim<'a>(
        &self,
        part: &'a Part,
        lsn: u64,
        mut writing: Writing<'a>,
        failed: &mut Failed<'a>,
    ) -> Result<Locked<'a>, PagerError> {
        let victim = part.in_file(writing.page().unwrap_or_default());
        if let Err(fault) = self.write_image(victim, lsn, &mut writing) {
            failed.note(fault);
            failed.keep(writing.set_aside())?;
            return Ok(part.lock());
        }
        Ok(writing.end_of_victim()?)
    }

    /// Makes the log record of the part's victim durable, or sets the victim aside. It does not ask the
    /// log again for what that does not reach yet. The part is locked then.
    fn log_victim<'a>(
        &self,
        part: &'a Part,
        lsn: u64,
        mut state: Locked<'a>,
        failed: &mut Failed<'a>,
    ) -> Result<Locked<'a>, PagerError> {
        let victim = state.pool.victim().ok_or(Error::NoVictim)?;
        if failed.not_reached.check(&self.log, lsn).is_ok() {
            drop(state);
            let unlogged = Unlogged::new(part, victim);
            let reached = self.reach_log(part, lsn);
            unlogged.end();
            match reached {
                Ok(locked) => return Ok(locked),
                Err(fault) => failed.note(fault),
            }
            state = part.lock();
        }
        // Else another thread has used or written out the page, and there is another victim.
        if state.pool.victim() == Some(victim) {
            failed.keep(part.set_aside(state, victim))?;
            state = part.lock();
        }
        Ok(state)
    }

    fn load<'a>(
        &self,
        part: &'a Part,
        own: u64,
        asked: Asked,
        mut reading: Reading<'a>,
    ) -> Result<PagePin<'a>, PagerError> {
        let page = part.in_file(own);
        let read = if asked.is_new {
            reading.image.fill(0);
            Ok(())
        } else {
            let (image, noted) = (&mut reading.image, &mut reading.fault);
            let read = || self.io.read_page(page, image);
            self.watch.have(Work::Read(page, 1), read, |fault| {
                *noted = Some(Fault::of(&fault));
                PagerError::of_read(page, fault)
            })
        };
        read?;
        Ok(reading.end()?)
    }

    /// Writes a page out, and ends its write-out.
    pub(super) fn write_out(
        &self,
        page: u64,
        lsn: u64,
        mut writing: Writing<'_>,
    ) -> Result<(), PagerError> {
        self.write_image(page, lsn, &mut writing)?;
        Ok(writing.end()?)
    }

    /// Has the engine write the image of a page.
    fn write_image(
        &self,
        page: u64,
        lsn: u64,
        writing: &mut Writing<'_>,
    ) -> Result<(), PagerError> {
        let write = || self.io.write_page(page, &mut writing.image, lsn);
        let fault = |source| PagerError::Write { page, source };
        self.watch.have(Work::Write(page, 1), write, fault)
    }

    /// Makes the log durable, and marks it in the part, which is locked then.
    pub(super) fn reach_log<'a>(&self, part: &'a Part, lsn: u64) -> Result<Locked<'a>, PagerError> {
        self.log.reach(&self.io, &self.watch, lsn)?;
        let state = part.lock();
        state.pool.mark(0, self.log.durable())?;
        Ok(state)
    }
}

impl<F> fmt::Debug for Pager<F> {
    fn fmt(&self, f: &mut fmt::Formatter<'_>) -> fmt::Result {
        f.debug_struct("Pager")
            .field("config", &self.config)
            .finish_non_exhaustive()
    }
}
