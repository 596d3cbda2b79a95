//! `Pool`: the calls of the library, each safe to call, with errors in place of numbers.
use super::Config;
use super::lent::{LentPages, PageBytes};
use super::page::{Grant, PageGuard, Pass, ReadTicket, Refused, WriteTicket};
use crate::error::{NEED_LOG, OUT_OF_PAGE};
use crate::sys::{self, hz_config, hz_core, hz_fixed, hz_grant, hz_stats, hz_unsaved};
use crate::{Error, ReadFault, Result, Totals, UnsavedPage};
use std::cell::{RefCell, UnsafeCell};
use std::fmt;
use std::iter;
use std::ptr;
use std::sync::atomic::{AtomicU64, Ordering};

/// A buffer pool, which tells what must be read and written. It does no input or output itself: a
/// [`Pager`](crate::Pager) does.
///
/// The calls take `&self`, so several guards can be out at once. It can be sent to another thread,
/// but no two threads can use it at the same time (`Pool` is `Send` and not `Sync`): behind a mutex
/// they take turns. A pass and a ticket borrow nothing, so a thread may keep one while the mutex is
/// unlocked. One of another pool is refused, which changes nothing.
///
/// Where it is dropped, pages that were not written out are lost.
///
/// ```
/// use hojzmated::core::{Config, Fixed, Pool};
///
/// # fn main() -> Result<(), Box<dyn std::error::Error>> {
/// let pool = Pool::new(&Config::new(100, 4096, 8))?;
/// let mut image = [0; 4096];
/// let page = loop {
///     match pool.fix(0, 7, &mut image)? {
///         Fixed::Hit(page) => break page,
///         Fixed::Load { ticket, .. } => {
///             // The engine reads page 7 into the image. Where that fails: `pool.fail_read`.
///             break pool.end_read(ticket, &image)?;
///         }
///         Fixed::WriteFirst(ticket) => {
///             // The engine writes the image to the place of page `ticket.page()`.
///             pool.end_write(ticket)?;
///         }
///     }
/// };
/// assert_eq!(page.bytes()?[..4], [0; 4]);
/// page.put(0, b"seven", 1)?;
/// # Ok(())
/// # }
/// ```
pub struct Pool {
    /// One handle, which is never moved, since no copy of it may be used. It always has a core.
    core: Box<[UnsafeCell<hz_core>]>,
    config: Config,
    /// A number that no other pool of this process has or had. Its passes and tickets have it too.
    number: u64,
    lent: LentPages,
    /// A buffer for a page: see [`Pool::apart`].
    spare: RefCell<Vec<u8>>,
}

static NUMBERS: AtomicU64 = AtomicU64::new(0);

/// The version of this crate without its patch, as major * 100 + minor.
const SERIES: u32 =
    number_of(env!("CARGO_PKG_VERSION_MAJOR")) * 100 + number_of(env!("CARGO_PKG_VERSION_MINOR"));

const fn number_of(part: &str) -> u32 {
    match u32::from_str_radix(part, 10) {
        Ok(number) => number,
        Err(_) => panic!("a part of a version is a number"),
    }
}

/// Refuses a library of another version, whose structs and calls may be others. A patch changes
/// neither.
fn check_version(library: u32) -> Result<()> {
    if library / 100 != SERIES {
        return Err(Error::VersionMismatch { library });
    }
    Ok(())
}

// SAFETY: the library keeps nothing of a thread: a core may be used by any thread, one at a time.
// There is no other way to the handle, and only `Pool` has its pointers.
unsafe impl Send for Pool {}

/// The answer of a fix.
#[derive(Debug)]
#[must_use = "a ticket has to be ended"]
pub enum Fixed<'pool> {
    /// The page is resident.
    Hit(PageGuard<'pool>),
    /// The page is to be read. Then call [`Pool::end_read`] or [`Pool::fail_read`].
    Load {
        /// The ticket to read the page that was asked for.
        ticket: ReadTicket,
        /// The page that was evicted for it.
        evicted: Option<u64>,
    },
    /// Another page must be written out first, and its image is in the buffer. Then call
    /// [`Pool::end_write`] or [`Pool::fail_write`], and after that fix again.
    WriteFirst(WriteTicket),
}

/// The answer of a flush.
#[derive(Debug, PartialEq, Eq)]
#[must_use = "a ticket has to be ended"]
pub enum Flushed {
    /// The page is to be written out, and its image is in the buffer. Then call [`Pool::end_write`]
    /// or [`Pool::fail_write`].
    WriteFirst(WriteTicket),
    /// The page has nothing to write.
    Clean,
    /// The page is in no frame.
    Absent,
}

/// The state of a page after its write-out.
#[derive(Clone, Copy, Debug, PartialEq, Eq)]
pub enum Saved {
    /// The page has nothing to write.
    Clean,
    /// The page was written to after its image was taken, and has to be written out again.
    StillDirty,
}

/// The counters of a [`Pool`]: the counts since it was made, and the present numbers of pages of
/// each kind.
#[derive(Clone, Copy, Debug, Default, PartialEq, Eq)]
#[non_exhaustive]
pub struct PoolStats {
    /// The counts since the pool was made.
    pub totals: Totals,
    /// Pages that are in frames.
    pub resident: usize,
    /// Of these, pages of which a pass is out.
    pub pinned: usize,
    /// Of these, pages with a write that is in no image on the device.
    pub unsaved: usize,
    /// Pages that are being read.
    pub loading: usize,
    /// Pages that are being written out.
    pub writing: usize,
}

impl Pool {
    /// Makes a pool with empty frames, whose clock is at 1.
    ///
    /// # Errors
    /// [`BadSetting`](Error::BadSetting) where a setting is out of its limits,
    /// [`OutOfMemory`](Error::OutOfMemory), [`VersionMismatch`](Error::VersionMismatch) where the
    /// program was linked with a library whose major or minor version is not this crate's.
    pub fn new(config: &Config) -> Result<Pool> {
        check_version(sys::hz_version())?;
        let asked = hz_config {
            pages: config.pages,
            page_size: config.page_size,
            frames: config.frames,
            room: config.room,
            correlated: config.correlated,
            retained: config.retained,
            k: config.k,
            clients: config.clients,
        };
        let none = hz_core {
            seal: sys::hz_seal {
                pool: ptr::null_mut(),
            },
            is_live: false,
        };
        // A list of one: a box by itself would end the program for want of memory.
        let mut core = Vec::new();
        core.try_reserve_exact(1).map_err(|_| Error::OutOfMemory)?;
        core.push(UnsafeCell::new(none));
        // SAFETY: both pointers lead to structs of their types, and the handle has no core.
        let made = unsafe { sys::hz_core_new(&asked, core[0].get()) };
        Error::check_as(made, |number| config.refused(number))?;
        let pool = Pool {
            core: core.into_boxed_slice(),
            config: config.clone(),
            number: NUMBERS.fetch_add(1, Ordering::Relaxed),
            lent: LentPages::default(),
            spare: RefCell::default(),
        };
        let room = pool.spare.borrow_mut().try_reserve_exact(config.page_size);
        room.map_err(|_| Error::OutOfMemory)?;
        Ok(pool)
    }

    /// The settings that it was made with.
    pub fn config(&self) -> &Config {
        &self.config
    }

    /// The handle, for one call. `Pool` is not `Sync` and the library calls nothing back: so no
    /// other call on the handle is under way, and no reference points into it.
    #[inline]
    fn core(&self) -> *mut hz_core {
        UnsafeCell::raw_get(self.core.as_ptr())
    }

    /// Calls `work` with the bytes, or with a copy where they are lent: the library does not accept
    /// its own memory. Bytes that are more than a page are not lent.
    #[inline]
    fn apart<T>(&self, bytes: &[u8], work: impl FnOnce(&[u8]) -> T) -> T {
        if !self.lent.hold(bytes) {
            return work(bytes);
        }
        let mut spare = self.spare.borrow_mut();
        if bytes.len() > spare.capacity() {
            return work(bytes);
        }
        spare.clear();
        spare.extend_from_slice(bytes);
        work(&spare)
    }

    #[inline]
    fn grant_of(&self, raw: &hz_grant) -> Grant {
        Grant::new(self.number, raw)
    }

    /// Returns the library's own grant. A grant of another pool is refused as unknown here: the
    /// library would accept it where it has the numbers of one that is out.
    #[inline]
    fn own(&self, grant: &Grant, unknown: Error) -> Result<hz_grant> {
        let is_own = grant.pool == self.number;
        is_own.then(|| grant.raw()).ok_or(unknown)
    }

    #[inline]
    fn own_pass(&self, pass: &Pass) -> Result<hz_grant> {
        self.own(&pass.grant, Error::UnknownPass)
    }

    /// Returns the refusal of a call for a page, with a buffer of so many bytes. If it has none, the page is
    /// what is bad.
    #[cold]
    fn refused(&self, number: u16, page: u64, len: usize, lsn: u64) -> Error {
        match number {
            NEED_LOG => Error::NeedLog { lsn },
            OUT_OF_PAGE if page < self.config.pages => Error::BadBuffer { len },
            OUT_OF_PAGE => Error::NoSuchPage { page },
            number => Error::numbered(number),
        }
    }

    fn write_ticket(&self, out: &hz_fixed) -> WriteTicket {
        WriteTicket {
            grant: self.grant_of(&out.grant),
            lsn: out.lsn,
        }
    }

    /// Fixes a page, which pins it, for a client. The buffer has the page size, and is written to
    /// only where the answer is [`Fixed::WriteFirst`].
    ///
    /// # Errors
    /// The first that has cause:
    /// [`BadClient`](Error::BadClient);
    /// [`NoSuchPage`](Error::NoSuchPage); [`BadBuffer`](Error::BadBuffer) where the buffer has not the page
    /// size; [`TrailFull`](Error::TrailFull);
    /// [`Busy`](Error::Busy) while the page is being read;
    /// [`NoVictim`](Error::NoVictim);
    /// [`NeedLog`](Error::NeedLog) where the log record of the page that would leave is not durable
    /// yet; [`OutOfMemory`](Error::OutOfMemory).
    #[inline]
    pub fn fix(&self, client: u8, page: u64, buffer: &mut [u8]) -> Result<Fixed<'_>> {
        let mut out = hz_fixed::default();
        let (image, len) = (buffer.as_mut_ptr(), buffer.len());
        // SAFETY: the handle is free; the buffer has this length, and all may be written to.
        let number = unsafe { sys::hz_fix(self.core(), client, page, image, len, &mut out) };
        Error::check_as(number, |number| self.refused(number, page, len, out.lsn))?;
        Ok(match out.kind {
            sys::HIT => Fixed::Hit(self.guard_of(&out.grant)),
            sys::LOAD => Fixed::Load {
                ticket: ReadTicket {
                    grant: self.grant_of(&out.grant),
                },
                evicted: (out.has_evicted != 0).then_some(out.evicted),
            },
            // A fix that was not refused has one of three kinds.
            _ => Fixed::WriteFirst(self.write_ticket(&out)),
        })
    }

    /// Flushes a page: it is to be written out if it is unsaved. The buffer has the page size, and
    /// is written to only where the answer is [`Flushed::WriteFirst`].
    ///
    /// # Errors
    /// The first that has cause:
    /// [`BadClient`](Error::BadClient);
    /// [`NoSuchPage`](Error::NoSuchPage); [`BadBuffer`](Error::BadBuffer) where the buffer has not the page
    /// size; [`TrailFull`](Error::TrailFull);
    /// [`Busy`](Error::Busy) while the page is being read or written out;
    /// [`NeedLog`](Error::NeedLog) where the page's log record is not durable yet;
    /// [`OutOfMemory`](Error::OutOfMemory).
    pub fn flush(&self, client: u8, page: u64, buffer: &mut [u8]) -> Result<Flushed> {
        let mut out = hz_fixed::default();
        let (image, len) = (buffer.as_mut_ptr(), buffer.len());
        // SAFETY: the handle is free; the buffer has this length, and all may be written to.
        let number = unsafe { sys::hz_flush(self.core(), client, page, image, len, &mut out) };
        Error::check_as(number, |number| self.refused(number, page, len, out.lsn))?;
        Ok(match out.kind {
            sys::WRITE_FIRST => Flushed::WriteFirst(self.write_ticket(&out)),
            sys::CLEAN => Flushed::Clean,
            // A flush that was not refused has one of three kinds.
            _ => Flushed::Absent,
        })
    }

    /// Has a page leave its frame without being written out, for one that is of no use any longer, as
    /// of a file that is truncated. Its writes that no good write-out began after are lost, and its
    /// references are forgotten. It waits for no log. It returns true if the page was in a frame.
    ///
    /// # Errors
    /// The first that has cause:
    /// [`BadClient`](Error::BadClient); [`NoSuchPage`](Error::NoSuchPage);
    /// [`TrailFull`](Error::TrailFull);
    /// [`Busy`](Error::Busy) while the page is being read or written out;
    /// [`PagePinned`](Error::PagePinned) while a pass of it is out.
    pub fn discard(&self, client: u8, page: u64) -> Result<bool> {
        let mut was_resident = 0;
        // SAFETY: the handle is free, and the flag may be written to.
        let number = unsafe { sys::hz_discard(self.core(), client, page, &mut was_resident) };
        Error::check_as(number, |number| self.refused(number, page, 0, 0))?;
        Ok(was_resident != 0)
    }

    /// Ends a read: the page is in a frame, and pinned. The image has the page size.
    ///
    /// # Errors
    /// The ticket comes back, and is still out where it was:
    /// [`BadBuffer`](Error::BadBuffer) where the image has not the page size;
    /// [`UnknownTicket`](Error::UnknownTicket) for one of another pool;
    /// [`OutOfMemory`](Error::OutOfMemory).
    #[inline]
    pub fn end_read(
        &self,
        ticket: ReadTicket,
        image: &[u8],
    ) -> Result<PageGuard<'_>, Refused<ReadTicket>> {
        let ended = self.read_end(&ticket, image);
        Ok(self.guard_of(&Refused::check(ended, ticket)?))
    }

    #[inline]
    fn read_end(&self, ticket: &ReadTicket, image: &[u8]) -> Result<hz_grant> {
        let grant = self.own(&ticket.grant, Error::UnknownTicket)?;
        let mut pass = hz_grant::default();
        self.apart(image, |image| {
            let (bytes, len) = (image.as_ptr(), image.len());
            // SAFETY: the handle is free; the image has this length; the pass may be written to.
            let ended = unsafe { sys::hz_read_end(self.core(), &grant, bytes, len, &mut pass) };
            Error::check_as(ended, |number| match number {
                OUT_OF_PAGE => Error::BadBuffer { len },
                number => Error::numbered(number),
            })
        })?;
        Ok(pass)
    }

    /// Ends a read that failed. The frame is free again, and the page may be fixed again.
    ///
    /// # Errors
    /// [`UnknownTicket`](Error::UnknownTicket) for a ticket of another pool, which comes back.
    pub fn fail_read(
        &self,
        ticket: ReadTicket,
        fault: &ReadFault,
    ) -> Result<(), Refused<ReadTicket>> {
        let is_wrong_page = !matches!(fault, ReadFault::Device(_));
        let told = self
            .own(&ticket.grant, Error::UnknownTicket)
            .and_then(|grant| {
                // SAFETY: the handle is free, and the ticket a grant.
                Error::check(unsafe { sys::hz_read_failed(self.core(), &grant, is_wrong_page) })
            });
        Refused::check(told, ticket)
    }

    /// Ends a write-out that succeeded.
    ///
    /// # Errors
    /// [`UnknownTicket`](Error::UnknownTicket) for a ticket of another pool, which comes back.
    pub fn end_write(&self, ticket: WriteTicket) -> Result<Saved, Refused<WriteTicket>> {
        let ended = self.write_end(&ticket, true);
        Refused::check(ended, ticket)
    }

    /// Ends a write-out that failed. The page is still unsaved.
    ///
    /// # Errors
    /// [`UnknownTicket`](Error::UnknownTicket) for a ticket of another pool, which comes back.
    pub fn fail_write(&self, ticket: WriteTicket) -> Result<(), Refused<WriteTicket>> {
        let told = self.write_end(&ticket, false).map(drop);
        Refused::check(told, ticket)
    }

    fn write_end(&self, ticket: &WriteTicket, is_good: bool) -> Result<Saved> {
        let grant = self.own(&ticket.grant, Error::UnknownTicket)?;
        let (core, mut is_still_dirty) = (self.core(), 0);
        // SAFETY: the handle is free, the ticket a grant, and the number may be written to.
        Error::check(unsafe { sys::hz_write_end(core, &grant, is_good, &mut is_still_dirty) })?;
        Ok(match is_still_dirty {
            0 => Saved::Clean,
            _ => Saved::StillDirty,
        })
    }

    /// Makes a guard of a pass. The guard gives the pass back when it is dropped.
    ///
    /// The calls of a guard with a pass of another pool are refused, and the pass is lost with the
    /// guard.
    #[inline]
    pub fn guard(&self, pass: Pass) -> PageGuard<'_> {
        PageGuard { pool: self, pass }
    }

    /// Returns the pass of client 0 with this serial number, which is out for this page.
    #[inline]
    pub(crate) fn pass_of(&self, page: u64, serial: u64) -> Pass {
        let raw = hz_grant {
            page,
            serial,
            client: 0,
        };
        let grant = self.grant_of(&raw);
        Pass { grant }
    }

    #[inline]
    fn guard_of(&self, raw: &hz_grant) -> PageGuard<'_> {
        let grant = self.grant_of(raw);
        self.guard(Pass { grant })
    }

    /// Gives a pass back.
    ///
    /// # Errors
    /// [`UnknownPass`](Error::UnknownPass) for a pass of another pool, which comes back.
    pub fn unfix(&self, pass: Pass) -> Result<(), Refused<Pass>> {
        Refused::check(self.unfix_by(&pass), pass)
    }

    /// Gives a pass back, which its owner then drops.
    #[inline]
    pub(crate) fn unfix_by(&self, pass: &Pass) -> Result<()> {
        let grant = self.own_pass(pass)?;
        // SAFETY: the handle is free, and the pass a grant.
        Error::check(unsafe { sys::hz_unfix(self.core(), &grant) })
    }

    /// Lends the bytes of a pass's page, in place. They do not change while the [`PageBytes`]
    /// exists, which borrows the pass: a write to the page is refused meanwhile.
    ///
    /// ```
    /// # use hojzmated::core::{Config, Fixed, Pool};
    /// # fn main() -> hojzmated::Result<()> {
    /// # let pool = Pool::new(&Config::new(8, 16, 2))?;
    /// # let Fixed::Load { ticket, .. } = pool.fix(0, 3, &mut [0; 16])? else { return Ok(()) };
    /// # let pass = pool.end_read(ticket, b"sixteen of bytes")?.into_pass();
    /// assert_eq!(pool.bytes(&pass)?[..7], *b"sixteen");
    /// pool.put(&pass, 0, b"twelve ", 1)?;
    /// assert_eq!(pool.bytes(&pass)?[..10], *b"twelve  of");
    /// # Ok(pool.unfix(pass)?)
    /// # }
    /// ```
    ///
    /// It is no call that the room of the pool counts.
    ///
    /// # Errors
    /// [`UnknownPass`](Error::UnknownPass) for a pass of another pool.
    /// [`OutOfMemory`](Error::OutOfMemory) where more are lent at once than ever before, and that
    /// cannot be noted. Nothing is lent then.
    // Always: else what it gives goes through memory, which is a third of its cost.
    #[inline(always)]
    pub fn bytes<'a>(&'a self, pass: &'a Pass) -> Result<PageBytes<'a>> {
        let bytes = self.place(pass)?;
        // SAFETY: the page has this size. Its bytes are there while the pass is out and the pool is
        // there: both are borrowed, and no other pass goes back for this one. Nothing but
        // `hz_write` to this page changes them, which `put` does not call while it is lent.
        unsafe { self.lent.lend(pass.page(), bytes) }
    }

    /// Returns where the bytes of a pass's page are, as long as the pass is out.
    #[inline(always)]
    pub(crate) fn place(&self, pass: &Pass) -> Result<*const [u8]> {
        let grant = self.own_pass(pass)?;
        let mut first = ptr::null();
        // SAFETY: the handle is free, the pass a grant, and the pointer may be written to.
        Error::check(unsafe { sys::hz_page(self.core(), &grant, &mut first) })?;
        Ok(ptr::slice_from_raw_parts(first, self.config.page_size))
    }

    /// Copies a part of a pass's page from the offset on, as much as `into` has room for.
    ///
    /// # Errors
    /// The first that has cause, and `into` stays as it was:
    /// [`UnknownPass`](Error::UnknownPass) for a pass of another pool;
    /// [`OutOfPage`](Error::OutOfPage) where the part is not within the page;
    /// [`TrailFull`](Error::TrailFull).
    #[inline]
    pub fn copy_to(&self, pass: &Pass, offset: usize, into: &mut [u8]) -> Result<()> {
        let grant = self.own_pass(pass)?;
        let (bytes, len) = (into.as_mut_ptr(), into.len());
        // SAFETY: the handle is free, the pass a grant, and `into` has this length and may be
        // written to.
        let number = unsafe { sys::hz_read(self.core(), &grant, offset, bytes, len) };
        Error::check_as(number, |number| Error::of_bytes(number, offset, len))
    }

    /// Writes bytes into a pass's page from the offset on, under the log record with this LSN. The
    /// page is not written out before the log is durable up to this LSN. The bytes may be those of
    /// another page, as [`Pool::bytes`] lends them; then they are copied twice.
    ///
    /// # Errors
    /// The first that has cause, and the page is unchanged: [`UnknownPass`](Error::UnknownPass) for
    /// a pass of another pool; [`Lent`](Error::Lent) while bytes of the page are lent, by any guard
    /// or pass; [`OutOfPage`](Error::OutOfPage) where the bytes are not within the page;
    /// [`TrailFull`](Error::TrailFull).
    #[inline]
    pub fn put(&self, pass: &Pass, offset: usize, bytes: &[u8], lsn: u64) -> Result<()> {
        self.own_pass(pass)?;
        if self.lent.has(pass.page()) {
            return Err(Error::Lent);
        }
        self.apart(bytes, |bytes| self.put_apart(pass, offset, bytes, lsn))
    }

    /// The same with bytes that are no memory of the library, for a page of which no reference leads to
    /// what is written.
    #[inline]
    pub(crate) fn put_apart(
        &self,
        pass: &Pass,
        offset: usize,
        bytes: &[u8],
        lsn: u64,
    ) -> Result<()> {
        let grant = self.own_pass(pass)?;
        let (from, len) = (bytes.as_ptr(), bytes.len());
        // SAFETY: the handle is free, the pass a grant, and `bytes` has this length. No reference leads
        // to what is written: none of the page is lent, or who calls has it alone.
        let number = unsafe { sys::hz_write(self.core(), &grant, offset, from, len, lsn) };
        Error::check_as(number, |number| Error::of_bytes(number, offset, len))
    }

    /// Moves the clock on by `n`. A page can be evicted once the clock has moved by more than the
    /// correlated period since its newest reference.
    ///
    /// # Errors
    /// [`BadClient`](Error::BadClient); [`TrailFull`](Error::TrailFull);
    /// [`ClockFull`](Error::ClockFull) where it would pass 2^62.
    #[inline]
    pub fn tick(&self, client: u8, n: u64) -> Result<()> {
        // SAFETY: the handle is free.
        Error::check(unsafe { sys::hz_tick(self.core(), client, n) })
    }

    /// Notes that the log is durable up to this LSN.
    ///
    /// # Errors
    /// [`BadClient`](Error::BadClient); [`TrailFull`](Error::TrailFull).
    pub fn mark(&self, client: u8, lsn: u64) -> Result<()> {
        // SAFETY: the handle is free.
        Error::check(unsafe { sys::hz_mark(self.core(), client, lsn) })
    }

    /// Forgets the references of pages that are in no frame and whose newest reference is older
    /// than the retained period. It returns the number of these pages.
    ///
    /// # Errors
    /// [`BadClient`](Error::BadClient); [`TrailFull`](Error::TrailFull).
    pub fn purge(&self, client: u8) -> Result<u64> {
        let mut count = 0;
        // SAFETY: the handle is free, and the count may be written to.
        Error::check(unsafe { sys::hz_purge(self.core(), client, &mut count) })?;
        Ok(count)
    }

    /// The page LSN of a pass's page: the greatest LSN of its writes since it was read, or 0.
    ///
    /// # Errors
    /// [`UnknownPass`](Error::UnknownPass) for a pass of another pool.
    pub fn page_lsn(&self, pass: &Pass) -> Result<u64> {
        let (grant, mut lsn) = (self.own_pass(pass)?, 0);
        // SAFETY: the handle is free, the pass a grant, and the LSN may be written to.
        Error::check(unsafe { sys::hz_page_lsn(self.core(), &grant, &mut lsn) })?;
        Ok(lsn)
    }

    /// Returns the first page from this number on, in the order of the file, that has writes which
    /// are in no image on the device.
    pub fn next_unsaved(&self, from: u64) -> Option<UnsavedPage> {
        let mut out = hz_unsaved::default();
        // SAFETY: the handle is free, and `out` may be written to. It is refused only where the
        // handle has no core.
        let _ = unsafe { sys::hz_next_unsaved(self.core(), from, &mut out) };
        (out.has_page != 0).then_some(UnsavedPage {
            page: out.page,
            lsn: out.lsn,
            first_lsn: out.first_lsn,
        })
    }

    /// Iterates over all such pages from this number on. Each is looked for when it is asked for,
    /// so the pool may be used in between.
    pub fn unsaved(&self, mut from: u64) -> impl Iterator<Item = UnsavedPage> {
        iter::from_fn(move || {
            let next = self.next_unsaved(from)?;
            from = next.page + 1;
            Some(next)
        })
    }

    /// Returns the page whose frame the next fix takes, if that is of a page that is away. If it is
    /// unsaved it is written out first, or the fix is refused with
    /// [`NeedLog`](Error::NeedLog). It is None where a frame is free, and where no page may leave.
    pub fn victim(&self) -> Option<u64> {
        let (mut page, mut has_page) = (0, 0);
        // SAFETY: the handle is free, and both may be written to. It is refused only where the
        // handle has no core.
        let _ = unsafe { sys::hz_victim(self.core(), &mut page, &mut has_page) };
        (has_page != 0).then_some(page)
    }

    /// Returns the LSN from which redo must begin: the least LSN of all writes that are in no image
    /// on the device, also if it is 0. It is None where there is no such write.
    pub fn redo_from(&self) -> Option<u64> {
        let (mut lsn, mut has_lsn) = (0, 0);
        // SAFETY: the handle is free, and both may be written to. It is refused only where the
        // handle has no core.
        let _ = unsafe { sys::hz_redo_from(self.core(), &mut lsn, &mut has_lsn) };
        (has_lsn != 0).then_some(lsn)
    }

    /// Returns true if the page is in a frame.
    ///
    /// # Errors
    /// [`NoSuchPage`](Error::NoSuchPage).
    pub fn is_resident(&self, page: u64) -> Result<bool> {
        let mut is_resident = 0;
        // SAFETY: the handle is free, and the answer may be written to.
        let number = unsafe { sys::hz_is_resident(self.core(), page, &mut is_resident) };
        Error::check_as(number, |number| self.refused(number, page, 0, 0))?;
        Ok(is_resident != 0)
    }

    /// The counters of the pool.
    pub fn stats(&self) -> PoolStats {
        let mut out = hz_stats::default();
        // SAFETY: the handle is free, and `out` may be written to. It is refused only where the
        // handle has no core.
        let _ = unsafe { sys::hz_stats_of(self.core(), &mut out, size_of::<hz_stats>()) };
        PoolStats {
            totals: Totals {
                hits: out.hits,
                faults: out.faults,
                evictions: out.evictions,
                writes: out.writes,
                failed: out.failed,
                refused: out.refused,
                discards: out.discards,
            },
            resident: out.resident,
            pinned: out.pinned,
            unsaved: out.unsaved,
            loading: out.loading,
            writing: out.writing,
        }
    }

    /// The counts since the pool was made.
    pub fn totals(&self) -> Totals {
        self.stats().totals
    }
}

impl Drop for Pool {
    fn drop(&mut self) {
        // SAFETY: the handle is free. It has a core, and is not used after this.
        let _ = unsafe { sys::hz_core_free(self.core()) };
    }
}

impl fmt::Debug for Pool {
    fn fmt(&self, f: &mut fmt::Formatter<'_>) -> fmt::Result {
        f.debug_struct("Pool")
            .field("config", &self.config)
            .field("stats", &self.stats())
            .finish_non_exhaustive()
    }
}

#[cfg(test)]
mod tests {
    use super::*;

    // `check/bindings` has one of these libraries linked.
    #[test]
    fn library_of_another_version() {
        assert_eq!(check_version(SERIES * 100), Ok(()));
        assert_eq!(check_version(SERIES * 100 + 99), Ok(()));
        for library in [
            0,
            SERIES * 100 - 1,
            (SERIES + 1) * 100,
            SERIES * 100 + 10_000,
        ] {
            assert_eq!(
                check_version(library),
                Err(Error::VersionMismatch { library })
            );
        }
    }

    // Bytes of the library's own memory are copied before the library gets them. Other bytes are
    // not, also where they are more than a page.
    #[test]
    fn bytes_of_the_library_are_copied() -> Result<()> {
        let pool = Pool::new(&Config::new(4, 16, 1))?;
        let Fixed::Load { ticket, .. } = pool.fix(0, 2, &mut [0; 16])? else {
            return Err(Error::Busy);
        };
        let page = pool.end_read(ticket, b"sixteen of bytes")?;
        let (bytes, other) = (page.bytes()?, [7; 40]);
        for (part, is_copied) in [
            (&bytes[..], true),
            (&bytes[15..], true),
            (&other[..16], false),
            (&other, false),
        ] {
            pool.apart(part, |given| {
                assert_eq!(given, part);
                assert_eq!(given.as_ptr() != part.as_ptr(), is_copied);
            });
        }
        Ok(())
    }
}
