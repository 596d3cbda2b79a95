//! The guards of a page: `PagePin` without a latch, `PageRef` under a shared one, `PageMut` alone.
use super::Pager;
use super::part::{NOTES_AT_ONCE, Part};
use super::seats::Seat;
use super::watch::Waited;
use super::word::{PIN, READER, WRITER, Word};
use crate::{Error, Result};
use std::cell::Cell;
use std::fmt;
use std::marker::PhantomData;
use std::mem::ManuallyDrop;
use std::ops::{Bound, Deref, Range, RangeBounds};
use std::slice;
use std::sync::RwLockReadGuard;

/// A pinned page without a latch: it stays in its frame until this is dropped.
///
/// It can be sent to another thread. To look at the page or to change it, take its latch by
/// [`read`](PagePin::read) or [`write`](PagePin::write), as often as needed. Where such a guard is
/// forgotten ([`std::mem::forget`]) the latch stays taken, and the page in its frame.
#[must_use = "the page is unpinned when its pin is dropped"]
pub struct PagePin<'a>(Share<'a, PIN>);

/// The bytes of a page under a shared latch: a `[u8]` of the page size, in place.
///
/// While it exists nobody writes to the page, and the page stays in its frame. Other threads may
/// look at the page too, and it may be written out. When it is dropped the latch is free again.
#[must_use = "the latch is free again when this is dropped"]
pub struct PageRef<'a>(Share<'a, READER>, OfThread<'a>);

/// A page under an exclusive latch: nobody else looks at it or writes to it meanwhile, nor is it
/// written out.
///
/// When it is dropped the latch is free again, also where the engine panics. What was put until
/// then stays.
#[must_use = "the latch is free again when this is dropped"]
pub struct PageMut<'a>(Share<'a, WRITER>, OfThread<'a>);

/// A latch does not go to another thread, as one of the standard library does not.
type OfThread<'a> = PhantomData<RwLockReadGuard<'a, ()>>;

/// A share in the word of a seat whose pass is out: so the page stays in its frame, and its bytes
/// where they are.
pub(super) struct Share<'a, const KIND: u64> {
    part: &'a Part,
    seat: &'a Seat,
}

impl<'a, const KIND: u64> Share<'a, KIND> {
    /// # Safety
    ///
    /// The pass is out, the share is in the word, and no other `Share` is made of it.
    #[inline]
    pub(super) unsafe fn new(part: &'a Part, seat: &'a Seat) -> Share<'a, KIND> {
        Share { part, seat }
    }

    fn page(&self) -> u64 {
        self.part.in_file(self.seat.page())
    }

    fn is_of<F>(&self, pager: &Pager<F>) -> bool {
        self.part.is_of(pager.watch.pager)
    }

    /// The greatest LSN of the page's writes since it was read into its frame, or 0.
    fn lsn(&self) -> u64 {
        let state = self.part.lock();
        let pass = state.pool.pass_of(self.seat.page(), self.seat.serial());
        // It is refused for a pass that is not out alone.
        state.pool.page_lsn(&pass).unwrap_or_default()
    }

    /// The bytes of the page.
    ///
    /// # Safety
    /// Nobody writes to the page while they are looked at.
    #[inline]
    unsafe fn bytes(&self) -> &[u8] {
        // SAFETY: the page has this size. Its bytes are there while its pass is out, and so while a
        // share is. They change by `Part::write` to this page alone, which does not come meanwhile.
        unsafe { slice::from_raw_parts(self.seat.bytes(), self.part.page_size) }
    }
}

impl<const KIND: u64> Drop for Share<'_, KIND> {
    #[inline]
    fn drop(&mut self) {
        let left = self.seat.leave(KIND);
        if !self.part.is_left_so(left) {
            drop_slowly(self.part, self.seat, KIND, left);
        }
    }
}

impl<'a, const KIND: u64> Share<'a, KIND> {
    /// The first step of a drop.
    #[inline(always)]
    fn let_go(self) -> Left<'a> {
        let Share { part, seat } = *ManuallyDrop::new(self);
        let word = seat.leave(KIND);
        Left { part, seat, word }
    }
}

/// Ends the drop of a share where more has to be done.
#[cold]
#[inline(never)]
fn drop_slowly(part: &Part, seat: &Seat, kind: u64, left: Word) {
    if kind != PIN {
        part.forget_latch(seat);
    }
    part.leave_slowly(seat, left);
}

/// What a guard left that was let go: that of a latch.
#[doc(hidden)]
#[must_use = "more may have to be done"]
pub struct Left<'a> {
    part: &'a Part,
    seat: &'a Seat,
    word: Word,
}

impl Left<'_> {
    /// Whether that is all.
    #[inline(always)]
    #[must_use]
    pub fn is_all(&self) -> bool {
        self.part.is_left_so(self.word)
    }

    /// The second step of a drop, if that was not all: a thread may wait for the latch.
    pub fn finish(self) {
        drop_slowly(self.part, self.seat, READER, self.word);
    }
}

/// Panics where a latch was not had.
#[inline]
fn had(latched: Result<()>) {
    if let Err(error) = latched {
        not_had(error);
    }
}

#[cold]
fn not_had(error: Error) -> ! {
    match error {
        Error::TooManyGuards => panic!("the page has too many guards"),
        Error::Deadlock => panic!("the thread would wait for a latch that it has"),
        _ => panic!("a function of the engine waits for a latch longer than for a pin"),
    }
}

impl<'a> PagePin<'a> {
    #[inline]
    pub(super) fn new(share: Share<'a, PIN>) -> PagePin<'a> {
        PagePin(share)
    }

    /// The number of the page.
    #[must_use]
    pub fn page(&self) -> u64 {
        self.0.page()
    }

    /// Waits for the page's shared latch.
    ///
    /// A thread that has the page's exclusive latch waits for ever. So may one that has its shared
    /// latch, while another waits for the exclusive one.
    ///
    /// # Panics
    /// In a function of the engine that the pager called, after the time of a pin wait. Where the page has
    /// 524,288 pins or shared latches. And where a thread would wait for itself, if
    /// [latches are noted](crate::PagerConfig::notes_latches).
    #[inline]
    pub fn read(&self) -> PageRef<'_> {
        let Share { part, seat } = self.0;
        had(part.take_latch(seat, READER));
        // SAFETY: the latch was taken, while a pin is out.
        PageRef::new(unsafe { Share::new(part, seat) })
    }

    /// Returns the page under its shared latch, or None where that can't be had without waiting.
    #[inline]
    #[must_use]
    pub fn try_read(&self) -> Option<PageRef<'_>> {
        let Share { part, seat } = self.0;
        let is_had = seat.try_latch(READER, 0);
        // SAFETY: the latch was taken, while a pin is out.
        is_had.then(|| PageRef::new(unsafe { Share::new(part, seat) }))
    }

    /// Waits for the page's exclusive latch.
    ///
    /// A thread that has a latch of the page waits for ever.
    ///
    /// # Panics
    /// As [`read`](PagePin::read) does.
    #[inline]
    pub fn write(&self) -> PageMut<'_> {
        let Share { part, seat } = self.0;
        had(part.take_latch(seat, WRITER));
        // SAFETY: the latch was taken, while a pin is out.
        PageMut::new(unsafe { Share::new(part, seat) })
    }

    /// Returns the page under its exclusive latch, or None where that can't be had without waiting.
    #[inline]
    #[must_use]
    pub fn try_write(&self) -> Option<PageMut<'_>> {
        let Share { part, seat } = self.0;
        let is_had = seat.try_latch(WRITER, 0);
        // SAFETY: the latch was taken, while a pin is out.
        is_had.then(|| PageMut::new(unsafe { Share::new(part, seat) }))
    }

    /// Turns the pin into a latch: its share becomes that of the latch.
    #[inline]
    fn into_latch<const KIND: u64>(self, waited: &Waited<'_>) -> Result<Share<'a, KIND>> {
        let Share { part, seat } = self.0;
        part.turn_pin(seat, KIND, waited)?;
        std::mem::forget(self);
        // SAFETY: the pass is out while the share is that of the pin, which is no more, or of the
        // latch.
        Ok(unsafe { Share::new(part, seat) })
    }

    #[inline]
    fn try_into_latch<const KIND: u64>(self) -> Option<Share<'a, KIND>> {
        let Share { part, seat } = self.0;
        if !seat.try_latch(KIND, PIN) {
            return None;
        }
        std::mem::forget(self);
        // SAFETY: as in `into_latch`.
        Some(unsafe { Share::new(part, seat) })
    }

    #[inline]
    pub(super) fn into_read(self, waited: &Waited<'_>) -> Result<PageRef<'a>> {
        self.into_latch(waited).map(PageRef::new)
    }

    #[inline]
    pub(super) fn try_into_read(self) -> Option<PageRef<'a>> {
        self.try_into_latch().map(PageRef::new)
    }

    #[inline]
    pub(super) fn into_write(self, waited: &Waited<'_>) -> Result<PageMut<'a>> {
        self.into_latch(waited).map(PageMut::new)
    }

    #[inline]
    pub(super) fn try_into_write(self) -> Option<PageMut<'a>> {
        self.try_into_latch().map(PageMut::new)
    }
}

impl<'a> PageRef<'a> {
    #[inline]
    pub(super) fn new(share: Share<'a, READER>) -> PageRef<'a> {
        share.part.note_latch(share.seat);
        PageRef(share, PhantomData)
    }

    /// The same where no lock was taken.
    #[inline(always)]
    pub(super) fn at_once(share: Share<'a, READER>) -> PageRef<'a> {
        match NOTES_AT_ONCE {
            true => PageRef::new(share),
            false => PageRef(share, PhantomData),
        }
    }

    /// The first step of a drop: the latch is free. It can't panic.
    #[doc(hidden)]
    #[inline(always)]
    pub fn let_go(self) -> Left<'a> {
        self.0.let_go()
    }

    /// Whether it is a page of this pager.
    #[doc(hidden)]
    pub fn is_of<F>(&self, pager: &Pager<F>) -> bool {
        self.0.is_of(pager)
    }

    /// The number of the page.
    #[must_use]
    pub fn page(&self) -> u64 {
        self.0.page()
    }

    /// The page LSN: the greatest LSN of the writes to the page since it was read into its frame. It is
    /// 0 where there was none: then what [`PageIo::write_page`](crate::PageIo::write_page) stamped into
    /// the image is the newest. It takes the part's lock.
    #[must_use]
    pub fn lsn(&self) -> u64 {
        self.0.lsn()
    }
}

impl Deref for PageRef<'_> {
    type Target = [u8];

    #[inline]
    fn deref(&self) -> &[u8] {
        // SAFETY: only a `PageMut` of the page writes to it, which the latch keeps away.
        unsafe { self.0.bytes() }
    }
}

impl AsRef<[u8]> for PageRef<'_> {
    #[inline]
    fn as_ref(&self) -> &[u8] {
        self
    }
}

/// The bytes as they are: they are changed by [`put`](PageMut::put) and what is like it alone.
impl Deref for PageMut<'_> {
    type Target = [u8];

    #[inline]
    fn deref(&self) -> &[u8] {
        self.bytes()
    }
}

impl AsRef<[u8]> for PageMut<'_> {
    #[inline]
    fn as_ref(&self) -> &[u8] {
        self
    }
}

impl<'a> PageMut<'a> {
    #[inline]
    pub(super) fn new(share: Share<'a, WRITER>) -> PageMut<'a> {
        share.part.note_latch(share.seat);
        PageMut(share, PhantomData)
    }

    /// The same where no lock was taken.
    #[inline(always)]
    pub(super) fn at_once(share: Share<'a, WRITER>) -> PageMut<'a> {
        match NOTES_AT_ONCE {
            true => PageMut::new(share),
            false => PageMut(share, PhantomData),
        }
    }

    /// The first step of a drop: the latch is free. It can't panic.
    #[doc(hidden)]
    #[inline(always)]
    pub fn let_go(self) -> Left<'a> {
        self.0.let_go()
    }

    /// Whether it is a page of this pager.
    #[doc(hidden)]
    pub fn is_of<F>(&self, pager: &Pager<F>) -> bool {
        self.0.is_of(pager)
    }

    /// The number of the page.
    #[must_use]
    pub fn page(&self) -> u64 {
        self.0.page()
    }

    /// The page LSN, as [`PageRef::lsn`] tells it, with all that was put so far.
    #[must_use]
    pub fn lsn(&self) -> u64 {
        self.0.lsn()
    }

    /// The bytes of the page, in place, with all that was put so far.
    #[inline]
    #[must_use]
    pub fn bytes(&self) -> &[u8] {
        // SAFETY: only a `PageMut` of the page writes to it. That is this one, which `put` borrows
        // as a whole.
        unsafe { self.0.bytes() }
    }

    /// Writes bytes into the page from the offset on, under the log record with this LSN. The page
    /// is not written out before the log is durable up to this LSN. LSN 0 is for a change without a
    /// record.
    ///
    /// The bytes may be those of another page. It needs no memory.
    ///
    /// # Errors
    /// [`OutOfPage`](crate::Error::OutOfPage) where the bytes are not within the page, which is
    /// unchanged.
    #[inline]
    pub fn put(&mut self, offset: usize, bytes: &[u8], lsn: u64) -> Result<()> {
        self.0.part.write(self.0.seat, offset, bytes, lsn)
    }

    /// Writes bytes into the page as [`put`](PageMut::put) does, but without a log record: redo need not
    /// begin at this LSN, and neither [`redo_from`](crate::Pager::redo_from) nor a checkpoint tells
    /// it. The page is not written out before the log is durable up to it, and has it as its page LSN.
    ///
    /// This is for pages that are filled without a record, as by a bulk load: take the LSN of the newest
    /// record. What is put so is lost by a crash until the page was written out and the device synced: so
    /// do both before the record that makes the page one of the engine's data.
    ///
    /// # Errors
    /// [`OutOfPage`](crate::Error::OutOfPage) where the bytes are not within the page, which is
    /// unchanged.
    pub fn put_unlogged(&mut self, offset: usize, bytes: &[u8], lsn: u64) -> Result<()> {
        let Share { part, seat } = self.0;
        part.write_unlogged(seat, offset, bytes, lsn)
    }

    /// Puts bytes at many places of the page, each from its offset on, in this order, under one log
    /// record. It takes the part's lock once for all of them. Else it is as so many
    /// [puts](PageMut::put).
    ///
    /// # Errors
    /// [`OutOfPage`](crate::Error::OutOfPage) where some of the bytes are not within the page, of which
    /// nothing is changed.
    pub fn put_each(&mut self, parts: &[(usize, &[u8])], lsn: u64) -> Result<()> {
        self.0.part.write_each(self.0.seat, parts, lsn)
    }

    /// Changes a range of the page in place, under the log record with this LSN. The function gets the
    /// bytes of the range as they are, and what it leaves there is in the page afterwards.
    ///
    /// ```
    /// # use hojzmated::{LogFault, PageIo, Pager, PagerConfig, ReadFault};
    /// # struct Zeros;
    /// # impl PageIo for Zeros {
    /// #     fn read_page(&self, _: u64, image: &mut [u8]) -> Result<(), ReadFault> { Ok(image.fill(0)) }
    /// #     fn write_page(&self, _: u64, _: &mut [u8], _: u64) -> std::io::Result<()> { Ok(()) }
    /// #     fn make_log_durable(&self, _: u64) -> Result<(), LogFault> { Ok(()) }
    /// #     fn sync(&self) -> std::io::Result<()> { Ok(()) }
    /// # }
    /// # fn main() -> Result<(), hojzmated::PagerError> {
    /// # let pager = Pager::new(&PagerConfig::new(100, 4096, 8), Zeros)?;
    /// let mut page = pager.write(7)?;
    /// page.put(64, b"a row, and another", 1)?;
    /// // The first row goes, and the other one moves to its place.
    /// page.edit(64..82, 2, |bytes| bytes.copy_within(11.., 0))?;
    /// assert_eq!(page.bytes()[64..71], *b"another");
    /// // All of the page.
    /// page.edit(.., 3, |bytes| bytes.fill(0))?;
    /// # Ok(())
    /// # }
    /// ```
    ///
    /// The function works on a copy of the range, which is put as a whole once it returns: so the page
    /// stays as it was where it panics, and the time is that of two copies of the range and one
    /// [`put`](PageMut::put), however much it changes. Take no more than the range in which the changes
    /// are; [`put_each`](PageMut::put_each) is for few changes that are far apart. The function may use
    /// the pager, as who has this latch may.
    ///
    /// # Errors
    /// [`OutOfPage`](crate::Error::OutOfPage) where the range is not within the page, and
    /// [`OutOfMemory`](crate::Error::OutOfMemory) where there is none for the copy, for which each thread
    /// keeps its memory. The page is unchanged then, and the function was not called.
    pub fn edit<T>(
        &mut self,
        range: impl RangeBounds<usize>,
        lsn: u64,
        change: impl FnOnce(&mut [u8]) -> T,
    ) -> Result<T> {
        let Share { part, seat } = self.0;
        let range = within(range, part.page_size)?;
        let before = &self.bytes()[range.clone()];
        let mut few = [0; FEW];
        if let Some(copy) = few.get_mut(..before.len()) {
            copy.copy_from_slice(before);
            let told = change(copy);
            part.write_copy(seat, range.start, copy, lsn)?;
            return Ok(told);
        }
        // Once the thread's own objects are gone, memory is taken anew each time.
        let mut copy = COPY.try_with(Cell::take).unwrap_or_default();
        copy.clear();
        let room = copy.try_reserve_exact(part.page_size);
        room.map_err(|_| Error::OutOfMemory)?;
        copy.extend_from_slice(before);
        let told = change(&mut copy);
        let written = part.write_copy(seat, range.start, &copy, lsn);
        let _ = COPY.try_with(|kept| kept.set(copy));
        written.map(|()| told)
    }
}

/// So many bytes are edited without memory.
const FEW: usize = 64;

thread_local! {
    /// The memory of this thread for an edit. An edit within an edit has its own.
    static COPY: Cell<Vec<u8>> = const { Cell::new(Vec::new()) };
}

/// Returns the range within a page of this size.
///
/// # Errors
/// [`Error::OutOfPage`] where it is not.
fn within(range: impl RangeBounds<usize>, page_size: usize) -> Result<Range<usize>> {
    let offset = match range.start_bound() {
        Bound::Included(start) => *start,
        Bound::Excluded(before) => before.saturating_add(1),
        Bound::Unbounded => 0,
    };
    let end = match range.end_bound() {
        Bound::Included(last) => last.checked_add(1),
        Bound::Excluded(end) => Some(*end),
        Bound::Unbounded => Some(page_size),
    };
    let len = end.and_then(|end| end.checked_sub(offset));
    let len = len.unwrap_or(usize::MAX);
    match offset.checked_add(len) {
        Some(end) if end <= page_size => Ok(offset..end),
        _ => Err(Error::OutOfPage { offset, len }),
    }
}

macro_rules! debug_of {
    ($($guard:ident)*) => {$(
        impl fmt::Debug for $guard<'_> {
            fn fmt(&self, f: &mut fmt::Formatter<'_>) -> fmt::Result {
                f.debug_struct(stringify!($guard))
                    .field("page", &self.page())
                    .finish_non_exhaustive()
            }
        }
    )*};
}

debug_of!(PagePin PageRef PageMut);
