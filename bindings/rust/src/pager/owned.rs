//! Guards that own their pager, by an `Arc`: for cursors and pinned roots that outlive a borrow.
use super::Pager;
use super::guards::{PageMut, PagePin, PageRef};
use crate::{PageIo, PagerError, Result};
use std::fmt;
use std::mem;
use std::ops::{Deref, RangeBounds};
use std::sync::Arc;

/// A [`PagePin`] that owns its pager, so it may be kept in a struct, or sent to a thread.
///
/// ```
/// # use hojzmated::{LogFault, OwnedPin, PageIo, Pager, PagerConfig, ReadFault};
/// # use std::sync::Arc;
/// # struct Zeros;
/// # impl PageIo for Zeros {
/// #     fn read_page(&self, _: u64, image: &mut [u8]) -> Result<(), ReadFault> { Ok(image.fill(0)) }
/// #     fn write_page(&self, _: u64, _: &mut [u8], _: u64) -> std::io::Result<()> { Ok(()) }
/// #     fn make_log_durable(&self, _: u64) -> Result<(), LogFault> { Ok(()) }
/// #     fn sync(&self) -> std::io::Result<()> { Ok(()) }
/// # }
/// # fn main() -> Result<(), hojzmated::PagerError> {
/// /// A tree whose root stays in its frame.
/// struct Tree {
///     root: OwnedPin<Zeros>,
/// }
///
/// let pager = Arc::new(Pager::new(&PagerConfig::new(100, 4096, 8), Zeros)?);
/// let tree = Tree { root: pager.pin_owned(1)? };
/// assert_eq!(tree.root.read()[0], 0);
/// // The pager goes with the last of both.
/// drop(pager);
/// tree.root.write().put(0, b"root", 1)?;
/// # Ok(())
/// # }
/// ```
#[must_use = "the page is unpinned when its pin is dropped"]
pub struct OwnedPin<F>(Owned<PagePin<'static>, F>);

/// A [`PageRef`] that owns its pager: the bytes of a page under a shared latch. As a `PageRef` it stays
/// in its thread.
#[must_use = "the latch is free again when this is dropped"]
pub struct OwnedRef<F>(Owned<PageRef<'static>, F>);

/// A [`PageMut`] that owns its pager: a page under an exclusive latch. As a `PageMut` it stays in its
/// thread.
#[must_use = "the latch is free again when this is dropped"]
pub struct OwnedMut<F>(Owned<PageMut<'static>, F>);

/// A guard with its pager. The fields are dropped in this order: so the pager is there until the guard
/// is gone. The guard is lent as one that does not outlive this, and never given away.
struct Owned<G, F> {
    guard: G,
    _pager: Arc<Pager<F>>,
}

impl<F: PageIo> Pager<F> {
    /// Pins a page, as [`pin`](Pager::pin) does, with a share of the pager.
    ///
    /// # Errors
    /// Those of [`Pager::read`].
    pub fn pin_owned(self: &Arc<Self>, page: u64) -> Result<OwnedPin<F>, PagerError> {
        let guard = self.pin(page)?;
        // SAFETY: a pin borrows the parts of its pager, which are in a box of it. The pager is in the
        // `Arc`, where nobody moves or changes it as long as this share of it is there: until the pin
        // is dropped.
        let guard = unsafe { mem::transmute::<PagePin<'_>, PagePin<'static>>(guard) };
        Ok(OwnedPin(self.own(guard)))
    }

    /// Returns a page under its shared latch, as [`read`](Pager::read) does, with a share of the
    /// pager.
    ///
    /// # Errors
    /// Those of [`Pager::read`].
    pub fn read_owned(self: &Arc<Self>, page: u64) -> Result<OwnedRef<F>, PagerError> {
        let guard = self.read(page)?;
        // SAFETY: as in `pin_owned`.
        let guard = unsafe { mem::transmute::<PageRef<'_>, PageRef<'static>>(guard) };
        Ok(OwnedRef(self.own(guard)))
    }

    /// Returns a page under its exclusive latch, as [`write`](Pager::write) does, with a share of
    /// the pager.
    ///
    /// # Errors
    /// Those of [`Pager::read`].
    pub fn write_owned(self: &Arc<Self>, page: u64) -> Result<OwnedMut<F>, PagerError> {
        let guard = self.write(page)?;
        // SAFETY: as in `pin_owned`.
        let guard = unsafe { mem::transmute::<PageMut<'_>, PageMut<'static>>(guard) };
        Ok(OwnedMut(self.own(guard)))
    }

    fn own<G>(self: &Arc<Self>, guard: G) -> Owned<G, F> {
        Owned {
            guard,
            _pager: Arc::clone(self),
        }
    }
}

impl<F> OwnedPin<F> {
    /// The number of the page.
    #[must_use]
    pub fn page(&self) -> u64 {
        self.0.guard.page()
    }

    /// Waits for the page's shared latch, as [`PagePin::read`] does.
    ///
    /// # Panics
    /// As [`PagePin::read`] does.
    pub fn read(&self) -> PageRef<'_> {
        self.0.guard.read()
    }

    /// Returns the page under its shared latch, or None where that can't be had without waiting.
    #[must_use]
    pub fn try_read(&self) -> Option<PageRef<'_>> {
        self.0.guard.try_read()
    }

    /// Waits for the page's exclusive latch, as [`PagePin::write`] does.
    ///
    /// # Panics
    /// As [`PagePin::read`] does.
    pub fn write(&self) -> PageMut<'_> {
        self.0.guard.write()
    }

    /// Returns the page under its exclusive latch, or None where that can't be had without waiting.
    #[must_use]
    pub fn try_write(&self) -> Option<PageMut<'_>> {
        self.0.guard.try_write()
    }
}

impl<F> OwnedRef<F> {
    /// The number of the page.
    #[must_use]
    pub fn page(&self) -> u64 {
        self.0.guard.page()
    }

    /// The page LSN, as [`PageRef::lsn`] tells it.
    #[must_use]
    pub fn lsn(&self) -> u64 {
        self.0.guard.lsn()
    }
}

impl<F> Deref for OwnedRef<F> {
    type Target = [u8];

    #[inline]
    fn deref(&self) -> &[u8] {
        &self.0.guard
    }
}

impl<F> AsRef<[u8]> for OwnedRef<F> {
    #[inline]
    fn as_ref(&self) -> &[u8] {
        self
    }
}

/// The bytes as they are, as of a [`PageMut`].
impl<F> Deref for OwnedMut<F> {
    type Target = [u8];

    #[inline]
    fn deref(&self) -> &[u8] {
        self.bytes()
    }
}

impl<F> AsRef<[u8]> for OwnedMut<F> {
    #[inline]
    fn as_ref(&self) -> &[u8] {
        self
    }
}

impl<F> OwnedMut<F> {
    /// The number of the page.
    #[must_use]
    pub fn page(&self) -> u64 {
        self.0.guard.page()
    }

    /// The page LSN, as [`PageMut::lsn`] tells it.
    #[must_use]
    pub fn lsn(&self) -> u64 {
        self.0.guard.lsn()
    }

    /// The bytes of the page, in place, with all that was put so far.
    #[inline]
    #[must_use]
    pub fn bytes(&self) -> &[u8] {
        self.0.guard.bytes()
    }

    /// Writes bytes into the page, as [`PageMut::put`] does.
    ///
    /// # Errors
    /// Those of [`PageMut::put`].
    #[inline]
    pub fn put(&mut self, offset: usize, bytes: &[u8], lsn: u64) -> Result<()> {
        self.0.guard.put(offset, bytes, lsn)
    }

    /// Writes bytes into the page without a record, as [`PageMut::put_unlogged`] does.
    ///
    /// # Errors
    /// Those of [`PageMut::put_unlogged`].
    pub fn put_unlogged(&mut self, offset: usize, bytes: &[u8], lsn: u64) -> Result<()> {
        self.0.guard.put_unlogged(offset, bytes, lsn)
    }

    /// Puts bytes at many places, as [`PageMut::put_each`] does.
    ///
    /// # Errors
    /// Those of [`PageMut::put_each`].
    pub fn put_each(&mut self, parts: &[(usize, &[u8])], lsn: u64) -> Result<()> {
        self.0.guard.put_each(parts, lsn)
    }

    /// Changes a range of the page in place, as [`PageMut::edit`] does.
    ///
    /// # Errors
    /// Those of [`PageMut::edit`].
    pub fn edit<T>(
        &mut self,
        range: impl RangeBounds<usize>,
        lsn: u64,
        change: impl FnOnce(&mut [u8]) -> T,
    ) -> Result<T> {
        self.0.guard.edit(range, lsn, change)
    }
}

macro_rules! debug_of {
    ($($guard:ident)*) => {$(
        impl<F> fmt::Debug for $guard<F> {
            fn fmt(&self, f: &mut fmt::Formatter<'_>) -> fmt::Result {
                f.debug_struct(stringify!($guard))
                    .field("page", &self.page())
                    .finish_non_exhaustive()
            }
        }
    )*};
}

debug_of!(OwnedPin OwnedRef OwnedMut);
