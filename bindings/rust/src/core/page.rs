//! Passes and tickets as values that cannot be copied, and `PageGuard`, which gives its pass back.
use super::{PageBytes, Pool};
use crate::sys::hz_grant;
use crate::{Error, Result};
use std::{fmt, mem};

/// A grant of the library, and the pool that gave it: two pools give grants with the same numbers.
/// If a pass of one pool were taken by another, a page could leave its frame while its bytes are
/// lent.
///
/// It has four words, and each call makes a new [`hz_grant`] from them. A guard is moved just after
/// the library wrote its pass. A load that is larger than the stores before it waits until they are
/// in the cache, and so until all work before them is done. In this order no two fields are
/// adjacent as in an [`hz_grant`], so the compiler loads one at a time.
#[derive(Debug, PartialEq, Eq)]
pub(crate) struct Grant {
    /// A `u8`, as a word.
    client: u64,
    page: u64,
    pub(crate) pool: u64,
    serial: u64,
}

impl Grant {
    #[inline]
    pub(crate) fn new(pool: u64, raw: &hz_grant) -> Grant {
        Grant {
            client: raw.client.into(),
            page: raw.page,
            pool,
            serial: raw.serial,
        }
    }

    #[inline]
    pub(crate) fn raw(&self) -> hz_grant {
        hz_grant {
            page: self.page,
            serial: self.serial,
            client: self.client(),
        }
    }

    #[inline]
    fn client(&self) -> u8 {
        self.client as u8
    }
}

/// The right to a page: it stays in its frame while the pass is out. A [`PageGuard`] has one and
/// gives it back; this is one without a guard, which may be kept while other threads use the pool.
#[derive(Debug, PartialEq, Eq)]
#[must_use = "the page is pinned until its pass goes back to the pool"]
pub struct Pass {
    pub(crate) grant: Grant,
}

/// The duty to read a page. The page's frame waits until [`Pool::end_read`] or [`Pool::fail_read`]
/// has the ticket.
#[derive(Debug, PartialEq, Eq)]
#[must_use = "the frame waits until the ticket is ended"]
pub struct ReadTicket {
    pub(crate) grant: Grant,
}

/// The duty to write a page out. The page's frame waits until [`Pool::end_write`] or
/// [`Pool::fail_write`] has the ticket.
#[derive(Debug, PartialEq, Eq)]
#[must_use = "the frame waits until the ticket is ended"]
pub struct WriteTicket {
    pub(crate) grant: Grant,
    pub(crate) lsn: u64,
}

/// A page that is pinned. It is unpinned when the guard is dropped.
///
/// A guard borrows its pool, so it does not outlive it:
///
/// ```compile_fail,E0505
/// # use hojzmated::core::{Config, Fixed, Pool};
/// # fn main() -> hojzmated::Result<()> {
/// let pool = Pool::new(&Config::new(8, 16, 2))?;
/// let Fixed::Hit(guard) = pool.fix(0, 3, &mut [0; 16])? else { return Ok(()) };
/// drop(pool);
/// println!("{}", guard.page());
/// # Ok(())
/// # }
/// ```
///
/// Nor does it go to another thread, since two threads would use the pool then.
/// [`PageGuard::into_pass`] gives what may:
///
/// ```compile_fail,E0277
/// fn is_send<T: Send>() {}
/// is_send::<hojzmated::core::PageGuard<'static>>();
/// ```
#[derive(Debug)]
#[must_use = "the page is unpinned when its guard is dropped"]
pub struct PageGuard<'pool> {
    pub(crate) pool: &'pool Pool,
    pub(crate) pass: Pass,
}

impl Pass {
    /// The page that it pins.
    #[must_use]
    pub fn page(&self) -> u64 {
        self.grant.page
    }

    /// The client that it was given to.
    #[must_use]
    pub fn client(&self) -> u8 {
        self.grant.client()
    }

    /// Its serial number among the passes of the pool, which are numbered from 0.
    #[must_use]
    pub fn serial(&self) -> u64 {
        self.grant.serial
    }
}

impl ReadTicket {
    /// The page to read.
    #[must_use]
    pub fn page(&self) -> u64 {
        self.grant.page
    }

    /// The client that it was given to.
    #[must_use]
    pub fn client(&self) -> u8 {
        self.grant.client()
    }

    /// Its serial number among the tickets of the pool, which are numbered from 0.
    #[must_use]
    pub fn serial(&self) -> u64 {
        self.grant.serial
    }
}

impl WriteTicket {
    /// The page to write out.
    #[must_use]
    pub fn page(&self) -> u64 {
        self.grant.page
    }

    /// The client that it was given to.
    #[must_use]
    pub fn client(&self) -> u8 {
        self.grant.client()
    }

    /// Its serial number among the tickets of the pool, which are numbered from 0.
    #[must_use]
    pub fn serial(&self) -> u64 {
        self.grant.serial
    }

    /// The page LSN of the image: the greatest LSN of the writes to the page since it was read into
    /// its frame.
    #[must_use]
    pub fn lsn(&self) -> u64 {
        self.lsn
    }
}

impl PageGuard<'_> {
    /// The number of the page.
    #[must_use]
    pub fn page(&self) -> u64 {
        self.pass.page()
    }

    /// The pass that the guard gives back when it is dropped.
    pub fn pass(&self) -> &Pass {
        &self.pass
    }

    /// Lends the bytes of the page, in place. They stay as they are while the [`PageBytes`] is
    /// there.
    ///
    /// # Errors
    /// Those of [`Pool::bytes`].
    #[inline]
    pub fn bytes(&self) -> Result<PageBytes<'_>> {
        self.pool.bytes(&self.pass)
    }

    /// Copies a part of the page from the offset on, into all of `into`.
    ///
    /// # Errors
    /// Those of [`Pool::copy_to`]. `into` is then unchanged.
    #[inline]
    pub fn copy_to(&self, offset: usize, into: &mut [u8]) -> Result<()> {
        self.pool.copy_to(&self.pass, offset, into)
    }

    /// Writes bytes into the page from the offset on, under the log record with this LSN. The page
    /// is not written out before the log is durable up to this LSN.
    ///
    /// # Errors
    /// Those of [`Pool::put`], such as [`Lent`](crate::Error::Lent) while bytes of the page are
    /// lent, by this guard or another. The page is then unchanged.
    #[inline]
    pub fn put(&self, offset: usize, bytes: &[u8], lsn: u64) -> Result<()> {
        self.pool.put(&self.pass, offset, bytes, lsn)
    }

    /// The page LSN: the greatest LSN of the page's writes since it was read, or 0.
    ///
    /// # Errors
    /// Those of [`Pool::page_lsn`].
    pub fn lsn(&self) -> Result<u64> {
        self.pool.page_lsn(&self.pass)
    }

    /// Returns the pass, which keeps the page pinned. [`Pool::guard`] makes a guard of it again,
    /// and [`Pool::unfix`] gives it back.
    pub fn into_pass(self) -> Pass {
        let grant = Grant { ..self.pass.grant };
        mem::forget(self);
        Pass { grant }
    }
}

impl Drop for PageGuard<'_> {
    #[inline]
    fn drop(&mut self) {
        // A pass of this pool always goes back. One of another pool is refused, which changes
        // nothing.
        let _ = self.pool.unfix_by(&self.pass);
    }
}

/// A refusal of a call that would have taken a pass or a ticket, which comes back. Where it was
/// given it is still out.
#[derive(Debug, PartialEq, Eq)]
pub struct Refused<T> {
    /// Why the call was refused.
    pub error: Error,
    /// The pass or ticket of the call.
    pub token: T,
}

impl<T> Refused<T> {
    /// Returns the token with the refusal of a call that would have taken it.
    #[inline]
    pub(crate) fn check<D>(done: Result<D>, token: T) -> Result<D, Refused<T>> {
        done.map_err(|error| Refused { error, token })
    }
}

/// Drops the token, which is still out where it was given.
impl<T> From<Refused<T>> for Error {
    fn from(refused: Refused<T>) -> Error {
        refused.error
    }
}

impl<T> fmt::Display for Refused<T> {
    fn fmt(&self, f: &mut fmt::Formatter<'_>) -> fmt::Result {
        self.error.fmt(f)
    }
}

impl<T: fmt::Debug> std::error::Error for Refused<T> {}
