//! `PageBytes`, the bytes of a page lent in place, and the list of those that are lent.
use crate::{Error, Result};
use std::cell::RefCell;
use std::fmt;
use std::ops::{Deref, Range};

/// The live [`PageBytes`] of a pool. A page that is lent twice is here twice.
#[derive(Default)]
pub(crate) struct LentPages(RefCell<Vec<Look>>);

struct Look {
    page: u64,
    addresses: Range<usize>,
}

/// The bytes of a page, lent in place: a `[u8]` of the page size, without a copy.
///
/// It does not change while this exists: a write to the page is then refused with [`Error::Lent`],
/// by any guard or pass. The page can be read and flushed, and other pages written to, loaded and
/// written out.
///
/// It borrows the pool and the guard or pass that it was made of, so the page stays in its frame: a
/// program that gives the pass back earlier does not compile.
///
/// ```
/// # use hojzmated::Error;
/// # use hojzmated::core::{Config, Fixed, Pool};
/// # fn main() -> hojzmated::Result<()> {
/// # let pool = Pool::new(&Config::new(8, 16, 2))?;
/// # let Fixed::Load { ticket, .. } = pool.fix(0, 3, &mut [0; 16])? else { return Ok(()) };
/// # let page = pool.end_read(ticket, &[7; 16])?;
/// let bytes = page.bytes()?;
/// assert_eq!(bytes[..4], [7, 7, 7, 7]);
/// assert_eq!(page.put(0, b"new", 1), Err(Error::Lent));
/// drop(bytes);
/// page.put(0, b"new", 1)?;
///
/// // This is lent to the end of the statement, and so is copied before the write.
/// let first = page.bytes()?[0];
/// page.put(0, &[first + 1], 2)?;
/// # Ok(())
/// # }
/// ```
///
/// Without a name it lasts to the end of its statement. So a write is refused whose arguments look
/// at its page, or that is in an arm of `match page.bytes()?[0]`.
///
/// It stays in its thread, but other threads may look at the slice, such as scoped threads. If it
/// is forgotten ([`std::mem::forget`]), its page counts as lent as long as the pool exists: it can
/// be read, flushed and replaced, but not written to.
//
// Why it is no plain reference: only at run time is it known which guards are of the same page. The
// compiler could keep writes away from all pages at once, by a write that takes `&mut Pool`, or if
// a page had one guard at a time. But an engine copies from page to page, and has a cursor on a
// page that it writes to. So the end of each look is noted, as a `RefCell` does.
//
// The pointer is no reference, as in `std::cell::Ref`: a reference in an argument would have to
// stay true to the end of the function, which may drop this and write then.
#[must_use = "the page is lent as long as this is there"]
pub struct PageBytes<'a> {
    lent: &'a LentPages,
    page: u64,
    bytes: *const [u8],
}

impl LentPages {
    /// Returns true if bytes of the page are lent.
    #[inline]
    pub(crate) fn has(&self, page: u64) -> bool {
        self.0.borrow().iter().any(|it| it.page == page)
    }

    /// Returns true if these bytes begin where bytes are lent. Where a look was forgotten and its
    /// page has left its frame, they may be other bytes.
    #[inline]
    pub(crate) fn hold(&self, part: &[u8]) -> bool {
        let address = part.as_ptr().addr();
        let looks = self.0.borrow();
        looks.iter().any(|it| it.addresses.contains(&address))
    }

    /// Lends the bytes of a page.
    ///
    /// # Safety
    /// As long as `'a` lasts the bytes are there, and none of them changes while the page is lent.
    #[inline]
    pub(crate) unsafe fn lend<'a>(
        &'a self,
        page: u64,
        bytes: *const [u8],
    ) -> Result<PageBytes<'a>> {
        let mut looks = self.0.borrow_mut();
        if looks.len() == looks.capacity() {
            make_room(&mut looks)?;
        }
        let first = bytes.cast::<u8>().addr();
        let addresses = first..first + bytes.len();
        looks.push(Look { page, addresses });
        Ok(PageBytes {
            lent: self,
            page,
            bytes,
        })
    }

    #[inline]
    fn take_back(&self, page: u64) {
        let mut looks = self.0.borrow_mut();
        // The newest look most often ends first. Then it is not moved, as `swap_remove` would.
        if looks.last().is_some_and(|it| it.page == page) {
            looks.pop();
        } else {
            take_older(&mut looks, page);
        }
    }
}

/// Makes room for one more look. It is seldom called, and so not inlined.
#[cold]
#[inline(never)]
fn make_room(looks: &mut Vec<Look>) -> Result<()> {
    looks.try_reserve(1).map_err(|_| Error::OutOfMemory)
}

#[cold]
#[inline(never)]
fn take_older(looks: &mut Vec<Look>, page: u64) {
    if let Some(at) = looks.iter().rposition(|it| it.page == page) {
        looks.swap_remove(at);
    }
}

impl Deref for PageBytes<'_> {
    type Target = [u8];

    #[inline]
    fn deref(&self) -> &[u8] {
        // SAFETY: `lend` was told that the bytes are there, and that none changes while the page is
        // lent. It is as long as this is there.
        unsafe { &*self.bytes }
    }
}

impl AsRef<[u8]> for PageBytes<'_> {
    #[inline]
    fn as_ref(&self) -> &[u8] {
        self
    }
}

impl Drop for PageBytes<'_> {
    #[inline]
    fn drop(&mut self) {
        self.lent.take_back(self.page);
    }
}

impl fmt::Debug for PageBytes<'_> {
    fn fmt(&self, f: &mut fmt::Formatter<'_>) -> fmt::Result {
        f.debug_struct("PageBytes")
            .field("page", &self.page)
            .finish_non_exhaustive()
    }
}
