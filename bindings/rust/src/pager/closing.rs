//! How a pager ends: by `close`, which saves all, or by a drop, which says what is lost.
use super::Pager;
use super::part::Part;
use crate::{PageIo, PagerError};
use std::ops::Deref;
use std::sync::atomic::{AtomicBool, Ordering};
use std::{error, fmt, thread};

/// A pager that could not be [closed](Pager::close), and why. Nothing is lost: the pager can be used, and
/// be closed again.
#[must_use = "the pager is in it, with pages that are unsaved"]
pub struct NotClosed<F> {
    /// What the checkpoint came to.
    pub error: PagerError,
    /// The pager, as it is after that checkpoint.
    pub pager: Pager<F>,
}

impl<F: PageIo> Pager<F> {
    /// Makes a [`checkpoint`](Pager::checkpoint), and gives the device and log back: all that was put is on the
    /// device then, but for [temporary](crate::PagerConfig::temporary) pages.
    ///
    /// A pager in an [`Arc`](std::sync::Arc) is taken out by [`Arc::into_inner`](std::sync::Arc::into_inner), once
    /// its cleaners, readers and owned guards are gone.
    ///
    /// ```
    /// # use hojzmated::{PageIo, ReadFault, PagerConfig, Pager};
    /// # struct Zeros;
    /// # impl PageIo for Zeros {
    /// #     fn read_page(&self, _: u64, image: &mut [u8]) -> Result<(), ReadFault> { Ok(image.fill(0)) }
    /// #     fn write_page(&self, _: u64, _: &mut [u8], _: u64) -> std::io::Result<()> { Ok(()) }
    /// #     fn make_log_durable(&self, _: u64) -> Result<(), hojzmated::LogFault> { Ok(()) }
    /// #     fn sync(&self) -> std::io::Result<()> { Ok(()) }
    /// # }
    /// # fn main() -> Result<(), Box<dyn std::error::Error>> {
    /// # let device = Zeros;
    /// let pager = Pager::new(&PagerConfig::new(100, 4096, 8), device)?;
    /// pager.write(7)?.put(0, b"seven", 0)?;
    /// let device = pager.close()?;
    /// # Ok(())
    /// # }
    /// ```
    ///
    /// # Errors
    /// [`NotClosed`] with those of [`checkpoint`](Pager::checkpoint), and with the pager: what could not be
    /// written out is unsaved in it. As a [`PagerError`], by `?`, the pager is dropped.
    // The pager is moved as it is, and that once: no memory is asked for where the disk is full.
    #[allow(clippy::result_large_err)]
    pub fn close(self) -> Result<F, NotClosed<F>> {
        match self.checkpoint() {
            Ok(_) => Ok(self.into_io()),
            Err(error) => Err(NotClosed { error, pager: self }),
        }
    }
}

impl<F> From<NotClosed<F>> for PagerError {
    fn from(it: NotClosed<F>) -> PagerError {
        it.error
    }
}

impl<F> fmt::Debug for NotClosed<F> {
    fn fmt(&self, f: &mut fmt::Formatter<'_>) -> fmt::Result {
        f.debug_struct("NotClosed")
            .field("error", &self.error)
            .finish_non_exhaustive()
    }
}

impl<F> fmt::Display for NotClosed<F> {
    fn fmt(&self, f: &mut fmt::Formatter<'_>) -> fmt::Result {
        write!(f, "the pager is not closed: {}", self.error)
    }
}

impl<F> error::Error for NotClosed<F> {
    fn source(&self) -> Option<&(dyn error::Error + 'static)> {
        self.error.source()
    }
}

/// The parts of a pager. In a program with debug assertions the first that are dropped with unsaved pages say on
/// standard error what is lost: engines are tested with pagers that are dropped again and again.
pub(super) struct Parts {
    parts: Box<[Part]>,
    /// What is lost is to be lost.
    is_quiet: bool,
}

impl Parts {
    pub(super) fn new(parts: Vec<Part>) -> Parts {
        Parts {
            parts: parts.into_boxed_slice(),
            is_quiet: false,
        }
    }

    pub(super) fn be_quiet(&mut self) {
        self.is_quiet = true;
    }
}

impl Deref for Parts {
    type Target = [Part];

    #[inline(always)]
    fn deref(&self) -> &[Part] {
        &self.parts
    }
}

static HAS_SAID: AtomicBool = AtomicBool::new(false);

impl Drop for Parts {
    fn drop(&mut self) {
        // Where the thread panics, that is what is to be said.
        if !cfg!(debug_assertions) || self.is_quiet || thread::panicking() {
            return;
        }
        let lost: usize = self.iter().map(Part::count_unsaved).sum();
        if lost > 0 && !HAS_SAID.swap(true, Ordering::Relaxed) {
            eprintln!(
                "hojzmated: a pager is dropped with unsaved pages ({lost}), whose changes are lost; \
                 `close` would save them. Of others this is not said"
            );
        }
    }
}

impl Part {
    /// The number of unsaved pages that are not temporary.
    fn count_unsaved(&self) -> usize {
        let state = self.lock();
        let unsaved = state.pool.unsaved(0);
        unsaved.filter(|it| !self.is_temporary(it.page)).count()
    }
}
