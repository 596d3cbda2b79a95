//! `Observer`: what goes on in a pager, told as it happens.
use crate::PagerError;
use std::any::Any;
use std::fmt;
use std::ops::Range;
use std::panic::{RefUnwindSafe, UnwindSafe};
use std::ptr;
use std::sync::Arc;
use std::time::Duration;

/// What is told of what goes on in a [`Pager`](crate::Pager), for an engine's counters, histograms or traces:
/// see [`PagerConfig::with_observer`](crate::PagerConfig::with_observer). Each function does nothing where the
/// engine has none of its own. Later versions may have more.
///
/// ```
/// use hojzmated::{Device, FileOptions, Observer, Pager};
/// use std::ops::Range;
/// use std::sync::Arc;
/// use std::sync::atomic::{AtomicU64, Ordering};
/// use std::time::Duration;
///
/// /// How many pages were read, and how long that took.
/// #[derive(Default)]
/// struct Reads {
///     pages: AtomicU64,
///     nanoseconds: AtomicU64,
/// }
///
/// impl Observer for Reads {
///     fn read(&self, pages: Range<u64>, time: Duration) {
///         self.pages.fetch_add(pages.end - pages.start, Ordering::Relaxed);
///         self.nanoseconds.fetch_add(time.as_nanos() as u64, Ordering::Relaxed);
///     }
/// }
///
/// # fn main() -> Result<(), Box<dyn std::error::Error>> {
/// # let path = std::env::temp_dir().join(format!("hojzmated-observer-{}", std::process::id()));
/// let reads = Arc::new(Reads::default());
/// let pages = FileOptions::new(4_096).grown_to(1_000).create(&path)?;
/// let config = pages.config(64).with_observer(Arc::clone(&reads));
/// let pager = Pager::new(&config, pages.without_log())?;
/// drop(pager.read(7)?);
/// drop(pager.read(7)?); // it is in a frame
/// drop(pager.read(8)?);
/// assert_eq!(reads.pages.load(Ordering::Relaxed), 2);
/// assert!(reads.nanoseconds.load(Ordering::Relaxed) > 0);
/// # std::fs::remove_file(path)?;
/// # Ok(())
/// # }
/// ```
///
/// # When it is called
/// Once for each event, as it has ended, by the thread whose call it was or by a thread of the pager:
/// a [`Cleaner`](crate::Cleaner) or one of the [`Readers`](crate::Readers). So several threads may be in it at once.
/// A look at a page that is in a frame and whose latch is free is no event. A time is that of a clock which never
/// goes back, such as [`Instant`](std::time::Instant), from before the engine's function was called to its return, or
/// of all that the thread slept.
///
/// No lock of the pager is held. But the thread may have latches, and others may wait for the page until the
/// function returns: so it is to be short, and takes no lock that a thread has while it waits for a page.
///
/// It may ask the pager what only tells, such as [`Pager::stats`](crate::Pager::stats), and must not ask it for
/// pages, nor have any written out, discarded or synced: such a call may be refused with
/// [`Error::Busy`](crate::Error::Busy), or else waits for what this thread is about to do.
///
/// A panic of it goes no further: the pager goes on as if it had returned, and tells it the next event. What it was
/// about to note is its own affair.
#[allow(unused_variables, reason = "what is told is seen in the documents")]
pub trait Observer: Send + Sync {
    /// These pages, which are side by side, were read by one call of the engine: one, or more where they were
    /// [read ahead](crate::Pager::prefetch).
    fn read(&self, pages: Range<u64>, time: Duration) {}

    /// The images of these pages, which are side by side, were written by one call of the engine: one, or more
    /// where many are written out.
    fn write_out(&self, pages: Range<u64>, time: Duration) {}

    /// The engine made the log durable up to this LSN.
    fn log(&self, lsn: u64, time: Duration) {}

    /// The engine synced the device.
    fn sync(&self, time: Duration) {}

    /// The page left its frame to make way for another one.
    fn evict(&self, page: u64) {}

    /// A call slept so long, in all, for what other threads had or did. A call that waited for several things,
    /// such as a page and its latch, tells of each. One that looked again and again, and did not sleep, tells nothing.
    fn wait(&self, wait: Wait, time: Duration) {}

    /// The device or the log failed, or the log does not reach so far yet, after so long; or a thread of the pager
    /// was refused something, after no time.
    ///
    /// Each call of the engine's functions that fails is told once, also where the pager goes on: with another victim,
    /// or in a thread of its own, which leaves the page as it is. Of pages side by side the fault names the first.
    /// A call of the pager that is refused is not told otherwise: who made it knows.
    fn fault(&self, fault: &PagerError, time: Duration) {}

    /// A function of the engine panicked with this in a thread of the pager, which goes on.
    fn panicked(&self, with: &(dyn Any + Send)) {}
}

/// What a call slept for. See [`Observer::wait`].
#[derive(Clone, Copy, Debug, PartialEq, Eq, Hash)]
#[non_exhaustive]
pub enum Wait {
    /// Until another thread had read this page, or written it out.
    Page(u64),
    /// For a latch of this page.
    Latch(u64),
    /// For a frame for this page.
    Frame(u64),
    /// Until others let this page go, which was to be discarded.
    Pins(u64),
    /// Until another thread had made the log durable, which this one wanted up to this LSN.
    Log(u64),
    /// Until another thread had synced the device.
    Sync,
}

/// The observer of a pager, or none.
#[derive(Clone)]
pub(crate) enum Observed {
    Not,
    By(Arc<dyn Observer>),
    /// One for which no memory was asked here.
    ByLent(&'static dyn Observer),
}

// It may panic in any call, after which the pager calls it again all the same: the trait says so.
impl UnwindSafe for Observed {}
impl RefUnwindSafe for Observed {}

impl Observed {
    #[inline]
    pub(crate) fn get(&self) -> Option<&dyn Observer> {
        match self {
            Observed::Not => None,
            Observed::By(observer) => Some(&**observer),
            Observed::ByLent(observer) => Some(*observer),
        }
    }
}

impl fmt::Debug for Observed {
    fn fmt(&self, f: &mut fmt::Formatter<'_>) -> fmt::Result {
        f.write_str(match self {
            Observed::Not => "None",
            Observed::By(_) | Observed::ByLent(_) => "Some(..)",
        })
    }
}

/// Two are the same where they are one.
impl PartialEq for Observed {
    fn eq(&self, other: &Observed) -> bool {
        match (self.get(), other.get()) {
            (Some(one), Some(other)) => ptr::addr_eq(one, other),
            (None, None) => true,
            _ => false,
        }
    }
}

impl Eq for Observed {}
