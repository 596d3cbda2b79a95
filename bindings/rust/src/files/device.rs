//! `Device` and `Log`, the two halves of a `PageIo`, and `WithLog`, which joins them.
use crate::{LogFault, PageIo, ReadFault};
use std::io;
use std::sync::Arc;

/// Where pages are read and written: a [`PageIo`] without its log.
///
/// [`with_log`](Device::with_log) joins it with the engine's log, and a pager takes the two. An engine
/// whose type has both writes a `PageIo`, and needs neither this trait nor [`Log`]. Each function is as that
/// of the same name there, also in what it may call and from which threads it is called.
pub trait Device {
    /// Reads the page into the image, which has the page size.
    ///
    /// # Errors
    /// After an error the page is not in the pool, and the image may hold anything.
    fn read_page(&self, page: u64, image: &mut [u8]) -> Result<(), ReadFault>;

    /// Writes the image, which has the page size, to the page's place. `lsn` is its page LSN, and
    /// the log is durable up to it. The image is a copy of the page, and may be changed.
    ///
    /// # Errors
    /// After an error the page is still unsaved, in its frame.
    fn write_page(&self, page: u64, image: &mut [u8], lsn: u64) -> io::Result<()>;

    /// As [`PageIo::most_pages`].
    fn most_pages(&self) -> usize {
        1
    }

    /// As [`PageIo::read_pages`].
    ///
    /// # Errors
    /// After an error none of the pages is in the pool. They are read one by one when they are asked
    /// for.
    fn read_pages(&self, first: u64, count: usize, images: &mut [u8]) -> Result<(), ReadFault> {
        let size = images.len() / count;
        let mut each = (first..).zip(images.chunks_exact_mut(size));
        each.try_for_each(|(page, image)| self.read_page(page, image))
    }

    /// As [`PageIo::write_pages`].
    ///
    /// # Errors
    /// After an error each of the pages is still unsaved, and is written once more by itself.
    fn write_pages(&self, first: u64, images: &mut [u8], lsns: &[u64]) -> io::Result<()> {
        let size = images.len() / lsns.len();
        let mut each = (first..).zip(images.chunks_exact_mut(size)).zip(lsns);
        each.try_for_each(|((page, image), lsn)| self.write_page(page, image, *lsn))
    }

    /// Makes all writes to the device durable.
    ///
    /// # Errors
    /// After an error, all that was written since the last sync without one may be lost.
    fn sync(&self) -> io::Result<()>;

    /// The device with the engine's log, as a pager takes them.
    fn with_log<L: Log>(self, log: L) -> WithLog<Self, L>
    where
        Self: Sized,
    {
        WithLog { device: self, log }
    }

    /// The device for an engine that has no log: see [`NoLog`].
    fn without_log(self) -> WithLog<Self, NoLog>
    where
        Self: Sized,
    {
        self.with_log(NoLog)
    }
}

/// An engine's log, as a pager asks for it.
pub trait Log {
    /// As [`PageIo::make_log_durable`]: makes the log durable at least up to this LSN. A thread that calls
    /// it may hold latches of pages, so it must not need a lock that a thread holds while it waits for
    /// a page.
    ///
    /// # Errors
    /// [`LogFault::Lost`] where the log failed, as by `?` for an [`io::Error`]: the pager asks no more, and
    /// refuses each later call that needs the log. [`LogFault::NotYet`] where the log ends before this LSN.
    fn make_durable(&self, lsn: u64) -> Result<(), LogFault>;
}

/// The log of an engine that has none: each LSN counts as durable, and no page waits. After a crash pages
/// are as they were written last, some before a checkpoint and some after it.
#[derive(Clone, Copy, Debug, Default, PartialEq, Eq)]
pub struct NoLog;

impl Log for NoLog {
    fn make_durable(&self, _lsn: u64) -> Result<(), LogFault> {
        Ok(())
    }
}

/// A device and a log, which together are what a pager takes. [`Device::with_log`] makes it, and the engine
/// finds both in [`Pager::io`](crate::Pager::io).
#[derive(Clone, Debug)]
pub struct WithLog<D, L> {
    /// Where the pages are.
    pub device: D,
    /// The log, which is durable before the pages that it tells of.
    pub log: L,
}

impl<D: Device, L: Log> PageIo for WithLog<D, L> {
    fn read_page(&self, page: u64, image: &mut [u8]) -> Result<(), ReadFault> {
        self.device.read_page(page, image)
    }

    fn write_page(&self, page: u64, image: &mut [u8], lsn: u64) -> io::Result<()> {
        self.device.write_page(page, image, lsn)
    }

    fn most_pages(&self) -> usize {
        self.device.most_pages()
    }

    fn read_pages(&self, first: u64, count: usize, images: &mut [u8]) -> Result<(), ReadFault> {
        self.device.read_pages(first, count, images)
    }

    fn write_pages(&self, first: u64, images: &mut [u8], lsns: &[u64]) -> io::Result<()> {
        self.device.write_pages(first, images, lsns)
    }

    fn make_log_durable(&self, lsn: u64) -> Result<(), LogFault> {
        self.log.make_durable(lsn)
    }

    fn sync(&self) -> io::Result<()> {
        self.device.sync()
    }
}

/// What owns or borrows a device or a log is one too, also where its type is not known.
macro_rules! device_and_log_of {
    ($($owner:ty)*) => {$(
        impl<T: Device + ?Sized> Device for $owner {
            fn read_page(&self, page: u64, image: &mut [u8]) -> Result<(), ReadFault> {
                (**self).read_page(page, image)
            }

            fn write_page(&self, page: u64, image: &mut [u8], lsn: u64) -> io::Result<()> {
                (**self).write_page(page, image, lsn)
            }

            fn most_pages(&self) -> usize {
                (**self).most_pages()
            }

            fn read_pages(
                &self,
                first: u64,
                count: usize,
                images: &mut [u8],
            ) -> Result<(), ReadFault> {
                (**self).read_pages(first, count, images)
            }

            fn write_pages(&self, first: u64, images: &mut [u8], lsns: &[u64]) -> io::Result<()> {
                (**self).write_pages(first, images, lsns)
            }

            fn sync(&self) -> io::Result<()> {
                (**self).sync()
            }
        }

        impl<T: Log + ?Sized> Log for $owner {
            fn make_durable(&self, lsn: u64) -> Result<(), LogFault> {
                (**self).make_durable(lsn)
            }
        }
    )*};
}

device_and_log_of!(&T Box<T> Arc<T>);
