//! `PageIo`, an engine's device and log.
use crate::{LogFault, ReadFault};
use std::io;
use std::sync::Arc;

/// An engine's device and log, as a [`Pager`](crate::Pager) uses them.
///
/// An engine that takes a page file as it is has a [`FilePages`](crate::FilePages), and writes a
/// [`Log`](crate::Log) alone: [`Device::with_log`](crate::Device::with_log) makes a `PageIo` of the two.
///
/// The functions take `&self`: what they change is in a `Cell` or a `RefCell`, or with several
/// threads under a lock. A file can be read and written through `&File`. A `Pager` calls them
/// from several threads at once. A calling thread may hold latches of pages. So
/// [`make_log_durable`](PageIo::make_log_durable) must not need a lock that a thread holds while it
/// waits for a page. What these functions may call of the pager itself, and how it refuses what would
/// wait for itself, is said there:
/// [what the functions of the engine may call](crate::Pager#what-the-functions-of-the-engine-may-call).
///
/// A pager may also have its device behind a `&`, a `Box` or an `Arc`, so that the engine keeps the
/// device, or chooses one at run time by `Box<dyn PageIo>`.
///
/// Each image, and the first of a row of images, begins at a multiple of 4,096. So a file that was opened
/// with `O_DIRECT` can be read into it and written from it, without a copy, where the page size is a
/// multiple of its sectors.
pub trait PageIo {
    /// Reads the page into the image, which has the page size.
    ///
    /// # Errors
    /// After an error the page is not in the pool, and the image may hold anything.
    fn read_page(&self, page: u64, image: &mut [u8]) -> Result<(), ReadFault>;

    /// Writes the image, which has the page size, to the page's place. `lsn` is its page LSN, and
    /// the log is durable up to it.
    ///
    /// The image is a copy of the page, and may be changed: the page LSN and a checksum can be
    /// written into it. The page in the pool does not change by that; it has them once it is read
    /// again.
    ///
    /// Where this succeeds the pool counts the page as saved. A checkpoint must also sync the
    /// device, as by [`File::sync_data`](std::fs::File::sync_data).
    ///
    /// # Errors
    /// After an error the page is still unsaved, in its frame.
    fn write_page(&self, page: u64, image: &mut [u8], lsn: u64) -> io::Result<()>;

    /// The most pages that one call of [`read_pages`](PageIo::read_pages) or
    /// [`write_pages`](PageIo::write_pages) gets: 1 where the engine does not say more, and these are not
    /// called then. Of more than 256 a pager takes 256. It is the same each time: threads that read ahead ask
    /// for it once.
    fn most_pages(&self) -> usize {
        1
    }

    /// Reads pages side by side, which begin with `first`. Their images are one after the other, as
    /// many as `count`. [`Pager::prefetch`](crate::Pager::prefetch) calls it for two pages or
    /// more. Else it is as [`read_page`](PageIo::read_page), which it calls for each page where the
    /// engine has no better way.
    ///
    /// # Errors
    /// After an error none of the pages is in the pool. They are read one by one when they are asked
    /// for.
    fn read_pages(&self, first: u64, count: usize, images: &mut [u8]) -> Result<(), ReadFault> {
        let size = images.len() / count;
        let mut each = (first..).zip(images.chunks_exact_mut(size));
        each.try_for_each(|(page, image)| self.read_page(page, image))
    }

    /// Writes the images of pages side by side, which begin with `first`, to their places. They are one
    /// after the other, and `lsns` has the page LSN of each: the log is durable up to all of them. A
    /// [`Pager`](crate::Pager) calls it where it writes many pages out, for two or more. Else it
    /// is as [`write_page`](PageIo::write_page), which it calls for each page where the engine has no
    /// better way.
    ///
    /// # Errors
    /// After an error each of the pages is still unsaved, and is written once more by itself.
    fn write_pages(&self, first: u64, images: &mut [u8], lsns: &[u64]) -> io::Result<()> {
        let size = images.len() / lsns.len();
        let mut each = (first..).zip(images.chunks_exact_mut(size)).zip(lsns);
        each.try_for_each(|((page, image), lsn)| self.write_page(page, image, *lsn))
    }

    /// Makes the log durable at least up to this LSN.
    ///
    /// # Errors
    /// After an error no page goes out that needs it.
    ///
    /// [`LogFault::Lost`] where the log failed. By `?` an [`io::Error`], such as that of a sync, is this: what a sync
    /// has lost no later one keeps, though it goes well. So the pager asks no more, and each later call that needs
    /// the log, each checkpoint and each sync is refused with [`PagerError::LogLost`](crate::PagerError::LogLost).
    /// Other pages can be read, and go out where their records are durable. A panic counts as this too.
    ///
    /// [`LogFault::NotYet`] where the log ends before this LSN, or is not to be made durable so far now. The pager
    /// asks again when it needs that record again, and for each LSN alone where it had asked for those of others too.
    fn make_log_durable(&self, lsn: u64) -> Result<(), LogFault>;

    /// Makes all writes to the device durable, as by [`File::sync_data`](std::fs::File::sync_data).
    /// A checkpoint calls it, before the log is cut.
    ///
    /// # Errors
    /// After an error, all that was written since the last sync without one may be lost.
    fn sync(&self) -> io::Result<()>;
}

/// What owns or borrows a device is one too, also where its type is not known:
/// `Pager<Box<dyn PageIo>>`.
macro_rules! page_io_of {
    ($($owner:ty)*) => {$(
        impl<T: PageIo + ?Sized> PageIo for $owner {
            fn read_page(&self, page: u64, image: &mut [u8]) -> Result<(), ReadFault> {
                (**self).read_page(page, image)
            }

            fn write_page(&self, page: u64, image: &mut [u8], lsn: u64) -> io::Result<()> {
                (**self).write_page(page, image, lsn)
            }

            fn most_pages(&self) -> usize {
                (**self).most_pages()
            }

            fn read_pages(
                &self,
                first: u64,
                count: usize,
                images: &mut [u8],
            ) -> Result<(), ReadFault> {
                (**self).read_pages(first, count, images)
            }

            fn write_pages(&self, first: u64, images: &mut [u8], lsns: &[u64]) -> io::Result<()> {
                (**self).write_pages(first, images, lsns)
            }

            fn make_log_durable(&self, lsn: u64) -> Result<(), LogFault> {
                (**self).make_log_durable(lsn)
            }

            fn sync(&self) -> io::Result<()> {
                (**self).sync()
            }
        }
    )*};
}

page_io_of!(&T Box<T> Arc<T>);
