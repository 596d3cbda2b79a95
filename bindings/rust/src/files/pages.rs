//! `FilePages`: a page file that is open and locked, as a `Device`.
use super::lock::Lock;
use super::{Device, FileOptions, Layout, OpenError};
use crate::image::Image;
use crate::{PagerConfig, ReadFault};
use std::fs::File;
use std::ops::{Deref, DerefMut};
use std::os::unix::fs::FileExt;
use std::sync::atomic::{AtomicU64, Ordering};
use std::sync::{Mutex, PoisonError};
use std::{fmt, io};

/// A page file of the system, which this process alone has open: a [`Device`], to which the engine's log is
/// joined by [`with_log`](Device::with_log). [`FileOptions`](crate::FileOptions) opens one.
///
/// ```
/// use hojzmated::{Device, FileOptions, Layout, Log, LogFault, Pager};
/// use std::fs::File;
///
/// /// The engine's log, of which this shows its sync alone.
/// struct EngineLog(File);
///
/// impl Log for EngineLog {
///     fn make_durable(&self, _lsn: u64) -> Result<(), LogFault> {
///         Ok(self.0.sync_data()?) // once it failed, the pager asks no more
///     }
/// }
///
/// # fn main() -> Result<(), Box<dyn std::error::Error>> {
/// # let folder = std::env::temp_dir().join(format!("hojzmated-pages-{}", std::process::id()));
/// # std::fs::create_dir_all(&folder)?;
/// let options = FileOptions::new(4064).layout(Layout::Checked).grown_to(1_000);
/// let pages = options.create(folder.join("pages"))?;
/// let log = EngineLog(File::create(folder.join("log"))?);
/// let pager = Pager::new(&pages.config(64), pages.with_log(log))?;
/// pager.write(7)?.put(100, b"forty-two", 1)?; // under the log record 1
/// pager.checkpoint()?;
/// # std::fs::remove_dir_all(folder)?;
/// # Ok(())
/// # }
/// ```
///
/// # The lock
/// A file that another has is refused ([`OpenError::InUse`]): another pager, in this process or another, or
/// `bpool run`. It is the lock of `flock`, so it is of the file and not of its name. It is advice: a program
/// that asks for no lock can write all the same. It goes back on the drop of the `FilePages`, and if the
/// process ends. A child after `fork` has the same open of the file: it may not use the pager, its drop gives
/// no lock back, and where the parent ends before it the file stays locked till it ends too.
///
/// # What it costs
/// Plain pages are read to where the pool wants them, and written from there, in rows of up to 1 MiB. Other
/// layouts take one copy and, if checked, a sum of each page that is read or written.
pub struct FilePages {
    /// It goes back before the file is closed, so it stands before it.
    lock: Lock,
    file: File,
    page_size: usize,
    layout: Layout,
    is_read_only: bool,
    pages: AtomicU64,
    /// Who makes the file longer.
    growing: Mutex<()>,
    /// Buffers that nobody uses now: for a slot, and for a row of them.
    free: [Mutex<Vec<Image>>; 2],
}

/// The longest row of slots, in bytes, and in pages.
const LONGEST_ROW: usize = 1 << 20;
const MOST_PAGES: usize = 256;

impl FilePages {
    pub(super) fn new(lock: Lock, file: File, options: &FileOptions) -> FilePages {
        FilePages {
            lock,
            file,
            page_size: options.page_size,
            layout: options.layout,
            is_read_only: options.is_read_only,
            pages: AtomicU64::new(0),
            growing: Mutex::new(()),
            free: Default::default(),
        }
    }

    /// Looks how many pages the file has, and adds pages of zeros where it has fewer than are wanted.
    pub(super) fn begin(&mut self, wanted: u64, grows: bool) -> Result<(), OpenError> {
        let (slot, grows) = (self.slot(), grows && !self.is_read_only);
        let not_opened = |source| OpenError::NotOpened { source };
        let bytes = self.file.metadata().map_err(not_opened)?.len();
        let (pages, rest) = (bytes / slot as u64, bytes % slot as u64);
        if rest > 0 {
            let is_left = grows && self.is_left_by_growth(pages, rest).map_err(not_opened)?;
            if !is_left {
                return Err(OpenError::BadLength { bytes, slot });
            }
            let cut = self.file.set_len(self.place(pages));
            cut.map_err(|source| OpenError::NotGrown { source })?;
        }
        *self.pages.get_mut() = pages;
        if pages < wanted && !grows {
            return Err(OpenError::TooShort { pages, wanted });
        }
        self.grow_to(wanted)
    }

    /// Whether the file ends, behind pages with their numbers, with the beginning of the next page as
    /// [`fill`](Self::fill) writes it: so a growth leaves it that was killed or that failed.
    fn is_left_by_growth(&self, pages: u64, rest: u64) -> io::Result<bool> {
        if self.layout != Layout::Numbered {
            return Ok(false);
        }
        let (mut blank, mut found) = (Scratch::new(self, 1)?, Scratch::new(self, 1)?);
        blank.fill(0);
        self.layout.stamp(&mut blank, pages, 0);
        let read = self.file.read_at(&mut found, self.place(pages))?;
        if read as u64 != rest || found[..read] != blank[..read] {
            return Ok(false);
        }
        let Some(last) = pages.checked_sub(1) else {
            return Ok(true);
        };
        self.file.read_exact_at(&mut found, self.place(last))?;
        Ok(found[..8] == last.to_le_bytes())
    }

    /// Adds pages of zeros to the file, up to so many, also while a pager has it. That has to have been made
    /// with so many pages: see [`PagerConfig::pages`](crate::PagerConfig::pages). What
    /// [`FileOptions::grown_to`] says of these pages holds of them too.
    ///
    /// # Errors
    /// [`OpenError::ReadOnly`], [`OpenError::BadGeometry`] and [`OpenError::NotGrown`]. The file has no more
    /// pages then than before, as [`pages`](Self::pages) counts them.
    pub fn grow_to(&self, pages: u64) -> Result<(), OpenError> {
        let _alone = self.growing.lock().unwrap_or_else(PoisonError::into_inner);
        let first = self.pages();
        if first >= pages {
            return Ok(());
        }
        if self.is_read_only {
            return Err(OpenError::ReadOnly);
        }
        let bytes = pages.checked_mul(self.slot() as u64);
        let bytes = bytes.filter(|bytes| i64::try_from(*bytes).is_ok());
        let bytes = bytes.ok_or(OpenError::BadGeometry)?;
        let grown = match self.layout {
            Layout::Numbered => self.fill(first, pages),
            Layout::Plain | Layout::Checked => self.file.set_len(bytes),
        };
        grown.map_err(|source| OpenError::NotGrown { source })?;
        self.pages.store(pages, Ordering::Release);
        Ok(())
    }

    /// Writes pages of zeros.
    fn fill(&self, mut first: u64, end: u64) -> io::Result<()> {
        let row = self.most_pages();
        let zeros = Image::zeros(row * self.page_size).map_err(out_of_memory)?;
        let lsns = [0; MOST_PAGES];
        while first < end {
            let count = (end - first).min(row as u64) as usize;
            self.write_row(first, &zeros[..count * self.page_size], &lsns[..count])?;
            first += count as u64;
        }
        Ok(())
    }

    /// Reads the first slot, which shows whether reads of that size are taken.
    pub(super) fn try_first(&self) -> io::Result<()> {
        let mut slot = Scratch::new(self, 1)?;
        self.file.read_exact_at(&mut slot, 0)
    }

    /// The number of pages that the file had when it was opened, or has got since.
    pub fn pages(&self) -> u64 {
        self.pages.load(Ordering::Acquire)
    }

    /// The page size in bytes, without what stands before a page in its slot.
    pub fn page_size(&self) -> usize {
        self.page_size
    }

    /// What stands of each page in the file.
    pub fn layout(&self) -> Layout {
        self.layout
    }

    /// The settings of a pager over all of these pages, with so many frames, by
    /// [`PagerConfig::new`].
    pub fn config(&self, frames: usize) -> PagerConfig {
        PagerConfig::new(self.pages(), self.page_size, frames)
    }

    /// Reads a page as the device has it, and returns the LSN with which it was written: 0 where it was not
    /// written yet, and none in plain pages, which keep none. Redo by page LSN asks so, before there is a
    /// pager.
    ///
    /// # Errors
    /// As [`Device::read_page`].
    pub fn read_with_lsn(&self, page: u64, image: &mut [u8]) -> Result<Option<u64>, ReadFault> {
        let mut found = None;
        self.read(page, 1, image, |lsn| found = Some(lsn))?;
        Ok(found)
    }

    /// Gives the lock back, and the file.
    pub fn into_file(self) -> File {
        let FilePages { lock, file, .. } = self;
        drop(lock);
        file
    }

    fn slot(&self) -> usize {
        self.layout.head() + self.page_size
    }

    fn place(&self, page: u64) -> u64 {
        page * self.slot() as u64
    }

    /// Refuses pages that the file has not, and images of another size.
    fn count(&self, first: u64, bytes: usize, count: usize) -> io::Result<()> {
        let end = first.checked_add(count as u64);
        if end.is_none_or(|end| end > self.pages()) || bytes != count * self.page_size {
            let why = "the page file has other pages, or pages of another size";
            return Err(io::Error::new(io::ErrorKind::InvalidInput, why));
        }
        Ok(())
    }

    /// Reads pages side by side, and tells the LSN of each.
    fn read(
        &self,
        first: u64,
        count: usize,
        images: &mut [u8],
        mut tell: impl FnMut(u64),
    ) -> Result<(), ReadFault> {
        self.count(first, images.len(), count)?;
        if self.layout == Layout::Plain {
            return Ok(self.file.read_exact_at(images, self.place(first))?);
        }
        let mut row = Scratch::new(self, count)?;
        self.file.read_exact_at(&mut row, self.place(first))?;
        let slots = row.chunks_exact(self.slot());
        let images = images.chunks_exact_mut(self.page_size);
        for ((page, slot), image) in (first..).zip(slots).zip(images) {
            tell(self.layout.check(slot, page)?);
            image.copy_from_slice(&slot[self.layout.head()..]);
        }
        Ok(())
    }

    fn write(&self, first: u64, images: &[u8], lsns: &[u64]) -> io::Result<()> {
        self.count(first, images.len(), lsns.len())?;
        if self.is_read_only {
            let why = "the page file was opened for reading alone";
            return Err(io::Error::new(io::ErrorKind::PermissionDenied, why));
        }
        self.write_row(first, images, lsns)
    }

    fn write_row(&self, first: u64, images: &[u8], lsns: &[u64]) -> io::Result<()> {
        if self.layout == Layout::Plain {
            return self.file.write_all_at(images, self.place(first));
        }
        let mut row = Scratch::new(self, lsns.len())?;
        let slots = row.chunks_exact_mut(self.slot());
        let images = images.chunks_exact(self.page_size);
        for (((page, slot), image), lsn) in (first..).zip(slots).zip(images).zip(lsns) {
            slot[self.layout.head()..].copy_from_slice(image);
            self.layout.stamp(slot, page, *lsn);
        }
        self.file.write_all_at(&row, self.place(first))
    }
}

impl Device for FilePages {
    fn read_page(&self, page: u64, image: &mut [u8]) -> Result<(), ReadFault> {
        self.read(page, 1, image, |_| ())
    }

    fn write_page(&self, page: u64, image: &mut [u8], lsn: u64) -> io::Result<()> {
        self.write(page, image, &[lsn])
    }

    fn most_pages(&self) -> usize {
        (LONGEST_ROW / self.slot()).min(MOST_PAGES)
    }

    fn read_pages(&self, first: u64, count: usize, images: &mut [u8]) -> Result<(), ReadFault> {
        self.read(first, count, images, |_| ())
    }

    fn write_pages(&self, first: u64, images: &mut [u8], lsns: &[u64]) -> io::Result<()> {
        self.write(first, images, lsns)
    }

    fn sync(&self) -> io::Result<()> {
        if self.is_read_only {
            return Ok(());
        }
        self.file.sync_data()
    }
}

impl fmt::Debug for FilePages {
    fn fmt(&self, f: &mut fmt::Formatter<'_>) -> fmt::Result {
        f.debug_struct("FilePages")
            .field("file", &self.file)
            .field("pages", &self.pages())
            .field("page_size", &self.page_size)
            .field("layout", &self.layout)
            .field("is_read_only", &self.is_read_only)
            .finish_non_exhaustive()
    }
}

fn out_of_memory(_: crate::Error) -> io::Error {
    io::ErrorKind::OutOfMemory.into()
}

/// A buffer for slots side by side, which is kept for later on its drop.
struct Scratch<'a> {
    free: &'a Mutex<Vec<Image>>,
    image: Image,
    len: usize,
}

impl Scratch<'_> {
    fn new(pages: &FilePages, count: usize) -> io::Result<Scratch<'_>> {
        let free = &pages.free[usize::from(count > 1)];
        let len = count * pages.slot();
        let kept = free.lock().unwrap_or_else(PoisonError::into_inner).pop();
        let image = match kept {
            Some(image) if image.len() >= len => image,
            _ => Image::zeros(len).map_err(out_of_memory)?,
        };
        Ok(Scratch { free, image, len })
    }
}

impl Deref for Scratch<'_> {
    type Target = [u8];

    fn deref(&self) -> &[u8] {
        &self.image[..self.len]
    }
}

impl DerefMut for Scratch<'_> {
    fn deref_mut(&mut self) -> &mut [u8] {
        &mut self.image[..self.len]
    }
}

impl Drop for Scratch<'_> {
    fn drop(&mut self) {
        let mut free = self.free.lock().unwrap_or_else(PoisonError::into_inner);
        // Without memory for the list, the next call makes one anew.
        if free.try_reserve(1).is_ok() {
            free.push(std::mem::take(&mut self.image));
        }
    }
}
