//! The device and log of a pager: the engine's callbacks, or a page file.
use crate::abi::{HZ_BAD_SETTINGS, HZ_IO_NOT_YET, HZ_IO_WRONG_PAGE, hz_io, hz_pager_config};
use crate::fault::{self, EBADF, Refusal, refusal};
use crate::held;
use crate::observer::Own;
use hojzmated::{
    Device as _, FileOptions, FilePages, Layout, LogFault, OpenError, PageIo, ReadFault,
};
use std::cell::{Cell, RefCell};
use std::ffi::{c_int, c_void};
use std::fs::File;
use std::io;
use std::mem::ManuallyDrop;
use std::os::fd::{FromRawFd, IntoRawFd};
use std::ptr;

/// Where a pager has its pages. The observer is there until the pager is gone, of which this goes last.
pub enum Device {
    Callbacks(Callbacks),
    File(PageFile),
}

/// The engine's functions, none of which is null.
pub struct Callbacks {
    own: *mut c_void,
    read: unsafe extern "C" fn(*mut c_void, u64, *mut u8, usize) -> c_int,
    write: unsafe extern "C" fn(*mut c_void, u64, *mut u8, usize, u64) -> c_int,
    make_log_durable: unsafe extern "C" fn(*mut c_void, u64) -> c_int,
    sync: unsafe extern "C" fn(*mut c_void) -> c_int,
    _observer: Option<Own>,
}

// SAFETY: the header says that several threads may be in the callbacks at once. The pointer is the
// engine's: it is only passed on.
unsafe impl Send for Callbacks {}
// SAFETY: as above.
unsafe impl Sync for Callbacks {}

impl Callbacks {
    /// None where a callback is null.
    pub fn new(io: &hz_io, observer: Option<Own>) -> Option<Callbacks> {
        Some(Callbacks {
            own: io.own,
            read: io.read?,
            write: io.write?,
            make_log_durable: io.make_log_durable?,
            sync: io.sync?,
            _observer: observer,
        })
    }
}

/// A page file of the engine, whose descriptor stays open.
pub struct PageFile(ManuallyDrop<FilePages>, Option<Own>);

impl PageFile {
    /// Locks the file, and has it as the settings say. Refused also for an unknown format.
    ///
    /// # Safety
    /// A file of the descriptor stays open as long as this is there.
    pub unsafe fn new(
        fd: c_int,
        format: c_int,
        config: &hz_pager_config,
        observer: Option<Own>,
    ) -> Result<PageFile, Refusal> {
        let layout = match format {
            1 => Layout::Plain,
            2 => Layout::Numbered,
            3 => Layout::Checked,
            _ => return Err(refusal(HZ_BAD_SETTINGS)),
        };
        if fd < 0 {
            let source = io::Error::from_raw_os_error(EBADF);
            return Err(OpenError::NotOpened { source }.into());
        }
        let options = FileOptions::new(config.page_size).layout(layout);
        // It grows once it is known that the other settings are good.
        let options = options.pages(match config.grows {
            1.. if config.pages > 0 && config.read_only == 0 => 0,
            _ => config.pages.max(1),
        });
        // SAFETY: this does not close it, nor does the drop of what has it.
        let file = unsafe { File::from_raw_fd(fd) };
        let opened = options.read_only(config.read_only != 0).over_or_back(file);
        match opened {
            Ok(pages) => Ok(PageFile(ManuallyDrop::new(pages), observer)),
            Err((error, file)) => {
                let _ = file.into_raw_fd();
                Err(error.into())
            }
        }
    }

    /// Who is told what goes on, if anybody is.
    pub fn observer(&self) -> Option<&Own> {
        self.1.as_ref()
    }

    /// The number of pages that the file has.
    pub fn pages(&self) -> u64 {
        self.0.pages()
    }

    /// Adds pages of zeros to the file, where it has fewer than so many.
    pub fn grow_to(&self, pages: u64) -> Result<(), Refusal> {
        Ok(self.0.grow_to(pages)?)
    }
}

impl Drop for PageFile {
    fn drop(&mut self) {
        // SAFETY: it is taken once, as nobody has it any more.
        let pages = unsafe { ManuallyDrop::take(&mut self.0) };
        // The lock goes back, and the descriptor stays as it is.
        let _ = pages.into_file().into_raw_fd();
    }
}

thread_local! {
    static SCRATCH: RefCell<Vec<u8>> = const { RefCell::new(Vec::new()) };
    static INSIDE: Cell<*const Inside> = const { Cell::new(ptr::null()) };
}

/// Calls a function with so many bytes of this thread's own memory, which it keeps for later calls. Once
/// the thread's own objects are gone they are taken anew for each call.
pub fn with_scratch<T>(len: usize, use_it: impl FnOnce(&mut [u8]) -> T) -> io::Result<T> {
    let mut kept = SCRATCH.try_with(RefCell::take).unwrap_or_default();
    if kept.len() < len {
        let room = kept.try_reserve_exact(len - kept.len());
        room.map_err(|_| io::ErrorKind::OutOfMemory)?;
        kept.resize(len, 0);
    }
    let used = use_it(&mut kept[..len]);
    let _ = SCRATCH.try_with(|scratch| scratch.replace(kept));
    Ok(used)
}

/// That this thread is in a callback of a device, or of an observer, which has none; and in those from which that was
/// called.
struct Inside {
    device: *const Device,
    outer: *const Inside,
}

/// Whether this thread is in a callback of the device, or in one that is told what goes on in whichever pager.
#[inline]
pub fn is_inside(device: &Device) -> bool {
    let mut inside = INSIDE.get();
    // SAFETY: each is on the stack of this thread, in a call of `called` that has not ended.
    while let Some(one) = unsafe { inside.as_ref() } {
        if one.device.is_null() || ptr::eq(one.device, device) {
            return true;
        }
        inside = one.outer;
    }
    false
}

/// Makes a callback, and notes meanwhile that it is under way.
fn called<T>(device: *const Device, callback: impl FnOnce() -> T) -> T {
    let inside = Inside {
        device,
        outer: INSIDE.get(),
    };
    // What the callback was refused is its own affair.
    let before = fault::newest();
    INSIDE.set(&inside);
    let answer = held::in_callback(callback);
    INSIDE.set(inside.outer);
    before.note();
    answer
}

/// Calls a function that is told what goes on.
pub fn told(function: impl FnOnce()) {
    called(ptr::null(), function);
}

/// The outcome of a callback that answered this.
fn outcome(answer: c_int) -> io::Result<()> {
    match answer {
        0 => Ok(()),
        errno => Err(io::Error::from_raw_os_error(errno)),
    }
}

impl PageIo for Device {
    fn read_page(&self, page: u64, image: &mut [u8]) -> Result<(), ReadFault> {
        let io = match self {
            Device::File(file) => return file.0.read_page(page, image),
            Device::Callbacks(io) => io,
        };
        // SAFETY: as the header says, and the image has this length.
        let read = || unsafe { (io.read)(io.own, page, image.as_mut_ptr(), image.len()) };
        match called(self, read) {
            HZ_IO_WRONG_PAGE => Err(ReadFault::WrongPage),
            answer => Ok(outcome(answer)?),
        }
    }

    fn write_page(&self, page: u64, image: &mut [u8], lsn: u64) -> io::Result<()> {
        let io = match self {
            Device::File(file) => return file.0.write_page(page, image, lsn),
            Device::Callbacks(io) => io,
        };
        // SAFETY: as the header says, and the image has this length.
        let write = || unsafe { (io.write)(io.own, page, image.as_mut_ptr(), image.len(), lsn) };
        outcome(called(self, write))
    }

    fn most_pages(&self) -> usize {
        match self {
            Device::File(file) => file.0.most_pages(),
            Device::Callbacks(_) => 1,
        }
    }

    fn read_pages(&self, first: u64, count: usize, images: &mut [u8]) -> Result<(), ReadFault> {
        match self {
            Device::File(file) => file.0.read_pages(first, count, images),
            // A callback is for one page, and these are not asked for.
            Device::Callbacks(_) => Err(io::Error::from(io::ErrorKind::Unsupported).into()),
        }
    }

    fn write_pages(&self, first: u64, images: &mut [u8], lsns: &[u64]) -> io::Result<()> {
        match self {
            Device::File(file) => file.0.write_pages(first, images, lsns),
            Device::Callbacks(_) => Err(io::ErrorKind::Unsupported.into()),
        }
    }

    fn make_log_durable(&self, lsn: u64) -> Result<(), LogFault> {
        let io = match self {
            // There is no log.
            Device::File(_) => return Ok(()),
            Device::Callbacks(io) => io,
        };
        // SAFETY: as the header says.
        match called(self, || unsafe { (io.make_log_durable)(io.own, lsn) }) {
            HZ_IO_NOT_YET => Err(LogFault::NotYet),
            answer => Ok(outcome(answer)?),
        }
    }

    fn sync(&self) -> io::Result<()> {
        match self {
            Device::File(file) => file.0.sync(),
            // SAFETY: as the header says.
            Device::Callbacks(io) => outcome(called(self, || unsafe { (io.sync)(io.own) })),
        }
    }
}
