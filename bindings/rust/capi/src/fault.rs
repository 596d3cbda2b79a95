//! Refusals: how the faults of the pager become numbers, and what a thread was refused last.
use crate::abi::*;
use hojzmated::{Error, OpenError, PagerError};
use std::cell::Cell;
use std::ffi::CStr;
use std::fmt;
use std::io;

thread_local! {
    static NEWEST: Cell<hz_pager_fault> = const { Cell::new(NONE) };
}

const NONE: hz_pager_fault = hz_pager_fault {
    page: 0,
    lsn: 0,
    error: 0,
    number: 0,
    has_page: 0,
};

/// The newest refusal of this thread.
pub fn newest() -> hz_pager_fault {
    NEWEST.get()
}

/// `EIO`, for a fault without a number of the system: the file ends within the page.
const EIO: i32 = 5;
/// `EBADF`: a descriptor is of no open file.
pub const EBADF: i32 = 9;

/// `EACCES`: a file that is read alone is not written to.
const EACCES: i32 = 13;
/// `EISDIR`: it is a directory.
const EISDIR: i32 = 21;

fn errno_of(error: &io::Error) -> i32 {
    error.raw_os_error().unwrap_or(match error.kind() {
        io::ErrorKind::PermissionDenied => EACCES,
        _ => EIO,
    })
}

/// A refusal, of which this thread has noted what it was. It is a word, so that the results of calls
/// stay in registers.
#[derive(Clone, Copy)]
pub struct Refusal(usize);

impl Refusal {
    pub fn number(self) -> u16 {
        self.0 as u16
    }
}

/// Notes a refusal with this number, and returns it.
#[cold]
#[inline(never)]
pub fn refusal(number: u16) -> Refusal {
    hz_pager_fault::of(number).note()
}

/// The same, of a page.
#[cold]
#[inline(never)]
pub fn refusal_of(number: u16, page: u64) -> Refusal {
    hz_pager_fault::of(number).at(page).note()
}

/// The refusal for what a call for a page came to, which may tell of another page.
#[cold]
#[inline(never)]
pub fn refused_at(page: u64, error: impl Into<hz_pager_fault>) -> Refusal {
    error.into().at(page).note()
}

impl hz_pager_fault {
    const fn of(number: u16) -> hz_pager_fault {
        hz_pager_fault { number, ..NONE }
    }

    pub fn of_error(number: u16, error: &io::Error) -> hz_pager_fault {
        hz_pager_fault {
            error: errno_of(error),
            ..hz_pager_fault::of(number)
        }
    }

    /// Adds a page, if the fault is not that of another one.
    fn at(self, page: u64) -> hz_pager_fault {
        match self.has_page {
            0 => hz_pager_fault {
                page,
                has_page: 1,
                ..self
            },
            _ => self,
        }
    }

    /// Notes it as the newest of this thread.
    pub fn note(self) -> Refusal {
        NEWEST.set(self);
        Refusal(self.number.into())
    }
}

impl From<Error> for hz_pager_fault {
    fn from(error: Error) -> hz_pager_fault {
        let lsn = match error {
            Error::NeedLog { lsn } => lsn,
            _ => 0,
        };
        let number = match error {
            Error::TooManyGuards => HZ_PANICKED,
            other => other.number(),
        };
        hz_pager_fault {
            lsn,
            ..hz_pager_fault::of(number)
        }
    }
}

impl From<PagerError> for hz_pager_fault {
    fn from(error: PagerError) -> hz_pager_fault {
        hz_pager_fault::from(&error)
    }
}

impl From<&PagerError> for hz_pager_fault {
    fn from(error: &PagerError) -> hz_pager_fault {
        let of_error = hz_pager_fault::of_error;
        match error {
            PagerError::Read { page, source } => of_error(HZ_READ_FAILED, source).at(*page),
            PagerError::Write { page, source } => of_error(HZ_WRITE_FAILED, source).at(*page),
            PagerError::WrongPage { page } | PagerError::Spoilt { page } => {
                hz_pager_fault::of(HZ_WRONG_PAGE).at(*page)
            }
            PagerError::RefusedPage { page, error } => hz_pager_fault::from(*error).at(*page),
            PagerError::Log { lsn, source } => hz_pager_fault {
                lsn: *lsn,
                ..of_error(HZ_LOG_LOST, source)
            },
            PagerError::Sync { source } => of_error(HZ_SYNC_FAILED, source),
            PagerError::SyncFailedBefore => hz_pager_fault::of(HZ_SYNC_FAILED),
            other => other.refusal().into(),
        }
    }
}

impl From<OpenError> for hz_pager_fault {
    fn from(error: OpenError) -> hz_pager_fault {
        match error {
            OpenError::InUse => hz_pager_fault::of(HZ_FILE_IN_USE),
            OpenError::NotLocked { source } => hz_pager_fault::of_error(HZ_FILE_IN_USE, &source),
            OpenError::Directory => {
                let source = io::Error::from_raw_os_error(EISDIR);
                hz_pager_fault::of_error(HZ_NOT_A_FILE, &source)
            }
            OpenError::NotAFile => hz_pager_fault::of(HZ_NOT_A_FILE),
            OpenError::ReadOnly => hz_pager_fault::of(HZ_FILE_READ_ONLY),
            OpenError::TooShort { .. } | OpenError::BadLength { .. } => {
                hz_pager_fault::of(HZ_BAD_LENGTH)
            }
            OpenError::BadGeometry => hz_pager_fault::of(HZ_BAD_GEOMETRY),
            OpenError::NotGrown { source } => hz_pager_fault::of_error(HZ_WRITE_FAILED, &source),
            OpenError::NotOpened { source } | OpenError::NotDirect { source } => {
                hz_pager_fault::of_error(HZ_READ_FAILED, &source)
            }
            _ => hz_pager_fault::of(HZ_READ_FAILED),
        }
    }
}

impl From<OpenError> for Refusal {
    #[cold]
    fn from(error: OpenError) -> Refusal {
        hz_pager_fault::from(error).note()
    }
}

impl From<Error> for Refusal {
    #[cold]
    fn from(error: Error) -> Refusal {
        hz_pager_fault::from(error).note()
    }
}

impl From<PagerError> for Refusal {
    #[cold]
    fn from(error: PagerError) -> Refusal {
        hz_pager_fault::from(error).note()
    }
}

/// The text of a refusal, by what it means here.
fn text_of(number: u16, has_page: bool) -> &'static CStr {
    match number {
        0 => c"nothing was refused",
        HZ_BAD_GEOMETRY => c"the number of pages or the page size is out of its limits",
        HZ_BAD_SETTINGS => c"a setting is out of its limits",
        HZ_NO_VICTIM => c"all pages that could make way are pinned",
        HZ_NEED_LOG => c"the log does not reach so far yet",
        HZ_PAGE_PINNED => c"it is still fixed",
        HZ_BUSY => c"a latch is not free, or a page is still fixed",
        HZ_UNKNOWN_PASS => c"this thread has not fixed the page, or has given it back",
        HZ_BAD_LENGTH => c"the file has too few pages, or does not end with a whole one",
        HZ_READ_FAILED if !has_page => c"the file could not be read",
        HZ_WRITE_FAILED if !has_page => c"the file could not be made longer",
        HZ_READ_FAILED => c"it could not be read",
        HZ_WRITE_FAILED => c"it could not be written",
        HZ_WRONG_PAGE => c"another page was found in its place, or a spoilt one",
        HZ_TRAIL_FULL => c"a part has answered as many calls as it may in all",
        HZ_CLOCK_FULL => c"the clock of a part has come to its end",
        HZ_OUT_OF_MEMORY => c"out of memory",
        HZ_OUT_OF_PAGE => c"the file has no such page, or the bytes are not within the page",
        HZ_NO_CORE => c"the handle has no pager",
        HZ_HAS_CORE => c"the handle has a pager already",
        HZ_NULL => c"a pointer is null",
        HZ_VERSION_MISMATCH => {
            c"the library was built over a core of another version, and makes no pager"
        }
        HZ_SYNC_FAILED => c"the device could not be synced",
        HZ_DEADLOCK => c"the call would wait for a latch that this thread has",
        HZ_NOT_EXCLUSIVE => c"the page is not under its exclusive latch",
        HZ_IN_CALLBACK => c"a callback of the pager may not make this call",
        HZ_PANICKED => {
            c"the library found a fault of its own, or a page has 500,000 pins or latches"
        }
        HZ_FILE_IN_USE => c"another pager or process has the file, or it cannot be locked",
        HZ_NOT_A_FILE => c"it is a directory, a pipe or a device, and no file",
        HZ_FILE_READ_ONLY => c"the file is open for reading alone",
        HZ_LOG_LOST => c"the log failed",
        _ => c"unknown number",
    }
}

/// The text of a refusal by its number alone, without what a fault has beside it.
pub fn explained(number: u16) -> &'static CStr {
    match number {
        0 => c"done",
        HZ_READ_FAILED => c"a page, or its file, could not be read",
        HZ_WRITE_FAILED => c"a page could not be written, or its file not be made longer",
        HZ_WRONG_PAGE => c"another page was found in the place of a page, or a spoilt one",
        HZ_PAGE_PINNED => c"the page is still fixed",
        HZ_NOT_A_FILE => c"a directory, a pipe or a device is no page file",
        _ => text_of(number, true),
    }
}

impl fmt::Display for hz_pager_fault {
    fn fmt(&self, f: &mut fmt::Formatter<'_>) -> fmt::Result {
        if self.has_page != 0 {
            write!(f, "page {}: ", self.page)?;
        }
        let text = text_of(self.number, self.has_page != 0);
        f.write_str(text.to_str().unwrap_or_default())?;
        if self.lsn != 0 {
            write!(f, " (LSN {})", self.lsn)?;
        }
        match self.error {
            0 => Ok(()),
            error => write!(f, ": {}", io::Error::from_raw_os_error(error)),
        }
    }
}

#[cfg(test)]
mod tests {
    use super::*;

    /// The numbers of all refusals, and 0.
    fn numbers() -> impl Iterator<Item = u16> {
        let abi = include_str!("abi.rs").lines();
        let numbers = abi.filter_map(|line| {
            let (_, number) = line.strip_prefix("pub const HZ_")?.split_once(": u16 = ")?;
            number.trim_end_matches(';').parse().ok()
        });
        numbers.chain([0])
    }

    /// Each refusal that a pager may answer has a text of its own, which is no text of another.
    #[test]
    fn texts() {
        for text in [|number| text_of(number, true), explained] {
            let texts: Vec<_> = numbers().chain([999]).map(text).collect();
            assert_eq!(texts.len(), 30);
            for (place, text) in texts.iter().enumerate() {
                assert!(!texts[..place].contains(text), "{text:?}");
            }
            assert_eq!(texts[29], c"unknown number");
        }
    }

    /// By its number alone no text speaks of something that stood before it.
    #[test]
    fn texts_by_numbers_alone() {
        for number in numbers() {
            let text = explained(number).to_str().unwrap_or_default();
            assert!(!text.is_empty() && !text.starts_with("it "), "{text}");
        }
        assert_eq!(
            explained(HZ_BAD_SETTINGS),
            c"a setting is out of its limits"
        );
    }

    /// The library below has another version only where it was built so.
    #[test]
    fn text_of_another_version() {
        let fault = hz_pager_fault::from(Error::VersionMismatch { library: 20_304 });
        let text = "the library was built over a core of another version, and makes no pager";
        assert_eq!((fault.number, fault.to_string().as_str()), (61, text));
    }

    #[test]
    fn number_of_too_many_guards() {
        let fault = hz_pager_fault::from(Error::TooManyGuards);
        let text = "the library found a fault of its own, or a page has 500,000 pins or latches";
        assert_eq!((fault.number, fault.to_string().as_str()), (75, text));
    }
}
