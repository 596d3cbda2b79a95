//! `Error`: the refusals of the library.
use crate::sys;
use std::fmt;
use std::io;
use std::result;

/// A refusal of a core, which is a [`Pool`](crate::core::Pool). It changes nothing, except that 11, 12, 13 and 25 count as
/// calls. 17, 18 and 19 tell of the device, and come of a pager's faults alone.
///
/// It is the error of calls that do not use the device: those of a `Pool` and of guards, and those
/// that make a pager. A call of a [`Pager`](crate::Pager) that may use the device or the log has a
/// [`PagerError`](crate::PagerError), which is a refusal or a fault of these.
///
/// Each has the number of `hojzmated.h` and its text, which [`Display`](fmt::Display) shows, except
/// for [`Lent`](Error::Lent), [`VersionMismatch`](Error::VersionMismatch) and
/// [`TooManyGuards`](Error::TooManyGuards), which are this crate's own, and
/// [`Deadlock`](Error::Deadlock) and [`LogLost`](Error::LogLost), which have those of `hojzmated_pager.h`.
#[derive(Clone, Copy, Debug, PartialEq, Eq, Hash)]
#[non_exhaustive]
pub enum Error {
    /// 1 or 2: a setting is out of its limits. 1 is for `pages` and `page_size`, and 2 for all others.
    BadSetting {
        /// The field of [`Config`](crate::core::Config) or [`PagerConfig`](crate::PagerConfig): the first one
        /// that is out of its limits.
        field: &'static str,
    },
    /// 11: no page can be evicted. Each is being read, pinned, being written out, or was referenced
    /// within the correlated period.
    NoVictim,
    /// 12: the log must be durable up to this LSN first.
    NeedLog {
        /// The LSN up to which the log must be durable.
        lsn: u64,
    },
    /// 13: the page is being read or written out.
    Busy,
    /// 14: no such pass is out.
    UnknownPass,
    /// 16: no such ticket is out.
    UnknownTicket,
    /// 17: the page could not be read.
    ReadFailed,
    /// 18: the page could not be written.
    WriteFailed,
    /// 19: another page was found in the page's place in the file. A pager answers
    /// [`PagerError::WrongPage`](crate::PagerError::WrongPage), which names the page.
    WrongPage,
    /// 20: the pool has answered nearly as many calls as [`Config::room`](crate::core::Config::room).
    /// What is left is kept for the passes and tickets that are out.
    TrailFull,
    /// 21: the clock would pass its end.
    ClockFull,
    /// 22: out of memory.
    OutOfMemory,
    /// 25: a pass of the page is out.
    PagePinned,
    /// 41: no client has this number here.
    BadClient,
    /// 45: the file has no such page.
    NoSuchPage {
        /// The page: of several that are asked for, the first that the file has not.
        page: u64,
    },
    /// 45: the bytes are not within the page.
    OutOfPage {
        /// Where in the page the first of them would be.
        offset: usize,
        /// How many they are. It is `usize::MAX` of a range without an end, or that ends before it begins.
        len: usize,
    },
    /// 45: the buffer or the image has not the size of a page.
    BadBuffer {
        /// The bytes that it has.
        len: usize,
    },
    // No call of this crate gives the next three: it sees to it that none of them has cause.
    /// 50: the handle has no core.
    #[doc(hidden)]
    NoCore,
    /// 51: the handle has a core already.
    #[doc(hidden)]
    HasCore,
    /// 52: a pointer is null.
    #[doc(hidden)]
    Null,
    /// 60, a number of this crate alone: bytes of the page are lent ([`PageBytes`]), and it is not
    /// written to.
    ///
    /// [`PageBytes`]: crate::core::PageBytes
    Lent,
    /// 61, a number of this crate alone: the program was linked with a library of another version,
    /// and no pool is made.
    VersionMismatch {
        /// The version of the library, as [`version`](crate::version) gives it.
        library: u32,
    },
    /// 62, a number of this crate alone: the page of a [`Pager`](crate::Pager) has 524,288
    /// pins or shared latches, and gets no other guard before some of these are dropped.
    TooManyGuards,
    /// 72, a number of `hojzmated_pager.h`: the call would wait for a latch that its own thread has. It comes
    /// of a [`Pager`](crate::Pager) that [notes them](crate::PagerConfig::notes_latches).
    Deadlock,
    /// 79, a number of `hojzmated_pager.h`: the log failed, in this call or before. Calls that need it are refused
    /// from then on: end the pager, and redo from the log.
    LogLost,
    /// A number that a newer library has.
    Other(u16),
}

/// The result of a call of the pool.
pub type Result<T, E = Error> = result::Result<T, E>;

// The numbers of refusals that say more: who makes the call knows of what they are.
pub(crate) const BAD_GEOMETRY: u16 = 1;
pub(crate) const BAD_SETTINGS: u16 = 2;
pub(crate) const NEED_LOG: u16 = 12;
pub(crate) const OUT_OF_PAGE: u16 = 45;

/// Each other refusal of the library.
static NUMBERED: [Error; 15] = [
    Error::NoVictim,
    Error::Busy,
    Error::UnknownPass,
    Error::UnknownTicket,
    Error::ReadFailed,
    Error::WriteFailed,
    Error::WrongPage,
    Error::TrailFull,
    Error::ClockFull,
    Error::OutOfMemory,
    Error::PagePinned,
    Error::BadClient,
    Error::NoCore,
    Error::HasCore,
    Error::Null,
];

impl Error {
    /// Returns the number of `hojzmated.h`. Those of [`Lent`](Error::Lent),
    /// [`VersionMismatch`](Error::VersionMismatch), [`TooManyGuards`](Error::TooManyGuards),
    /// [`Deadlock`](Error::Deadlock) and [`LogLost`](Error::LogLost) are beyond those.
    #[must_use]
    pub const fn number(self) -> u16 {
        match self {
            Error::BadSetting { field } => match field.as_bytes() {
                b"pages" | b"page_size" => BAD_GEOMETRY,
                _ => BAD_SETTINGS,
            },
            Error::NoVictim => 11,
            Error::NeedLog { .. } => NEED_LOG,
            Error::Busy => 13,
            Error::UnknownPass => 14,
            Error::UnknownTicket => 16,
            Error::ReadFailed => 17,
            Error::WriteFailed => 18,
            Error::WrongPage => 19,
            Error::TrailFull => 20,
            Error::ClockFull => 21,
            Error::OutOfMemory => 22,
            Error::PagePinned => 25,
            Error::BadClient => 41,
            Error::NoSuchPage { .. } | Error::OutOfPage { .. } | Error::BadBuffer { .. } => {
                OUT_OF_PAGE
            }
            Error::NoCore => 50,
            Error::HasCore => 51,
            Error::Null => 52,
            Error::Lent => 60,
            Error::VersionMismatch { .. } => 61,
            Error::TooManyGuards => 62,
            Error::Deadlock => 72,
            Error::LogLost => 79,
            Error::Other(number) => number,
        }
    }

    /// Returns the refusal with this number, which says all.
    ///
    /// It is inlined and its search is not: a function that gets the place of the result would keep
    /// the value of a call, such as a guard, out of registers.
    #[inline]
    pub(crate) fn numbered(number: u16) -> Error {
        let error = NUMBERED.get(Error::place_of(number));
        error.copied().unwrap_or(Error::Other(number))
    }

    /// Returns the place in the list of the refusal with this number, or the end of the list.
    #[cold]
    #[inline(never)]
    fn place_of(number: u16) -> usize {
        let place = NUMBERED.iter().position(|it| it.number() == number);
        place.unwrap_or(NUMBERED.len())
    }

    /// Returns the refusal of a call that answered this number, if it is one.
    #[inline]
    pub(crate) fn check(number: u16) -> Result<()> {
        Error::check_as(number, Error::numbered)
    }

    /// Returns the same for a call that knows more of its refusals.
    #[inline]
    pub(crate) fn check_as(number: u16, told: impl FnOnce(u16) -> Error) -> Result<()> {
        match number {
            0 => Ok(()),
            refused => Err(told(refused)),
        }
    }

    /// Returns the refusal of a call for bytes of a page.
    #[cold]
    pub(crate) fn of_bytes(number: u16, offset: usize, len: usize) -> Error {
        match number {
            OUT_OF_PAGE => Error::OutOfPage { offset, len },
            number => Error::numbered(number),
        }
    }

    /// What kind of fault of the system it is like.
    pub(crate) fn kind(self) -> io::ErrorKind {
        match self {
            Error::OutOfMemory => io::ErrorKind::OutOfMemory,
            Error::NoVictim | Error::Busy | Error::PagePinned | Error::Lent => {
                io::ErrorKind::ResourceBusy
            }
            Error::Deadlock => io::ErrorKind::Deadlock,
            Error::WrongPage => io::ErrorKind::InvalidData,
            Error::BadSetting { .. }
            | Error::NoSuchPage { .. }
            | Error::OutOfPage { .. }
            | Error::BadBuffer { .. }
            | Error::BadClient => io::ErrorKind::InvalidInput,
            _ => io::ErrorKind::Other,
        }
    }
}

impl fmt::Display for Error {
    fn fmt(&self, f: &mut fmt::Formatter<'_>) -> fmt::Result {
        match *self {
            Error::BadSetting { field } => {
                return write!(f, "the setting {field} is out of its limits");
            }
            Error::NoSuchPage { page } => return write!(f, "the file has no page {page}"),
            Error::OutOfPage { offset, len } => {
                return write!(f, "{len} bytes from {offset} on are not within the page");
            }
            Error::BadBuffer { len } => {
                return write!(f, "a buffer of {len} bytes has not the size of a page");
            }
            Error::Lent => return f.write_str("bytes of the page are lent"),
            Error::TooManyGuards => return f.write_str("the page has too many guards"),
            Error::Deadlock => {
                return f.write_str("the call would wait for a latch that this thread has");
            }
            Error::LogLost => return f.write_str("the log failed, now or before"),
            Error::VersionMismatch { library } => {
                let (major, minor, patch) = (library / 10_000, library / 100 % 100, library % 100);
                return write!(
                    f,
                    "the library has version {major}.{minor}.{patch}, and this crate {}",
                    env!("CARGO_PKG_VERSION")
                );
            }
            _ => {}
        }
        let mut text = [0; 128];
        // SAFETY: the pointer leads to `text`, which has this length and may be written to.
        let whole = unsafe { sys::hz_text(self.number(), text.as_mut_ptr(), text.len()) };
        let shown = text.get(..whole).unwrap_or(&text);
        write!(f, "{}", String::from_utf8_lossy(shown))?;
        match self {
            Error::NeedLog { lsn } => write!(f, " (LSN {lsn})"),
            Error::Other(number) => write!(f, " ({number})"),
            _ => Ok(()),
        }
    }
}

impl std::error::Error for Error {}

/// For engines whose own calls fail as those of the system do. The `Error` is within.
impl From<Error> for io::Error {
    fn from(error: Error) -> io::Error {
        io::Error::new(error.kind(), error)
    }
}

#[cfg(test)]
mod tests {
    use super::*;

    /// Returns the names and numbers of the header's `enum hz_refusal` in its order, but for `HZ_DONE`.
    fn refusals_in_header() -> Vec<(String, u16)> {
        let block = sys::HEADER
            .split_once("enum hz_refusal {\n")
            .and_then(|(_, rest)| rest.split_once("};"))
            .map_or("", |(block, _)| block);
        block
            .lines()
            .filter_map(|line| line.split_once(','))
            .filter_map(|(constant, _)| constant.split_once(" = "))
            .filter_map(|(name, number)| Some((name.trim().to_owned(), number.parse().ok()?)))
            .filter(|(_, number)| *number != 0)
            .collect()
    }

    /// The numbers here are those of the header's `enum hz_refusal`, all of them and in its order, but for
    /// those of refusals that say more. So are the names, in the header's spelling.
    #[test]
    fn numbers() {
        let here: Vec<(String, u16)> = NUMBERED
            .iter()
            .map(|error| (name_in_c(*error), error.number()))
            .collect();
        let (more, there): (Vec<_>, Vec<_>) = refusals_in_header()
            .into_iter()
            .partition(|(_, number)| [1, 2, 12, 45].contains(number));
        assert_eq!(here, there);
        let names = more.iter().map(|(name, _)| name.as_str());
        let wanted = ["BAD_GEOMETRY", "BAD_SETTINGS", "NEED_LOG", "OUT_OF_PAGE"];
        assert!(names.eq(wanted.map(|name| format!("HZ_{name}"))));
        for error in NUMBERED {
            assert_eq!(Error::numbered(error.number()), error);
        }
        assert_eq!(Error::numbered(15), Error::Other(15));
        let of_setting = |field| Error::BadSetting { field }.number();
        let fields = ["pages", "page_size", "frames", "parts", "k"];
        assert_eq!(fields.map(of_setting), [1, 1, 2, 2, 2]);
        assert_eq!(Error::NeedLog { lsn: 7 }.number(), 12);
        let (page, offset, len) = (7, 8, 9);
        for error in [
            Error::NoSuchPage { page },
            Error::OutOfPage { offset, len },
            Error::BadBuffer { len },
        ] {
            assert_eq!(error.number(), 45);
        }
        let last = NUMBERED.map(Error::number).into_iter().max();
        assert!(last < Some(Error::Lent.number()));
        assert_eq!(Error::VersionMismatch { library: 0 }.number(), 61);
        assert_eq!(Error::TooManyGuards.number(), 62);
        assert_eq!(Error::check(0), Ok(()));
    }

    /// Returns `HZ_BAD_GEOMETRY` for `BadGeometry`.
    fn name_in_c(error: Error) -> String {
        let shown = format!("{error:?}");
        let mut name = String::from("HZ");
        for letter in shown.chars().take_while(|it| it.is_alphabetic()) {
            if letter.is_uppercase() {
                name.push('_');
            }
            name.push(letter.to_ascii_uppercase());
        }
        name
    }

    #[test]
    fn texts() {
        for (error, text) in [
            (Error::NoVictim, "no page may leave its frame"),
            (
                Error::NeedLog { lsn: 5 },
                "the log must first be durable up to the LSN that is told (LSN 5)",
            ),
            (
                Error::BadSetting { field: "k" },
                "the setting k is out of its limits",
            ),
            (Error::NoSuchPage { page: 100 }, "the file has no page 100"),
            (
                Error::OutOfPage { offset: 60, len: 5 },
                "5 bytes from 60 on are not within the page",
            ),
            (
                Error::BadBuffer { len: 63 },
                "a buffer of 63 bytes has not the size of a page",
            ),
            (Error::Lent, "bytes of the page are lent"),
            (Error::TooManyGuards, "the page has too many guards"),
            (
                Error::Deadlock,
                "the call would wait for a latch that this thread has",
            ),
            (Error::LogLost, "the log failed, now or before"),
            (Error::Other(15), "unknown number (15)"),
        ] {
            assert_eq!(error.to_string(), text);
        }
        let told = Error::VersionMismatch { library: 20_304 }.to_string();
        let here = concat!("and this crate ", env!("CARGO_PKG_VERSION"));
        assert_eq!(told, format!("the library has version 2.3.4, {here}"));
    }
}
