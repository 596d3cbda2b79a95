//! What goes wrong with an engine's device and log: `ReadFault`, `LogFault`, and `PagerError`, which a call has.
use crate::Error;
use std::{error, fmt, io};

/// Why a page could not be read.
#[derive(Debug)]
#[non_exhaustive]
pub enum ReadFault {
    /// The device failed.
    Device(io::Error),
    /// Another page was found in the page's place, as its bytes tell.
    WrongPage,
    /// The page's bytes are not those that were written, as its checksum tells: it is torn, or was spoilt
    /// on the device.
    Spoilt,
}

impl From<io::Error> for ReadFault {
    fn from(error: io::Error) -> ReadFault {
        ReadFault::Device(error)
    }
}

impl fmt::Display for ReadFault {
    fn fmt(&self, f: &mut fmt::Formatter<'_>) -> fmt::Result {
        f.write_str(match self {
            ReadFault::Device(_) => "the device failed",
            ReadFault::WrongPage => "another page was found in the page's place",
            ReadFault::Spoilt => "the page is torn or spoilt",
        })
    }
}

impl error::Error for ReadFault {
    fn source(&self) -> Option<&(dyn error::Error + 'static)> {
        match self {
            ReadFault::Device(source) => Some(source),
            ReadFault::WrongPage | ReadFault::Spoilt => None,
        }
    }
}

/// Why the log is not durable as far as it was to be made.
#[derive(Debug)]
#[non_exhaustive]
pub enum LogFault {
    /// The log failed: what was appended since it was durable last may be lost, and no later sync keeps it. By `?` an
    /// [`io::Error`] is this.
    Lost(io::Error),
    /// The log does not reach so far yet, and nothing is lost.
    NotYet,
}

impl From<io::Error> for LogFault {
    fn from(error: io::Error) -> LogFault {
        LogFault::Lost(error)
    }
}

impl fmt::Display for LogFault {
    fn fmt(&self, f: &mut fmt::Formatter<'_>) -> fmt::Result {
        f.write_str(match self {
            LogFault::Lost(_) => "the log failed",
            LogFault::NotYet => "the log does not reach so far yet",
        })
    }
}

impl error::Error for LogFault {
    fn source(&self) -> Option<&(dyn error::Error + 'static)> {
        match self {
            LogFault::Lost(source) => Some(source),
            LogFault::NotYet => None,
        }
    }
}

/// The fault of a call of a [`Pager`](crate::Pager): a refusal of the pool, or a fault of the engine's
/// device or log.
///
/// An [`Error`] is a refusal alone, as calls have it that do not use the device, such as those of a
/// guard. By `?` it becomes a `PagerError`, and [`PagerError::refusal`] makes one of each fault.
#[derive(Debug)]
#[non_exhaustive]
pub enum PagerError {
    /// The pool refused the call.
    Refused(Error),
    /// The pool refused what was to be done with this page, as one of several: to write it out, or to
    /// drop it.
    RefusedPage {
        /// The page.
        page: u64,
        /// The refusal.
        error: Error,
    },
    /// A page could not be read.
    Read {
        /// The page.
        page: u64,
        /// The fault of the device.
        source: io::Error,
    },
    /// Another page was found in a page's place, as [`ReadFault::WrongPage`] told. The page is in no
    /// frame.
    WrongPage {
        /// The page that was to be read.
        page: u64,
    },
    /// A page is torn or spoilt on the device, as [`ReadFault::Spoilt`] told. It is in no frame.
    Spoilt {
        /// The page.
        page: u64,
    },
    /// A page could not be written out, and is still unsaved.
    Write {
        /// The page. It is a victim, where the call asked for another page.
        page: u64,
        /// The fault of the device.
        source: io::Error,
    },
    /// The log failed as it was to be made durable, as [`LogFault::Lost`] told. Later calls that need it are
    /// refused with [`LogLost`](PagerError::LogLost).
    Log {
        /// The LSN up to which it must be durable.
        lsn: u64,
        /// The fault of the log.
        source: io::Error,
    },
    /// The log is not durable so far yet, as [`LogFault::NotYet`] told; or the call is made within
    /// [`make_log_durable`](crate::PageIo::make_log_durable) and needs the log itself.
    LogNotYet {
        /// The LSN up to which it must be durable.
        lsn: u64,
    },
    /// The log failed in an earlier call, or panicked. What was appended since it was durable last may be lost,
    /// though a later sync goes well: end the pager, and redo from the log.
    LogLost,
    /// The device could not be synced.
    Sync {
        /// The fault of the device.
        source: io::Error,
    },
    /// The device could not be synced by an earlier call. What was written out before may be lost,
    /// though a later sync goes well: end the pager, and redo from the log.
    SyncFailedBefore,
}

impl PagerError {
    /// Returns the refusal for this fault: 17 for a read, 19 where another page or a spoilt one was found, 18
    /// for a write-out or a sync, 79 for a log that failed, and 12 for one that is not durable so far yet.
    #[must_use]
    pub fn refusal(&self) -> Error {
        match *self {
            PagerError::Refused(error) | PagerError::RefusedPage { error, .. } => error,
            PagerError::Read { .. } => Error::ReadFailed,
            PagerError::WrongPage { .. } | PagerError::Spoilt { .. } => Error::WrongPage,
            PagerError::Write { .. } | PagerError::Sync { .. } | PagerError::SyncFailedBefore => {
                Error::WriteFailed
            }
            PagerError::Log { .. } | PagerError::LogLost => Error::LogLost,
            PagerError::LogNotYet { lsn } => Error::NeedLog { lsn },
        }
    }

    pub(crate) fn of_read(page: u64, fault: ReadFault) -> PagerError {
        match fault {
            ReadFault::Device(source) => PagerError::Read { page, source },
            ReadFault::WrongPage => PagerError::WrongPage { page },
            ReadFault::Spoilt => PagerError::Spoilt { page },
        }
    }
}

impl From<Error> for PagerError {
    fn from(error: Error) -> PagerError {
        PagerError::Refused(error)
    }
}

impl PagerError {
    /// What kind of fault of the system it is like: that of the device's or the log's own fault, where it has one.
    fn kind(&self) -> io::ErrorKind {
        match self {
            PagerError::Read { source, .. }
            | PagerError::Write { source, .. }
            | PagerError::Log { source, .. }
            | PagerError::Sync { source } => source.kind(),
            PagerError::WrongPage { .. } | PagerError::Spoilt { .. } => io::ErrorKind::InvalidData,
            PagerError::Refused(error) | PagerError::RefusedPage { error, .. } => error.kind(),
            _ => io::ErrorKind::Other,
        }
    }
}

/// For engines whose own calls fail as those of the system do. The `PagerError` is within.
///
/// ```
/// use hojzmated::{Error, PagerError};
/// use std::io;
///
/// let refused = PagerError::from(Error::NoSuchPage { page: 100 });
/// let error = io::Error::from(refused);
/// assert_eq!(error.kind(), io::ErrorKind::InvalidInput);
/// assert_eq!(error.to_string(), "the file has no page 100");
/// let within = error.downcast::<PagerError>();
/// assert!(within.is_ok_and(|error| error.refusal().number() == 45));
/// ```
impl From<PagerError> for io::Error {
    fn from(fault: PagerError) -> io::Error {
        io::Error::new(fault.kind(), fault)
    }
}

impl fmt::Display for PagerError {
    fn fmt(&self, f: &mut fmt::Formatter<'_>) -> fmt::Result {
        match self {
            PagerError::Refused(error) => error.fmt(f),
            PagerError::RefusedPage { page, error } => write!(f, "page {page}: {error}"),
            PagerError::Read { page, .. } => write!(f, "page {page} could not be read"),
            PagerError::WrongPage { page } => {
                write!(f, "another page was found in the place of page {page}")
            }
            PagerError::Spoilt { page } => write!(f, "page {page} is torn or spoilt"),
            PagerError::Write { page, .. } => write!(f, "page {page} could not be written"),
            PagerError::Log { lsn, .. } => {
                write!(f, "the log could not be made durable as far as LSN {lsn}")
            }
            PagerError::LogNotYet { lsn } => {
                write!(f, "the log is not durable as far as LSN {lsn} yet")
            }
            PagerError::LogLost => write!(f, "the log failed before"),
            PagerError::Sync { .. } => write!(f, "the device could not keep what was written"),
            PagerError::SyncFailedBefore => {
                write!(f, "the device could not keep what was written before")
            }
        }
    }
}

impl error::Error for PagerError {
    fn source(&self) -> Option<&(dyn error::Error + 'static)> {
        match self {
            PagerError::Refused(_)
            | PagerError::RefusedPage { .. }
            | PagerError::WrongPage { .. }
            | PagerError::Spoilt { .. }
            | PagerError::LogNotYet { .. }
            | PagerError::LogLost
            | PagerError::SyncFailedBefore => None,
            PagerError::Read { source, .. }
            | PagerError::Write { source, .. }
            | PagerError::Log { source, .. }
            | PagerError::Sync { source } => Some(source),
        }
    }
}
