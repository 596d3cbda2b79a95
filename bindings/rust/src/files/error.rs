//! `OpenError`: why a page file was not opened.
use std::{error, fmt, io};

/// Why a page file was not opened. Nothing was written to it, but for what is said of
/// [`NotGrown`](OpenError::NotGrown), and no lock is left.
#[derive(Debug)]
#[non_exhaustive]
pub enum OpenError {
    /// Another has the file: a pager or a [`FilePages`](crate::FilePages) of this process or of another,
    /// `bpool run`, or whoever else locks it by `flock`.
    InUse,
    /// It is a directory.
    Directory,
    /// It is neither a file nor a directory, as a pipe or a device is.
    NotAFile,
    /// The descriptor that was given is open for reading alone, and
    /// [`read_only`](crate::FileOptions::read_only) was not asked for. Or it was, and the file is to grow
    /// ([`grow_to`](crate::FilePages::grow_to)).
    ReadOnly,
    /// The file has fewer pages than were asked for.
    TooShort {
        /// The pages that it has.
        pages: u64,
        /// Those that were asked for.
        wanted: u64,
    },
    /// The file does not end with a whole page: it has another page size or [`Layout`](crate::Layout). Or its
    /// pages are [`Numbered`](crate::Layout::Numbered), and who made it longer was killed: then
    /// [`grown_to`](crate::FileOptions::grown_to) opens it, without the part of a page at its end.
    BadLength {
        /// The length of the file.
        bytes: u64,
        /// What each page takes of it.
        slot: usize,
    },
    /// The page size is out of its limits: 16 to 65,536 bytes, a multiple of 16. Or the pages that were
    /// asked for would make a file of more than 2^63 bytes.
    BadGeometry,
    /// The file cannot be read and written past the system's memory
    /// ([`direct`](crate::FileOptions::direct)): its file system has no such way, or not for slots of this
    /// size.
    NotDirect {
        /// What the system said.
        source: io::Error,
    },
    /// The system did not open it, or tells nothing of it.
    NotOpened {
        /// What the system said.
        source: io::Error,
    },
    /// The system has no lock for it, as some file systems of a network have none.
    NotLocked {
        /// What the system said.
        source: io::Error,
    },
    /// It could not be made longer. It may have got some pages of zeros behind its end, the last in part.
    NotGrown {
        /// What the system said.
        source: io::Error,
    },
}

impl OpenError {
    fn kind(&self) -> io::ErrorKind {
        match self {
            OpenError::InUse => io::ErrorKind::ResourceBusy,
            OpenError::Directory => io::ErrorKind::IsADirectory,
            OpenError::NotAFile | OpenError::BadGeometry => io::ErrorKind::InvalidInput,
            OpenError::ReadOnly => io::ErrorKind::PermissionDenied,
            OpenError::TooShort { .. } | OpenError::BadLength { .. } => io::ErrorKind::InvalidData,
            OpenError::NotDirect { .. } => io::ErrorKind::Unsupported,
            OpenError::NotOpened { source }
            | OpenError::NotLocked { source }
            | OpenError::NotGrown { source } => source.kind(),
        }
    }
}

impl fmt::Display for OpenError {
    fn fmt(&self, f: &mut fmt::Formatter<'_>) -> fmt::Result {
        match self {
            OpenError::InUse => f.write_str("another pager or process has the page file"),
            OpenError::Directory => f.write_str("the page file is a directory"),
            OpenError::NotAFile => f.write_str("the page file is a pipe or a device, and no file"),
            OpenError::ReadOnly => f.write_str("the page file is open for reading alone"),
            OpenError::TooShort { pages, wanted } => {
                write!(f, "the page file has {pages} pages, and not {wanted}")
            }
            OpenError::BadLength { bytes, slot } => write!(
                f,
                "the page file has {bytes} bytes, and that is no whole number of pages of {slot} bytes"
            ),
            OpenError::BadGeometry => {
                f.write_str("the number of pages or the page size is out of its limits")
            }
            OpenError::NotDirect { .. } => {
                f.write_str("the page file cannot be read and written past the system's memory")
            }
            OpenError::NotOpened { .. } => f.write_str("the page file could not be opened"),
            OpenError::NotLocked { .. } => f.write_str("the page file could not be locked"),
            OpenError::NotGrown { .. } => f.write_str("the page file could not be made longer"),
        }
    }
}

impl error::Error for OpenError {
    fn source(&self) -> Option<&(dyn error::Error + 'static)> {
        match self {
            OpenError::NotDirect { source }
            | OpenError::NotOpened { source }
            | OpenError::NotLocked { source }
            | OpenError::NotGrown { source } => Some(source),
            _ => None,
        }
    }
}

/// For engines whose own calls answer as those of the system do.
impl From<OpenError> for io::Error {
    fn from(error: OpenError) -> io::Error {
        io::Error::new(error.kind(), error)
    }
}
