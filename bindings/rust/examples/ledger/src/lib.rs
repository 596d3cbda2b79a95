//! A small storage engine over `Pager`, to be copied: see README.md.
//!
//! Where a thread panics with a lock of the store, others panic as soon as they want it: nobody goes
//! on with a step that is half done.
mod device;
mod load;
mod log;
mod mini;
mod node;
mod record;
mod space;
mod store;
mod sum;
mod transaction;
mod tree;
mod verify;

pub use device::Device;
pub use store::Store;
pub use transaction::Transaction;

use hojzmated::PagerError;
use std::{error, fmt, io, result};

/// The longest value that a store keeps.
pub const MOST_VALUE: usize = 256;

/// What a call of the store gives.
pub type Result<T, E = Error> = result::Result<T, E>;

/// Why a call of the store failed. But for the first two, nothing was changed.
#[derive(Debug)]
pub enum Error {
    /// A device failed. Whether a commit that ends so is kept, the next start shows.
    Device(io::Error),
    /// The pager refused, or its device failed.
    Pager(PagerError),
    /// A file is not what the store needs.
    BadStore(String),
    /// Another transaction changed what this one has read: begin anew.
    Conflict,
    /// The store has no room for what was asked, and says which.
    NoRoom(&'static str),
}

/// Refuses a file, and says why.
fn bad<T>(why: impl Into<String>) -> Result<T> {
    Err(Error::BadStore(why.into()))
}

impl From<io::Error> for Error {
    fn from(error: io::Error) -> Error {
        Error::Device(error)
    }
}

impl From<PagerError> for Error {
    fn from(error: PagerError) -> Error {
        Error::Pager(error)
    }
}

impl From<hojzmated::Error> for Error {
    fn from(error: hojzmated::Error) -> Error {
        Error::Pager(error.into())
    }
}

impl fmt::Display for Error {
    fn fmt(&self, f: &mut fmt::Formatter<'_>) -> fmt::Result {
        match self {
            Error::Device(error) => error.fmt(f),
            Error::Pager(error) => match error::Error::source(error) {
                Some(why) => write!(f, "{error}: {why}"),
                None => error.fmt(f),
            },
            Error::BadStore(why) => f.write_str(why),
            Error::Conflict => f.write_str("another transaction was first"),
            Error::NoRoom(why) => f.write_str(why),
        }
    }
}

impl error::Error for Error {}
