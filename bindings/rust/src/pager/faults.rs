//! Reads that failed. The threads that waited for the page as such a read began have its fault too: else each of
//! them in turn has the device try the same.
use super::part::{PLACES, place_of};
use super::seats::filled;
use crate::{PagerError, ReadFault, Result};
use std::io;
use std::sync::Arc;

/// A fault of a read, of which copies can be made.
#[derive(Clone)]
pub(super) enum Fault {
    WrongPage,
    Spoilt,
    /// One with a number of the system.
    System(i32),
    /// Another one, by its kind and its text.
    Other(io::ErrorKind, Arc<str>),
}

impl Fault {
    pub(super) fn of(fault: &ReadFault) -> Fault {
        match fault {
            ReadFault::WrongPage => Fault::WrongPage,
            ReadFault::Spoilt => Fault::Spoilt,
            ReadFault::Device(error) => match error.raw_os_error() {
                Some(number) => Fault::System(number),
                None => Fault::Other(error.kind(), error.to_string().into()),
            },
        }
    }

    /// Returns the fault of a call that wanted this page.
    pub(super) fn of_page(self, page: u64) -> PagerError {
        let source = match self {
            Fault::WrongPage => return PagerError::WrongPage { page },
            Fault::Spoilt => return PagerError::Spoilt { page },
            Fault::System(number) => io::Error::from_raw_os_error(number),
            Fault::Other(kind, text) => io::Error::new(kind, &*text),
        };
        PagerError::Read { page, source }
    }
}

/// The newest reads of a part that failed, one for each place of a page's number.
pub(super) struct Faults {
    /// The number of reads that were begun so far.
    begun: u64,
    of_places: Box<[Option<Failed>]>,
}

/// A read that failed, by its page and its number.
pub(super) struct Failed {
    page: u64,
    number: u64,
    fault: Fault,
}

impl Faults {
    pub(super) fn new() -> Result<Faults> {
        Ok(Faults {
            begun: 0,
            of_places: filled(PLACES)?.into_boxed_slice(),
        })
    }

    /// Returns the number of a read that begins now.
    pub(super) fn begin(&mut self) -> u64 {
        self.begun += 1;
        self.begun
    }

    pub(super) fn begun(&self) -> u64 {
        self.begun
    }

    /// Notes that a read of a page failed. It returns one that it noted before, so that its memory is given back
    /// without the lock.
    pub(super) fn note(&mut self, page: u64, number: u64, fault: Fault) -> Option<Failed> {
        self.of_places[place_of(page)].replace(Failed {
            page,
            number,
            fault,
        })
    }

    /// Returns the fault of a read of this page that began after so many others.
    pub(super) fn since(&self, page: u64, begun: u64) -> Option<Fault> {
        let failed = self.of_places[place_of(page)].as_ref();
        let failed = failed.filter(|it| it.page == page && it.number > begun);
        failed.map(|it| it.fault.clone())
    }
}
