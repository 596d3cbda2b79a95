//! `Lock`: the lock by which one pager alone has a page file.
//!
//! It is `flock` of the system, which `bpool run` takes too. That is of the descriptor's *open* of the file:
//! another open is refused, in this process or another, by whatever name of the file. Two pagers over one
//! descriptor, or over a copy of it, are of one open. So there is also a list in this process.
use super::OpenError;
use std::ffi::c_int;
use std::fs::{File, Metadata};
use std::os::fd::{AsRawFd, RawFd};
use std::os::unix::fs::MetadataExt;
use std::sync::{Mutex, MutexGuard, PoisonError};
use std::{io, process};

// SAFETY: this is how the system's C library has it. It takes two numbers and no pointer, and fails for those
// that it does not know. From Rust 1.89 on `File::try_lock` calls it.
unsafe extern "C" {
    safe fn flock(fd: c_int, operation: c_int) -> c_int;
}

const LOCK_SH: c_int = 1;
const LOCK_EX: c_int = 2;
const LOCK_NB: c_int = 4;
const LOCK_UN: c_int = 8;

/// A page file that is locked here.
#[derive(Clone, Copy, Debug, PartialEq, Eq)]
struct Locked {
    device: u64,
    inode: u64,
    /// The process that locked it. A child gets a copy of the list by `fork`, and locks nothing by that.
    process: u32,
    /// Whether others may read it too.
    is_shared: bool,
    /// Whether the descriptor was given, so that another may be a copy of it, with the same open.
    is_given: bool,
}

static LOCKED: Mutex<Vec<Locked>> = Mutex::new(Vec::new());

fn list() -> MutexGuard<'static, Vec<Locked>> {
    LOCKED.lock().unwrap_or_else(PoisonError::into_inner)
}

impl Locked {
    fn is_of_same_file(&self, other: &Locked) -> bool {
        (self.device, self.inode, self.process) == (other.device, other.inode, other.process)
    }
}

fn not_locked(source: io::Error) -> OpenError {
    OpenError::NotLocked { source }
}

/// A lock that is held. On its drop it goes back, while the file is open still.
#[derive(Debug)]
pub(super) struct Lock {
    fd: RawFd,
    own: Locked,
}

impl Lock {
    /// Locks a file, and waits for nobody. Several may have it for reading.
    pub(super) fn take(
        file: &File,
        metadata: &Metadata,
        is_shared: bool,
        is_given: bool,
    ) -> Result<Lock, OpenError> {
        let own = Locked {
            device: metadata.dev(),
            inode: metadata.ino(),
            process: process::id(),
            is_shared,
            is_given,
        };
        let mut list = list();
        let mut others = list.iter().filter(|it| it.is_of_same_file(&own));
        if others.any(|it| !(it.is_shared && is_shared)) {
            return Err(OpenError::InUse);
        }
        let room = list.try_reserve(1);
        room.map_err(|_| not_locked(io::ErrorKind::OutOfMemory.into()))?;
        let fd = file.as_raw_fd();
        let how = if is_shared { LOCK_SH } else { LOCK_EX };
        if flock(fd, how | LOCK_NB) != 0 {
            let error = io::Error::last_os_error();
            return Err(match error.kind() {
                io::ErrorKind::WouldBlock => OpenError::InUse,
                _ => not_locked(error),
            });
        }
        list.push(own);
        Ok(Lock { fd, own })
    }
}

impl Drop for Lock {
    fn drop(&mut self) {
        // A child that was forked has the same open of the file, and its lock is the parent's.
        if self.own.process != process::id() {
            return;
        }
        let mut list = list();
        if let Some(place) = list.iter().position(|it| *it == self.own) {
            list.swap_remove(place);
        }
        // Of readers with one open the last gives the lock back.
        let mut others = list.iter().filter(|it| it.is_of_same_file(&self.own));
        if !(self.own.is_given && others.any(|it| it.is_given)) {
            // It can only fail for a descriptor that is closed, as one of C may be: then there is no lock.
            flock(self.fd, LOCK_UN);
        }
    }
}
