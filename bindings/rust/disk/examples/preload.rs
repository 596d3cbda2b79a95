//! The disk for engines in C, or whatever calls the system for its files: a library that comes before the
//! system's.
//!
//!     cargo build --release --example preload
//!     LD_PRELOAD=target/release/examples/libpreload.so HOJZMATED_DISK="7 300 pages log" ./engine
//!
//! The words are a seed, the number of a request, and paths. A file that the process opens by `open` and
//! one of these paths is on a [`Disk`] from then on: what it has, and what `pread`, `pwrite`, `fdatasync`
//! and `ftruncate` do to it. At the request of that number, counted from the last such file on, the power
//! fails: the files of the system get what is left, and the process ends with status 0. The disk keeps
//! 4,096 bytes whole, or `HOJZMATED_SECTOR`. Where the process ends by itself, the files stay as they were.
//!
//! With `kill:300` the process is killed at that request, and the power stays: the files of the system get
//! what a next process reads. `PATH.unsynced` has what of it no sync has kept. A next process with such a
//! disk begins with it, so that its cut may lose what it read.
//!
//! A path that is opened again is the same file of the disk. A process with threads opens and closes its
//! files beside no request. It is for Linux with the C library of GNU.
#![cfg(all(target_os = "linux", target_env = "gnu"))]
use hojzmated_disk::{Disk, DiskFile, Fault};
use std::ffi::{CStr, c_char, c_int, c_uint, c_void};
use std::fs::{self, File};
use std::io::{Error, ErrorKind, Result};
use std::mem::ManuallyDrop;
use std::os::fd::FromRawFd;
use std::os::unix::fs::FileExt;
use std::sync::{LazyLock, Mutex, MutexGuard, PoisonError, RwLock};
use std::{env, slice};

const WHOLE: usize = 4096;

/// The files that are open, each by its descriptor, and the paths of all that were ever opened.
#[derive(Default)]
struct Files {
    open: Vec<(c_int, DiskFile)>,
    taken: Vec<String>,
}

/// What the environment says, and the files.
struct Wanted {
    disk: Disk,
    fault: Fault,
    paths: Vec<String>,
    files: Mutex<Files>,
    /// Requests have it shared, and the end of the process alone.
    power: RwLock<()>,
}

static WANTED: LazyLock<Option<Wanted>> = LazyLock::new(|| {
    let words = env::var("HOJZMATED_DISK").ok()?;
    let mut words = words.split_whitespace();
    let disk = Disk::new(words.next()?.parse().ok()?);
    let whole = env::var("HOJZMATED_SECTOR").map_or(Ok(WHOLE), |it| it.parse());
    disk.keep_whole(whole.ok()?);
    let request = words.next()?;
    let fault = match request.strip_prefix("kill:") {
        Some(request) => Fault::Kill(request.parse().ok()?),
        None => Fault::Cut(request.parse().ok()?),
    };
    Some(Wanted {
        disk,
        fault,
        paths: words.map(String::from).collect(),
        files: Mutex::default(),
        power: RwLock::default(),
    })
});

// The names by which the C library has the same calls, so that they are not those from here.
unsafe extern "C" {
    fn open64(path: *const c_char, flags: c_int, ...) -> c_int;
    fn pread64(fd: c_int, bytes: *mut c_void, count: usize, offset: i64) -> isize;
    fn pwrite64(fd: c_int, bytes: *const c_void, count: usize, offset: i64) -> isize;
    fn ftruncate64(fd: c_int, length: i64) -> c_int;
    fn fsync(fd: c_int) -> c_int;
    fn _exit(status: c_int) -> !;
}

/// The file of a descriptor, which stays open.
fn of_system(fd: c_int) -> ManuallyDrop<File> {
    // SAFETY: it is open, and not closed from here.
    ManuallyDrop::new(unsafe { File::from_raw_fd(fd) })
}

fn unsynced(path: &str) -> String {
    format!("{path}.unsynced")
}

fn was_not_there(why: Error) -> Result<()> {
    if why.kind() == ErrorKind::NotFound {
        Ok(())
    } else {
        Err(why)
    }
}

impl Wanted {
    fn files(&self) -> MutexGuard<'_, Files> {
        self.files.lock().unwrap_or_else(PoisonError::into_inner)
    }

    /// Takes what a file has onto the disk, if it is not there yet.
    fn take(&self, fd: c_int, path: &str) -> Result<()> {
        let (mut files, file) = (self.files(), self.disk.file(path));
        files.open.push((fd, file.clone()));
        if files.taken.iter().any(|it| it == path) {
            return Ok(());
        }
        files.taken.push(path.into());
        self.disk.set_fault(None);
        match fs::read(unsynced(path)) {
            Ok(saved) => file.restore(&saved)?,
            Err(_) => {
                let from = of_system(fd);
                let mut bytes = vec![0; from.metadata()?.len() as usize];
                from.read_exact_at(&mut bytes, 0)?;
                file.write_all_at(&bytes, 0)?;
                file.sync_data()?;
            }
        }
        self.disk.set_fault(Some(self.fault));
        Ok(())
    }

    /// Has the system's files have what is left, and ends the process. Others that come here wait for it.
    fn end(&self) -> Result<()> {
        let _off = self.power.write();
        let is_kill = matches!(self.fault, Fault::Kill(_));
        if is_kill {
            self.disk.restart();
        } else {
            self.disk.lose_power();
        }
        for path in &self.files().taken {
            let file = self.disk.file(path);
            let mut bytes = vec![0; file.len() as usize];
            file.read_exact_at(&mut bytes, 0)?;
            fs::write(path, bytes)?;
            if is_kill {
                fs::write(unsynced(path), file.save())?;
            } else {
                fs::remove_file(unsynced(path)).or_else(was_not_there)?;
            }
        }
        // SAFETY: nothing of the process is wanted any more.
        unsafe { _exit(0) }
    }
}

/// Makes a request to the disk, if the file is there.
fn asked<T>(fd: c_int, request: impl FnOnce(&DiskFile) -> Result<T>) -> Option<T> {
    let wanted = WANTED.as_ref()?;
    let file = wanted.files().open.iter().find(|it| it.0 == fd)?.1.clone();
    let on = wanted.power.read();
    let done = request(&file);
    drop(on);
    done.or_else(|why| wanted.end().and(Err(why))).ok()
}

/// # Safety
/// As of the system's.
#[unsafe(no_mangle)]
pub unsafe extern "C" fn open(path: *const c_char, flags: c_int, mode: c_uint) -> c_int {
    // SAFETY: as the caller has it.
    let (fd, path) = unsafe { (open64(path, flags, mode), CStr::from_ptr(path)) };
    // A descriptor that was closed may come again.
    if let Some(wanted) = WANTED.as_ref() {
        wanted.files().open.retain(|it| it.0 != fd);
    }
    let is_path = |it: &&Wanted| it.paths.iter().any(|own| Ok(&own[..]) == path.to_str());
    let taken = match (fd, WANTED.as_ref().filter(is_path)) {
        (0.., Some(wanted)) => wanted.take(fd, path.to_str().unwrap_or_default()),
        _ => Ok(()),
    };
    if taken.is_ok() { fd } else { -1 }
}

/// # Safety
/// As of the system's.
#[unsafe(no_mangle)]
pub unsafe extern "C" fn pread(fd: c_int, bytes: *mut c_void, count: usize, at: i64) -> isize {
    // SAFETY: as the caller has it.
    let room = unsafe { slice::from_raw_parts_mut(bytes.cast(), count) };
    let done = asked(fd, |file| file.read_at(room, at as u64));
    // SAFETY: as the caller has it.
    done.map_or_else(
        || unsafe { pread64(fd, bytes, count, at) },
        |it| it as isize,
    )
}

/// # Safety
/// As of the system's.
#[unsafe(no_mangle)]
pub unsafe extern "C" fn pwrite(fd: c_int, bytes: *const c_void, count: usize, at: i64) -> isize {
    // SAFETY: as the caller has it.
    let from = unsafe { slice::from_raw_parts(bytes.cast(), count) };
    let done = asked(fd, |file| file.write_at(from, at as u64));
    // SAFETY: as the caller has it.
    done.map_or_else(
        || unsafe { pwrite64(fd, bytes, count, at) },
        |it| it as isize,
    )
}

/// # Safety
/// As of the system's.
#[unsafe(no_mangle)]
pub unsafe extern "C" fn ftruncate(fd: c_int, length: i64) -> c_int {
    let done = asked(fd, |file| file.set_len(length as u64));
    // SAFETY: as the caller has it.
    done.map_or_else(|| unsafe { ftruncate64(fd, length) }, |()| 0)
}

/// # Safety
/// As of the system's.
#[unsafe(no_mangle)]
pub unsafe extern "C" fn fdatasync(fd: c_int) -> c_int {
    let done = asked(fd, DiskFile::sync_data);
    // SAFETY: as the caller has it.
    done.map_or_else(|| unsafe { fsync(fd) }, |()| 0)
}
