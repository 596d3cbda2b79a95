//! `FilePages`: page files of the system, with their lock, heads and checksums.
mod direct;
mod locks;
mod pagers;
mod refusals;

use std::error::Error;
use std::fs::{create_dir, remove_dir_all};
use std::ops::Deref;
use std::path::{Path, PathBuf};
use std::process;
use std::sync::atomic::{AtomicU32, Ordering};

type Outcome = Result<(), Box<dyn Error>>;

/// A folder of a test's own, which is removed on its drop.
struct Folder(PathBuf);

impl Folder {
    fn new() -> Folder {
        Folder::within(&std::env::temp_dir())
    }

    fn within(above: &Path) -> Folder {
        static NEXT: AtomicU32 = AtomicU32::new(0);
        let number = NEXT.fetch_add(1, Ordering::Relaxed);
        let path = above.join(format!("hojzmated-files-{}-{number}", process::id()));
        create_dir(&path).unwrap();
        Folder(path)
    }
}

impl Deref for Folder {
    type Target = Path;

    fn deref(&self) -> &Path {
        &self.0
    }
}

impl Drop for Folder {
    fn drop(&mut self) {
        remove_dir_all(&self.0).unwrap();
    }
}
