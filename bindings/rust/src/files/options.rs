//! `FileOptions`: how a page file is opened.
use super::lock::Lock;
use super::{FilePages, Layout, OpenError};
use std::fs::{self, File, Metadata};
use std::io;
use std::os::unix::fs::{FileExt, OpenOptionsExt};
use std::path::{Path, PathBuf};

/// How a page file is opened: [`open`](FileOptions::open) and its sisters end it. All else has a default.
///
/// ```
/// use hojzmated::{FileOptions, Layout};
/// # fn main() -> Result<(), Box<dyn std::error::Error>> {
/// # let path = std::env::temp_dir().join(format!("hojzmated-options-{}", std::process::id()));
/// let options = FileOptions::new(4064).layout(Layout::Checked);
/// let pages = options.grown_to(1_000).create(&path)?; // made, with 1,000 pages of zeros
/// assert_eq!(pages.pages(), 1_000);
/// let refused = options.open(&path).map(drop); // one has it already
/// assert_eq!(refused.unwrap_err().to_string(), "another pager or process has the page file");
/// # std::fs::remove_file(path)?;
/// # Ok(())
/// # }
/// ```
#[derive(Clone, Copy, Debug, PartialEq, Eq)]
#[must_use]
pub struct FileOptions {
    pub(super) page_size: usize,
    pub(super) layout: Layout,
    wanted: u64,
    grows: bool,
    is_direct: bool,
    pub(super) is_read_only: bool,
}

/// `O_DIRECT` of the system's headers, which is another number on other processors.
const DIRECT: Option<i32> = if cfg!(not(target_os = "linux")) {
    None
} else if cfg!(target_arch = "x86_64") {
    Some(0o40_000)
} else if cfg!(target_arch = "aarch64") {
    Some(0o200_000)
} else {
    None
};
/// What the system's way past its memory moves at least.
const SECTOR: usize = 512;

impl FileOptions {
    /// For reading and writing plain pages of this size, which is 16 to 65,536 bytes, a multiple of 16.
    pub const fn new(page_size: usize) -> FileOptions {
        FileOptions {
            page_size,
            layout: Layout::Plain,
            wanted: 1,
            grows: false,
            is_direct: false,
            is_read_only: false,
        }
    }

    /// What stands of each page in the file.
    pub const fn layout(mut self, layout: Layout) -> FileOptions {
        self.layout = layout;
        self
    }

    /// Refuses a file with fewer pages ([`OpenError::TooShort`]). Without this it has to have one at least, and
    /// with 0 it may be empty.
    pub const fn pages(mut self, pages: u64) -> FileOptions {
        (self.wanted, self.grows) = (pages, false);
        self
    }

    /// Adds pages of zeros to a file with fewer pages. They take no place on the disk until they are written
    /// ([`Layout::Numbered`] has a number in each, so each is written), and are durable after a sync. Where
    /// the process is killed meanwhile, the file may have got some of them, the last in part. That part is cut
    /// off where the file is opened by `grown_to` again.
    ///
    /// A file that is opened for reading alone does not grow: it is refused as by [`pages`](Self::pages).
    pub const fn grown_to(mut self, pages: u64) -> FileOptions {
        (self.wanted, self.grows) = (pages, true);
        self
    }

    /// Reads and writes past the system's memory of files, by `O_DIRECT`, so that no page is there twice. A
    /// slot has to be a multiple of the disk's sectors, 512 or 4,096 bytes. Where this cannot be had, which is
    /// tried, the file is refused ([`OpenError::NotDirect`]). It is for files that are opened here:
    /// [`over`](Self::over) leaves a descriptor as it is.
    pub const fn direct(mut self, is_direct: bool) -> FileOptions {
        self.is_direct = is_direct;
        self
    }

    /// Opens the file for reading alone. Others may read it at the same time, in this process and others, and
    /// none may write. A page that is changed in the pool all the same is never written out:
    /// [`PagerError::Write`](crate::PagerError::Write), of the kind `PermissionDenied`.
    pub const fn read_only(mut self, is_read_only: bool) -> FileOptions {
        self.is_read_only = is_read_only;
        self
    }

    /// Opens a file, and locks it till the [`FilePages`] is dropped.
    ///
    /// # Errors
    /// [`OpenError`] has them all. What the file had it has still.
    pub fn open(&self, path: impl AsRef<Path>) -> Result<FilePages, OpenError> {
        self.open_at(path.as_ref(), false)
    }

    /// The same, and makes the file if it is not there. For reading alone it makes none.
    ///
    /// # Errors
    /// As [`open`](Self::open). A file that was made may be left, with no page or some.
    pub fn create(&self, path: impl AsRef<Path>) -> Result<FilePages, OpenError> {
        let path = path.as_ref();
        let is_new = !self.is_read_only && !path.exists();
        let pages = self.open_at(path, !self.is_read_only)?;
        if is_new {
            // Else a loss of power may take the name, though what is in the file was synced.
            let folder = path.parent().filter(|it| !it.as_os_str().is_empty());
            let folder = folder.map_or(PathBuf::from("."), Path::to_owned);
            let synced = File::open(folder).and_then(|it| it.sync_all());
            synced.map_err(not_opened)?;
        }
        Ok(pages)
    }

    /// Takes a file that is open already, as a temporary one is. It may not be open for appending
    /// (`O_APPEND`), and the lock is that of the descriptor and of its copies: see [`FilePages`].
    ///
    /// # Errors
    /// As [`open`](Self::open). The file is closed then.
    pub fn over(&self, file: File) -> Result<FilePages, OpenError> {
        self.over_or_back(file).map_err(|(error, _)| error)
    }

    /// The same, which gives the file back with its error: for C, where it stays the engine's.
    #[doc(hidden)]
    pub fn over_or_back(&self, file: File) -> Result<FilePages, (OpenError, File)> {
        let metadata = match self.check_descriptor(&file) {
            Ok(metadata) => metadata,
            Err(error) => return Err((error, file)),
        };
        self.locked(file, &metadata, true)
    }

    /// The bytes that a page takes of the file.
    fn slot_size(&self) -> Result<usize, OpenError> {
        match self.page_size {
            16..=65_536 if self.page_size % 16 == 0 => Ok(self.layout.head() + self.page_size),
            _ => Err(OpenError::BadGeometry),
        }
    }

    fn open_at(&self, path: &Path, is_made: bool) -> Result<FilePages, OpenError> {
        let slot = self.slot_size()?;
        // It is looked at before, since the open of a pipe may wait, and that of a device do anything.
        if let Ok(metadata) = fs::metadata(path) {
            check_kind(&metadata)?;
        }
        let mut options = File::options();
        options.read(true).write(!self.is_read_only).create(is_made);
        if self.is_direct {
            let flag = DIRECT.filter(|_| slot % SECTOR == 0);
            options
                .custom_flags(flag.ok_or_else(|| not_direct(io::ErrorKind::Unsupported.into()))?);
        }
        let file = options.open(path).map_err(|error| self.refused(error))?;
        let metadata = file.metadata().map_err(not_opened)?;
        check_kind(&metadata)?;
        let locked = self.locked(file, &metadata, false);
        let pages = locked.map_err(|(error, _)| error)?;
        if self.is_direct && pages.pages() > 0 {
            pages.try_first().map_err(|error| self.refused(error))?;
        }
        Ok(pages)
    }

    /// The system's refusal to open a file, or to read it as is wanted.
    fn refused(&self, error: io::Error) -> OpenError {
        match error.kind() {
            io::ErrorKind::InvalidInput if self.is_direct => not_direct(error),
            _ => not_opened(error),
        }
    }

    /// Refuses a descriptor that is of no file, or is not open for what is wanted.
    fn check_descriptor(&self, file: &File) -> Result<Metadata, OpenError> {
        self.slot_size()?;
        let metadata = file.metadata().map_err(not_opened)?;
        check_kind(&metadata)?;
        // It is asked for no byte, and tells whether it could be.
        file.read_at(&mut [], 0).map_err(not_opened)?;
        if !self.is_read_only && file.write_at(&[], 0).is_err() {
            return Err(OpenError::ReadOnly);
        }
        Ok(metadata)
    }

    /// Locks a file, and has it as long as is wanted. Else it comes back.
    fn locked(
        &self,
        file: File,
        metadata: &Metadata,
        is_given: bool,
    ) -> Result<FilePages, (OpenError, File)> {
        let lock = match Lock::take(&file, metadata, self.is_read_only, is_given) {
            Ok(lock) => lock,
            Err(error) => return Err((error, file)),
        };
        let mut found = FilePages::new(lock, file, self);
        match found.begin(self.wanted, self.grows) {
            Ok(()) => Ok(found),
            Err(error) => Err((error, found.into_file())),
        }
    }
}

fn not_direct(source: io::Error) -> OpenError {
    OpenError::NotDirect { source }
}

fn not_opened(source: io::Error) -> OpenError {
    OpenError::NotOpened { source }
}

/// Refuses what is no file.
fn check_kind(metadata: &Metadata) -> Result<(), OpenError> {
    match metadata.is_dir() {
        true => Err(OpenError::Directory),
        false if metadata.is_file() => Ok(()),
        false => Err(OpenError::NotAFile),
    }
}
