//! `Device`: what the store needs of a file.
use std::fs::File;
use std::io;
use std::os::unix::fs::FileExt;

/// A file, or in tests one on a disk in memory whose power fails. What is written stays, in any order,
/// once it was synced.
pub trait Device: FileExt + Send + Sync {
    /// Returns once all that was written stays, also without power.
    fn sync(&self) -> io::Result<()>;

    /// How many bytes there are.
    fn size(&self) -> io::Result<u64>;

    /// Writes zeros over the first `size` bytes, so that a full disk is met now and not at a commit.
    fn fill(&self, size: u64) -> io::Result<()> {
        let zeros = vec![0; 1 << 20];
        for at in (0..size).step_by(zeros.len()) {
            let count = (size - at).min(zeros.len() as u64);
            self.write_all_at(&zeros[..count as usize], at)?;
        }
        Ok(())
    }
}

impl Device for File {
    fn sync(&self) -> io::Result<()> {
        self.sync_data()
    }

    fn size(&self) -> io::Result<u64> {
        Ok(self.metadata()?.len())
    }
}
