//! The store's two devices on a disk in memory.
use hojzmated_disk::{Disk, DiskFile};
use ledger::Device;
use std::io;
use std::os::unix::fs::FileExt;

/// A file of the disk, as the store wants it.
pub struct OnDisk(DiskFile);

/// The page file, or the log.
pub fn device(disk: &Disk, name: &str) -> Box<OnDisk> {
    Box::new(OnDisk(disk.file(name)))
}

impl FileExt for OnDisk {
    fn read_at(&self, bytes: &mut [u8], offset: u64) -> io::Result<usize> {
        self.0.read_at(bytes, offset)
    }

    fn write_at(&self, bytes: &[u8], offset: u64) -> io::Result<usize> {
        self.0.write_at(bytes, offset)
    }
}

impl Device for OnDisk {
    fn sync(&self) -> io::Result<()> {
        self.0.sync_data()
    }

    fn size(&self) -> io::Result<u64> {
        Ok(self.0.len())
    }
}
