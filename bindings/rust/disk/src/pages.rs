//! `DiskPages`: a page file and a log as a pager wants them.
use crate::DiskFile;
use hojzmated::{LogFault, PageIo, ReadFault};
use std::io;
use std::os::unix::fs::FileExt;

/// A page file and a log of one disk, as the device of a pager: page `n` of `size` bytes stands at `n *
/// size`, as it is. An engine that stamps its pages, or looks at them, has a [`PageIo`] of its own over
/// these files, or over this.
#[derive(Clone)]
pub struct DiskPages {
    /// The pages, one after the other.
    pub pages: DiskFile,
    /// What is synced before a page goes out whose record is not durable.
    pub log: DiskFile,
}

impl PageIo for DiskPages {
    fn read_page(&self, page: u64, image: &mut [u8]) -> Result<(), ReadFault> {
        Ok(self.pages.read_exact_at(image, page * image.len() as u64)?)
    }

    fn write_page(&self, page: u64, image: &mut [u8], _lsn: u64) -> io::Result<()> {
        self.pages.write_all_at(image, page * image.len() as u64)
    }

    fn make_log_durable(&self, _lsn: u64) -> Result<(), LogFault> {
        Ok(self.log.sync_data()?)
    }

    fn sync(&self) -> io::Result<()> {
        self.pages.sync_data()
    }
}
