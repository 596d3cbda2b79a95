//! Pages of zeros, which need no device, and a log that is always durable.
use hojzmated::{LogFault, PageIo, ReadFault};
use std::io;

pub struct Zeros;

impl PageIo for Zeros {
    fn read_page(&self, _page: u64, image: &mut [u8]) -> Result<(), ReadFault> {
        image.fill(0);
        Ok(())
    }

    fn write_page(&self, _page: u64, _image: &mut [u8], _lsn: u64) -> io::Result<()> {
        Ok(())
    }

    fn make_log_durable(&self, _lsn: u64) -> Result<(), LogFault> {
        Ok(())
    }

    fn sync(&self) -> io::Result<()> {
        Ok(())
    }
}
