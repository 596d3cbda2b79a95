//! `Image`: a buffer for pages that the device reads into and writes from.
use crate::{Error, Result};
use std::ops::{Deref, DerefMut};

/// What a device wants that goes past the system's memory of files, as with `O_DIRECT`.
const ALIGNED: usize = 4096;

/// Bytes that begin at a multiple of 4,096.
///
/// They are a part of a longer list: an allocator that is asked for memory at such a place, again and
/// again by many threads, leaves gaps between, three times what is used.
#[derive(Default)]
pub(crate) struct Image {
    bytes: Vec<u8>,
    start: usize,
    len: usize,
}

impl Image {
    /// Returns so many zeros.
    pub(crate) fn zeros(len: usize) -> Result<Image> {
        let mut bytes = Vec::new();
        let whole = Image::memory_of(len);
        let room = bytes.try_reserve_exact(whole);
        room.map_err(|_| Error::OutOfMemory)?;
        bytes.resize(whole, 0);
        let start = bytes.as_ptr().addr().wrapping_neg() % ALIGNED;
        Ok(Image { bytes, start, len })
    }

    /// The memory of a buffer for so many bytes.
    pub(crate) fn memory_of(len: usize) -> usize {
        len + ALIGNED - 1
    }

    pub(crate) fn is_empty(&self) -> bool {
        self.len == 0
    }
}

impl Deref for Image {
    type Target = [u8];

    #[inline]
    fn deref(&self) -> &[u8] {
        &self.bytes[self.start..self.start + self.len]
    }
}

impl DerefMut for Image {
    #[inline]
    fn deref_mut(&mut self) -> &mut [u8] {
        &mut self.bytes[self.start..self.start + self.len]
    }
}

#[cfg(test)]
mod tests {
    use super::*;

    #[test]
    fn bytes_at_a_multiple() -> Result<()> {
        for len in [0, 16, 4096, 4112, 3 * 4096] {
            let mut image = Image::zeros(len)?;
            assert_eq!(*image, vec![0; len]);
            assert_eq!(image.as_ptr().addr() % 4096, 0);
            image.fill(7);
            let moved = Box::new(image);
            assert_eq!(**moved, vec![7; len]);
            assert_eq!(moved.as_ptr().addr() % 4096, 0);
        }
        assert!(Image::default().is_empty());
        Ok(())
    }
}
