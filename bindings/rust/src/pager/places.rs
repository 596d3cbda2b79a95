//! Which memory may be that of a part's pages: the library does not accept its own memory.
use super::seats::filled;
use crate::Result;

/// A set of places in memory that has each page whose pass was ever out, and seldom another.
///
/// It has bits for cells of memory, each at least as long as a page: so a page lies in two cells at
/// most. Who can look at a page has its pass out. So if the cell of a byte is not here, the byte is in no
/// page of the part.
pub(super) struct Places {
    bits: Box<[u64]>,
    /// A cell has two to the power of so many bytes.
    cell: u32,
    page_size: usize,
}

/// The bits for each frame. Where two are set for each, one cell in 32 is taken for a page and is none.
const BITS: usize = 64;

impl Places {
    pub(super) fn new(frames: usize, page_size: usize) -> Result<Places> {
        let bits = (frames * BITS).next_power_of_two();
        Ok(Places {
            bits: filled(bits / 64)?.into_boxed_slice(),
            cell: page_size.next_power_of_two().ilog2(),
            page_size,
        })
    }

    /// Returns the word of an address, and its bit there.
    #[inline]
    fn place_of(&self, address: usize) -> (usize, u64) {
        let cell = (address >> self.cell) as u64;
        let mixed = cell.wrapping_mul(0x9e37_79b9_7f4a_7c15) >> 32;
        let place = mixed as usize % (self.bits.len() * 64);
        (place / 64, 1 << (place % 64))
    }

    /// Notes that a page lies there.
    #[inline]
    pub(super) fn note(&mut self, page: *const u8) {
        for address in [page.addr(), page.addr() + self.page_size - 1] {
            let (word, bit) = self.place_of(address);
            self.bits[word] |= bit;
        }
    }

    /// Whether these bytes may be a part of a page.
    #[inline]
    pub(super) fn may_have(&self, bytes: &[u8]) -> bool {
        let (word, bit) = self.place_of(bytes.as_ptr().addr());
        self.bits[word] & bit != 0
    }
}

#[cfg(test)]
mod tests {
    use super::*;

    // A page of 48 bytes in cells of 64, at all places. Each part of it is found, and of memory far
    // from it not all.
    #[test]
    fn each_byte_of_a_page() -> Result<()> {
        let memory = vec![0; 1 << 20];
        for first in (0..256).step_by(16) {
            let mut places = Places::new(4, 48)?;
            places.note(&memory[first]);
            let page = &memory[first..first + 48];
            assert!((0..48).all(|at| places.may_have(&page[at..])));
            let others = memory[512..].chunks(64);
            assert!(others.filter(|it| places.may_have(it)).count() < 1_000);
        }
        Ok(())
    }
}
