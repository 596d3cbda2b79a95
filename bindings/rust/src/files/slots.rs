//! `Layout`: what stands in the slot of a page.
use super::sum::crc32c;
use crate::ReadFault;

/// What stands of each page in its file. The slots stand one after the other, without a head of the file. A
/// page of N bytes has them all for the engine; what is said of it stands before it. Numbers have their
/// little end first.
///
/// A file does not say which layout it has. One of the wrong layout or page size is mostly refused by its
/// length ([`OpenError::BadLength`](crate::OpenError::BadLength)).
#[derive(Clone, Copy, Debug, Default, PartialEq, Eq, Hash)]
#[non_exhaustive]
pub enum Layout {
    /// The page, and nothing else: page files of version 1, as `bpool` has them, and format 1 of C.
    #[default]
    Plain,
    /// 16 bytes before the page: its number, and the LSN it was written with. So a page in another's place is
    /// found ([`ReadFault::WrongPage`]). These are page files of version 2, and format 2 of C.
    Numbered,
    /// 32 bytes before the page: its number, its LSN, a checksum of 4 bytes (CRC-32C, of all other bytes of
    /// the slot), and 12 zeros. So a page in another's place is found, and one that is torn or was spoilt
    /// ([`ReadFault::Spoilt`]). Format 3 of C.
    ///
    /// A slot of zeros is a page of zeros. So a write that never came to the device is not found: the slot
    /// has what it had before.
    ///
    /// The program `bpool` has no such files. A page size of 4,064, 8,160 or 16,352 bytes makes slots that begin and end with the blocks of a disk.
    Checked,
}

const NUMBERED: usize = 16;
const CHECKED: usize = 32;

impl Layout {
    /// The bytes of a slot before its page.
    #[must_use]
    pub const fn head(self) -> usize {
        match self {
            Layout::Plain => 0,
            Layout::Numbered => NUMBERED,
            Layout::Checked => CHECKED,
        }
    }

    /// Writes the head of a slot that has its page.
    pub(super) fn stamp(self, slot: &mut [u8], page: u64, lsn: u64) {
        if let Some(head) = slot.first_chunk_mut::<NUMBERED>() {
            head[..8].copy_from_slice(&page.to_le_bytes());
            head[8..].copy_from_slice(&lsn.to_le_bytes());
        }
        if self == Layout::Checked {
            slot[NUMBERED..CHECKED].fill(0);
            let sum = sum_of(slot).to_le_bytes();
            slot[NUMBERED..][..sum.len()].copy_from_slice(&sum);
        }
    }

    /// Looks whether the slot has this page, and returns its LSN.
    pub(super) fn check(self, slot: &[u8], page: u64) -> Result<u64, ReadFault> {
        if self == Layout::Checked {
            if slot.iter().all(|byte| *byte == 0) {
                return Ok(0);
            }
            if slot[NUMBERED..][..4] != sum_of(slot).to_le_bytes() {
                return Err(ReadFault::Spoilt);
            }
        }
        if slot[..8] != page.to_le_bytes() {
            return Err(ReadFault::WrongPage);
        }
        let lsn = slot[8..].first_chunk().copied();
        Ok(lsn.map_or(0, u64::from_le_bytes))
    }
}

/// The checksum of a slot, which stands behind number and LSN.
fn sum_of(slot: &[u8]) -> u32 {
    crc32c(&[&slot[..NUMBERED], &slot[NUMBERED + 4..]])
}

#[cfg(test)]
#[allow(clippy::unwrap_used)]
mod tests {
    use super::*;

    fn slot(layout: Layout, page: u64, lsn: u64) -> Vec<u8> {
        let mut slot = vec![7; layout.head() + 48];
        layout.stamp(&mut slot, page, lsn);
        slot
    }

    #[test]
    fn heads() {
        let wanted = [
            1, 2, 0, 0, 0, 0, 0, 0, 0xef, 0xcd, 0xab, 0x89, 0x67, 0x45, 0x23, 0x01,
        ];
        for layout in [Layout::Numbered, Layout::Checked] {
            let slot = slot(layout, 0x201, 0x0123_4567_89ab_cdef);
            assert_eq!(slot[..16], wanted);
            assert_eq!(slot[layout.head()..], [7; 48]);
        }
        assert_eq!(slot(Layout::Checked, 1, 2)[20..32], [0; 12]);
    }

    #[test]
    fn faults() {
        let mut found = slot(Layout::Numbered, 5, 9);
        assert_eq!(Layout::Numbered.check(&found, 5).unwrap(), 9);
        let other = Layout::Numbered.check(&found, 6);
        assert!(matches!(other, Err(ReadFault::WrongPage)));
        found.fill(0);
        assert_eq!(Layout::Numbered.check(&found, 0).unwrap(), 0);
        let never = Layout::Numbered.check(&found, 1);
        assert!(matches!(never, Err(ReadFault::WrongPage)));
    }

    /// Each single bit that differs is found, and each slot whose second part is an older one.
    #[test]
    fn spoilt_slots() {
        let good = slot(Layout::Checked, 5, 9);
        assert_eq!(Layout::Checked.check(&good, 5).unwrap(), 9);
        let other = Layout::Checked.check(&good, 6);
        assert!(matches!(other, Err(ReadFault::WrongPage)));
        for bit in 0..good.len() * 8 {
            let mut spoilt = good.clone();
            spoilt[bit / 8] ^= 1 << (bit % 8);
            let found = Layout::Checked.check(&spoilt, 5);
            assert!(matches!(found, Err(ReadFault::Spoilt)), "bit {bit}");
        }
        let (zeros, mut before) = (vec![0; good.len()], vec![6; good.len()]);
        assert_eq!(Layout::Checked.check(&zeros, 5).unwrap(), 0);
        Layout::Checked.stamp(&mut before, 5, 8);
        for (old, torn_at) in [&zeros, &before]
            .into_iter()
            .flat_map(|old| [(old, 9), (old, 16), (old, 40)])
        {
            let torn = [&good[..torn_at], &old[torn_at..]].concat();
            let found = Layout::Checked.check(&torn, 5);
            assert!(matches!(found, Err(ReadFault::Spoilt)), "at {torn_at}");
        }
    }
}
