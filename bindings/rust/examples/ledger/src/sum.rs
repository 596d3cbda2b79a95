//! CRC-32C, by the processor's instruction where it has one.
use std::array;
use std::sync::LazyLock;

/// The checksum of these parts, one after the other. It finds each change of up to 32 bits in a row.
pub fn crc32c(parts: &[&[u8]]) -> u32 {
    parts.iter().fold(0, |sum, part| add(sum, part))
}

/// The checksum of some bytes behind others, which have this one. That of none is 0.
pub fn add(sum: u32, bytes: &[u8]) -> u32 {
    !update(!sum, bytes)
}

#[cfg(target_arch = "x86_64")]
fn update(rest: u32, bytes: &[u8]) -> u32 {
    if is_x86_feature_detected!("sse4.2") {
        // SAFETY: the processor has the instruction.
        unsafe { by_instruction(rest, bytes) }
    } else {
        by_table(rest, bytes)
    }
}

#[cfg(not(target_arch = "x86_64"))]
fn update(rest: u32, bytes: &[u8]) -> u32 {
    by_table(rest, bytes)
}

#[cfg(target_arch = "x86_64")]
#[target_feature(enable = "sse4.2")]
fn by_instruction(rest: u32, bytes: &[u8]) -> u32 {
    use std::arch::x86_64::{_mm_crc32_u8, _mm_crc32_u64};
    let (words, few) = bytes.as_chunks();
    let mut rest = u64::from(rest);
    for word in words {
        rest = _mm_crc32_u64(rest, u64::from_le_bytes(*word));
    }
    let of_byte = |rest, byte: &u8| _mm_crc32_u8(rest, *byte);
    few.iter().fold(rest as u32, of_byte)
}

fn by_table(rest: u32, bytes: &[u8]) -> u32 {
    static TABLE: LazyLock<[u32; 256]> = LazyLock::new(|| {
        let of_bit = |rest: u32, _| (rest >> 1) ^ (0x82f6_3b78 * (rest & 1));
        array::from_fn(|byte| (0..8).fold(byte as u32, of_bit))
    });
    let table = &*TABLE;
    bytes.iter().fold(rest, |rest, byte| {
        (rest >> 8) ^ table[usize::from(rest as u8 ^ byte)]
    })
}

#[test]
fn both_ways_have_the_known_sums() {
    for (text, sum) in [("", 0), ("123456789", 0xe306_9283)] {
        assert_eq!(crc32c(&[text.as_bytes()]), sum);
        assert_eq!(!by_table(!0, text.as_bytes()), sum);
    }
    // RFC 3720, B.4: 32 bytes of zeros, of ones, and those from 0 to 31.
    let rising: [u8; 32] = array::from_fn(|at| at as u8);
    for (bytes, sum) in [
        ([0; 32], 0x8a91_36aa),
        ([255; 32], 0x62a8_ab43),
        (rising, 0x46dd_794e),
    ] {
        assert_eq!(crc32c(&[&bytes]), sum);
        assert_eq!(crc32c(&[&bytes[..5], &bytes[5..]]), sum);
        assert_eq!(!by_table(!0, &bytes), sum);
    }
}
