//! CRC-32C, by the processor's instruction where it has one, and else eight bytes at a time by tables.

/// For each byte of a word its share in the sum. The first table is that of a last byte.
static TABLES: [[u32; 256]; 8] = tables();

const fn tables() -> [[u32; 256]; 8] {
    let mut tables = [[0; 256]; 8];
    let mut byte = 0;
    while byte < 256 {
        let (mut rest, mut bit) = (byte as u32, 0);
        while bit < 8 {
            rest = (rest >> 1) ^ (0x82f6_3b78 * (rest & 1));
            bit += 1;
        }
        tables[0][byte] = rest;
        byte += 1;
    }
    let mut table = 1;
    while table < 8 {
        let mut byte = 0;
        while byte < 256 {
            let before = tables[table - 1][byte];
            tables[table][byte] = (before >> 8) ^ tables[0][(before & 255) as usize];
            byte += 1;
        }
        table += 1;
    }
    tables
}

/// The checksum of these parts, one after the other. It finds each change of up to 32 bits in a row.
pub(super) fn crc32c(parts: &[&[u8]]) -> u32 {
    !parts.iter().fold(!0, |rest, part| update(rest, part))
}

fn update(rest: u32, bytes: &[u8]) -> u32 {
    #[cfg(target_arch = "x86_64")]
    if is_x86_feature_detected!("sse4.2") {
        // SAFETY: the processor has the instruction.
        return unsafe { by_instruction(rest, bytes) };
    }
    by_table(rest, bytes)
}

/// # Safety
/// The processor has the instruction.
#[cfg(target_arch = "x86_64")]
#[target_feature(enable = "sse4.2")]
// From Rust 1.87 on the instruction is safe here.
#[allow(unused_unsafe)]
unsafe fn by_instruction(rest: u32, bytes: &[u8]) -> u32 {
    let words = bytes.chunks_exact(8);
    let few = words.remainder();
    let mut rest = u64::from(rest);
    for word in words.filter_map(|word| word.first_chunk()) {
        let word = u64::from_le_bytes(*word);
        // SAFETY: the caller says that the processor has it.
        rest = unsafe { std::arch::x86_64::_mm_crc32_u64(rest, word) };
    }
    by_table(rest as u32, few)
}

fn by_table(rest: u32, bytes: &[u8]) -> u32 {
    let words = bytes.chunks_exact(8);
    let few = words.remainder();
    let rest = words.fold(rest, |rest, word| {
        let first = u32::from_le_bytes([word[0], word[1], word[2], word[3]]) ^ rest;
        let first = first.to_le_bytes();
        let word = first.iter().chain(&word[4..]);
        let shares = word.zip(TABLES.iter().rev());
        shares.fold(0, |sum, (byte, table)| sum ^ table[usize::from(*byte)])
    });
    few.iter().fold(rest, |rest, byte| {
        (rest >> 8) ^ TABLES[0][usize::from(rest as u8 ^ byte)]
    })
}

#[cfg(test)]
mod tests {
    use super::{by_table, crc32c};
    use std::array;

    #[test]
    fn known_sums() {
        assert_eq!(crc32c(&[]), 0);
        assert_eq!(crc32c(&[b"123456789"]), 0xe306_9283);
        assert_eq!(!by_table(!0, b"123456789"), 0xe306_9283);
        // RFC 3720, B.4: 32 bytes of zeros, of ones, and those from 0 to 31.
        let rising: [u8; 32] = array::from_fn(|at| at as u8);
        for (bytes, sum) in [
            ([0; 32], 0x8a91_36aa),
            ([255; 32], 0x62a8_ab43),
            (rising, 0x46dd_794e),
        ] {
            for parted in 0..=32 {
                let parts = [&bytes[..parted], &bytes[parted..]];
                assert_eq!(crc32c(&parts), sum);
                let by_tables = parts.iter().fold(!0, |rest, part| by_table(rest, part));
                assert_eq!(!by_tables, sum);
            }
        }
    }
}
