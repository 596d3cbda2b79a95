//! Numbers at random, the same from the same seed.

pub(crate) struct Random(pub(crate) u64);

impl Random {
    /// The next number, which is below the bound.
    pub(crate) fn below(&mut self, bound: usize) -> usize {
        self.0 = self.0.wrapping_add(0x9e37_79b9_7f4a_7c15);
        let mut word = self.0;
        for factor in [0xbf58_476d_1ce4_e5b9, 0x94d0_49bb_1331_11eb] {
            word = (word ^ word >> 30).wrapping_mul(factor);
        }
        ((word ^ word >> 31) % bound as u64) as usize
    }
}
