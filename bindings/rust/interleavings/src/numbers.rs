//! Numbers that grow without end, made small again.

/// Numbers that are compared with each other, and nothing else.
#[derive(Default)]
pub struct Numbers(u64);

impl Numbers {
    pub fn add(&mut self, number: u8) {
        self.0 |= 1 << number;
    }

    /// How many of them are less: so it stands for the number.
    pub fn rank(&self, number: u8) -> u8 {
        (self.0 & ((1 << number) - 1)).count_ones() as u8
    }
}
