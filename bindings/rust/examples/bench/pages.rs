//! What stands in the pages of the benches, and in which order they are used.

/// The word at an offset.
#[inline]
pub fn word(bytes: &[u8], at: usize) -> u64 {
    let mut word = [0; 8];
    word.copy_from_slice(&bytes[at..at + 8]);
    u64::from_le_bytes(word)
}

/// The sum of all words.
pub fn sum_of(bytes: &[u8]) -> u64 {
    let words = bytes.chunks_exact(8);
    words.fold(0, |sum, bytes| sum.wrapping_add(word(bytes, 0)))
}

/// The sum of the two words from byte 64 on.
#[inline]
pub fn two_words(bytes: &[u8]) -> u64 {
    word(bytes, 64).wrapping_add(word(bytes, 72))
}

/// Puts the number of a page in each of its words.
pub fn fill(page: u64, image: &mut [u8]) {
    let words = image.chunks_exact_mut(8);
    words.for_each(|word| word.copy_from_slice(&page.to_le_bytes()));
}

/// The number in a variable of the environment, or another.
pub fn asked_for(name: &str, otherwise: u64) -> Result<u64, std::num::ParseIntError> {
    std::env::var(name).map_or(Ok(otherwise), |told| told.parse())
}

/// Numbers at random, as `peers/c/threads.h` has them.
pub struct Numbers(u64);

impl Numbers {
    /// Those of a thread.
    pub fn of_thread(thread: u64) -> Numbers {
        Numbers(thread * 7919 + 1)
    }

    /// The next one, which is below the end.
    #[inline]
    pub fn next(&mut self, end: u64) -> u64 {
        let state = self.0.wrapping_mul(6_364_136_223_846_793_005);
        self.0 = state.wrapping_add(1_442_695_040_888_963_407);
        (self.0 >> 33) % end
    }
}

/// A B+tree of three levels: a root, full inner nodes, as many as there is room for, and full leaves.
/// A node has its number, how many entries it has, and from byte 32 on these: a key and a child, or
/// in a leaf a key and 64 bytes of value, of which the first word is the key and 7. The keys are the
/// even numbers. With 4,096 bytes these are 16 inner nodes of 254 children, with 56 rows in each
/// leaf.
pub mod tree {
    use super::word;

    pub const LEVELS: u32 = 3;
    const HEAD: usize = 32;
    const STEP: usize = 16;
    const LEAF_STEP: usize = 72;

    /// How many bytes an entry has.
    fn step(level: u32) -> usize {
        if level + 1 == LEVELS { LEAF_STEP } else { STEP }
    }

    pub struct Tree {
        inners: u64,
        children: u64,
        rows: u64,
    }

    impl Tree {
        /// The tree for pages of this size, of which so many are there at most.
        pub fn new(size: usize, most: u64) -> Tree {
            let children = ((size - HEAD) / STEP) as u64;
            Tree {
                inners: children.min((most - 1) / (children + 1)),
                children,
                rows: ((size - HEAD) / LEAF_STEP) as u64,
            }
        }

        pub fn pages(&self) -> u64 {
            1 + self.inners + self.inners * self.children
        }

        pub fn keys(&self) -> u64 {
            self.inners * self.children * self.rows
        }

        /// Fills in the node of a page.
        pub fn node(&self, page: u64, image: &mut [u8]) {
            let Tree {
                inners,
                children,
                rows,
            } = *self;
            let (level, count, first, keys, child) = if page == 0 {
                (0, inners, 0, children * rows, 1)
            } else if page <= inners {
                let leaf = (page - 1) * children;
                (1, children, leaf * rows, rows, 1 + inners + leaf)
            } else {
                (2, rows, (page - 1 - inners) * rows, 1, 0)
            };
            let mut put =
                |at: usize, word: u64| image[at..at + 8].copy_from_slice(&word.to_le_bytes());
            put(0, page);
            put(8, count);
            for entry in 0..count {
                let at = HEAD + entry as usize * step(level);
                let key = (first + entry * keys) * 2;
                put(at, key);
                put(at + 8, if level == 2 { key + 7 } else { child + entry });
            }
        }
    }

    /// The child in which a key is, or the first word of its value. Always inlined: else it hangs on the size of the
    /// pager's functions beside it whether it is, and a look-up has a tenth more or fewer instructions.
    #[inline(always)]
    pub fn search(node: &[u8], level: u32, key: u64) -> u64 {
        let at = |entry: usize| HEAD + entry * step(level);
        let (mut low, mut high) = (0, word(node, 8) as usize);
        while high - low > 1 {
            let middle = (low + high) / 2;
            if word(node, at(middle)) <= key {
                low = middle;
            } else {
                high = middle;
            }
        }
        word(node, at(low) + 8)
    }
}
