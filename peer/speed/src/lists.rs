//! The lists that are coded: the same in every run.

/// Where the numbers start.
const SEED: u64 = 0x9E37_79B9_7F4A_7C15;

/// How many elements all lists of a case have together, if that is more than a few lists.
const ELEMENTS: usize = 16_384;
/// The fewest lists of a case.
const FEWEST: usize = 4;

/// Numbers that look random, by shifts and XOR.
struct Numbers(u64);

impl Numbers {
    fn next(&mut self) -> u64 {
        self.0 ^= self.0 << 13;
        self.0 ^= self.0 >> 7;
        self.0 ^= self.0 << 17;
        self.0
    }

    /// An element from 0 to `highest`, which is one less than a power of two.
    fn element(&mut self, highest: u8) -> u8 {
        (self.next() >> 32) as u8 & highest
    }
}

/// Different lists of `length` elements from 0 to `highest`, so many that no branch can be known
/// by heart and so few that all stay in the caches.
pub fn lists(length: usize, highest: u8) -> Vec<Vec<u8>> {
    let mut numbers = Numbers(SEED);
    let count = (ELEMENTS / length).max(FEWEST);
    let list = |_| (0..length).map(|_| numbers.element(highest)).collect();
    (0..count).map(list).collect()
}
