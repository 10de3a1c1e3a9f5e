//! A source of numbers that is fixed by its seed.

/// A source of numbers: the same seed gives the same numbers.
#[derive(Clone, Debug)]
pub struct Random {
    state: u64,
}

impl Random {
    /// Starts a source from a seed.
    pub fn new(seed: u64) -> Self {
        Random { state: seed }
    }

    /// Starts a source from a seed and a case number, so that each case can be made alone.
    pub fn for_case(seed: u64, number: u64) -> Self {
        let mut first = Random::new(seed);
        let mut second = Random::new(first.word() ^ number);
        Random::new(second.word())
    }

    /// The next number of 64 bits (the method named splitmix64).
    pub fn word(&mut self) -> u64 {
        self.state = self.state.wrapping_add(0x9E37_79B9_7F4A_7C15);
        let mut word = self.state;
        word = (word ^ (word >> 30)).wrapping_mul(0xBF58_476D_1CE4_E5B9);
        word = (word ^ (word >> 27)).wrapping_mul(0x94D0_49BB_1331_11EB);
        word ^ (word >> 31)
    }

    /// A number from 0 up to, but not including, `limit`; 0 when the limit is 0.
    pub fn below(&mut self, limit: usize) -> usize {
        match limit {
            0 => 0,
            _ => (self.word() % limit as u64) as usize,
        }
    }

    /// A number from `first` to `last`, both included.
    pub fn between(&mut self, first: usize, last: usize) -> usize {
        first + self.below(last - first + 1)
    }

    /// True once in `count` times, on average.
    pub fn once_in(&mut self, count: usize) -> bool {
        self.below(count) == 0
    }

    /// One byte.
    pub fn byte(&mut self) -> u8 {
        self.word() as u8
    }

    /// Some bytes.
    pub fn bytes(&mut self, count: usize) -> Vec<u8> {
        (0..count).map(|_| self.byte()).collect()
    }

    /// One of the given values.
    pub fn pick<T: Copy>(&mut self, values: &[T]) -> T {
        values[self.below(values.len())]
    }
}
