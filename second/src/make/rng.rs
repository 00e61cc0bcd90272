//! A small generator of random numbers (SplitMix64): the same seed, the same numbers.

pub struct Rng(u64);

impl Rng {
    /// `purpose` keeps the logs, the call files and the sheets of one seed apart.
    pub fn new(seed: u64, purpose: u64) -> Rng {
        let mut rng = Rng(purpose.wrapping_mul(0xD134_2543_DE82_EF95));
        rng.0 ^= rng.next().wrapping_add(seed);
        rng.next();
        rng
    }

    fn next(&mut self) -> u64 {
        self.0 = self.0.wrapping_add(0x9E37_79B9_7F4A_7C15);
        let mixed = (self.0 ^ self.0 >> 30).wrapping_mul(0xBF58_476D_1CE4_E5B9);
        let mixed = (mixed ^ mixed >> 27).wrapping_mul(0x94D0_49BB_1331_11EB);
        mixed ^ mixed >> 31
    }

    /// A number from 0 to n - 1; n is not 0.
    pub fn below(&mut self, n: u64) -> u64 {
        (self.next() >> 11) % n
    }

    /// An index into n things.
    pub fn index(&mut self, n: usize) -> usize {
        self.below(n as u64) as usize
    }

    /// A number from the first to the last.
    pub fn between(&mut self, first: u64, last: u64) -> u64 {
        first + self.below(last - first + 1)
    }

    /// True so many times in a hundred.
    pub fn chance(&mut self, percent: u64) -> bool {
        self.below(100) < percent
    }

    pub fn pick<T: Copy>(&mut self, things: &[T]) -> T {
        things[self.index(things.len())]
    }

    /// A number of so many bits.
    pub fn number(&mut self, width: u64) -> u64 {
        (0..width).fold(0, |number, _| number << 1 | self.below(2))
    }

    pub fn bits(&mut self, length: usize) -> Vec<bool> {
        (0..length).map(|_| self.below(2) == 1).collect()
    }

    pub fn bytes(&mut self, length: usize) -> Vec<u8> {
        (0..length).map(|_| self.below(256) as u8).collect()
    }
}
