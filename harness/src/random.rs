//! Numbers that only have to vary: xorshift, from a seed that is printed.

pub struct Dice(u64);

impl Dice {
    pub fn new(seed: u64) -> Dice {
        // seeds that are neighbours are to begin far apart, and no state may be 0
        let spread = seed.wrapping_add(1).wrapping_mul(0x9e37_79b9_7f4a_7c15);
        Dice((spread ^ (spread >> 31)) | 1)
    }

    pub fn next(&mut self) -> u64 {
        self.0 ^= self.0 << 13;
        self.0 ^= self.0 >> 7;
        self.0 ^= self.0 << 17;
        self.0.wrapping_mul(0x2545_f491_4f6c_dd1d) >> 8
    }

    pub fn below(&mut self, n: u64) -> u64 {
        self.next() % n
    }

    /// Both ends may come.
    pub fn between(&mut self, low: u64, high: u64) -> u64 {
        low + self.below(high - low + 1)
    }

    pub fn percent(&mut self, chance: u64) -> bool {
        self.below(100) < chance
    }

    pub fn one_of<T: Copy>(&mut self, these: &[T]) -> T {
        these[self.below(these.len() as u64) as usize]
    }

    /// A number of at most so many bits, small ones as likely as large ones.
    pub fn of_any_size(&mut self, bits: u64) -> u64 {
        let bits = self.between(1, bits);
        self.below(1 << bits)
    }
}
