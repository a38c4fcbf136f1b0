//! Random numbers, the same for the same seed.

pub struct Random(u64);

impl Random {
    pub fn new(seed: u64) -> Random {
        // Near seeds are spread apart, and 0, at which the numbers would stay, is avoided.
        let mixed = (seed ^ seed >> 31).wrapping_add(0x9E37_79B9_7F4A_7C15).wrapping_mul(0xBF58_476D_1CE4_E5B9);
        let mut random = Random((mixed ^ mixed >> 29) | 1);
        random.any();
        random
    }

    /// Any word.
    pub fn any(&mut self) -> u64 {
        self.0 ^= self.0 << 13;
        self.0 ^= self.0 >> 7;
        self.0 ^= self.0 << 17;
        self.0.wrapping_mul(0x2545_F491_4F6C_DD1D)
    }

    /// A number below n, which is not 0.
    pub fn below(&mut self, n: u64) -> u64 {
        (self.any() >> 11) % n
    }

    pub fn within(&mut self, from: u64, to: u64) -> u64 {
        from + self.below(to - from + 1)
    }

    pub fn percent(&mut self, chance: u64) -> bool {
        self.below(100) < chance
    }

    /// An element: any u64 is one, and small and extreme ones are likely.
    pub fn element(&mut self) -> u64 {
        match self.below(8) {
            0 => 0,
            1 => u64::MAX,
            2 => self.below(64),
            _ => self.any(),
        }
    }

    /// A number that is no index of any list, or hardly ever.
    pub fn huge(&mut self) -> u64 {
        match self.below(5) {
            0 => u64::MAX,
            1 => 1 << 63,
            2 => 1 << 32,
            3 => u64::MAX - self.below(100),
            _ => self.any(),
        }
    }
}
