//! The seeded generator that all inputs are drawn from (splitmix64).

pub struct Random(u64);

impl Random {
    /// Each stream of a seed is drawn on its own.
    pub fn new(seed: u64, stream: u64) -> Self {
        let mut random = Random(seed);
        random.0 = random.next() ^ stream;
        random.0 = random.next();
        random
    }

    pub fn next(&mut self) -> u64 {
        self.0 = self.0.wrapping_add(0x9E37_79B9_7F4A_7C15);
        let mut mixed = self.0;
        mixed = (mixed ^ (mixed >> 30)).wrapping_mul(0xBF58_476D_1CE4_E5B9);
        mixed = (mixed ^ (mixed >> 27)).wrapping_mul(0x94D0_49BB_1331_11EB);
        mixed ^ (mixed >> 31)
    }

    pub fn below(&mut self, bound: usize) -> usize {
        (self.next() % bound as u64) as usize
    }

    pub fn between(&mut self, least: usize, most: usize) -> usize {
        least + self.below(most - least + 1)
    }

    pub fn one_in(&mut self, chances: usize) -> bool {
        self.below(chances) == 0
    }

    pub fn pick<T: Copy>(&mut self, from: &[T]) -> T {
        from[self.below(from.len())]
    }

    pub fn flag(&mut self) -> u64 {
        self.bits(1)
    }

    /// Any number of n bits.
    pub fn bits(&mut self, n: usize) -> u64 {
        self.next() >> (64 - n)
    }

    /// A number of n bits, often its least or greatest ones.
    pub fn edge(&mut self, n: usize) -> u64 {
        let most = u64::MAX >> (64 - n);
        match self.below(8) {
            0 => 0,
            1 => 1,
            2 => most,
            3 => most - 1,
            4 => most / 2,
            5 => most / 2 + 1,
            _ => self.bits(n),
        }
    }

    pub fn bytes(&mut self, count: usize) -> Vec<u8> {
        (0..count).map(|_| self.bits(8) as u8).collect()
    }
}
