//! Seeded random numbers (splitmix64), so that every run repeats.

#[derive(Clone, Debug)]
pub struct Rng(u64);

impl Rng {
    pub fn new(seed: u64) -> Self {
        Rng(seed)
    }

    pub fn seed(&mut self) -> u64 {
        self.0 = self.0.wrapping_add(0x9E37_79B9_7F4A_7C15);
        let mut z = self.0;
        z = (z ^ (z >> 30)).wrapping_mul(0xBF58_476D_1CE4_E5B9);
        z = (z ^ (z >> 27)).wrapping_mul(0x94D0_49BB_1331_11EB);
        z ^ (z >> 31)
    }

    pub fn word(&mut self) -> u32 {
        (self.seed() >> 32) as u32
    }

    /// 0 to `bound` - 1.
    pub fn below(&mut self, bound: u32) -> u32 {
        self.word() % bound
    }

    /// `first` to `last`.
    pub fn between(&mut self, first: u32, last: u32) -> u32 {
        first + self.below(last - first + 1)
    }

    pub fn percent(&mut self, chance: u32) -> bool {
        self.below(100) < chance
    }

    pub fn pick<T: Copy>(&mut self, list: &[T]) -> T {
        list[self.below(list.len() as u32) as usize]
    }

    /// The place of a weight, chosen in proportion to it.
    pub fn weighted(&mut self, weights: &[u32]) -> usize {
        let mut left = self.below(weights.iter().sum());
        for (place, &weight) in weights.iter().enumerate() {
            if left < weight {
                return place;
            }
            left -= weight;
        }
        unreachable!("the weights' sum is the bound")
    }

    /// A flash or program word: often erased, often with few zeros.
    pub fn flash_word(&mut self) -> u32 {
        match self.below(8) {
            0 | 1 => u32::MAX,
            2 => !(1 << self.below(32)),
            3 => self.word() | self.word(),
            4 => self.pick(&[0, 0xFFFF_0000, 0x5555_5555, 1, 1 << 31]),
            _ => self.word(),
        }
    }

    pub fn flash_words(&mut self, length: usize) -> Vec<u32> {
        (0..length).map(|_| self.flash_word()).collect()
    }
}
