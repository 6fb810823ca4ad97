//! Splitmix64: small, seeded, the same everywhere.

pub struct Random(u64);

impl Random {
    /// The numbers of one case: each case of a seed has its own, whatever ran before it.
    pub fn of(seed: u64, case: u64) -> Random {
        let mut random = Random(seed);
        random.0 = random.next() ^ Random(case).next();
        random
    }

    /// As many others for each case, such as no small seed has.
    pub fn of_edition_2(seed: u64, case: u64) -> Random {
        Random::of(!seed, case)
    }

    /// Likewise, once more.
    pub fn of_tables(seed: u64, case: u64) -> Random {
        Random::of(seed ^ 1 << 63, case)
    }

    fn next(&mut self) -> u64 {
        self.0 = self.0.wrapping_add(0x9E37_79B9_7F4A_7C15);
        let mut z = self.0;
        z = (z ^ (z >> 30)).wrapping_mul(0xBF58_476D_1CE4_E5B9);
        z = (z ^ (z >> 27)).wrapping_mul(0x94D0_49BB_1331_11EB);
        z ^ (z >> 31)
    }

    /// A number from 0 to `bound` - 1.
    pub fn below(&mut self, bound: usize) -> usize {
        (self.next() % bound as u64) as usize
    }

    /// A number from 0 to `most`.
    pub fn up_to(&mut self, most: u8) -> u8 {
        self.below(usize::from(most) + 1) as u8
    }

    pub fn one_in(&mut self, n: usize) -> bool {
        self.below(n) == 0
    }

    pub fn pick<T: Copy>(&mut self, items: &[T]) -> T {
        items[self.below(items.len())]
    }

    pub fn bytes(&mut self, length: usize) -> Vec<u8> {
        (0..length).map(|_| self.up_to(255)).collect()
    }
}
