//! A small generator of numbers, the same for the same seed.

pub struct Random(u64);

impl Random {
    pub fn new(seed: u64) -> Random {
        // splitmix64, so that near seeds give far numbers; xorshift needs a state that is not 0
        let mut z = seed.wrapping_add(0x9E37_79B9_7F4A_7C15);
        z = (z ^ (z >> 30)).wrapping_mul(0xBF58_476D_1CE4_E5B9);
        z = (z ^ (z >> 27)).wrapping_mul(0x94D0_49BB_1331_11EB);
        Random((z ^ (z >> 31)) | 1)
    }

    pub fn next(&mut self) -> u64 {
        self.0 ^= self.0 << 13;
        self.0 ^= self.0 >> 7;
        self.0 ^= self.0 << 17;
        self.0
    }

    /// A number below `bound`, which is not 0.
    pub fn below(&mut self, bound: u64) -> u64 {
        (self.next() >> 8) % bound
    }

    /// A number from `low` to `high`.
    pub fn within(&mut self, low: u64, high: u64) -> u64 {
        low + self.below(high - low + 1)
    }

    /// True `percent` times of a hundred.
    pub fn chance(&mut self, percent: u64) -> bool {
        self.below(100) < percent
    }

    pub fn pick<T: Copy>(&mut self, items: &[T]) -> T {
        items[self.below(items.len() as u64) as usize]
    }

    /// A number of any size, often one at the edge of a field.
    pub fn wild(&mut self) -> u64 {
        let edge: u64 = self.pick(&[0, 1 << 31, 1 << 32, 1 << 63, 256, 8_192]);
        let shift = self.below(64);
        match self.below(3) {
            0 => edge.wrapping_add(self.below(4)).wrapping_sub(2),
            1 => self.next() >> shift,
            _ => self.below(200),
        }
    }

    pub fn bytes(&mut self, count: usize) -> Vec<u8> {
        let words = (0..count.div_ceil(8)).flat_map(|_| self.next().to_le_bytes());
        words.take(count).collect()
    }

    /// Map words: none set, all set, or some.
    pub fn map(&mut self, count: usize) -> Vec<u64> {
        match self.below(4) {
            0 => vec![0; count],
            1 => vec![u64::MAX; count],
            2 => (0..count)
                .map(|_| self.next() & self.next() & self.next())
                .collect(),
            _ => (0..count).map(|_| self.next()).collect(),
        }
    }
}
