//! Numbers for the cases that the programs under src/bin make up.

/// SplitMix64, from a fixed seed.
pub struct Random(pub u64);

impl Random {
    pub fn next(&mut self) -> u64 {
        self.0 = self.0.wrapping_add(0x9E37_79B9_7F4A_7C15);
        let mut z = self.0;
        z = (z ^ (z >> 30)).wrapping_mul(0xBF58_476D_1CE4_E5B9);
        z = (z ^ (z >> 27)).wrapping_mul(0x94D0_49BB_1331_11EB);
        z ^ (z >> 31)
    }

    pub fn below(&mut self, n: usize) -> usize {
        (self.next() % n as u64) as usize
    }

    pub fn byte(&mut self) -> u8 {
        (self.next() >> 24) as u8
    }

    pub fn of<T: Copy>(&mut self, items: &[T]) -> T {
        items[self.below(items.len())]
    }

    /// A copy with a byte or a bit changed, cut short, with a byte more, or with some bytes at values that mean something.
    pub fn damaged(&mut self, chunk: &[u8]) -> Vec<u8> {
        let mut d = chunk.to_vec();
        let i = self.below(d.len());
        match self.below(5) {
            0 => d[i] = self.next() as u8,
            1 => d[i] ^= 1 << self.below(8),
            2 => d.truncate(i),
            3 => d.insert(i, self.next() as u8),
            _ => {
                for _ in 0..=self.below(6) {
                    let i = self.below(d.len());
                    d[i] = self.of(&[0, 1, 2, 4, 0xFF, 0x80, 0xC2, 0xE2]);
                }
            }
        }
        d
    }
}
