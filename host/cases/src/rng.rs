//! A small random generator (splitmix64), so that a seed means the same everywhere.

/// A random generator.
pub struct Rng(u64);

impl Rng {
    /// The generator of a seed.
    pub fn new(seed: u64) -> Self {
        Self(seed)
    }

    /// 64 random bits.
    #[allow(clippy::should_implement_trait)] // It has no end, so it is no iterator.
    pub fn next(&mut self) -> u64 {
        self.0 = self.0.wrapping_add(0x9e37_79b9_7f4a_7c15);
        let mut z = self.0;
        z = (z ^ z >> 30).wrapping_mul(0xbf58_476d_1ce4_e5b9);
        z = (z ^ z >> 27).wrapping_mul(0x94d0_49bb_1331_11eb);
        z ^ z >> 31
    }

    /// A number below `end`, which is not 0 and has at most 32 bits.
    pub fn below(&mut self, end: usize) -> usize {
        debug_assert!(end != 0 && end <= u32::MAX as usize);
        (((self.next() >> 32) * end as u64) >> 32) as usize
    }

    /// A byte below `end`.
    pub fn byte_below(&mut self, end: u8) -> u8 {
        self.below(end.into()) as u8
    }

    /// A byte from `first` to `last`.
    pub fn byte_within(&mut self, first: u8, last: u8) -> u8 {
        first + self.byte_below(last - first + 1)
    }

    /// Any byte.
    pub fn byte(&mut self) -> u8 {
        self.next() as u8
    }

    /// True once in `n` times.
    pub fn one_in(&mut self, n: usize) -> bool {
        self.below(n) == 0
    }

    /// One of some values.
    pub fn pick<T: Copy>(&mut self, values: &[T]) -> T {
        values[self.below(values.len())]
    }

    /// A byte that is likely to be at an edge of a rule.
    pub fn edge_byte(&mut self) -> u8 {
        match self.below(4) {
            0 => self.byte(),
            1 => self.byte_below(6),
            _ => self.pick(&[0, 1, 2, 3, 4, 5, 9, 15, 16, 31, 32, 33, 127, 128, 254, 255]),
        }
    }

    /// Makes `bytes` a run of `length` random bytes.
    pub fn fill(&mut self, bytes: &mut Vec<u8>, length: usize) {
        bytes.resize(length, 0);
        for chunk in bytes.chunks_mut(8) {
            let random = self.next().to_le_bytes();
            chunk.copy_from_slice(&random[..chunk.len()]);
        }
    }
}

#[cfg(test)]
mod tests {
    use super::Rng;

    #[test]
    fn it_is_splitmix64() {
        // The first values of the published generator for seed 1234567.
        let mut rng = Rng::new(1_234_567);
        let expected: [u64; 3] = [
            6_457_827_717_110_365_317,
            3_203_168_211_198_807_973,
            9_817_491_932_198_370_423,
        ];
        assert_eq!([rng.next(), rng.next(), rng.next()], expected);
    }

    #[test]
    fn numbers_below_an_end_reach_all_and_no_more() {
        let mut rng = Rng::new(1);
        let mut seen = [0; 7];
        for _ in 0..7000 {
            seen[rng.below(7)] += 1;
        }
        assert!(seen.iter().all(|&count| count > 700));
    }
}
