//! Random numbers and bytes that are the same on every machine: splitmix64 from a seed.

/// A source of random numbers, fixed by its seed.
#[derive(Clone, Debug)]
pub struct Noise {
    state: u64,
}

impl Noise {
    pub fn new(seed: u64) -> Noise {
        Noise { state: seed }
    }

    /// Any 64-bit number.
    pub fn number(&mut self) -> u64 {
        self.state = self.state.wrapping_add(0x9E37_79B9_7F4A_7C15);
        let mut z = self.state;
        z = (z ^ (z >> 30)).wrapping_mul(0xBF58_476D_1CE4_E5B9);
        z = (z ^ (z >> 27)).wrapping_mul(0x94D0_49BB_1331_11EB);
        z ^ (z >> 31)
    }

    /// A number below `bound`, which is above 0.
    pub fn below(&mut self, bound: u64) -> u64 {
        ((u128::from(self.number()) * u128::from(bound)) >> 64) as u64
    }

    /// A number from `low` to `high`, both included.
    pub fn between(&mut self, low: u64, high: u64) -> u64 {
        match (high - low).checked_add(1) {
            Some(width) => low + self.below(width),
            None => self.number(),
        }
    }

    /// True once in `times` times.
    pub fn once_in(&mut self, times: u64) -> bool {
        self.below(times) == 0
    }

    /// One of the choices.
    pub fn pick<T: Copy>(&mut self, choices: &[T]) -> T {
        choices[self.below(choices.len() as u64) as usize]
    }

    /// Fills the bytes, eight to a number.
    pub fn fill(&mut self, bytes: &mut [u8]) {
        for group in bytes.chunks_mut(8) {
            let number = self.number().to_le_bytes();
            group.copy_from_slice(&number[..group.len()]);
        }
    }

    /// That many random bytes.
    pub fn bytes(&mut self, length: usize) -> Vec<u8> {
        let mut bytes = vec![0; length];
        self.fill(&mut bytes);
        bytes
    }

    /// A log of that many bytes, of one of the kinds that try a cutter: random, one byte throughout, a short run over and
    /// over, few bytes that are not 0, or random with a stretch of zeros.
    pub fn log(&mut self, length: usize) -> Vec<u8> {
        match self.below(6) {
            0 => vec![self.number() as u8; length],
            1 => {
                let run = self.between(1, 100) as usize;
                self.bytes(run).into_iter().cycle().take(length).collect()
            }
            2 => {
                let gap = self.between(1, 200);
                (0..length).map(|_| u8::from(self.once_in(gap))).collect()
            }
            3 => {
                let mut log = self.bytes(length);
                let start = self.between(0, length as u64) as usize;
                let end = self.between(start as u64, length as u64) as usize;
                log[start..end].fill(0);
                log
            }
            _ => self.bytes(length),
        }
    }
}

#[cfg(test)]
mod tests {
    use super::Noise;

    #[test]
    fn the_numbers_are_splitmix64s() {
        let mut noise = Noise::new(1_234_567);
        let first: Vec<u64> = (0..3).map(|_| noise.number()).collect();
        assert_eq!(first, [6_457_827_717_110_365_317, 3_203_168_211_198_807_973, 9_817_491_932_198_370_423]);
    }

    #[test]
    fn a_seed_fixes_the_bytes() {
        assert_eq!(Noise::new(7).bytes(100), Noise::new(7).bytes(100));
        assert_ne!(Noise::new(7).bytes(100), Noise::new(8).bytes(100));
        assert_eq!(Noise::new(7).bytes(13), Noise::new(7).bytes(100)[..13]);
    }

    #[test]
    fn choices_stay_within_their_bounds() {
        let mut noise = Noise::new(1);
        for _ in 0..1_000 {
            assert!(noise.below(3) < 3);
            assert!((5..=6).contains(&noise.between(5, 6)));
            noise.between(0, u64::MAX);
            assert!([2, 4].contains(&noise.pick(&[2, 4])));
            let length = noise.below(500) as usize;
            assert_eq!(noise.log(length).len(), length);
        }
    }
}
