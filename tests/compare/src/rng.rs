//! SplitMix64: small, fast, and the same everywhere.

/// A source of random numbers.
pub struct Rng(u64);

impl Rng {
    /// The source that starts from a seed.
    pub fn new(seed: u64) -> Rng {
        Rng(seed)
    }

    /// The next 64 bits.
    pub fn word(&mut self) -> u64 {
        self.0 = self.0.wrapping_add(0x9E37_79B9_7F4A_7C15);
        let mut z = self.0;
        z = (z ^ (z >> 30)).wrapping_mul(0xBF58_476D_1CE4_E5B9);
        z = (z ^ (z >> 27)).wrapping_mul(0x94D0_49BB_1331_11EB);
        z ^ (z >> 31)
    }

    /// A number below `bound`, which is not 0.
    pub fn below(&mut self, bound: usize) -> usize {
        (self.word() % bound as u64) as usize
    }

    /// One of several choices.
    pub fn pick<T: Copy>(&mut self, choices: &[T]) -> T {
        choices[self.below(choices.len())]
    }

    /// The next byte.
    pub fn byte(&mut self) -> u8 {
        self.word() as u8
    }

    /// The next bytes.
    pub fn bytes(&mut self, len: usize) -> Vec<u8> {
        (0..len).map(|_| self.byte()).collect()
    }
}

/// The seed of case `number` of a group, from the seed of the run.
pub fn case_seed(run: u64, group: &str, number: usize) -> u64 {
    let named = group
        .bytes()
        .fold(run, |seed, byte| Rng::new(seed ^ u64::from(byte)).word());
    Rng::new(named ^ number as u64).word()
}
