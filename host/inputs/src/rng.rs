//! Pseudo-random numbers (SplitMix64): short, seeded, the same everywhere.

/// A sequence of pseudo-random numbers.
#[derive(Clone)]
pub struct Rng(u64);

impl Rng {
    /// The sequence of this seed.
    pub fn new(seed: u64) -> Rng {
        Rng(seed)
    }

    /// The next 64 bits.
    pub fn bits(&mut self) -> u64 {
        self.0 = self.0.wrapping_add(0x9E37_79B9_7F4A_7C15);
        let mut z = self.0;
        z = (z ^ z >> 30).wrapping_mul(0xBF58_476D_1CE4_E5B9);
        z = (z ^ z >> 27).wrapping_mul(0x94D0_49BB_1331_11EB);
        z ^ z >> 31
    }

    /// A number below `bound`, which is not zero.
    pub fn below(&mut self, bound: usize) -> usize {
        (self.bits() % bound as u64) as usize
    }

    /// One byte.
    pub fn byte(&mut self) -> u8 {
        self.bits() as u8
    }

    /// `n` bytes.
    pub fn bytes(&mut self, n: usize) -> Vec<u8> {
        let mut bytes: Vec<u8> = Vec::with_capacity(n + 7);
        while bytes.len() < n {
            bytes.extend_from_slice(&self.bits().to_be_bytes());
        }
        bytes.truncate(n);
        bytes
    }

    /// One of the choices, of which there is at least one.
    pub fn pick<T: Copy>(&mut self, choices: &[T]) -> T {
        choices[self.below(choices.len())]
    }

    /// 0, a small offset, the largest one that is accepted, or one between.
    pub fn offset(&mut self) -> u64 {
        match self.below(4) {
            0 => 0,
            1 => self.below(1_500) as u64,
            2 => crate::MOST_OFFSET,
            _ => self.bits() % (crate::MOST_OFFSET + 1),
        }
    }
}
