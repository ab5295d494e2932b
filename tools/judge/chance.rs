//! Numbers by chance; the same seed gives the same numbers.
use crate::kinds::LONGEST;

/// xorshift64*
pub struct Chance(u64);

impl Chance {
    pub fn new(seed: u64) -> Chance {
        Chance(seed.wrapping_mul(0x9E37_79B9_7F4A_7C15).max(1))
    }

    fn next(&mut self) -> u64 {
        self.0 ^= self.0 >> 12;
        self.0 ^= self.0 << 25;
        self.0 ^= self.0 >> 27;
        self.0.wrapping_mul(0x2545_F491_4F6C_DD1D)
    }

    pub fn below(&mut self, n: usize) -> usize {
        ((self.next() >> 11) % n as u64) as usize
    }

    pub fn byte(&mut self) -> u8 {
        (self.next() >> 56) as u8
    }

    pub fn bytes(&mut self, n: usize) -> Vec<u8> {
        let mut v = vec![0; n];
        for c in v.chunks_mut(8) {
            let w = self.next().to_le_bytes();
            c.copy_from_slice(&w[..c.len()]);
        }
        v
    }

    /// A length: most are short, one in two hundred can be any.
    pub fn size(&mut self) -> usize {
        let below = match self.below(200) {
            0 => LONGEST + 2,
            1..=9 => 9000,
            10..=89 => 300,
            _ => 40,
        };
        self.below(below)
    }

    /// Usually a byte up to n, sometimes any byte.
    pub fn mostly_up_to(&mut self, n: u8) -> u8 {
        if self.below(6) == 0 { self.byte() } else { self.from_to(0, n) }
    }

    pub fn from_to(&mut self, low: u8, high: u8) -> u8 {
        low + self.below(usize::from(high - low) + 1) as u8
    }
}
