//! Marsaglia's xorshift, 64 bits, and numbers at the limits. bench/ uses this file too.

#![allow(dead_code)]

pub struct Random(u64);

impl Random {
    pub fn new(seed: u64) -> Random {
        Random(seed.wrapping_mul(0x9e37_79b9_7f4a_7c15) | 1)
    }

    pub fn next(&mut self) -> u64 {
        self.0 ^= self.0 << 13;
        self.0 ^= self.0 >> 7;
        self.0 ^= self.0 << 17;
        self.0
    }

    pub fn below(&mut self, limit: u64) -> u64 {
        (self.next() >> 11) % limit
    }

    pub fn word(&mut self) -> u32 {
        (self.next() >> 16) as u32
    }
}

/// Small numbers, the largest ones, and those around each power of two, below 2^bits.
pub fn limits(bits: u32) -> Vec<u64> {
    let most = u64::MAX >> (64 - bits);
    let mut numbers: Vec<u64> = (0..=20).chain(most - 8..=most).collect();
    for power in 5..bits {
        numbers.extend((1u64 << power) - 2..=(1u64 << power) + 2);
    }
    numbers
}
