//! Seeded random values (SplitMix64): the same on every machine and in every run.

use flamivorse::KEY_LIMIT;

/// Words at the edges of the range.
pub const EDGES: [u32; 5] = [0, 1, 0x7fff_ffff, 0x8000_0000, 0xffff_ffff];

/// A generator. A copy gives the same values again.
#[derive(Clone)]
pub struct Random(u64);

impl Random {
    pub fn new(seed: u64) -> Random {
        Random(seed)
    }

    pub fn word(&mut self) -> u32 {
        self.0 = self.0.wrapping_add(0x9e37_79b9_7f4a_7c15);
        let z = (self.0 ^ (self.0 >> 30)).wrapping_mul(0xbf58_476d_1ce4_e5b9);
        let z = (z ^ (z >> 27)).wrapping_mul(0x94d0_49bb_1331_11eb);
        (z >> 32) as u32
    }

    pub fn edge(&mut self) -> u32 {
        EDGES[self.below(EDGES.len())]
    }

    /// A number of 64 bits.
    pub fn number(&mut self) -> usize {
        (self.word() as usize) << 32 | self.word() as usize
    }

    /// A number below the limit.
    pub fn below(&mut self, limit: usize) -> usize {
        self.word() as usize % limit
    }

    /// How long a key is: mostly at most a block. One in four is longer, and hashed; most of these
    /// are not much longer, since each block more draws the words of another compression.
    pub fn key_length(&mut self) -> usize {
        match self.below(32) {
            0 => self.below(KEY_LIMIT + 1),
            1..=7 => 65 + self.below(136),
            _ => self.below(65),
        }
    }

    pub fn words(&mut self, count: usize) -> Vec<u32> {
        (0..count).map(|_| self.word()).collect()
    }

    pub fn bytes(&mut self, count: usize) -> Vec<u8> {
        (0..count).map(|_| self.word() as u8).collect()
    }
}
