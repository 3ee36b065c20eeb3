//! The hashes that HMAC is over, as the rules have them.

/// A hash, by the number that names it in a state.
#[derive(Clone, Copy, Debug, PartialEq)]
pub enum Hash {
    Sha1 = 0,
    Sha256 = 1,
}

impl Hash {
    /// The number that names it in a state.
    pub const fn code(self) -> u32 {
        self as u32
    }

    /// The other one.
    pub const fn other(self) -> Hash {
        match self {
            Hash::Sha1 => Hash::Sha256,
            Hash::Sha256 => Hash::Sha1,
        }
    }

    /// The words of its chain, which are those of a digest and of a tag.
    pub const fn words(self) -> usize {
        match self {
            Hash::Sha1 => 5,
            Hash::Sha256 => 8,
        }
    }

    /// The bytes of a tag.
    pub const fn tag_bytes(self) -> usize {
        4 * self.words()
    }

    /// How many words a compression draws at n shares, modulo 2^64.
    pub fn compression_words(self, n: usize) -> u64 {
        let draws: u64 = match self {
            Hash::Sha1 => 5220,
            Hash::Sha256 => 9664,
        };
        let n = n as u64;
        n.wrapping_mul(n.wrapping_sub(1)).wrapping_mul(draws)
    }
}
