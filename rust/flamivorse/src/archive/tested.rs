//! What the rules say of the hashes, for the tests beside this file.

use crate::{Hash, Sha1, Sha256};

/// A hash with its number, the words of its chain, and how many words a compression draws for each
/// n(n − 1).
pub(super) trait Tested: Hash {
    type Other: Tested;
    const CODE: u32;
    const WORDS: usize;
    const DRAWS: u64;

    /// The bytes of a tag.
    const TAG: usize = 4 * Self::WORDS;

    /// How many words a compression draws at n shares, modulo 2^64.
    fn compression_words(n: usize) -> u64 {
        let n = n as u64;
        n.wrapping_mul(n.wrapping_sub(1)).wrapping_mul(Self::DRAWS)
    }
}

impl Tested for Sha1 {
    type Other = Sha256;
    const CODE: u32 = 0;
    const WORDS: usize = 5;
    const DRAWS: u64 = 5220;
}

impl Tested for Sha256 {
    type Other = Sha1;
    const CODE: u32 = 1;
    const WORDS: usize = 8;
    const DRAWS: u64 = 9664;
}
