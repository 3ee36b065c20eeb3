//! What a hash is to the rest of the program: one description, which SHA-1 and SHA-256 both give.
//! Keys, HMAC, streaming and the queries are written once, over it. Both hashes have blocks of 16
//! words and the padding of FIPS 180-4, 5.1.1.

use crate::shared::{public, shared_words, Shared};
use crate::supply::Supply;

/// A compression: a chain and a block of 16 shared words give the new chain, or nothing when the
/// supply runs out.
type Compression = fn(&[Shared], &[Shared], &mut Supply) -> Option<Vec<Shared>>;

/// Everything in which the hashes differ.
pub(crate) struct Hash {
    /// How a state names "the hash it belongs to" (request (xii)).
    pub(crate) code: u32,
    /// The starting chain of FIPS 180-4, 5.3, with as many words as every chain of the hash.
    pub(crate) start: &'static [u32],
    /// The words that one compression draws, over n(n−1).
    pub(crate) draws: u64,
    /// The compression itself.
    pub(crate) compress: Compression,
}

impl Hash {
    /// How many words a chain has, and so a digest.
    pub(crate) fn chain_words(&self) -> usize {
        self.start.len()
    }

    /// How many bytes a digest has, and so a tag.
    pub(crate) fn digest_bytes(&self) -> usize {
        4 * self.chain_words()
    }

    /// What one compression draws at n shares.
    pub(crate) fn compression_words(&self, n: u64) -> u64 {
        self.draws * n * (n - 1)
    }

    /// The starting chain, a public value (section 6).
    pub(crate) fn starting_chain(&self, n: usize) -> Vec<Shared> {
        self.start.iter().map(|&word| public(n, word)).collect()
    }

    /// The chain after blocks of 16 shared words, one after another.
    pub(crate) fn compress_blocks(
        &self,
        chain: Vec<Shared>,
        words: &[Shared],
        supply: &mut Supply,
    ) -> Option<Vec<Shared>> {
        let mut chain = chain;
        for block in words.chunks(16) {
            chain = (self.compress)(&chain, block, supply)?;
        }
        Some(chain)
    }

    /// How many words of a chain record are used: 5n or 8n.
    pub(crate) fn used(&self, n: usize) -> usize {
        self.chain_words() * n
    }

    /// The chain in a record. Section 6: "the rest are not looked at on entry".
    pub(crate) fn chain_in(&self, n: usize, record: &[u32]) -> Vec<Shared> {
        shared_words(n, &record[..self.used(n)])
    }
}

/// The record of a chain. Section 6: the rest "are 0 in an accepted answer".
pub(crate) fn chain_record<const WORDS: usize>(chain: &[Shared]) -> [u32; WORDS] {
    let mut record = [0; WORDS];
    for (place, share) in chain.concat().into_iter().enumerate() {
        record[place] = share;
    }
    record
}
