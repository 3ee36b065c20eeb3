//! Words in n shares, as both hashes and HMAC handle them (sections 2 and 6). A rule gives nothing
//! when the supply runs out under it.

use crate::rules::{and, split, xor};
use crate::supply::Supply;

/// A word in n Boolean shares.
pub(crate) type Shared = Vec<u32>;

/// Section 6: "Public values enter as (v, 0, …, 0)".
pub(crate) fn public(n: usize, value: u32) -> Shared {
    let mut shares = vec![0; n];
    shares[0] = value;
    shares
}

/// Section 6: "a XOR constant … goes into share 1".
pub(crate) fn xor_constant(x: &[u32], constant: u32) -> Shared {
    let mut shares = x.to_vec();
    shares[0] ^= constant;
    shares
}

/// Section 2: "share i of word w (both from 0) stands at place w·n + i".
pub(crate) fn shared_words(n: usize, slice: &[u32]) -> Vec<Shared> {
    slice.chunks(n).map(|shares| shares.to_vec()).collect()
}

/// The word of four bytes, big-endian; fewer bytes are its low end.
pub(crate) fn big_endian_word(bytes: &[u8]) -> u32 {
    bytes
        .iter()
        .fold(0, |word, byte| word << 8 | u32::from(*byte))
}

/// Bytes, four to each word, "read as … big-endian words" (section 2).
fn big_endian_words(bytes: &[u8]) -> Vec<u32> {
    bytes.chunks(4).map(big_endian_word).collect()
}

/// Section 6: "Public values enter as (v, 0, …, 0): message words, whole words of padding".
pub(crate) fn public_words(n: usize, bytes: &[u8]) -> Vec<Shared> {
    let words = big_endian_words(bytes);
    words.iter().map(|&word| public(n, word)).collect()
}

/// Bytes with zero bytes after them up to a length, "split word by word" (section 2).
pub(crate) fn split_bytes(
    n: usize,
    bytes: &[u8],
    length: usize,
    supply: &mut Supply,
) -> Option<Vec<Shared>> {
    let mut filled = bytes.to_vec();
    filled.resize(length, 0);
    let mut words = Vec::new();
    for word in big_endian_words(&filled) {
        words.push(split(n, word, supply)?);
    }
    Some(words)
}

/// Section 6: "Ch = d ⊕ (b ∧ (c ⊕ d))". For SHA-256 it is "Ch of e, f, g" (request (vii)).
pub(crate) fn choose(b: &[u32], c: &[u32], d: &[u32], supply: &mut Supply) -> Option<Shared> {
    Some(xor(d, &and(b, &xor(c, d), supply)?))
}

/// Section 6: "Maj = d ⊕ ((b ⊕ d) ∧ (c ⊕ d))". For SHA-256 it is "Maj of a, b, c" (request (vii)).
pub(crate) fn majority(b: &[u32], c: &[u32], d: &[u32], supply: &mut Supply) -> Option<Shared> {
    Some(xor(d, &and(&xor(b, d), &xor(c, d), supply)?))
}
