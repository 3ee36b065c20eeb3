//! The queries: how many words a call will draw, by the formulas of sections 2, 5 and 6 and the
//! words of requests (i), (iii), (iv), (v), (vi) and (vii). Each gives number 0 and the count, or the
//! call's refusal 1, 4 or 6 and the count 0. The formulas that go over compressions are written once
//! for both hashes.

use crate::hash::Hash;
use crate::numbers::{
    allowed_for_short_conversion, first_refusal, first_state_refusal, would_pass_the_limit, Answer,
    State, KEY_LIMIT, MESSAGE_LIMIT,
};
use crate::sha1::SHA_1;
use crate::sha256::SHA_256;

/// The query of a call that takes a share count.
fn query(n: usize, tests: &[(u32, bool)], formula: impl FnOnce(u64) -> u64) -> Answer {
    count(first_refusal(n, tests), n, formula)
}

/// The query of a call of this hash that takes a state, from how many compressions it does.
fn state_query(
    hash: &Hash,
    state: &State,
    tests: &[(u32, bool)],
    compressions: impl FnOnce() -> u64,
) -> Answer {
    count(first_state_refusal(hash, state, tests), state.n, |n| {
        compressions() * hash.compression_words(n)
    })
}

/// The formula for n, worked out only when nothing is refused.
fn count(number: u32, n: usize, formula: impl FnOnce(u64) -> u64) -> Answer {
    let drawn = match number {
        0 => formula(n as u64),
        _ => 0,
    };
    Answer { number, drawn }
}

/// One word for each pair i < j of n shares: n(n−1)/2.
fn pairs(n: u64) -> u64 {
    n * (n - 1) / 2
}

/// Section 5, addition: "16n(n−1) words at k = 32".
fn addition(n: u64) -> u64 {
    16 * n * (n - 1)
}

/// Section 5: "W(1) = 0 and W(n) = 2W(n/2) + n + 16n(n−1)". Request (vi), for a count that isn't a
/// power of two: "floor(n/2) shares left and the rest right", each refreshed with n−1 words.
fn conversion(n: u64) -> u64 {
    if n == 1 {
        return 0;
    }
    let left = n / 2;
    let widening = if n.is_power_of_two() { n } else { 2 * (n - 1) };
    conversion(left) + conversion(n - left) + widening + addition(n)
}

/// Request (iv): "V(1) = 0 and V(n) = 3n−2 + 2V(n−1)".
fn short_conversion(n: u64) -> u64 {
    match n {
        1 => 0,
        _ => 3 * n - 2 + 2 * short_conversion(n - 1),
    }
}

/// What `split` draws (section 2): n−1.
pub fn split_words(n: usize) -> Answer {
    query(n, &[], |n| n - 1)
}

/// What `refresh` draws (request (v)): n(n−1)/2.
pub fn refresh_words(n: usize) -> Answer {
    query(n, &[], pairs)
}

/// What `expand` draws (section 5): n.
pub fn expand_words(n: usize) -> Answer {
    query(n, &[], |n| n)
}

/// What `and` draws (section 5): n(n−1)/2.
pub fn and_words(n: usize) -> Answer {
    query(n, &[], pairs)
}

/// What `add` draws (section 5): 16n(n−1).
pub fn add_words(n: usize) -> Answer {
    query(n, &[], addition)
}

/// What `a2b` draws (section 5 and request (vi)): W(n).
pub fn a2b_words(n: usize) -> Answer {
    query(n, &[], conversion)
}

/// What `b2a` draws (section 5, with the refresh of request (v)): n−1 for A1 to A(n−1), then W(n),
/// 16n(n−1) and n(n−1)/2.
pub fn b2a_words(n: usize) -> Answer {
    query(n, &[], |n| n - 1 + conversion(n) + addition(n) + pairs(n))
}

/// What `b2a_short` draws (request (iv)): V(n).
pub fn b2a_short_words(n: usize) -> Answer {
    let tests = [(1, !allowed_for_short_conversion(n))];
    query(n, &tests, short_conversion)
}

/// A key block of this hash: 16(n−1) for a key of up to 64 bytes (section 2), and for a longer one
/// "ceil(K/4)·(n−1) words and then floor((K+8)/64) + 1 compressions" (request (iii)).
fn key_splitting(hash: &Hash, n: usize, key_len: usize) -> Answer {
    let length = key_len as u64;
    query(n, &[(4, key_len > KEY_LIMIT)], |n| match length {
        0..=64 => 16 * (n - 1),
        _ => {
            let compressions = (length + 8) / 64 + 1;
            length.div_ceil(4) * (n - 1) + compressions * hash.compression_words(n)
        }
    })
}

/// A whole tag of this hash (section 6): floor((L+8)/64) + 4 compressions.
fn whole_tag(hash: &Hash, n: usize, message_len: usize) -> Answer {
    let length = message_len as u64;
    query(n, &[(4, length > MESSAGE_LIMIT)], |n| {
        ((length + 8) / 64 + 4) * hash.compression_words(n)
    })
}

/// A start of this hash: the two key blocks.
fn start(hash: &Hash, n: usize) -> Answer {
    query(n, &[], |n| 2 * hash.compression_words(n))
}

/// A feed of this hash: the blocks which a piece of this length completes.
fn feed(hash: &Hash, state: &State, piece_len: usize) -> Answer {
    let tests = [(4, would_pass_the_limit(state, piece_len))];
    state_query(hash, state, &tests, || {
        (state.bytes % 64 + piece_len as u64) / 64
    })
}

/// A finish of this hash: the padded rest, one block or two, and the digest block.
fn finish(hash: &Hash, state: &State) -> Answer {
    state_query(hash, state, &[], || (state.bytes % 64 + 8) / 64 + 2)
}

/// What `split_key` draws (section 2 and request (iii)): 16(n−1) for a key of up to 64 bytes, and for
/// a longer one ceil(K/4)·(n−1) and that of floor((K+8)/64) + 1 compressions.
pub fn split_key_words(n: usize, key_len: usize) -> Answer {
    key_splitting(&SHA_1, n, key_len)
}

/// What `sha1_compress` draws (section 6): 5,220·n(n−1).
pub fn sha1_compress_words(n: usize) -> Answer {
    query(n, &[], |n| SHA_1.compression_words(n))
}

/// What `hmac_sha1` draws (section 6): that of floor((L+8)/64) + 4 compressions.
pub fn hmac_sha1_words(n: usize, message_len: usize) -> Answer {
    whole_tag(&SHA_1, n, message_len)
}

/// What `hmac_sha1_start` draws: that of the two key blocks.
pub fn hmac_sha1_start_words(n: usize) -> Answer {
    start(&SHA_1, n)
}

/// What `hmac_sha1_feed` draws: that of the blocks which a piece of this length completes.
pub fn hmac_sha1_feed_words(state: State, piece_len: usize) -> Answer {
    feed(&SHA_1, &state, piece_len)
}

/// What `hmac_sha1_finish` draws: that of the padded rest, one block or two, and the digest block.
pub fn hmac_sha1_finish_words(state: State) -> Answer {
    finish(&SHA_1, &state)
}

/// What `sha256_split_key` draws: as `split_key`, with the compressions of SHA-256.
pub fn sha256_split_key_words(n: usize, key_len: usize) -> Answer {
    key_splitting(&SHA_256, n, key_len)
}

/// What `sha256_compress` draws (request (vii)): 9,664·n(n−1).
pub fn sha256_compress_words(n: usize) -> Answer {
    query(n, &[], |n| SHA_256.compression_words(n))
}

/// What `hmac_sha256` draws: that of floor((L+8)/64) + 4 compressions.
pub fn hmac_sha256_words(n: usize, message_len: usize) -> Answer {
    whole_tag(&SHA_256, n, message_len)
}

/// What `hmac_sha256_start` draws: that of the two key blocks.
pub fn hmac_sha256_start_words(n: usize) -> Answer {
    start(&SHA_256, n)
}

/// What `hmac_sha256_feed` draws: that of the blocks which a piece of this length completes.
pub fn hmac_sha256_feed_words(state: State, piece_len: usize) -> Answer {
    feed(&SHA_256, &state, piece_len)
}

/// What `hmac_sha256_finish` draws: that of the padded rest, one block or two, and the digest block.
pub fn hmac_sha256_finish_words(state: State) -> Answer {
    finish(&SHA_256, &state)
}
