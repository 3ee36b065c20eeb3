//! The public calls for n shares: the tests of section 3 in their order, then the rule. Every
//! refusal reports 0 words drawn and leaves the output as it came. Last, the comparison of tags.

use crate::hash::{chain_record, Hash};
use crate::numbers::{
    allowed_for_short_conversion, first_refusal, Answer, Chain, Compressed, Opened, Sha256Chain,
    Sha256Compressed, KEY_LIMIT, MESSAGE_LIMIT,
};
use crate::sha1::SHA_1;
use crate::sha256::SHA_256;
use crate::shared::shared_words;
use crate::supply::Supply;
use crate::{hmac, rules};

/// A call that takes a supply: tests 1 to 4, then the rule on the supply from place 0. The rule
/// gives nothing when the supply runs out, which is number 5; the output is written at the end.
fn call<T: Copy>(
    n: usize,
    tests: &[(u32, bool)],
    output: &mut [T],
    words: &[u32],
    rule: impl FnOnce(&mut Supply) -> Option<Vec<T>>,
) -> Answer {
    let number = first_refusal(n, tests);
    if number != 0 {
        return Answer { number, drawn: 0 };
    }
    let mut supply = Supply::new(words);
    let (number, drawn) = match rule(&mut supply) {
        Some(result) => {
            output.copy_from_slice(&result);
            (0, supply.drawn())
        }
        None => (5, 0),
    };
    Answer { number, drawn }
}

/// Splits a value into n Boolean shares (section 2). Tests 1, 3, 5.
pub fn split(n: usize, value: u32, shares: &mut [u32], words: &[u32]) -> Answer {
    let tests = [(3, shares.len() != n)];
    call(n, &tests, shares, words, |supply| {
        rules::split(n, value, supply)
    })
}

/// Opens n Boolean shares (section 2). Tests 1, 2; a refusal has the word 0.
pub fn open_xor(n: usize, shares: &[u32]) -> Opened {
    let number = first_refusal(n, &[(2, shares.len() != n)]);
    let word = match number {
        0 => rules::open_xor(shares),
        _ => 0,
    };
    Opened { number, word }
}

/// Opens n arithmetic shares (section 2). Tests 1, 2; a refusal has the word 0.
pub fn open_sum(n: usize, shares: &[u32]) -> Opened {
    let number = first_refusal(n, &[(2, shares.len() != n)]);
    let word = match number {
        0 => rules::open_sum(shares),
        _ => 0,
    };
    Opened { number, word }
}

/// Refreshes n Boolean shares, mixing every pair of them (request (v)). Tests 1, 2, 3, 5.
pub fn refresh(n: usize, x: &[u32], y: &mut [u32], words: &[u32]) -> Answer {
    let tests = [(2, x.len() != n), (3, y.len() != n)];
    call(n, &tests, y, words, |supply| rules::refresh(x, supply))
}

/// Expands n Boolean shares to 2n (section 5); n is the input's count. Tests 1, 2, 3, 5.
pub fn expand(n: usize, x: &[u32], y: &mut [u32], words: &[u32]) -> Answer {
    let tests = [(2, x.len() != n), (3, y.len() != n.saturating_mul(2))];
    call(n, &tests, y, words, |supply| rules::expand(x, supply))
}

/// The AND of two words in n Boolean shares (section 5). Tests 1, 2, 3, 5.
pub fn and(n: usize, x: &[u32], y: &[u32], z: &mut [u32], words: &[u32]) -> Answer {
    let tests = [(2, x.len() != n), (2, y.len() != n), (3, z.len() != n)];
    call(n, &tests, z, words, |supply| rules::and(x, y, supply))
}

/// The sum of two words in n Boolean shares (section 5). Tests 1, 2, 3, 5.
pub fn add(n: usize, x: &[u32], y: &[u32], z: &mut [u32], words: &[u32]) -> Answer {
    let tests = [(2, x.len() != n), (2, y.len() != n), (3, z.len() != n)];
    call(n, &tests, z, words, |supply| rules::add(x, y, supply))
}

/// Turns n arithmetic shares into n Boolean ones (section 5 and request (vi)). Tests 1, 2, 3, 5.
pub fn a2b(n: usize, a: &[u32], x: &mut [u32], words: &[u32]) -> Answer {
    let tests = [(2, a.len() != n), (3, x.len() != n)];
    call(n, &tests, x, words, |supply| rules::a2b(a, supply))
}

/// Turns n Boolean shares into n arithmetic ones (section 5, with the refresh of request (v)). Tests
/// 1, 2, 3, 5.
pub fn b2a(n: usize, x: &[u32], a: &mut [u32], words: &[u32]) -> Answer {
    let tests = [(2, x.len() != n), (3, a.len() != n)];
    call(n, &tests, a, words, |supply| rules::b2a(x, supply))
}

/// Turns n Boolean shares into n arithmetic ones "without a carry loop" (request (iv)), n being 1, 2,
/// 4 or 8 still. Tests 1, 2, 3, 5.
pub fn b2a_short(n: usize, x: &[u32], a: &mut [u32], words: &[u32]) -> Answer {
    let tests = [
        (1, !allowed_for_short_conversion(n)),
        (2, x.len() != n),
        (3, a.len() != n),
    ];
    call(n, &tests, a, words, |supply| rules::b2a_short(x, supply))
}

// The calls of either hash, each written once.

/// A key's splitting for this hash. Tests 1, 3, 4, 5.
fn key_splitting(hash: &Hash, n: usize, key: &[u8], shares: &mut [u32], words: &[u32]) -> Answer {
    let tests = [
        (3, shares.len() != n.saturating_mul(16)),
        (4, key.len() > KEY_LIMIT),
    ];
    call(n, &tests, shares, words, |supply| {
        hmac::split_key(hash, n, key, supply)
    })
}

/// A compression of this hash in the record given, which a refusal leaves as it came. Tests 1, 2, 5.
fn compression<const WORDS: usize>(
    hash: &Hash,
    n: usize,
    record: &mut [u32; WORDS],
    block: &[u32],
    words: &[u32],
) -> Answer {
    let tests = [(2, block.len() != n.saturating_mul(16))];
    let given = *record;
    call(n, &tests, record, words, |supply| {
        let old = hash.chain_in(n, &given);
        let new = (hash.compress)(&old, &shared_words(n, block), supply)?;
        Some(chain_record::<WORDS>(&new).to_vec())
    })
}

/// A whole tag by this hash. Tests 1, 2, 3, 4, 5.
fn whole_tag(
    hash: &Hash,
    n: usize,
    key: &[u32],
    message: &[u8],
    tag: &mut [u8],
    words: &[u32],
) -> Answer {
    let tests = [
        (2, key.len() != n.saturating_mul(16)),
        (3, tag.len() != hash.digest_bytes()),
        (4, message.len() as u64 > MESSAGE_LIMIT),
    ];
    call(n, &tests, tag, words, |supply| {
        hmac::hmac(hash, &shared_words(n, key), message, supply)
    })
}

/// Splits a key of up to 1,024 bytes into 16n words (section 2) for HMAC-SHA-1. One over 64 bytes is
/// hashed too, "all within the splitting call, so number 5 counts both" (request (iii)). Tests 1, 3,
/// 4, 5.
pub fn split_key(n: usize, key: &[u8], shares: &mut [u32], words: &[u32]) -> Answer {
    key_splitting(&SHA_1, n, key, shares, words)
}

/// Splits a key as [`split_key`] does, for HMAC-SHA-256: one over 64 bytes is hashed by SHA-256, and
/// its "digest gives 8n words" (request (vii)). Tests 1, 3, 4, 5.
pub fn sha256_split_key(n: usize, key: &[u8], shares: &mut [u32], words: &[u32]) -> Answer {
    key_splitting(&SHA_256, n, key, shares, words)
}

/// Compresses a block of 16n words into the chain (section 6): of its words the first 5n are used,
/// "the rest are not looked at on entry and are 0 in an accepted answer". Tests 1, 2, 5.
pub fn sha1_compress(n: usize, chain: Chain, block: &[u32], words: &[u32]) -> Compressed {
    let mut chain = chain;
    let Answer { number, drawn } = compression(&SHA_1, n, &mut chain.shares, block, words);
    Compressed {
        number,
        drawn,
        chain,
    }
}

/// Compresses a block of 16n words into the chain by SHA-256 (request (vii)): of its words the first
/// 8n are used, and the rest go as in [`sha1_compress`]. Tests 1, 2, 5.
pub fn sha256_compress(
    n: usize,
    chain: Sha256Chain,
    block: &[u32],
    words: &[u32],
) -> Sha256Compressed {
    let mut chain = chain;
    let Answer { number, drawn } = compression(&SHA_256, n, &mut chain.shares, block, words);
    Sha256Compressed {
        number,
        drawn,
        chain,
    }
}

/// The HMAC-SHA-1 tag, 20 bytes, of a message of up to 65,536 bytes (request (vi)) under a key lent
/// as 16n words (section 6). Tests 1, 2, 3, 4, 5.
pub fn hmac_sha1(n: usize, key: &[u32], message: &[u8], tag: &mut [u8], words: &[u32]) -> Answer {
    whole_tag(&SHA_1, n, key, message, tag, words)
}

/// The HMAC-SHA-256 tag, 32 bytes (request (vii)), of a message of up to 65,536 bytes under a key
/// lent as 16n words, which [`sha256_split_key`] makes. Tests 1, 2, 3, 4, 5.
pub fn hmac_sha256(n: usize, key: &[u32], message: &[u8], tag: &mut [u8], words: &[u32]) -> Answer {
    whole_tag(&SHA_256, n, key, message, tag, words)
}

/// Compares two tags, or any bytes: 1 where both have the same length and the same bytes, else 0. It
/// refuses nothing.
pub fn same_tag(a: &[u8], b: &[u8]) -> u32 {
    u32::from(a == b)
}
