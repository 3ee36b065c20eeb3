//! The rules of masked SHA-1 (section 6). A rule gives nothing when the supply runs out under it.

use crate::hash::Hash;
use crate::rules::{add, xor};
use crate::shared::{choose, majority, public, Shared};
use crate::supply::Supply;

/// SHA-1, with the starting chain of FIPS 180-4, 5.3.1. Section 6: "One compression draws
/// 5,220·n(n−1) words."
pub(crate) static SHA_1: Hash = Hash {
    code: 0,
    start: &[0x67452301, 0xefcdab89, 0x98badcfe, 0x10325476, 0xc3d2e1f0],
    draws: 5220,
    compress,
};

/// Section 6: "Rotation and XOR go share by share".
fn rotate(x: &[u32], by: u32) -> Shared {
    x.iter().map(|share| share.rotate_left(by)).collect()
}

/// FIPS 180-4, 6.1.2, step 1. Section 6: "The schedule is worked out as 80 words, each in n
/// shares."
fn schedule(block: &[Shared]) -> Vec<Shared> {
    let mut w = block.to_vec();
    for t in 16..80 {
        let sum = xor(&xor(&w[t - 3], &w[t - 8]), &xor(&w[t - 14], &w[t - 16]));
        w.push(rotate(&sum, 1));
    }
    w
}

/// Section 6: "Parity draws nothing".
fn parity(b: &[u32], c: &[u32], d: &[u32]) -> Shared {
    xor(&xor(b, c), d)
}

/// FIPS 180-4, 6.1.2, on a chain of 5 and a block of 16 shared words. Section 6: "Round t draws
/// first for f, then adds in this order: ROTL5(a) + f, + e, + K, + W", and "At the end the chain
/// words are added, old value first, a to e".
fn compress(chain: &[Shared], block: &[Shared], supply: &mut Supply) -> Option<Vec<Shared>> {
    let n = chain[0].len();
    let w = schedule(block);
    let mut a = chain[0].clone();
    let mut b = chain[1].clone();
    let mut c = chain[2].clone();
    let mut d = chain[3].clone();
    let mut e = chain[4].clone();
    for (t, wt) in w.iter().enumerate() {
        let (f, k) = match t {
            0..=19 => (choose(&b, &c, &d, supply)?, 0x5a827999),
            20..=39 => (parity(&b, &c, &d), 0x6ed9eba1),
            40..=59 => (majority(&b, &c, &d, supply)?, 0x8f1bbcdc),
            _ => (parity(&b, &c, &d), 0xca62c1d6),
        };
        let sum = add(&rotate(&a, 5), &f, supply)?;
        let sum = add(&sum, &e, supply)?;
        let sum = add(&sum, &public(n, k), supply)?;
        let sum = add(&sum, wt, supply)?;
        e = d;
        d = c;
        c = rotate(&b, 30);
        b = a;
        a = sum;
    }
    let mut new = Vec::new();
    for (old, word) in chain.iter().zip([a, b, c, d, e]) {
        new.push(add(old, &word, supply)?);
    }
    Some(new)
}
