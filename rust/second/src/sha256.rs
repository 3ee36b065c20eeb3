//! The rules of masked SHA-256 (request (vii), by FIPS 180-4). A rule gives nothing when the supply
//! runs out under it.

use crate::hash::Hash;
use crate::rules::{add, xor};
use crate::shared::{choose, majority, public, Shared};
use crate::supply::Supply;
use std::array::from_fn;

/// SHA-256, with the starting chain of FIPS 180-4, 5.3.3. "One compression draws 9,664·n(n−1)
/// words."
pub(crate) static SHA_256: Hash = Hash {
    code: 1,
    start: &[
        0x6a09e667, 0xbb67ae85, 0x3c6ef372, 0xa54ff53a, 0x510e527f, 0x9b05688c, 0x1f83d9ab,
        0x5be0cd19,
    ],
    draws: 9664,
    compress,
};

/// FIPS 180-4, 4.2.2: "the sixty-four round constants stand as one table".
static K: [u32; 64] = [
    0x428a2f98, 0x71374491, 0xb5c0fbcf, 0xe9b5dba5, 0x3956c25b, 0x59f111f1, 0x923f82a4, 0xab1c5ed5,
    0xd807aa98, 0x12835b01, 0x243185be, 0x550c7dc3, 0x72be5d74, 0x80deb1fe, 0x9bdc06a7, 0xc19bf174,
    0xe49b69c1, 0xefbe4786, 0x0fc19dc6, 0x240ca1cc, 0x2de92c6f, 0x4a7484aa, 0x5cb0a9dc, 0x76f988da,
    0x983e5152, 0xa831c66d, 0xb00327c8, 0xbf597fc7, 0xc6e00bf3, 0xd5a79147, 0x06ca6351, 0x14292967,
    0x27b70a85, 0x2e1b2138, 0x4d2c6dfc, 0x53380d13, 0x650a7354, 0x766a0abb, 0x81c2c92e, 0x92722c85,
    0xa2bfe8a1, 0xa81a664b, 0xc24b8b70, 0xc76c51a3, 0xd192e819, 0xd6990624, 0xf40e3585, 0x106aa070,
    0x19a4c116, 0x1e376c08, 0x2748774c, 0x34b0bcb5, 0x391c0cb3, 0x4ed8aa4a, 0x5b9cca4f, 0x682e6ff3,
    0x748f82ee, 0x78a5636f, 0x84c87814, 0x8cc70208, 0x90befffa, 0xa4506ceb, 0xbef9a3f7, 0xc67178f2,
];

/// FIPS 180-4, 3.2: ROTR, share by share.
fn rotate(x: &[u32], by: u32) -> Shared {
    x.iter().map(|share| share.rotate_right(by)).collect()
}

/// FIPS 180-4, 3.2: SHR, share by share.
fn shift(x: &[u32], by: u32) -> Shared {
    x.iter().map(|share| share >> by).collect()
}

/// The XOR of three words, share by share.
fn xor3(x: &[u32], y: &[u32], z: &[u32]) -> Shared {
    xor(&xor(x, y), z)
}

/// FIPS 180-4, 4.1.2: Σ0.
fn upper_sigma_0(x: &[u32]) -> Shared {
    xor3(&rotate(x, 2), &rotate(x, 13), &rotate(x, 22))
}

/// FIPS 180-4, 4.1.2: Σ1.
fn upper_sigma_1(x: &[u32]) -> Shared {
    xor3(&rotate(x, 6), &rotate(x, 11), &rotate(x, 25))
}

/// FIPS 180-4, 4.1.2: σ0.
fn lower_sigma_0(x: &[u32]) -> Shared {
    xor3(&rotate(x, 7), &rotate(x, 18), &shift(x, 3))
}

/// FIPS 180-4, 4.1.2: σ1.
fn lower_sigma_1(x: &[u32]) -> Shared {
    xor3(&rotate(x, 17), &rotate(x, 19), &shift(x, 10))
}

/// FIPS 180-4, 6.2.2, step 1, as 64 words. "Each later schedule word is added up before round 0, in
/// index order, as σ1 + W[t−7], + σ0, + W[t−16]".
fn schedule(block: &[Shared], supply: &mut Supply) -> Option<Vec<Shared>> {
    let mut w = block.to_vec();
    for t in 16..64 {
        let sum = add(&lower_sigma_1(&w[t - 2]), &w[t - 7], supply)?;
        let sum = add(&sum, &lower_sigma_0(&w[t - 15]), supply)?;
        let sum = add(&sum, &w[t - 16], supply)?;
        w.push(sum);
    }
    Some(w)
}

/// FIPS 180-4, 6.2.2, step 3, on the words a to h. "Ch of e, f, g, then Maj of a, b, c by 01's
/// formulas; then h + Σ1, + Ch, + K, + W; Σ0 + Maj; d + T1; T1 + T2". K is a public value.
fn round(words: [Shared; 8], k: u32, w: &[u32], supply: &mut Supply) -> Option<[Shared; 8]> {
    let [a, b, c, d, e, f, g, h] = words;
    let ch = choose(&e, &f, &g, supply)?;
    let maj = majority(&a, &b, &c, supply)?;
    let t1 = add(&h, &upper_sigma_1(&e), supply)?;
    let t1 = add(&t1, &ch, supply)?;
    let t1 = add(&t1, &public(w.len(), k), supply)?;
    let t1 = add(&t1, w, supply)?;
    let t2 = add(&upper_sigma_0(&a), &maj, supply)?;
    let new_e = add(&d, &t1, supply)?;
    let new_a = add(&t1, &t2, supply)?;
    Some([new_a, a, b, c, new_e, e, f, g])
}

/// FIPS 180-4, 6.2.2, on a chain of 8 and a block of 16 shared words: the schedule, the rounds, and
/// then "the eight chain sums", as section 6 has them: "old value first", from a on.
fn compress(chain: &[Shared], block: &[Shared], supply: &mut Supply) -> Option<Vec<Shared>> {
    let w = schedule(block, supply)?;
    let mut words: [Shared; 8] = from_fn(|place| chain[place].clone());
    for (wt, k) in w.iter().zip(K) {
        words = round(words, k, wt, supply)?;
    }
    let mut new = Vec::new();
    for (old, word) in chain.iter().zip(&words) {
        new.push(add(old, word, supply)?);
    }
    Some(new)
}
