//! Tests: the reference values and limits of section 7, every refusal of section 3, the order of
//! draws, the openings against plain arithmetic and a plain SHA-1, the long keys of request (iii),
//! the fuller refresh of request (v), the share counts and longer messages of request (vi), and the
//! comparison of tags.
//! Streaming, the short conversion and SHA-256 have tests of their own, which use the helpers here.

use crate::supply::Supply;
use crate::*;

/// The share counts that are not refused (request (vi)).
pub(crate) const COUNTS: [usize; 16] = [1, 2, 3, 4, 5, 6, 7, 8, 9, 10, 11, 12, 13, 14, 15, 16];
/// Counts for the tests that hash many blocks, for which the larger ones would take too long.
pub(crate) const FEW_COUNTS: [usize; 4] = [1, 2, 3, 5];
/// Share counts that are refused, some of which look allowed when cut to 8 or 32 bits or times 16.
pub(crate) const WRONG_COUNTS: [usize; 8] = [
    0,
    17,
    32,
    (1 << 8) + 2,
    1 << 28,
    (1 << 32) + 4,
    usize::MAX / 16 + 2,
    usize::MAX,
];
/// The most bytes that a message may have (request (vi)).
pub(crate) const LONGEST: usize = 65_536;
/// The words of a chain record (request (vi)).
pub(crate) const CHAIN_WORDS: usize = 80;
/// More words than a conversion draws at any count.
const PLENTY: u64 = 11_000;
/// What stands in an output before a call.
pub(crate) const BEFORE: u32 = 0xa5a5a5a5;
/// The starting chain of FIPS 180-4, 5.3.1.
pub(crate) const START: [u32; 5] = [0x67452301, 0xefcdab89, 0x98badcfe, 0x10325476, 0xc3d2e1f0];

/// The words of the padding after a digest, behind the outer key block.
pub(crate) const DIGEST_PADDING: [u32; 11] = [0x80000000, 0, 0, 0, 0, 0, 0, 0, 0, 0, 672];

/// Pseudo-random words from a xorshift.
pub(crate) fn random_words(seed: u64, count: u64) -> Vec<u32> {
    let mut state = seed.wrapping_mul(0x9e3779b97f4a7c15) | 1;
    let mut words = Vec::new();
    for _ in 0..count {
        state ^= state << 13;
        state ^= state >> 7;
        state ^= state << 17;
        words.push((state >> 16) as u32);
    }
    words
}

/// Pseudo-random bytes.
pub(crate) fn random_bytes(seed: u64, count: usize) -> Vec<u8> {
    let words = random_words(seed, count as u64);
    words.iter().map(|word| *word as u8).collect()
}

pub(crate) fn done(drawn: u64) -> Answer {
    Answer { number: 0, drawn }
}

pub(crate) fn refused(number: u32) -> Answer {
    Answer { number, drawn: 0 }
}

pub(crate) fn xor_of(shares: &[u32]) -> u32 {
    shares.iter().fold(0, |word, share| word ^ share)
}

pub(crate) fn sum_of(shares: &[u32]) -> u32 {
    shares
        .iter()
        .fold(0, |word: u32, share| word.wrapping_add(*share))
}

// A plain SHA-1 and HMAC (FIPS 180-4, RFC 2104), with f written as FIPS 180-4 writes it.

fn plain_compress(chain: [u32; 5], block: &[u32]) -> [u32; 5] {
    let mut w = block.to_vec();
    for t in 16..80 {
        w.push((w[t - 3] ^ w[t - 8] ^ w[t - 14] ^ w[t - 16]).rotate_left(1));
    }
    let [mut a, mut b, mut c, mut d, mut e] = chain;
    for (t, wt) in w.iter().enumerate() {
        let (f, k) = match t / 20 {
            0 => ((b & c) ^ (!b & d), 0x5a827999),
            1 => (b ^ c ^ d, 0x6ed9eba1),
            2 => ((b & c) ^ (b & d) ^ (c & d), 0x8f1bbcdc),
            _ => (b ^ c ^ d, 0xca62c1d6),
        };
        let sum = sum_of(&[a.rotate_left(5), f, e, k, *wt]);
        (a, b, c, d, e) = (sum, a, b.rotate_left(30), c, d);
    }
    let mut new = chain;
    for (word, step) in new.iter_mut().zip([a, b, c, d, e]) {
        *word = word.wrapping_add(step);
    }
    new
}

fn plain_sha1(message: &[u8]) -> Vec<u8> {
    let mut bytes = message.to_vec();
    bytes.push(0x80);
    while bytes.len() % 64 != 56 {
        bytes.push(0);
    }
    bytes.extend((message.len() as u64 * 8).to_be_bytes());
    let mut chain = START;
    for block in bytes.chunks(64) {
        chain = plain_compress(chain, &words_of(block));
    }
    chain.iter().flat_map(|word| word.to_be_bytes()).collect()
}

pub(crate) fn plain_hmac(key: &[u8], message: &[u8]) -> Vec<u8> {
    let mut block = match key.len() {
        0..=64 => key.to_vec(),
        _ => plain_sha1(key),
    };
    block.resize(64, 0);
    let mut inner: Vec<u8> = block.iter().map(|byte| byte ^ 0x36).collect();
    inner.extend(message);
    let mut outer: Vec<u8> = block.iter().map(|byte| byte ^ 0x5c).collect();
    outer.extend(plain_sha1(&inner));
    plain_sha1(&outer)
}

pub(crate) fn hex(bytes: &[u8]) -> String {
    bytes.iter().map(|byte| format!("{byte:02x}")).collect()
}

// Words, blocks and chains in shares.

/// The big-endian words of bytes, four to each.
pub(crate) fn words_of(bytes: &[u8]) -> Vec<u32> {
    bytes
        .chunks(4)
        .map(|four| u32::from_be_bytes(four.try_into().unwrap()))
        .collect()
}

/// Public words in n shares.
pub(crate) fn public(n: usize, values: &[u32]) -> Vec<u32> {
    let mut shares = vec![0; values.len() * n];
    for (w, value) in values.iter().enumerate() {
        shares[w * n] = *value;
    }
    shares
}

/// The bytes of words in n shares, opened.
pub(crate) fn opened_bytes(n: usize, shares: &[u32]) -> Vec<u8> {
    let opened = shares.chunks(n).map(xor_of);
    opened.flat_map(|word| word.to_be_bytes()).collect()
}

/// The starting chain in n shares.
pub(crate) fn start_chain(n: usize) -> Chain {
    let mut shares = public(n, &START);
    shares.resize(CHAIN_WORDS, 0);
    Chain {
        shares: shares.try_into().unwrap(),
    }
}

/// A chain with pseudo-random words in every place.
pub(crate) fn random_chain(seed: u64) -> Chain {
    let shares = random_words(seed, CHAIN_WORDS as u64);
    Chain {
        shares: shares.try_into().unwrap(),
    }
}

/// A key block in n shares with a pad XORed into its words.
pub(crate) fn with_pad(n: usize, key: &[u32], pad: u32) -> Vec<u32> {
    let mut block = key.to_vec();
    for w in 0..16 {
        block[w * n] ^= pad;
    }
    block
}

/// A compression on the front of a supply, off which it takes what it draws.
pub(crate) fn compress_done(n: usize, chain: Chain, block: &[u32], words: &mut &[u32]) -> Chain {
    let answer = sha1_compress(n, chain, block, words);
    let Compressed { number, drawn, .. } = answer;
    assert_eq!(Answer { number, drawn }, sha1_compress_words(n));
    *words = &words[drawn as usize..];
    answer.chain
}

// Calls on exactly the words that their queries name, for tests of what they answer.

fn split_done(n: usize, value: u32, seed: u64) -> Vec<u32> {
    let words = random_words(seed, split_words(n).drawn);
    let mut shares = vec![BEFORE; n];
    let answer = split(n, value, &mut shares, &words);
    assert_eq!(answer.number, 0);
    assert_eq!(answer, split_words(n));
    shares
}

pub(crate) fn split_key_done(n: usize, key: &[u8], seed: u64) -> Vec<u32> {
    let words = random_words(seed, split_key_words(n, key.len()).drawn);
    let mut shares = vec![BEFORE; 16 * n];
    let answer = split_key(n, key, &mut shares, &words);
    assert_eq!(answer.number, 0);
    assert_eq!(answer, split_key_words(n, key.len()));
    shares
}

pub(crate) fn hmac_done(n: usize, key: &[u8], message: &[u8], seed: u64) -> Vec<u8> {
    let shares = split_key_done(n, key, seed);
    let words = random_words(seed + 1, hmac_sha1_words(n, message.len()).drawn);
    let mut tag = [0xa5; 20];
    let answer = hmac_sha1(n, &shares, message, &mut tag, &words);
    assert_eq!(answer.number, 0);
    assert_eq!(answer, hmac_sha1_words(n, message.len()));
    tag.to_vec()
}

// Section 7, the reference values. Every step of section 4 is an XOR, an AND, a difference or a
// double, and in each of them bit i of the result hangs on bits 0 to i alone. So the low k bits of
// a step at 32 bits are that step at k bits.

#[test]
fn p1_b2a_record() {
    let mut record = [BEFORE; 7];
    assert_eq!(b2a_2_record(0x12, 0x34, 0x56, &mut record), 0);
    let low = record.map(|step| step & 0xff);
    assert_eq!(low, [0x44, 0xee, 0xfc, 0x62, 0x70, 0x0e, 0xf2]);
}

#[test]
fn p2_a2b_record() {
    let mut record = [BEFORE; 165];
    assert_eq!(a2b_2_record(0x9, 0xc, 0x6, &mut record), 0);
    let low = record.map(|step| step & 0xf);
    assert_eq!(low[..9], [0xc, 0xa, 0x2, 0x5, 0x3, 0x0, 0x2, 0x8, 0xa]);
    for round in 0..3 {
        let place = 9 + 5 * round;
        assert_eq!(low[place..place + 5], [0xc, 0x6, 0x8, 0xe, 0xc]);
    }
    assert_eq!(low[164], 0x9);
}

#[test]
fn p3_and() {
    let mut z = [BEFORE; 2];
    let answer = and(2, &[0xf0, 0x0f], &[0x3c, 0x00], &mut z, &[0x55]);
    assert_eq!(answer, done(1));
    assert_eq!(z, [0x65, 0x59]);
}

#[test]
fn p4_old_refresh_rule_of_three_shares() {
    // Request (v): "P4 is kept for the old rule".
    let mut supply = Supply::new(&[0x10, 0x20]);
    let y = rules::refresh_with_last(&[0x01, 0x02, 0x04], &mut supply);
    assert_eq!(y, Some(vec![0x11, 0x22, 0x34]));
    assert_eq!(supply.drawn(), 2);
}

#[test]
fn p5_expand() {
    let mut y = [BEFORE; 4];
    let answer = expand(2, &[0x11, 0x22], &mut y, &[0x01, 0x02]);
    assert_eq!(answer, done(2));
    assert_eq!(y, [0x10, 0x01, 0x20, 0x02]);
}

#[test]
fn p6_b2a_record_of_zeros() {
    let mut record = [BEFORE; 7];
    assert_eq!(b2a_2_record(0, 0, 0, &mut record), 0);
    assert_eq!(record, [0; 7]);
}

#[test]
fn p7_a2b_answer() {
    assert_eq!(a2b_2(0xff, 0x01, 0x00) & 0xff, 0x01);
}

#[test]
fn p8_psi() {
    let psi = |x1: u32, r: u32| (x1 ^ r).wrapping_sub(r);
    assert_eq!(psi(0x12, 0x00), 0x12);
    assert_eq!(psi(0x12, 0x34) & 0xff, 0xf2);
    for three in random_words(8, 3000).chunks(3) {
        let [x1, r, s] = [three[0], three[1], three[2]];
        assert_eq!(psi(x1, r ^ s), psi(x1, r) ^ psi(x1, s) ^ x1);
        assert_eq!(b2a_2(x1, r, s), psi(x1, r));
    }
}

#[test]
fn p9_a2b_counts() {
    // With the counts that request (vi) adds.
    let counts = [
        0, 34, 134, 264, 496, 758, 1082, 1432, 1928, 2450, 3034, 3650, 4360, 5102, 5902, 6720,
    ];
    let words = random_words(9, PLENTY);
    for (n, drawn) in COUNTS.into_iter().zip(counts) {
        let mut x = vec![BEFORE; n];
        assert_eq!(a2b(n, &vec![1; n], &mut x, &words), done(drawn));
        assert_eq!(a2b_words(n), done(drawn));
    }
}

#[test]
fn p10_b2a_counts() {
    // As request (v) amends it, with the counts that request (vi) adds.
    let counts = [
        0, 68, 235, 465, 830, 1258, 1781, 2363, 3124, 3944, 4859, 5839, 6946, 8118, 9381, 10695,
    ];
    let words = random_words(10, PLENTY);
    for (n, drawn) in COUNTS.into_iter().zip(counts) {
        let mut a = vec![BEFORE; n];
        assert_eq!(b2a(n, &vec![1; n], &mut a, &words), done(drawn));
        assert_eq!(b2a_words(n), done(drawn));
    }
}

#[test]
fn p11_hmac_counts() {
    assert_eq!(hmac_sha1_words(2, 55), done(41760));
    assert_eq!(hmac_sha1_words(2, 56), done(52200));
    // The largest of all: 1,028 compressions of 5,220·16·15 words.
    assert_eq!(hmac_sha1_words(16, LONGEST), done(1_287_878_400));
}

// Section 4.

#[test]
fn two_shares_are_right_and_records_end_in_the_answer() {
    let mut words = random_words(4, 3000);
    for edge in [0, 1, 0x7fffffff, 0x80000000, 0xffffffff] {
        for other in [0, 1, 0x7fffffff, 0x80000000, 0xffffffff] {
            words.extend([edge, other, 0, edge, other, 0xffffffff]);
        }
    }
    for three in words.chunks(3) {
        let [x, r, g] = [three[0], three[1], three[2]];
        let mut record = [BEFORE; 7];
        assert_eq!(b2a_2(x ^ r, r, g), x.wrapping_sub(r));
        assert_eq!(b2a_2_record(x ^ r, r, g, &mut record), 0);
        assert_eq!(record[6], x.wrapping_sub(r));
        let mut record = [BEFORE; 165];
        assert_eq!(a2b_2(x.wrapping_sub(r), r, g), x ^ r);
        assert_eq!(a2b_2_record(x.wrapping_sub(r), r, g, &mut record), 0);
        assert_eq!(record[164], x ^ r);
    }
}

#[test]
fn records_of_another_length_stay() {
    for length in [0, 1, 6, 8, 164, 165, 166] {
        let mut record = vec![BEFORE; length];
        assert_eq!(b2a_2_record(1, 2, 3, &mut record), 3);
        assert_eq!(record, vec![BEFORE; length]);
    }
    for length in [0, 1, 7, 164, 166] {
        let mut record = vec![BEFORE; length];
        assert_eq!(a2b_2_record(1, 2, 3, &mut record), 3);
        assert_eq!(record, vec![BEFORE; length]);
    }
}

// Sections 2 and 5: the openings, and the order of the draws.

#[test]
fn openings_are_right() {
    for n in COUNTS {
        for seed in 1..9 {
            let [p, q] = [random_words(seed, 1)[0], random_words(seed + 50, 1)[0]];
            let x = split_done(n, p, seed + 100);
            let y = split_done(n, q, seed + 200);
            let words = random_words(seed + 300, PLENTY);
            let mut z = vec![BEFORE; n];
            assert_eq!(open_xor(n, &x), Opened { number: 0, word: p });
            assert_eq!(refresh(n, &x, &mut z, &words), refresh_words(n));
            assert_eq!(xor_of(&z), p);
            assert_eq!(and(n, &x, &y, &mut z, &words), and_words(n));
            assert_eq!(xor_of(&z), p & q);
            assert_eq!(add(n, &x, &y, &mut z, &words), add_words(n));
            assert_eq!(xor_of(&z), p.wrapping_add(q));
            let mut twice = vec![BEFORE; 2 * n];
            assert_eq!(expand(n, &x, &mut twice, &words), expand_words(n));
            assert_eq!(xor_of(&twice), p);
            assert_eq!(b2a(n, &x, &mut z, &words), b2a_words(n));
            assert_eq!(sum_of(&z), p);
            assert_eq!(open_sum(n, &z), Opened { number: 0, word: p });
            let mut back = vec![BEFORE; n];
            assert_eq!(a2b(n, &z, &mut back, &words), a2b_words(n));
            assert_eq!(xor_of(&back), p);
        }
    }
}

#[test]
fn carries_run_from_the_bottom_to_the_top() {
    for n in COUNTS {
        let pairs = [(0x7fffffff, 1), (1, 0x7fffffff), (0xffffffff, 1)];
        for (p, q) in pairs {
            let x = split_done(n, p, 1);
            let y = split_done(n, q, 2);
            let words = random_words(3, PLENTY);
            let mut z = vec![BEFORE; n];
            add(n, &x, &y, &mut z, &words);
            assert_eq!(xor_of(&z), p.wrapping_add(q));
            let mut shares = vec![0; n];
            shares[0] = p;
            shares[n - 1] = shares[n - 1].wrapping_add(q);
            a2b(n, &shares, &mut z, &words);
            assert_eq!(xor_of(&z), p.wrapping_add(q));
        }
    }
}

#[test]
fn one_share_is_the_plain_word() {
    let mut z = [BEFORE];
    assert_eq!(split(1, 7, &mut z, &[]), done(0));
    assert_eq!(z, [7]);
    assert_eq!(refresh(1, &[8], &mut z, &[]), done(0));
    assert_eq!(z, [8]);
    assert_eq!(and(1, &[12], &[10], &mut z, &[]), done(0));
    assert_eq!(z, [8]);
    assert_eq!(add(1, &[12], &[10], &mut z, &[]), done(0));
    assert_eq!(z, [22]);
    assert_eq!(a2b(1, &[9], &mut z, &[]), done(0));
    assert_eq!(z, [9]);
    assert_eq!(b2a(1, &[10], &mut z, &[]), done(0));
    assert_eq!(z, [10]);
    let mut y = [BEFORE; 2];
    assert_eq!(expand(1, &[9], &mut y, &[5]), done(1));
    assert_eq!(y, [12, 5]);
}

#[test]
fn split_by_hand() {
    let mut shares = [BEFORE; 4];
    assert_eq!(split(4, 0x80, &mut shares, &[1, 2, 4, 99]), done(3));
    assert_eq!(shares, [1, 2, 4, 0x87]);
}

#[test]
fn refresh_rule_of_three_shares_by_hand() {
    // 10 for (1,2), 20 for (1,3), 40 for (2,3): 01 ⊕ 10 ⊕ 20, 02 ⊕ 10 ⊕ 40, 04 ⊕ 20 ⊕ 40.
    let words = [0x10, 0x20, 0x40];
    let mut supply = Supply::new(&words);
    let y = rules::refresh(&[0x01, 0x02, 0x04], &mut supply);
    assert_eq!(y, Some(vec![0x31, 0x52, 0x64]));
    assert_eq!(supply.drawn(), 3);
    let mut supply = Supply::new(&words[..2]);
    assert_eq!(rules::refresh(&[0x01, 0x02, 0x04], &mut supply), None);
}

#[test]
fn refresh_of_three_and_of_four_shares_by_hand() {
    // The same by the call, which request (vi) opens to three shares.
    let mut y = [BEFORE; 3];
    let answer = refresh(3, &[1, 2, 4], &mut y, &[0x10, 0x20, 0x40, 99]);
    assert_eq!(answer, done(3));
    assert_eq!(y, [0x31, 0x52, 0x64]);
    // 10 for (1,2), 20 for (1,3), 40 for (1,4), 80 for (2,3), 100 for (2,4), 200 for (3,4).
    let words = [0x10, 0x20, 0x40, 0x80, 0x100, 0x200, 99];
    let mut y = [BEFORE; 4];
    assert_eq!(refresh(4, &[1, 2, 4, 8], &mut y, &words), done(6));
    assert_eq!(y, [0x71, 0x192, 0x2a4, 0x348]);
}

#[test]
fn refresh_draws_in_the_order_of_the_and() {
    // With x = 0 the AND leaves the fresh words alone, and they are what a refresh XORs in.
    for n in COUNTS {
        let words = random_words(1, and_words(n).drawn);
        let x = random_words(2, n as u64);
        let mut fresh = vec![BEFORE; n];
        and(n, &vec![0; n], &x, &mut fresh, &words);
        let expected: Vec<u32> = (0..n).map(|i| x[i] ^ fresh[i]).collect();
        let mut y = vec![BEFORE; n];
        assert_eq!(refresh(n, &x, &mut y, &words), and_words(n));
        assert_eq!(y, expected);
    }
}

#[test]
fn refresh_draws_for_pairs_and_split_does_not() {
    let pairs = [0, 1, 3, 6, 10, 15, 21, 28, 36, 45, 55, 66, 78, 91, 105, 120];
    assert_eq!(COUNTS.map(|n| refresh_words(n).drawn), pairs);
    let others = [0, 1, 2, 3, 4, 5, 6, 7, 8, 9, 10, 11, 12, 13, 14, 15];
    assert_eq!(COUNTS.map(|n| split_words(n).drawn), others);
}

#[test]
fn the_counts_of_the_old_refresh_are_too_few() {
    for (n, old_refresh, old_b2a) in [(3, 2, 234), (4, 3, 462), (8, 7, 2342), (16, 15, 10590)] {
        let words = random_words(1, PLENTY);
        let x = random_words(2, n as u64);
        let mut y = vec![BEFORE; n];
        assert_eq!(refresh(n, &x, &mut y, &words[..old_refresh]), refused(5));
        assert_eq!(b2a(n, &x, &mut y, &words[..old_b2a]), refused(5));
        assert_eq!(y, vec![BEFORE; n]);
    }
}

#[test]
fn and_draws_pair_by_pair() {
    // With x = 0 only the fresh words are left: 1 for (1,2), 2 for (1,3), 4 for (1,4), 8 for
    // (2,3), 16 for (2,4), 32 for (3,4).
    let mut z = [BEFORE; 4];
    let answer = and(4, &[0; 4], &[0; 4], &mut z, &[1, 2, 4, 8, 16, 32]);
    assert_eq!(answer, done(6));
    assert_eq!(z, [7, 1 + 8 + 16, 2 + 8 + 32, 4 + 16 + 32]);
}

#[test]
fn addition_is_made_of_ands_in_order() {
    for n in 2..=16 {
        let words = random_words(1, add_words(n).drawn);
        let mut parts = words.chunks(and_words(n).drawn as usize);
        let x = random_words(2, n as u64);
        let y = random_words(3, n as u64);
        let mut w = vec![0; n];
        and(n, &x, &y, &mut w, parts.next().unwrap());
        let a: Vec<u32> = (0..n).map(|i| x[i] ^ y[i]).collect();
        let mut u = vec![0; n];
        for part in parts {
            let mut carry = vec![0; n];
            and(n, &u, &a, &mut carry, part);
            u = (0..n).map(|i| (carry[i] ^ w[i]) << 1).collect();
        }
        let expected: Vec<u32> = (0..n).map(|i| x[i] ^ y[i] ^ u[i]).collect();
        let mut z = vec![BEFORE; n];
        assert_eq!(add(n, &x, &y, &mut z, &words), add_words(n));
        assert_eq!(z, expected);
    }
}

#[test]
fn a2b_of_a_power_of_two_expands_the_left_half_first() {
    for n in [2, 4, 8, 16] {
        let half = n / 2;
        let words = random_words(1, a2b_words(n).drawn);
        let a = random_words(2, n as u64);
        let mut rest = &words[..];
        let mut halves = Vec::new();
        for part in a.chunks(half) {
            let mut converted = vec![0; half];
            let answer = a2b(half, part, &mut converted, rest);
            rest = &rest[answer.drawn as usize..];
            let mut expanded = vec![0; n];
            let answer = expand(half, &converted, &mut expanded, rest);
            rest = &rest[answer.drawn as usize..];
            halves.push(expanded);
        }
        let mut expected = vec![0; n];
        let answer = add(n, &halves[0], &halves[1], &mut expected, rest);
        assert_eq!(answer.drawn as usize, rest.len());
        let mut x = vec![BEFORE; n];
        assert_eq!(a2b(n, &a, &mut x, &words), a2b_words(n));
        assert_eq!(x, expected);
    }
}

#[test]
fn b2a_draws_in_order() {
    for n in COUNTS {
        let words = random_words(1, b2a_words(n).drawn);
        let x = random_words(2, n as u64);
        let (drawn, rest) = words.split_at(n - 1);
        let mut negated: Vec<u32> = drawn.iter().map(|word| 0u32.wrapping_sub(*word)).collect();
        negated.push(0);
        let mut converted = vec![0; n];
        let answer = a2b(n, &negated, &mut converted, rest);
        let rest = &rest[answer.drawn as usize..];
        let mut sum = vec![0; n];
        let answer = add(n, &x, &converted, &mut sum, rest);
        let rest = &rest[answer.drawn as usize..];
        let mut refreshed = vec![0; n];
        let answer = refresh(n, &sum, &mut refreshed, rest);
        assert_eq!(answer.drawn as usize, rest.len());
        let mut a = vec![BEFORE; n];
        assert_eq!(b2a(n, &x, &mut a, &words), b2a_words(n));
        assert_eq!(a[..n - 1], *drawn);
        assert_eq!(a[n - 1], xor_of(&refreshed));
    }
}

// Section 6.

#[test]
fn keys_of_up_to_64_bytes_are_padded_and_split_word_by_word() {
    for n in COUNTS {
        for length in [0, 1, 3, 4, 20, 63, 64] {
            let key = random_bytes(1, length);
            let mut block = key.clone();
            block.resize(64, 0);
            let words = random_words(2, 16 * (n as u64 - 1));
            assert_eq!(split_key_words(n, length), done(words.len() as u64));
            let mut expected = Vec::new();
            for (w, four) in block.chunks(4).enumerate() {
                let mut shares = vec![0; n];
                let value = u32::from_be_bytes(four.try_into().unwrap());
                split(n, value, &mut shares, &words[w * (n - 1)..]);
                expected.extend(shares);
            }
            assert_eq!(split_key_done(n, &key, 2), expected);
        }
    }
}

#[test]
fn compression_opens_right_and_keeps_to_its_places() {
    for n in COUNTS {
        let words = random_words(1, sha1_compress_words(n).drawn);
        let block = random_words(2, 16 * n as u64);
        let chain = random_chain(3);
        let answer = sha1_compress(n, chain, &block, &words);
        assert_eq!(answer.number, 0);
        assert_eq!(answer.drawn, sha1_compress_words(n).drawn);

        let open_all = |shares: &[u32]| -> Vec<u32> { shares.chunks(n).map(xor_of).collect() };
        let old: [u32; 5] = open_all(&chain.shares[..5 * n]).try_into().unwrap();
        let new = plain_compress(old, &open_all(&block));
        assert_eq!(open_all(&answer.chain.shares[..5 * n]), new);
        assert!(answer.chain.shares[5 * n..].iter().all(|word| *word == 0));

        let mut other = chain;
        other.shares[5 * n..].fill(BEFORE);
        assert_eq!(sha1_compress(n, other, &block, &words), answer);
    }
}

fn rotate(x: &[u32], by: u32) -> Vec<u32> {
    x.iter().map(|share| share.rotate_left(by)).collect()
}

pub(crate) fn xor_by_shares(x: &[u32], y: &[u32]) -> Vec<u32> {
    x.iter().zip(y).map(|(xi, yi)| xi ^ yi).collect()
}

/// The schedule of a block in n shares, with share i of word w at place w·n + i.
fn schedule_of(n: usize, block: &[u32]) -> Vec<u32> {
    let mut w = block.to_vec();
    for place in 16 * n..80 * n {
        let [a, b] = [w[place - 3 * n] ^ w[place - 8 * n], w[place - 14 * n]];
        w.push((a ^ b ^ w[place - 16 * n]).rotate_left(1));
    }
    w
}

/// A call on two words in shares.
type Rule = fn(usize, &[u32], &[u32], &mut [u32], &[u32]) -> Answer;

/// Such a call on the front of a supply, off which it takes what it draws.
fn rule_done(rule: Rule, x: &[u32], y: &[u32], words: &mut &[u32]) -> Vec<u32> {
    let mut z = vec![BEFORE; x.len()];
    let answer = rule(x.len(), x, y, &mut z, words);
    assert_eq!(answer.number, 0);
    *words = &words[answer.drawn as usize..];
    z
}

/// The 5n shares after a compression, by one AND or addition after another.
fn compression_by_rules(n: usize, chain: &[u32], block: &[u32], words: &mut &[u32]) -> Vec<u32> {
    let constants = [0x5a827999, 0x6ed9eba1, 0x8f1bbcdc, 0xca62c1d6];
    let w = schedule_of(n, block);
    let mut v = chain.to_vec();
    for t in 0..80 {
        let word = |i: usize| &v[i * n..(i + 1) * n];
        let (b, c, d) = (word(1), word(2), word(3));
        let c_xor_d = xor_by_shares(c, d);
        let f = match t / 20 {
            0 => xor_by_shares(d, &rule_done(and, b, &c_xor_d, words)),
            2 => xor_by_shares(d, &rule_done(and, &xor_by_shares(b, d), &c_xor_d, words)),
            _ => xor_by_shares(b, &c_xor_d),
        };
        let k = public(n, &[constants[t / 20]]);
        let mut sum = rotate(word(0), 5);
        for term in [&f[..], word(4), &k, &w[t * n..(t + 1) * n]] {
            sum = rule_done(add, &sum, term, words);
        }
        v = [&sum, word(0), &rotate(b, 30), c, d].concat();
    }
    let mut new = Vec::new();
    for (old, word) in chain.chunks(n).zip(v.chunks(n)) {
        new.extend(rule_done(add, old, word, words));
    }
    new
}

#[test]
fn compression_is_made_of_ands_and_additions_in_order() {
    for n in [2, 3, 4, 7, 8, 16] {
        let words = random_words(1, sha1_compress_words(n).drawn);
        let block = random_words(2, 16 * n as u64);
        let chain = random_chain(3);
        let mut rest = &words[..];
        let expected = compression_by_rules(n, &chain.shares[..5 * n], &block, &mut rest);
        assert!(rest.is_empty());
        let after = compress_done(n, chain, &block, &mut &words[..]);
        assert_eq!(after.shares[..5 * n], expected);
        assert!(after.shares[5 * n..].iter().all(|word| *word == 0));
    }
}

#[test]
fn hmac_is_made_of_compressions_in_order() {
    for n in FEW_COUNTS {
        let message = random_bytes(1, 70);
        let key = split_key_done(n, &random_bytes(2, 40), 3);
        let words = random_words(4, hmac_sha1_words(n, 70).drawn);
        let mut bytes = message.clone();
        bytes.push(0x80);
        bytes.resize(120, 0);
        bytes.extend(((64u64 + 70) * 8).to_be_bytes());
        let values = words_of(&bytes);

        let mut rest = &words[..];
        let mut next = |chain: Chain, block: &[u32]| compress_done(n, chain, block, &mut rest);
        let inner = next(start_chain(n), &with_pad(n, &key, 0x36363636));
        let inner = next(inner, &public(n, &values[..16]));
        let inner = next(inner, &public(n, &values[16..]));
        let outer = next(start_chain(n), &with_pad(n, &key, 0x5c5c5c5c));
        let mut block = inner.shares[..5 * n].to_vec();
        block.extend(public(n, &DIGEST_PADDING));
        let outer = next(outer, &block);
        assert!(rest.is_empty());

        let mut tag = [0xa5; 20];
        let answer = hmac_sha1(n, &key, &message, &mut tag, &words);
        assert_eq!(answer, hmac_sha1_words(n, 70));
        assert_eq!(tag.to_vec(), opened_bytes(n, &outer.shares[..5 * n]));
    }
}

/// The cases of RFC 2202: key, message and tag.
pub(crate) const RFC_2202: [(&[u8], &[u8], &str); 7] = [
    (
        &[0x0b; 20],
        b"Hi There",
        "b617318655057264e28bc0b6fb378c8ef146be00",
    ),
    (
        b"Jefe",
        b"what do ya want for nothing?",
        "effcdf6ae5eb2fa2d27416d5f184df9c259a7c79",
    ),
    (
        &[0xaa; 20],
        &[0xdd; 50],
        "125d7342b9ac11cd91a39af48aa17b4f63f175d3",
    ),
    (
        &[
            1, 2, 3, 4, 5, 6, 7, 8, 9, 10, 11, 12, 13, 14, 15, 16, 17, 18, 19, 20, 21, 22, 23, 24,
            25,
        ],
        &[0xcd; 50],
        "4c9007f4026250c6bc8414f9bf50c86c2d7235da",
    ),
    (
        &[0x0c; 20],
        b"Test With Truncation",
        "4c1a03424b55e07fe7f27be1d58bb9324a9a5a04",
    ),
    (
        &[0xaa; 80],
        b"Test Using Larger Than Block-Size Key - Hash Key First",
        "aa4ae5e15272d00e95705637ce8a3b55ed402112",
    ),
    (
        &[0xaa; 80],
        b"Test Using Larger Than Block-Size Key and Larger Than One Block-Size Data",
        "e8e99d0f45237d786d6bbaa7965c7808bbff1a91",
    ),
];

#[test]
fn rfc_2202() {
    for n in FEW_COUNTS {
        for (key, message, tag) in RFC_2202 {
            assert_eq!(hex(&plain_hmac(key, message)), tag);
            assert_eq!(hex(&hmac_done(n, key, message, 1)), tag);
        }
    }
}

#[test]
fn rfc_2202_at_every_count() {
    // One case for each count, so that every case comes twice at least.
    for n in COUNTS {
        let (key, message, tag) = RFC_2202[n % RFC_2202.len()];
        assert_eq!(hex(&hmac_done(n, key, message, 2)), tag, "n {n}");
    }
}

#[test]
fn hmac_agrees_with_the_plain_one() {
    assert_eq!(
        hex(&plain_sha1(b"abc")),
        "a9993e364706816aba3e25717850c26c9cd0d89d"
    );
    for n in FEW_COUNTS {
        for length in [0, 1, 3, 4, 54, 55, 56, 57, 63, 64, 65, 119, 120, 128] {
            let key = random_bytes(length as u64, length % 65);
            let message = random_bytes(5, length);
            let tag = hmac_done(n, &key, &message, 6);
            assert_eq!(tag, plain_hmac(&key, &message), "n {n}, length {length}");
        }
    }
}

// Request (iii): keys over 64 bytes.

/// Lengths of long keys, each with the words it is split into and the blocks it is hashed in.
pub(crate) const LONG_KEYS: [(usize, u64, u64); 8] = [
    (65, 17, 2),
    (68, 17, 2),
    (69, 18, 2),
    (119, 30, 2),
    (120, 30, 3),
    (127, 32, 3),
    (128, 32, 3),
    (1024, 256, 17),
];

#[test]
fn a_long_key_block_is_the_hash_and_then_zero_shares() {
    for n in FEW_COUNTS {
        for (length, words, blocks) in LONG_KEYS {
            let drawn = words * (n as u64 - 1) + blocks * 5220 * (n * (n - 1)) as u64;
            assert_eq!(split_key_words(n, length), done(drawn));
            let key = random_bytes(length as u64, length);
            let shares = split_key_done(n, &key, 1);
            let opened = opened_bytes(n, &shares[..5 * n]);
            assert_eq!(opened, plain_sha1(&key), "n {n}, length {length}");
            assert_eq!(shares[5 * n..], vec![0; 11 * n]);
        }
    }
}

#[test]
fn long_keys_of_every_length_in_a_block_are_hashed() {
    let key = random_bytes(1, 136);
    for length in 65..=136 {
        let opened = opened_bytes(1, &split_key_done(1, &key[..length], 2));
        assert_eq!(opened[..20], plain_sha1(&key[..length]), "length {length}");
        assert_eq!(opened[20..], [0; 44]);
    }
}

#[test]
fn a_key_of_66_bytes_in_two_shares_step_by_step() {
    let key = random_bytes(1, 66);
    let words = random_words(2, 17 + 2 * 10440);
    // Sixteen full words and one of two bytes, filled with zero bytes, draw one word each.
    let mut padded = Vec::new();
    for w in 0..17 {
        let byte = |place| *key.get(4 * w + place).unwrap_or(&0);
        let value = u32::from_be_bytes([byte(0), byte(1), byte(2), byte(3)]);
        let mut shares = [BEFORE; 2];
        assert_eq!(split(2, value, &mut shares, &words[w..]), done(1));
        padded.extend(shares);
    }
    // The padding's 0x80 comes third in the last of them, and goes into share 1.
    padded[2 * 16] ^= 0x8000;
    // Whole words of padding are (v, 0): fourteen zeros, then the length in bits.
    padded.extend([0; 2 * 14]);
    padded.extend([66 * 8, 0]);
    // The two compressions draw after all of the splitting.
    let mut rest = &words[17..];
    let first = compress_done(2, start_chain(2), &padded[..32], &mut rest);
    assert_eq!(rest.len(), 10440);
    let second = compress_done(2, first, &padded[32..], &mut rest);
    assert!(rest.is_empty());
    // The 10 digest words, then zero shares.
    let mut expected = second.shares[..10].to_vec();
    expected.resize(32, 0);

    let mut shares = vec![BEFORE; 32];
    let answer = split_key(2, &key, &mut shares, &words);
    assert_eq!(answer, done(17 + 2 * 10440));
    assert_eq!(shares, expected);
}

/// The words of a key, the last one filled with zero bytes, split one after another.
pub(crate) fn split_words_of_key(n: usize, key: &[u8], words: &mut &[u32]) -> Vec<u32> {
    let mut split_words = Vec::new();
    for part in key.chunks(4) {
        let mut four = [0; 4];
        four[..part.len()].copy_from_slice(part);
        let mut shares = vec![BEFORE; n];
        let answer = split(n, u32::from_be_bytes(four), &mut shares, words);
        assert_eq!(answer, done(n as u64 - 1));
        *words = &words[n - 1..];
        split_words.extend(shares);
    }
    split_words
}

#[test]
fn long_keys_are_split_then_padded_then_compressed() {
    // Lengths, each with the padding in the last key word and the first whole word of padding.
    let cases = [
        (65, 0x800000, 0),
        (66, 0x8000, 0),
        (67, 0x80, 0),
        (68, 0, 0x80000000),
        (119, 0x80, 0),
        (120, 0, 0x80000000),
        (127, 0x80, 0),
        (128, 0, 0x80000000),
    ];
    for n in [1, 2, 3] {
        for (length, in_last_word, whole_word) in cases {
            let key = random_bytes(1, length);
            let words = random_words(2, split_key_words(n, length).drawn);
            let mut rest = &words[..];
            let mut padded = split_words_of_key(n, &key, &mut rest);
            let after = padded.len();
            padded[after - n] ^= in_last_word;
            padded.resize(((length + 8) / 64 + 1) * 16 * n, 0);
            padded[after] = whole_word;
            let last = padded.len() - n;
            padded[last] = length as u32 * 8;
            let mut chain = start_chain(n);
            for block in padded.chunks(16 * n) {
                chain = compress_done(n, chain, block, &mut rest);
            }
            assert!(rest.is_empty());
            let mut expected = chain.shares[..5 * n].to_vec();
            expected.resize(16 * n, 0);
            let shares = split_key_done(n, &key, 2);
            assert_eq!(shares, expected, "n {n}, length {length}");
        }
    }
}

#[test]
fn one_word_less_for_a_long_key_is_five() {
    for n in [2, 3] {
        for (length, words, blocks) in LONG_KEYS {
            let key = random_bytes(1, length);
            let splitting = words as usize * (n - 1);
            let all = splitting + blocks as usize * 5220 * n * (n - 1);
            let lent = random_words(2, all as u64);
            let mut shares = vec![BEFORE; 16 * n];
            for less in [0, splitting - 1, splitting, splitting + 1, all - 1] {
                let answer = split_key(n, &key, &mut shares, &lent[..less]);
                assert_eq!(answer, refused(5));
                assert_eq!(shares, vec![BEFORE; 16 * n]);
            }
            let answer = split_key(n, &key, &mut shares, &lent);
            assert_eq!(answer, done(all as u64));
        }
    }
}

#[test]
fn splitting_a_key_is_refused_in_order() {
    for n in FEW_COUNTS {
        let lent = random_words(1, split_key_words(n, 1024).drawn);
        for length in [1025, 1026, 2000] {
            let key = vec![7; length];
            for words in [&lent[..], &[]] {
                let mut shares = vec![BEFORE; 16 * n];
                assert_eq!(split_key(17, &key, &mut shares[1..], words), refused(1));
                assert_eq!(split_key(n, &key, &mut shares[1..], words), refused(3));
                assert_eq!(split_key(n, &key, &mut shares, words), refused(4));
                assert_eq!(shares, vec![BEFORE; 16 * n]);
            }
        }
        let mut shares = vec![BEFORE; 16 * n];
        let number = if n == 1 { 0 } else { 5 };
        let answer = split_key(n, &[7; 1024], &mut shares, &[]);
        assert_eq!(answer, Answer { number, drawn: 0 });
        assert_eq!(shares == vec![BEFORE; 16 * n], n != 1);
    }
}

// Request (vi): every share count from 1 to 16, and longer messages.

/// So many words, 0 but for those that stand at the places named.
fn words_at(count: usize, places: &[(usize, &[u32])]) -> Vec<u32> {
    let mut words = vec![0; count];
    for (place, some) in places {
        words[*place..*place + some.len()].copy_from_slice(some);
    }
    words
}

// In the three tests by hand every share and word has bits of its own. So no AND of two terms has
// a bit, its words are 0, and an addition is the XOR by shares.

#[test]
fn a2b_of_three_shares_by_hand() {
    let places: [(usize, &[u32]); 3] = [
        // Left: 01, 00, 00, refreshed to 11, 20, 30.
        (0, &[0x10, 0x20]),
        // Right: 02 and 04, expanded to 102, 100 and 204, 200; 32 words for their sum 306, 300.
        (2, &[0x100, 0x200]),
        // 306, 300, 00, refreshed to 1306, 2300, 3000; 96 words for the sum of left and right.
        (36, &[0x1000, 0x2000]),
    ];
    let words = words_at(134, &places);
    let mut x = [BEFORE; 3];
    assert_eq!(a2b(3, &[0x01, 0x02, 0x04], &mut x, &words), done(134));
    assert_eq!(x, [0x1317, 0x2320, 0x3030]);
    assert_eq!(xor_of(&x), 0x07);
    let mut x = [BEFORE; 3];
    assert_eq!(a2b(3, &[1, 2, 4], &mut x, &words[..133]), refused(5));
    assert_eq!(x, [BEFORE; 3]);
}

#[test]
fn a2b_of_five_shares_by_hand() {
    let places: [(usize, &[u32]); 6] = [
        // Left: 01 and 02, expanded to 21, 20 and 42, 40; 32 words for their sum 63, 60.
        (0, &[0x20, 0x40]),
        // 63, 60, 00, 00, 00, refreshed to e3, 160, 200, 400, 780.
        (34, &[0x80, 0x100, 0x200, 0x400]),
        // Right, its left: 04, 00, 00, refreshed to 804, 1000, 1800.
        (38, &[0x800, 0x1000]),
        // Its right: 08 and 10, expanded to 2008, 2000 and 4010, 4000; 32 words for 6018, 6000.
        (40, &[0x2000, 0x4000]),
        // Refreshed to e018, 16000, 18000; 96 words for the right's sum e81c, 17000, 19800.
        (74, &[0x8000, 0x10000]),
        // Refreshed to 2e81c, 57000, 99800, 100000, 1e0000; 320 words for the sum of both.
        (172, &[0x20000, 0x40000, 0x80000, 0x100000]),
    ];
    let words = words_at(496, &places);
    let mut x = [BEFORE; 5];
    let answer = a2b(5, &[0x01, 0x02, 0x04, 0x08, 0x10], &mut x, &words);
    assert_eq!(answer, done(496));
    assert_eq!(x, [0x2e8ff, 0x57160, 0x99a00, 0x100400, 0x1e0780]);
    assert_eq!(xor_of(&x), 0x1f);
}

#[test]
fn a2b_of_seven_shares_by_hand() {
    let places: [(usize, &[u32]); 7] = [
        // Left, 3 shares: 01 becomes 41, 80, c0; 02 and 04 add up with 32 words to 306, 300.
        (0, &[0x40, 0x80, 0x100, 0x200]),
        // Refreshed to 706, b00, c00; 96 words for the left's sum 747, b80, cc0.
        (36, &[0x400, 0x800]),
        // Refreshed to 1747, 2b80, 4cc0, 8000, 10000, 20000, 3f000.
        (134, &[0x1000, 0x2000, 0x4000, 0x8000, 0x10000, 0x20000]),
        // Right, 4 shares by the other rule: 08 and 10 add up with 32 words to c0018, c0000.
        (140, &[0x40000, 0x80000]),
        // Expanded to 1c0018, 100000, 2c0000, 200000; 20 and 00 with 32 words to c00020, c00000.
        (174, &[0x100000, 0x200000, 0x400000, 0x800000]),
        // Expanded to 1c00020, 1000000, 2c00000, 2000000; 192 words for the right's sum 1dc0038,
        // 1100000, 2ec0000, 2200000.
        (210, &[0x1000000, 0x2000000]),
        // Refreshed to 5dc0038, 9100000, 12ec0000, 22200000, 40000000, 80000000, fc000000; 672
        // words for the sum of both.
        (404, &[1 << 26, 1 << 27, 1 << 28, 1 << 29, 1 << 30, 1 << 31]),
    ];
    let words = words_at(1082, &places);
    let mut x = [BEFORE; 7];
    let answer = a2b(7, &[1, 2, 4, 8, 0x10, 0x20, 0], &mut x, &words);
    assert_eq!(answer, done(1082));
    assert_eq!(x[..4], [0x5dc177f, 0x9102b80, 0x12ec4cc0, 0x22208000]);
    assert_eq!(x[4..], [0x40010000, 0x80020000, 0xfc03f000]);
    assert_eq!(xor_of(&x), 0x3f);
}

/// A half's conversion, zero shares up to n, and the old refresh: each of its words goes into a share
/// of its own, and all of them go into the last.
fn converted_and_refreshed(n: usize, half: &[u32], words: &[u32], refreshing: &[u32]) -> Vec<u32> {
    let mut converted = vec![BEFORE; half.len()];
    let answer = a2b(half.len(), half, &mut converted, words);
    assert_eq!(answer, done(words.len() as u64));
    converted.resize(n, 0);
    let mut shares = xor_by_shares(&converted, refreshing);
    shares.push(converted[n - 1] ^ xor_of(refreshing));
    shares
}

#[test]
fn a2b_of_other_counts_refreshes_the_left_half_first() {
    // Where the words end of the left half, its refresh, the right half, its refresh, the addition.
    let cases = [
        (3, [0, 2, 36, 38, 134]),
        (5, [34, 38, 172, 176, 496]),
        (6, [134, 139, 273, 278, 758]),
        (7, [134, 140, 404, 410, 1082]),
        (9, [264, 272, 768, 776, 1928]),
        (10, [496, 505, 1001, 1010, 2450]),
        (11, [496, 506, 1264, 1274, 3034]),
        (12, [758, 769, 1527, 1538, 3650]),
        (13, [758, 770, 1852, 1864, 4360]),
        (14, [1082, 1095, 2177, 2190, 5102]),
        (15, [1082, 1096, 2528, 2542, 5902]),
    ];
    for (n, ends) in cases {
        let words = random_words(1, ends[4]);
        let part = |i: usize| &words[ends[i - 1] as usize..ends[i] as usize];
        let a = random_words(2, n as u64);
        let (left, right) = a.split_at(n / 2);
        let first = &words[..ends[0] as usize];
        let left = converted_and_refreshed(n, left, first, part(1));
        let right = converted_and_refreshed(n, right, part(2), part(3));
        let mut expected = vec![BEFORE; n];
        let answer = add(n, &left, &right, &mut expected, part(4));
        assert_eq!(answer, done(ends[4] - ends[3]));
        let mut x = vec![BEFORE; n];
        assert_eq!(a2b(n, &a, &mut x, &words), done(ends[4]));
        assert_eq!(x, expected, "n {n}");
    }
}

#[test]
fn there_and_back_at_every_count() {
    let plenty = PLENTY as usize;
    let supplies = [
        random_words(1, PLENTY),
        vec![0; plenty],
        vec![u32::MAX; plenty],
    ];
    for n in COUNTS {
        let mut inputs = vec![vec![0; n], vec![1; n], vec![u32::MAX; n]];
        inputs.extend((2..6).map(|seed| random_words(seed, n as u64)));
        for x in &inputs {
            for words in &supplies {
                let (mut there, mut back) = (vec![BEFORE; n], vec![BEFORE; n]);
                assert_eq!(b2a(n, x, &mut there, words), b2a_words(n));
                assert_eq!(a2b(n, &there, &mut back, words), a2b_words(n));
                assert_eq!([sum_of(&there), xor_of(&back)], [xor_of(x); 2]);
                assert_eq!(a2b(n, x, &mut there, words), a2b_words(n));
                assert_eq!(b2a(n, &there, &mut back, words), b2a_words(n));
                assert_eq!([xor_of(&there), sum_of(&back)], [sum_of(x); 2]);
            }
        }
    }
}

#[test]
fn expand_of_three_and_of_sixteen_shares() {
    let mut y = [BEFORE; 6];
    let answer = expand(3, &[0x11, 0x22, 0x33], &mut y, &[0x01, 0x02, 0x04, 99]);
    assert_eq!(answer, done(3));
    assert_eq!(y, [0x10, 0x01, 0x20, 0x02, 0x37, 0x04]);
    let (x, words) = (random_words(1, 16), random_words(2, 16));
    let mut y = [BEFORE; 32];
    assert_eq!(expand(16, &x, &mut y, &words), done(16));
    for (i, pair) in y.chunks(2).enumerate() {
        assert_eq!(pair, [x[i] ^ words[i], words[i]]);
    }
}

/// Messages whose tags were worked out by another program: 251 byte values in turn.
pub(crate) fn counting_bytes(count: usize) -> Vec<u8> {
    (0..count).map(|place| (place % 251) as u8).collect()
}

#[test]
fn the_longest_message_in_one_share() {
    let message = counting_bytes(LONGEST);
    let tag = hmac_done(1, b"a longer log", &message, 1);
    assert_eq!(hex(&tag), "ae187c8c555bc41a98561d7a0687fd683bf88748");
    assert_eq!(tag, plain_hmac(b"a longer log", &message));
}

#[test]
fn length_fields_of_more_than_16_bits() {
    // With the 64 bytes of the key block, 8,127 bytes have fff8 bits and 8,128 bytes have 10000;
    // the longest message has 80200.
    let message = counting_bytes(8128);
    let tag = hmac_done(1, b"a longer log", &message[..8127], 1);
    assert_eq!(hex(&tag), "a9e7471a25fed58fd5e343cd51338013d368fbd2");
    let tag = hmac_done(2, b"a longer log", &message, 1);
    assert_eq!(hex(&tag), "b253025fd04fc128a8894cd1fe350f92156b4185");
}

// Sections 3 and 7: the limits and the refusals.

#[test]
fn limits() {
    let mut x = [BEFORE; 17];
    assert_eq!(a2b(17, &[1; 17], &mut x, &[]), refused(1));
    assert_eq!(x, [BEFORE; 17]);
    assert_eq!(a2b(0, &[], &mut [], &[]), refused(1));
    let words = random_words(1, 34);
    let mut x = [BEFORE; 2];
    assert_eq!(a2b(2, &[5, 6], &mut x, &words[..33]), refused(5));
    assert_eq!(x, [BEFORE; 2]);
    assert_eq!(a2b(2, &[5, 6], &mut x, &words), done(34));
    assert_eq!(xor_of(&x), 11);
}

#[test]
fn limits_of_messages_and_keys() {
    let message = random_bytes(2, LONGEST + 1);
    let words = random_words(3, 1000);
    for n in COUNTS {
        let key = vec![0; 16 * n];
        let mut tag = [0xa5; 20];
        let answer = hmac_sha1(n, &key, &message, &mut tag, &[]);
        assert_eq!((answer, tag), (refused(4), [0xa5; 20]));
        assert_eq!(hmac_sha1_words(n, LONGEST + 1), refused(4));
        assert_eq!(hmac_sha1_words(n, usize::MAX), refused(4));
        let compressions = (LONGEST as u64 + 8) / 64 + 4;
        let drawn = compressions * sha1_compress_words(n).drawn;
        assert_eq!(hmac_sha1_words(n, LONGEST), done(drawn));
        if n > 1 {
            let answer = hmac_sha1(n, &key, &message[..LONGEST], &mut tag, &words);
            assert_eq!((answer, tag), (refused(5), [0xa5; 20]));
        }
        assert_eq!(split_key_words(n, 1024).number, 0);
        assert_eq!(split_key_words(n, 1025), refused(4));
        assert_eq!(split_key_words(n, usize::MAX), refused(4));
    }
}

/// A call made on a supply: its answer, and its output afterwards.
pub(crate) type Call = Box<dyn Fn(&[u32]) -> (Answer, Vec<u32>)>;

/// Each call that takes a supply, with count n: its query, and the call on inputs and on an output
/// of the lengths given. The short conversion, with counts of its own, has its own tests.
fn calls(n: usize, input: usize, second: usize, output: usize) -> Vec<(Answer, Call)> {
    let x = random_words(1, input as u64);
    let y = random_words(2, second as u64);
    type Rule1 = fn(usize, &[u32], &mut [u32], &[u32]) -> Answer;
    let one: [(Answer, Rule1); 3] = [
        (refresh_words(n), refresh),
        (a2b_words(n), a2b),
        (b2a_words(n), b2a),
    ];
    let two: [(Answer, Rule); 2] = [(and_words(n), and), (add_words(n), add)];
    let mut calls: Vec<(Answer, Call)> = Vec::new();
    for (query, rule) in two {
        let (x, y) = (x.clone(), y.clone());
        let call = move |words: &[u32]| {
            let mut z = vec![BEFORE; output];
            (rule(n, &x, &y, &mut z, words), z)
        };
        calls.push((query, Box::new(call)));
    }
    if second == input {
        for (query, rule) in one {
            let x = x.clone();
            let call = move |words: &[u32]| {
                let mut z = vec![BEFORE; output];
                (rule(n, &x, &mut z, words), z)
            };
            calls.push((query, Box::new(call)));
        }
    }
    calls
}

/// The calls whose lengths are not simply n but that hash nothing, with lengths that are right for n.
fn longer_calls(n: usize) -> Vec<(Answer, Call)> {
    let value = move |words: &[u32]| {
        let mut shares = vec![BEFORE; n];
        (split(n, 0x12345678, &mut shares, words), shares)
    };
    let twice = move |words: &[u32]| {
        let mut y = vec![BEFORE; 2 * n];
        let x = random_words(1, n as u64);
        (expand(n, &x, &mut y, words), y)
    };
    let key = move |words: &[u32]| {
        let mut shares = vec![BEFORE; 16 * n];
        (split_key(n, b"a key", &mut shares, words), shares)
    };
    vec![
        (split_words(n), Box::new(value)),
        (expand_words(n), Box::new(twice)),
        (split_key_words(n, 5), Box::new(key)),
    ]
}

/// The calls that hash, with lengths that are right for n.
fn hash_calls(n: usize) -> Vec<(Answer, Call)> {
    let long_key = move |words: &[u32]| {
        let mut shares = vec![BEFORE; 16 * n];
        (split_key(n, &[0x5a; 70], &mut shares, words), shares)
    };
    let compression = move |words: &[u32]| {
        let chain = Chain {
            shares: [BEFORE; CHAIN_WORDS],
        };
        let answer = sha1_compress(n, chain, &random_words(1, 16 * n as u64), words);
        let Compressed { number, drawn, .. } = answer;
        (Answer { number, drawn }, answer.chain.shares.to_vec())
    };
    let mac = move |words: &[u32]| {
        let mut tag = [0xa5; 20];
        let key = random_words(1, 16 * n as u64);
        let answer = hmac_sha1(n, &key, b"a message", &mut tag, words);
        (answer, words_of(&tag))
    };
    vec![
        (split_key_words(n, 70), Box::new(long_key)),
        (sha1_compress_words(n), Box::new(compression)),
        (hmac_sha1_words(n, 9), Box::new(mac)),
    ]
}

#[test]
fn queries_name_what_is_drawn() {
    for n in COUNTS {
        let mut all = calls(n, n, n, n);
        all.extend(longer_calls(n));
        if FEW_COUNTS.contains(&n) {
            all.extend(hash_calls(n));
        }
        for (query, call) in all {
            assert_eq!(query.number, 0);
            let drawn = query.drawn as usize;
            let words = random_words(7, query.drawn + 5);
            let (answer, output) = call(&words[..drawn]);
            assert_eq!(answer, query);
            // Words after those drawn have no influence.
            assert_eq!(call(&words), (answer, output));
            // One word less, or none, is refused, and the output stays.
            for less in [drawn.saturating_sub(1), drawn / 2, 0] {
                if less < drawn {
                    let (answer, output) = call(&words[..less]);
                    assert_eq!(answer, refused(5));
                    assert!(output.iter().all(|word| *word == BEFORE));
                }
            }
        }
    }
}

#[test]
fn lengths_are_refused_in_order() {
    let words = random_words(1, PLENTY);
    for n in COUNTS {
        let wrong = [0, n - 1, n + 1, 2 * n, 16];
        for other in wrong.into_iter().filter(|other| *other != n) {
            let lengths = [
                (other, n, n, 2),
                (n, other, n, 2),
                (other, other, n, 2),
                (other, other, other, 2),
                (n, n, other, 3),
            ];
            for (input, second, output, number) in lengths {
                for (_, call) in calls(n, input, second, output) {
                    let expected = (refused(number), vec![BEFORE; output]);
                    assert_eq!(call(&[]), expected);
                    assert_eq!(call(&words), expected);
                }
            }
            let mut shares = vec![BEFORE; other];
            assert_eq!(split(n, 1, &mut shares, &[]), refused(3));
            let two = refused(2);
            assert_eq!(expand(n, &vec![1; other], &mut shares, &[]), two);
            assert_eq!(shares, vec![BEFORE; other]);
            let two = Opened { number: 2, word: 0 };
            assert_eq!(open_xor(n, &vec![1; other]), two);
            assert_eq!(open_sum(n, &vec![1; other]), two);
        }
        for other in [0, n, 2 * n - 1, 2 * n + 1] {
            let mut y = vec![BEFORE; other];
            assert_eq!(expand(n, &vec![1; n], &mut y, &[]), refused(3));
            assert_eq!(y, vec![BEFORE; other]);
        }
    }
}

#[test]
fn compressions_and_key_splittings_are_refused_in_order() {
    let chain = random_chain(1);
    for n in COUNTS {
        for other in [0, 16 * n - 1, 16 * n + 1] {
            let answer = sha1_compress(n, chain, &vec![1; other], &[]);
            let expected = Compressed {
                number: 2,
                drawn: 0,
                chain,
            };
            assert_eq!(answer, expected);
            let mut shares = vec![BEFORE; other];
            assert_eq!(split_key(n, &[1; 1024], &mut shares, &[]), refused(3));
            assert_eq!(split_key(n, &[1; 1025], &mut shares, &[]), refused(3));
            assert_eq!(shares, vec![BEFORE; other]);
        }
        let mut shares = vec![BEFORE; 16 * n];
        assert_eq!(split_key(n, &[1; 1025], &mut shares, &[]), refused(4));
        assert_eq!(shares, vec![BEFORE; 16 * n]);
    }
}

#[test]
fn tags_are_refused_in_order() {
    let long = vec![7; LONGEST + 1];
    let message = &long[..LONGEST];
    for n in COUNTS {
        let key = vec![1; 16 * n];
        for other in [0, 16 * n - 1, 16 * n + 1] {
            let mut tag = [0xa5; 19];
            let wrong_key = vec![1; other];
            assert_eq!(hmac_sha1(n, &wrong_key, &long, &mut tag, &[]), refused(2));
            assert_eq!(tag, [0xa5; 19]);
        }
        for other in [0, 19, 21] {
            let mut tag = vec![0xa5; other];
            assert_eq!(hmac_sha1(n, &key, &long, &mut tag, &[]), refused(3));
            assert_eq!(hmac_sha1(n, &key, message, &mut tag, &[]), refused(3));
            assert_eq!(tag, vec![0xa5; other]);
        }
        let mut tag = [0xa5; 20];
        assert_eq!(hmac_sha1(n, &key, &long, &mut tag, &[]), refused(4));
        assert_eq!(tag, [0xa5; 20]);
    }
}

#[test]
fn share_counts_are_refused_first() {
    let chain = random_chain(1);
    let long = vec![7; LONGEST + 1];
    for n in WRONG_COUNTS {
        for length in [0, 1, 3, 16, 17, 16 * 17] {
            for (query, call) in calls(n, length, length, length) {
                assert_eq!(query, refused(1));
                assert_eq!(call(&[]), (refused(1), vec![BEFORE; length]));
            }
            let x = vec![1; length];
            let mut y = vec![BEFORE; length];
            assert_eq!(split(n, 1, &mut y, &[]), refused(1));
            assert_eq!(expand(n, &x, &mut y, &[]), refused(1));
            assert_eq!(split_key(n, &[1; 1025], &mut y, &[]), refused(1));
            assert_eq!(y, vec![BEFORE; length]);
            let mut tag = [0xa5; 19];
            assert_eq!(hmac_sha1(n, &x, &long, &mut tag, &[]), refused(1));
            assert_eq!(tag, [0xa5; 19]);
            let one = Opened { number: 1, word: 0 };
            assert_eq!(open_xor(n, &x), one);
            assert_eq!(open_sum(n, &x), one);
            let expected = Compressed {
                number: 1,
                drawn: 0,
                chain,
            };
            assert_eq!(sha1_compress(n, chain, &x, &[]), expected);
        }
    }
}

#[test]
fn queries_refuse_share_counts_first() {
    for n in WRONG_COUNTS {
        assert_eq!(split_words(n), refused(1));
        assert_eq!(expand_words(n), refused(1));
        assert_eq!(sha1_compress_words(n), refused(1));
        assert_eq!(split_key_words(n, 5), refused(1));
        assert_eq!(split_key_words(n, usize::MAX), refused(1));
        assert_eq!(hmac_sha1_words(n, 5), refused(1));
        assert_eq!(hmac_sha1_words(n, usize::MAX), refused(1));
    }
}

#[test]
fn a_refused_compression_hands_the_chain_back() {
    for n in [2, 3, 8, 16] {
        let chain = random_chain(1);
        let words = random_words(2, sha1_compress_words(n).drawn - 1);
        let expected = Compressed {
            number: 5,
            drawn: 0,
            chain,
        };
        assert_eq!(sha1_compress(n, chain, &vec![1; 16 * n], &words), expected);
    }
}

// The comparison of tags, which is beside the requests.

/// Lengths to compare at, those of both tags among them.
const COMPARED: [usize; 6] = [1, 2, 19, 20, 32, 65];

/// The comparison, which is the same either way round.
fn same_both_ways(a: &[u8], b: &[u8]) -> u32 {
    let answer = same_tag(a, b);
    assert_eq!(same_tag(b, a), answer);
    answer
}

#[test]
fn equal_tags_are_the_same() {
    for length in COMPARED {
        let a = random_bytes(1, length);
        assert_eq!(same_tag(&a, &a), 1);
        assert_eq!(same_both_ways(&a, &a.clone()), 1);
    }
}

#[test]
fn tags_that_differ_in_one_bit_are_not_the_same() {
    for length in COMPARED {
        let a = random_bytes(2, length);
        // Every byte in turn, the first and the last too.
        for place in 0..length {
            for bit in 0..8 {
                let mut b = a.clone();
                b[place] ^= 1 << bit;
                assert_eq!(same_both_ways(&a, &b), 0, "byte {place}, bit {bit}");
            }
        }
    }
}

#[test]
fn tags_of_other_lengths_are_not_the_same() {
    // One is a beginning of the other, also where zeros follow, and where 8 bits of the length agree.
    for bytes in [random_bytes(3, 321), vec![0; 321]] {
        for length in COMPARED {
            for longer in [length + 1, length + 256] {
                assert_eq!(same_both_ways(&bytes[..length], &bytes[..longer]), 0);
            }
        }
    }
    // Nothing in common, and one is an end of the other.
    assert_eq!(same_both_ways(&[1; 20], &[2; 32]), 0);
    let a = random_bytes(4, 32);
    assert_eq!(same_both_ways(&a, &a[12..]), 0);
}

#[test]
fn an_empty_tag_is_the_same_as_an_empty_one_alone() {
    assert_eq!(same_tag(&[], &[]), 1);
    for length in COMPARED {
        assert_eq!(same_both_ways(&[], &random_bytes(5, length)), 0);
        assert_eq!(same_both_ways(&[], &vec![0; length]), 0);
    }
}
