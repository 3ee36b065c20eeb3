//! Tests of SHA-256 and one-call HMAC-SHA-256 (request (vii)): the vectors of FIPS 180-4's examples
//! and of RFC 4231, the order of the draws, the openings against a plain SHA-256, the counts, the
//! long keys and every refusal. Streaming by HMAC-SHA-256 has tests of its own, which use the helpers
//! here.

use crate::tests::{
    counting_bytes, done, hex, opened_bytes, public, random_bytes, random_words, refused,
    split_key_done, split_words_of_key, sum_of, with_pad, words_of, xor_by_shares, xor_of, Call,
    BEFORE, COUNTS, FEW_COUNTS, LONGEST, LONG_KEYS, WRONG_COUNTS,
};
use crate::*;
use std::collections::HashMap;

/// The words of a chain record, also of one in a state of either hash.
pub(crate) const CHAIN_WORDS: usize = 128;

/// Share counts at which the vectors run.
const VECTOR_COUNTS: [usize; 3] = [1, 2, 3];

/// The words of the padding after a digest, behind the outer key block.
pub(crate) const DIGEST_PADDING: [u32; 8] = [0x80000000, 0, 0, 0, 0, 0, 0, 768];

/// What one compression draws, by its ANDs: 32 for each of 48·3 + 64·7 + 8 additions, and 128 of its
/// own. It wraps, so that any share count at all can be given.
pub(crate) fn compression_count(n: usize) -> u64 {
    let pairs_both_ways = (n as u64).wrapping_mul((n as u64).wrapping_sub(1));
    pairs_both_ways.wrapping_mul((600 * 32 + 128) / 2)
}

// A plain SHA-256 and HMAC (FIPS 180-4, RFC 2104), with Ch and Maj as FIPS 180-4 writes them and with
// constants worked out from what it says of them: "the first thirty-two bits of the fractional parts"
// of the square roots of the first eight primes, and of the cube roots of the first sixty-four.

/// The first primes.
fn primes(count: usize) -> Vec<u128> {
    let mut primes: Vec<u128> = Vec::new();
    let mut next = 2;
    while primes.len() < count {
        if primes.iter().all(|prime| next % prime != 0) {
            primes.push(next);
        }
        next += 1;
    }
    primes
}

/// The largest number whose power is not over the value, which is under 2^120. Its low 32 bits are
/// those asked for when the value is a prime times the power of 2^32.
fn root(value: u128, power: u32) -> u32 {
    let mut root: u128 = 0;
    for bit in (0..40).rev() {
        let larger = root | 1 << bit;
        if larger.pow(power) <= value {
            root = larger;
        }
    }
    root as u32
}

/// The starting chain.
pub(crate) fn start_words() -> [u32; 8] {
    let roots: Vec<u32> = primes(8).iter().map(|prime| root(prime << 64, 2)).collect();
    roots.try_into().unwrap()
}

/// The round constants.
fn round_constants() -> Vec<u32> {
    let primes = primes(64);
    primes.iter().map(|prime| root(prime << 96, 3)).collect()
}

fn plain_compress(chain: [u32; 8], block: &[u32]) -> [u32; 8] {
    let turned = |x: u32, by: [u32; 3]| by.map(|by| x.rotate_right(by));
    let mut w = block.to_vec();
    for t in 16..64 {
        let [x, y] = [w[t - 15], w[t - 2]];
        let low = x.rotate_right(7) ^ x.rotate_right(18) ^ (x >> 3);
        let high = y.rotate_right(17) ^ y.rotate_right(19) ^ (y >> 10);
        w.push(sum_of(&[high, w[t - 7], low, w[t - 16]]));
    }
    let [mut a, mut b, mut c, mut d, mut e, mut f, mut g, mut h] = chain;
    for (k, wt) in round_constants().into_iter().zip(w) {
        let ch = (e & f) ^ (!e & g);
        let maj = (a & b) ^ (a & c) ^ (b & c);
        let t1 = sum_of(&[h, xor_of(&turned(e, [6, 11, 25])), ch, k, wt]);
        let t2 = xor_of(&turned(a, [2, 13, 22])).wrapping_add(maj);
        (h, g, f, e) = (g, f, e, d.wrapping_add(t1));
        (d, c, b, a) = (c, b, a, t1.wrapping_add(t2));
    }
    let mut new = chain;
    for (word, step) in new.iter_mut().zip([a, b, c, d, e, f, g, h]) {
        *word = word.wrapping_add(step);
    }
    new
}

/// A message with its padding (FIPS 180-4, 5.1.1), after so many bytes hashed before it.
pub(crate) fn padded(before: usize, message: &[u8]) -> Vec<u8> {
    let mut bytes = message.to_vec();
    bytes.push(0x80);
    while bytes.len() % 64 != 56 {
        bytes.push(0);
    }
    bytes.extend(((before + message.len()) as u64 * 8).to_be_bytes());
    bytes
}

fn plain_sha256(message: &[u8]) -> Vec<u8> {
    let mut chain = start_words();
    for block in padded(0, message).chunks(64) {
        chain = plain_compress(chain, &words_of(block));
    }
    chain.iter().flat_map(|word| word.to_be_bytes()).collect()
}

pub(crate) fn plain_hmac(key: &[u8], message: &[u8]) -> Vec<u8> {
    let mut block = match key.len() {
        0..=64 => key.to_vec(),
        _ => plain_sha256(key),
    };
    block.resize(64, 0);
    let mut inner: Vec<u8> = block.iter().map(|byte| byte ^ 0x36).collect();
    inner.extend(message);
    let mut outer: Vec<u8> = block.iter().map(|byte| byte ^ 0x5c).collect();
    outer.extend(plain_sha256(&inner));
    plain_sha256(&outer)
}

// Chains in shares, and calls on exactly the words that their queries name.

/// The starting chain in n shares.
pub(crate) fn start_chain(n: usize) -> Sha256Chain {
    let mut shares = public(n, &start_words());
    shares.resize(CHAIN_WORDS, 0);
    Sha256Chain {
        shares: shares.try_into().unwrap(),
    }
}

/// A chain with pseudo-random words in every place.
pub(crate) fn random_chain(seed: u64) -> Sha256Chain {
    let shares = random_words(seed, CHAIN_WORDS as u64);
    Sha256Chain {
        shares: shares.try_into().unwrap(),
    }
}

/// A compression on the front of a supply, off which it takes what it draws.
pub(crate) fn compress_done(
    n: usize,
    chain: Sha256Chain,
    block: &[u32],
    words: &mut &[u32],
) -> Sha256Chain {
    let answer = sha256_compress(n, chain, block, words);
    assert_eq!((answer.number, answer.drawn), (0, compression_count(n)));
    *words = &words[answer.drawn as usize..];
    answer.chain
}

pub(crate) fn key_done(n: usize, key: &[u8], seed: u64) -> Vec<u32> {
    let query = sha256_split_key_words(n, key.len());
    let words = random_words(seed, query.drawn);
    let mut shares = vec![BEFORE; 16 * n];
    assert_eq!(sha256_split_key(n, key, &mut shares, &words), query);
    assert_eq!(query.number, 0);
    shares
}

pub(crate) fn hmac_done(n: usize, key: &[u8], message: &[u8], seed: u64) -> Vec<u8> {
    let shares = key_done(n, key, seed);
    let query = hmac_sha256_words(n, message.len());
    let words = random_words(seed + 1, query.drawn);
    let mut tag = [0xa5; 32];
    assert_eq!(hmac_sha256(n, &shares, message, &mut tag, &words), query);
    assert_eq!(query.number, 0);
    tag.to_vec()
}

/// The digest of a message whose words are split into n shares, by one compression after another.
fn digest_in_shares(n: usize, message: &[u8], seed: u64) -> Vec<u8> {
    let bytes = padded(0, message);
    let draws = bytes.len() as u64 * n as u64 / 4 + bytes.len() as u64 / 64 * compression_count(n);
    let words = random_words(seed, draws);
    let mut rest = &words[..];
    let mut chain = start_chain(n);
    for block in bytes.chunks(64) {
        let block = split_words_of_key(n, block, &mut rest);
        chain = compress_done(n, chain, &block, &mut rest);
    }
    opened_bytes(n, &chain.shares[..8 * n])
}

// The vectors.

/// Messages and their digests, the second and third from FIPS 180-4's examples.
const DIGESTS: [(&[u8], &str); 4] = [
    (
        b"",
        "e3b0c44298fc1c149afbf4c8996fb92427ae41e4649b934ca495991b7852b855",
    ),
    (
        b"abc",
        "ba7816bf8f01cfea414140de5dae2223b00361a396177a9cb410ff61f20015ad",
    ),
    (
        b"abcdbcdecdefdefgefghfghighijhijkijkljklmklmnlmnomnopnopq",
        "248d6a61d20638b8e5c026930c3e6039a33ce45964ff2167f6ecedd419db06c1",
    ),
    (
        b"abcdefghbcdefghicdefghijdefghijkefghijklfghijklmghijklmnhijklmno\
          ijklmnopjklmnopqklmnopqrlmnopqrsmnopqrstnopqrstu",
        "cf5b16a778af8380036ce59e7b0492370b249b11e8f07a51afac45037afee9d1",
    ),
];

/// The cases of RFC 4231: key, message and tag, which case 5 gives cut to 16 bytes.
pub(crate) const RFC_4231: [(&[u8], &[u8], &str); 7] = [
    (
        &[0x0b; 20],
        b"Hi There",
        "b0344c61d8db38535ca8afceaf0bf12b881dc200c9833da726e9376c2e32cff7",
    ),
    (
        b"Jefe",
        b"what do ya want for nothing?",
        "5bdcc146bf60754e6a042426089575c75a003f089d2739839dec58b964ec3843",
    ),
    (
        &[0xaa; 20],
        &[0xdd; 50],
        "773ea91e36800e46854db8ebd09181a72959098b3ef8c122d9635514ced565fe",
    ),
    (
        &[
            1, 2, 3, 4, 5, 6, 7, 8, 9, 10, 11, 12, 13, 14, 15, 16, 17, 18, 19, 20, 21, 22, 23, 24,
            25,
        ],
        &[0xcd; 50],
        "82558a389a443c0ea4cc819899f2083a85f0faa3e578f8077a2e3ff46729665b",
    ),
    (
        &[0x0c; 20],
        b"Test With Truncation",
        "a3b6167473100ee06e0c796c2955552b",
    ),
    (
        &[0xaa; 131],
        b"Test Using Larger Than Block-Size Key - Hash Key First",
        "60e431591ee0b67f0d8a26aacbf5b77f8e0bc6213728c5140546040f0ee37f54",
    ),
    (
        &[0xaa; 131],
        b"This is a test using a larger than block-size key and a larger than block-size data. \
          The key needs to be hashed before being used by the HMAC algorithm.",
        "9b09ffa71b942fcb27635fbcd5b0e944bfdc63644f0713938a7f51535c3a35e2",
    ),
];

#[test]
fn digests_of_fips_180_4() {
    for (message, digest) in DIGESTS {
        assert_eq!(hex(&plain_sha256(message)), digest);
        for n in VECTOR_COUNTS {
            assert_eq!(hex(&digest_in_shares(n, message, 1)), digest, "n {n}");
        }
    }
}

#[test]
fn rfc_4231() {
    for (key, message, tag) in RFC_4231 {
        assert!(hex(&plain_hmac(key, message)).starts_with(tag));
        for n in VECTOR_COUNTS {
            let bytes = hmac_done(n, key, message, 1);
            assert_eq!(bytes.len(), 32);
            assert_eq!(hex(&bytes[..tag.len() / 2]), tag, "n {n}");
        }
    }
}

#[test]
fn rfc_4231_at_every_count() {
    // One case for each count, so that every case comes twice at least.
    for n in COUNTS {
        let (key, message, tag) = RFC_4231[n % RFC_4231.len()];
        assert!(
            hex(&hmac_done(n, key, message, 2)).starts_with(tag),
            "n {n}"
        );
    }
}

#[test]
fn hmac_agrees_with_the_plain_one() {
    for n in FEW_COUNTS {
        for length in [0, 1, 3, 4, 54, 55, 56, 57, 63, 64, 65, 119, 120, 128] {
            let key = random_bytes(length as u64, length % 65);
            let message = random_bytes(5, length);
            let tag = hmac_done(n, &key, &message, 6);
            assert_eq!(tag, plain_hmac(&key, &message), "n {n}, length {length}");
        }
    }
}

#[test]
fn tags_of_long_messages_as_another_program_gives_them() {
    // With the 64 bytes of the key block, 8,127 bytes have fff8 bits and 8,128 bytes have 10000.
    let cases = [
        (
            8127,
            "a4035ea271130205317f596be9c7678493c01a0106f6f0cb489dd51e028282fd",
        ),
        (
            8128,
            "4bffc835cfecf5bafdc0e21a01a98be2ecc3a37b94680af7957b4166e2da9861",
        ),
        (
            LONGEST,
            "bd7b9439557289d812acd4bf7e2a799530a7238fceba413e71297b78169555c2",
        ),
    ];
    let message = counting_bytes(LONGEST);
    for (length, tag) in cases {
        let bytes = hmac_done(1, b"a longer log", &message[..length], 1);
        assert_eq!(hex(&bytes), tag);
    }
}

// The order of the draws.

/// An AND or an addition of a compression.
#[derive(Debug, Clone, Copy, PartialEq, Eq, Hash)]
enum Step {
    /// Sum 0, 1 or 2 of schedule word t.
    Schedule(usize, usize),
    /// The AND of Ch in round t.
    Ch(usize),
    /// The AND of Maj in round t.
    Maj(usize),
    /// Sum 0 to 3 of T1 in round t.
    T1(usize, usize),
    /// Σ0 + Maj in round t.
    T2(usize),
    /// d + T1 in round t.
    NewE(usize),
    /// T1 + T2 in round t.
    NewA(usize),
    /// The sum of chain word i.
    Chain(usize),
}

/// The three sums of schedule word t.
fn schedule_steps(t: usize) -> Vec<Step> {
    (0..3).map(|sum| Step::Schedule(t, sum)).collect()
}

/// The steps of round t.
fn round_steps(t: usize) -> Vec<Step> {
    let mut steps = vec![Step::Ch(t), Step::Maj(t)];
    steps.extend((0..4).map(|sum| Step::T1(t, sum)));
    steps.extend([Step::T2(t), Step::NewE(t), Step::NewA(t)]);
    steps
}

/// The order of request (vii).
fn asked_order() -> Vec<Step> {
    let mut steps: Vec<Step> = (16..64).flat_map(schedule_steps).collect();
    steps.extend((0..64).flat_map(round_steps));
    steps.extend((0..8).map(Step::Chain));
    steps
}

/// The schedule "added up as the rounds go": each word just before the round that takes it.
fn order_with_the_schedule_in_the_rounds() -> Vec<Step> {
    let mut steps = Vec::new();
    for t in 0..64 {
        if t >= 16 {
            steps.extend(schedule_steps(t));
        }
        steps.extend(round_steps(t));
    }
    steps.extend((0..8).map(Step::Chain));
    steps
}

/// The order with one step of some round moved to before another step of that round.
fn order_with_moved(t: usize, step: Step, before: Step) -> Vec<Step> {
    let mut steps = asked_order();
    let place = |steps: &[Step], step| steps.iter().position(|other| *other == step).unwrap();
    assert!(round_steps(t).contains(&step) && round_steps(t).contains(&before));
    steps.remove(place(&steps, step));
    let to = place(&steps, before);
    steps.insert(to, step);
    steps
}

/// A supply with each step's words at a place of their own.
struct Places<'a> {
    words: &'a [u32],
    places: HashMap<Step, usize>,
}

impl<'a> Places<'a> {
    /// The steps draw in this order, an AND n(n−1)/2 words and an addition 32 times as many.
    fn new(n: usize, order: &[Step], words: &'a [u32]) -> Places<'a> {
        let pairs = n * (n - 1) / 2;
        let mut places = HashMap::new();
        let mut place = 0;
        for step in order {
            places.insert(*step, place);
            place += match step {
                Step::Ch(_) | Step::Maj(_) => pairs,
                _ => 32 * pairs,
            };
        }
        assert_eq!(place, words.len());
        Places { words, places }
    }

    fn and(&self, step: Step, x: &[u32], y: &[u32]) -> Vec<u32> {
        let mut z = vec![BEFORE; x.len()];
        let answer = and(x.len(), x, y, &mut z, &self.words[self.places[&step]..]);
        assert_eq!(answer.number, 0);
        z
    }

    fn add(&self, step: Step, x: &[u32], y: &[u32]) -> Vec<u32> {
        let mut z = vec![BEFORE; x.len()];
        let answer = add(x.len(), x, y, &mut z, &self.words[self.places[&step]..]);
        assert_eq!(answer.number, 0);
        z
    }
}

/// Each share as the XOR of its rotations, and of its shift where there is one.
fn turned(x: &[u32], rotations: &[u32], shift: Option<u32>) -> Vec<u32> {
    let turn = |share: &u32| {
        let rotated = rotations.iter().map(|by| share.rotate_right(*by));
        rotated.fold(shift.map_or(0, |by| share >> by), |word, turn| word ^ turn)
    };
    x.iter().map(turn).collect()
}

/// The schedule in shares.
fn schedule_by_places(block: &[u32], n: usize, places: &Places) -> Vec<Vec<u32>> {
    let mut w: Vec<Vec<u32>> = block.chunks(n).map(|word| word.to_vec()).collect();
    for t in 16..64 {
        let step = |sum| Step::Schedule(t, sum);
        let sum = turned(&w[t - 2], &[17, 19], Some(10));
        let sum = places.add(step(0), &sum, &w[t - 7]);
        let sum = places.add(step(1), &sum, &turned(&w[t - 15], &[7, 18], Some(3)));
        let sum = places.add(step(2), &sum, &w[t - 16]);
        w.push(sum);
    }
    w
}

/// The 8n shares after a compression whose steps draw in this order.
fn compression_by_places(
    n: usize,
    order: &[Step],
    chain: &[u32],
    block: &[u32],
    words: &[u32],
) -> Vec<u32> {
    let places = Places::new(n, order, words);
    let w = schedule_by_places(block, n, &places);
    let mut v: Vec<Vec<u32>> = chain.chunks(n).map(|word| word.to_vec()).collect();
    for (t, k) in round_constants().into_iter().enumerate() {
        let [a, b, c, e, f, g] = [&v[0], &v[1], &v[2], &v[4], &v[5], &v[6]];
        let ch = places.and(Step::Ch(t), e, &xor_by_shares(f, g));
        let ch = xor_by_shares(g, &ch);
        let maj = places.and(Step::Maj(t), &xor_by_shares(a, c), &xor_by_shares(b, c));
        let maj = xor_by_shares(c, &maj);
        let mut t1 = v[7].clone();
        let terms = [
            turned(e, &[6, 11, 25], None),
            ch,
            public(n, &[k]),
            w[t].clone(),
        ];
        for (sum, term) in terms.iter().enumerate() {
            t1 = places.add(Step::T1(t, sum), &t1, term);
        }
        let t2 = places.add(Step::T2(t), &turned(a, &[2, 13, 22], None), &maj);
        v[3] = places.add(Step::NewE(t), &v[3], &t1);
        v[7] = places.add(Step::NewA(t), &t1, &t2);
        v.rotate_right(1);
    }
    let mut new = Vec::new();
    for (i, old) in chain.chunks(n).enumerate() {
        new.extend(places.add(Step::Chain(i), old, &v[i]));
    }
    new
}

#[test]
fn compression_is_made_of_ands_and_additions_in_order() {
    for n in [1, 2, 3, 4, 7, 16] {
        let words = random_words(1, compression_count(n));
        let block = random_words(2, 16 * n as u64);
        let chain = random_chain(3);
        let used = &chain.shares[..8 * n];
        let expected = compression_by_places(n, &asked_order(), used, &block, &words);
        let after = compress_done(n, chain, &block, &mut &words[..]);
        assert_eq!(after.shares[..8 * n], expected, "n {n}");
        assert!(after.shares[8 * n..].iter().all(|word| *word == 0));
    }
}

#[test]
fn other_orders_open_to_the_same_chain_but_have_other_shares() {
    let mut reversed_chain = asked_order();
    reversed_chain[48 * 3 + 64 * 9..].reverse();
    let mut orders = vec![order_with_the_schedule_in_the_rounds(), reversed_chain];
    // In an early round, in the middle and in the last one alone.
    for t in [0, 31, 63] {
        orders.push(order_with_moved(t, Step::Maj(t), Step::Ch(t)));
        orders.push(order_with_moved(t, Step::T2(t), Step::T1(t, 0)));
        orders.push(order_with_moved(t, Step::T1(t, 0), Step::Ch(t)));
        orders.push(order_with_moved(t, Step::T2(t), Step::T1(t, 3)));
        orders.push(order_with_moved(t, Step::NewE(t), Step::T2(t)));
        orders.push(order_with_moved(t, Step::NewA(t), Step::NewE(t)));
    }
    for n in [2, 3] {
        let words = random_words(1, compression_count(n));
        let block = random_words(2, 16 * n as u64);
        let chain = random_chain(3);
        let after = compress_done(n, chain, &block, &mut &words[..]);
        let used = &after.shares[..8 * n];
        for order in &orders {
            let other = compression_by_places(n, order, &chain.shares[..8 * n], &block, &words);
            assert_eq!(opened_bytes(n, &other), opened_bytes(n, used));
            assert_ne!(other, used);
        }
    }
}

#[test]
fn the_first_words_of_round_0_are_those_of_ch_and_then_of_maj() {
    // The 48·3 sums of the schedule come before them, of 32 words each at two shares. All other words
    // are 0, so that the shares show which of the two ANDs the one word went into.
    let (ch, maj) = (48 * 3 * 32, 48 * 3 * 32 + 1);
    let block = public(2, &random_words(1, 16));
    let start = start_chain(2);
    let order = asked_order();
    for place in [ch, maj] {
        let mut words = vec![0; compression_count(2) as usize];
        words[place] = 0x80000001;
        let used = &start.shares[..16];
        let expected = compression_by_places(2, &order, used, &block, &words);
        let after = compress_done(2, start, &block, &mut &words[..]);
        assert_eq!(after.shares[..16], expected);
        // With that word in the other of the two ANDs the shares are others.
        let exchanged = order_with_moved(0, Step::Maj(0), Step::Ch(0));
        let other = compression_by_places(2, &exchanged, used, &block, &words);
        assert_ne!(after.shares[..16], other);
    }
}

#[test]
fn compression_opens_right_and_keeps_to_its_places() {
    for n in COUNTS {
        let words = random_words(1, compression_count(n));
        let block = random_words(2, 16 * n as u64);
        let chain = random_chain(3);
        let answer = sha256_compress(n, chain, &block, &words);
        assert_eq!((answer.number, answer.drawn), (0, words.len() as u64));

        let open_all = |shares: &[u32]| -> Vec<u32> { shares.chunks(n).map(xor_of).collect() };
        let old: [u32; 8] = open_all(&chain.shares[..8 * n]).try_into().unwrap();
        let new = plain_compress(old, &open_all(&block));
        assert_eq!(open_all(&answer.chain.shares[..8 * n]), new);
        assert!(answer.chain.shares[8 * n..].iter().all(|word| *word == 0));

        let mut other = chain;
        other.shares[8 * n..].fill(BEFORE);
        assert_eq!(sha256_compress(n, other, &block, &words), answer);
    }
}

#[test]
fn hmac_is_made_of_compressions_in_order() {
    for n in FEW_COUNTS {
        let message = random_bytes(1, 70);
        let key = key_done(n, &random_bytes(2, 40), 3);
        let words = random_words(4, 5 * compression_count(n));
        let values = words_of(&padded(64, &message));

        let mut rest = &words[..];
        let mut next = |chain, block: &[u32]| compress_done(n, chain, block, &mut rest);
        let inner = next(start_chain(n), &with_pad(n, &key, 0x36363636));
        let inner = next(inner, &public(n, &values[..16]));
        let inner = next(inner, &public(n, &values[16..]));
        let outer = next(start_chain(n), &with_pad(n, &key, 0x5c5c5c5c));
        let mut block = inner.shares[..8 * n].to_vec();
        block.extend(public(n, &DIGEST_PADDING));
        let outer = next(outer, &block);
        assert!(rest.is_empty());

        let mut tag = [0xa5; 32];
        let answer = hmac_sha256(n, &key, &message, &mut tag, &words);
        assert_eq!(answer, done(words.len() as u64));
        assert_eq!(tag.to_vec(), opened_bytes(n, &outer.shares[..8 * n]));
    }
}

// The counts.

#[test]
fn counts_of_words() {
    for n in COUNTS {
        let one = 9664 * (n * (n - 1)) as u64;
        assert_eq!(compression_count(n), one);
        assert_eq!(sha256_compress_words(n), done(one));
        for length in (0..300).chain([8127, 8128, LONGEST - 1, LONGEST]) {
            let blocks = 1 + padded(0, &vec![0; length]).len() as u64 / 64 + 2;
            assert_eq!(hmac_sha256_words(n, length), done(blocks * one));
        }
        for length in 0..=1024 {
            let mut drawn = 16 * (n as u64 - 1);
            if length > 64 {
                let blocks = padded(0, &vec![0; length]).len() as u64 / 64;
                drawn = length.div_ceil(4) as u64 * (n as u64 - 1) + blocks * one;
            }
            assert_eq!(sha256_split_key_words(n, length), done(drawn));
        }
    }
    // By hand: four compressions of 19,328 words at two shares, and five.
    assert_eq!(hmac_sha256_words(2, 55), done(77_312));
    assert_eq!(hmac_sha256_words(2, 56), done(96_640));
    // The largest of all: 1,028 compressions of 9,664·16·15 words.
    assert_eq!(hmac_sha256_words(16, LONGEST), done(2_384_302_080));
}

/// The calls of SHA-256, with lengths that are right for n.
fn hash_calls(n: usize) -> Vec<(Answer, Call)> {
    let short_key = move |words: &[u32]| {
        let mut shares = vec![BEFORE; 16 * n];
        (sha256_split_key(n, b"a key", &mut shares, words), shares)
    };
    let long_key = move |words: &[u32]| {
        let mut shares = vec![BEFORE; 16 * n];
        (sha256_split_key(n, &[0x5a; 70], &mut shares, words), shares)
    };
    let compression = move |words: &[u32]| {
        let chain = Sha256Chain {
            shares: [BEFORE; CHAIN_WORDS],
        };
        let answer = sha256_compress(n, chain, &random_words(1, 16 * n as u64), words);
        let Sha256Compressed { number, drawn, .. } = answer;
        (Answer { number, drawn }, answer.chain.shares.to_vec())
    };
    let mac = move |words: &[u32]| {
        let mut tag = [0xa5; 32];
        let key = random_words(1, 16 * n as u64);
        let answer = hmac_sha256(n, &key, b"a message", &mut tag, words);
        (answer, words_of(&tag))
    };
    vec![
        (sha256_split_key_words(n, 5), Box::new(short_key)),
        (sha256_split_key_words(n, 70), Box::new(long_key)),
        (sha256_compress_words(n), Box::new(compression)),
        (hmac_sha256_words(n, 9), Box::new(mac)),
    ]
}

#[test]
fn queries_name_what_is_drawn() {
    for n in [1, 2, 3, 5, 8] {
        for (query, call) in hash_calls(n) {
            assert_eq!(query.number, 0);
            let drawn = query.drawn as usize;
            let words = random_words(7, query.drawn + 5);
            let accepted = call(&words[..drawn]);
            assert_eq!(accepted.0, query);
            // Words after those drawn have no influence.
            assert_eq!(call(&words), accepted);
            // One word less, or none, is refused, and the output stays.
            for less in [drawn.saturating_sub(1), drawn / 2, 0] {
                if less < drawn {
                    let (answer, output) = call(&words[..less]);
                    assert_eq!(answer, refused(5));
                    assert!(output.iter().all(|word| *word == BEFORE));
                }
            }
        }
    }
}

// Keys.

#[test]
fn keys_of_up_to_64_bytes_are_split_as_for_sha_1() {
    for n in COUNTS {
        for length in [0, 1, 3, 4, 20, 32, 63, 64] {
            let key = random_bytes(1, length);
            let drawn = 16 * (n as u64 - 1);
            assert_eq!(sha256_split_key_words(n, length), done(drawn));
            assert_eq!(key_done(n, &key, 2), split_key_done(n, &key, 2));
        }
    }
}

#[test]
fn a_long_key_block_is_the_hash_and_then_zero_shares() {
    for n in FEW_COUNTS {
        for (length, words, blocks) in LONG_KEYS {
            let drawn = words * (n as u64 - 1) + blocks * 9664 * (n * (n - 1)) as u64;
            assert_eq!(sha256_split_key_words(n, length), done(drawn));
            let key = random_bytes(length as u64, length);
            let shares = key_done(n, &key, 1);
            let opened = opened_bytes(n, &shares[..8 * n]);
            assert_eq!(opened, plain_sha256(&key), "n {n}, length {length}");
            assert_eq!(shares[8 * n..], vec![0; 8 * n]);
        }
    }
}

#[test]
fn long_keys_of_every_length_in_a_block_are_hashed() {
    let key = random_bytes(1, 136);
    for length in 65..=136 {
        let opened = opened_bytes(1, &key_done(1, &key[..length], 2));
        let digest = plain_sha256(&key[..length]);
        assert_eq!(opened[..32], digest, "length {length}");
        assert_eq!(opened[32..], [0; 32]);
    }
}

#[test]
fn long_keys_are_split_then_padded_then_compressed() {
    // Lengths, each with the padding in the last key word and the first whole word of padding.
    let cases = [
        (65, 0x800000, 0),
        (66, 0x8000, 0),
        (67, 0x80, 0),
        (68, 0, 0x80000000),
        (100, 0, 0x80000000),
        (119, 0x80, 0),
        (131, 0x80, 0),
    ];
    for n in [1, 2, 3] {
        for (length, in_last_word, whole_word) in cases {
            let key = random_bytes(1, length);
            let words = random_words(2, sha256_split_key_words(n, length).drawn);
            let mut rest = &words[..];
            let mut block = split_words_of_key(n, &key, &mut rest);
            let after = block.len();
            block[after - n] ^= in_last_word;
            block.resize(((length + 8) / 64 + 1) * 16 * n, 0);
            block[after] = whole_word;
            let last = block.len() - n;
            block[last] = length as u32 * 8;
            let mut chain = start_chain(n);
            for part in block.chunks(16 * n) {
                chain = compress_done(n, chain, part, &mut rest);
            }
            assert!(rest.is_empty());
            let mut expected = chain.shares[..8 * n].to_vec();
            expected.resize(16 * n, 0);
            let shares = key_done(n, &key, 2);
            assert_eq!(shares, expected, "n {n}, length {length}");
        }
    }
}

#[test]
fn tags_under_long_keys() {
    let message = random_bytes(1, 80);
    for n in VECTOR_COUNTS {
        for length in [64, 65, 100, 131, 1024] {
            let key = random_bytes(2, length);
            let tag = hmac_done(n, &key, &message, 3);
            assert_eq!(tag, plain_hmac(&key, &message), "n {n}, length {length}");
        }
    }
}

#[test]
fn a_long_key_split_for_the_other_hash_gives_a_wrong_tag_and_no_refusal() {
    let key = [0xaa; 131];
    let other = split_key_done(1, &key, 1);
    assert_ne!(other, key_done(1, &key, 1));
    let mut tag = [0xa5; 32];
    assert_eq!(hmac_sha256(1, &other, b"", &mut tag, &[]), done(0));
    assert_ne!(tag.to_vec(), plain_hmac(&key, b""));
}

// The refusals.

#[test]
fn share_counts_are_refused_first() {
    let chain = random_chain(1);
    let long = vec![7; LONGEST + 1];
    for n in WRONG_COUNTS {
        for length in [0, 1, 16, 17, 16 * 17] {
            let x = vec![1; length];
            let mut y = vec![BEFORE; length];
            assert_eq!(sha256_split_key(n, &[1; 1025], &mut y, &[]), refused(1));
            assert_eq!(y, vec![BEFORE; length]);
            let mut tag = [0xa5; 20];
            assert_eq!(hmac_sha256(n, &x, &long, &mut tag, &[]), refused(1));
            assert_eq!(tag, [0xa5; 20]);
            let expected = Sha256Compressed {
                number: 1,
                drawn: 0,
                chain,
            };
            assert_eq!(sha256_compress(n, chain, &x, &[]), expected);
        }
        assert_eq!(sha256_compress_words(n), refused(1));
        for length in [0, 5, 1025, LONGEST + 1, usize::MAX] {
            assert_eq!(sha256_split_key_words(n, length), refused(1));
            assert_eq!(hmac_sha256_words(n, length), refused(1));
        }
    }
}

#[test]
fn compressions_and_key_splittings_are_refused_in_order() {
    let chain = random_chain(1);
    for n in COUNTS {
        let compressed = |number| Sha256Compressed {
            number,
            drawn: 0,
            chain,
        };
        for other in [0, 8 * n, 16 * n - 1, 16 * n + 1] {
            let answer = sha256_compress(n, chain, &vec![1; other], &[]);
            assert_eq!(answer, compressed(2));
            let mut shares = vec![BEFORE; other];
            for length in [64, 1024, 1025] {
                let answer = sha256_split_key(n, &vec![1; length], &mut shares, &[]);
                assert_eq!(answer, refused(3));
            }
            assert_eq!(shares, vec![BEFORE; other]);
        }
        let mut shares = vec![BEFORE; 16 * n];
        assert_eq!(
            sha256_split_key(n, &[1; 1025], &mut shares, &[]),
            refused(4)
        );
        assert_eq!(sha256_split_key_words(n, 1024).number, 0);
        assert_eq!(sha256_split_key_words(n, 1025), refused(4));
        assert_eq!(sha256_split_key_words(n, usize::MAX), refused(4));
        if n > 1 {
            assert_eq!(
                sha256_split_key(n, &[1; 1024], &mut shares, &[]),
                refused(5)
            );
            assert_eq!(sha256_split_key(n, &[1; 65], &mut shares, &[]), refused(5));
            let words = random_words(2, compression_count(n) - 1);
            let answer = sha256_compress(n, chain, &vec![1; 16 * n], &words);
            assert_eq!(answer, compressed(5));
        }
        assert_eq!(shares, vec![BEFORE; 16 * n]);
    }
}

#[test]
fn one_word_less_for_a_long_key_is_five() {
    for n in [2, 3] {
        for (length, words, blocks) in LONG_KEYS {
            let key = random_bytes(1, length);
            let splitting = words as usize * (n - 1);
            let all = splitting + blocks as usize * 9664 * n * (n - 1);
            let lent = random_words(2, all as u64);
            let mut shares = vec![BEFORE; 16 * n];
            for less in [0, splitting - 1, splitting, splitting + 1, all - 1] {
                let answer = sha256_split_key(n, &key, &mut shares, &lent[..less]);
                assert_eq!(answer, refused(5));
                assert_eq!(shares, vec![BEFORE; 16 * n]);
            }
            let answer = sha256_split_key(n, &key, &mut shares, &lent);
            assert_eq!(answer, done(all as u64));
        }
    }
}

#[test]
fn tags_are_refused_in_order() {
    let long = vec![7; LONGEST + 1];
    let message = &long[..LONGEST];
    for n in COUNTS {
        let key = vec![1; 16 * n];
        for other in [0, 16 * n - 1, 16 * n + 1] {
            let mut tag = [0xa5; 20];
            let wrong_key = vec![1; other];
            assert_eq!(hmac_sha256(n, &wrong_key, &long, &mut tag, &[]), refused(2));
            assert_eq!(tag, [0xa5; 20]);
        }
        for other in [0, 20, 31, 33, 64] {
            let mut tag = vec![0xa5; other];
            assert_eq!(hmac_sha256(n, &key, &long, &mut tag, &[]), refused(3));
            assert_eq!(hmac_sha256(n, &key, message, &mut tag, &[]), refused(3));
            assert_eq!(tag, vec![0xa5; other]);
        }
        let mut tag = [0xa5; 32];
        assert_eq!(hmac_sha256(n, &key, &long, &mut tag, &[]), refused(4));
        if n > 1 {
            assert_eq!(hmac_sha256(n, &key, message, &mut tag, &[9; 9]), refused(5));
        }
        assert_eq!(tag, [0xa5; 32]);
        assert_eq!(hmac_sha256_words(n, LONGEST + 1), refused(4));
        assert_eq!(hmac_sha256_words(n, usize::MAX), refused(4));
        // The tag's length of the one hash is not that of the other.
        let mut tag = [0xa5; 32];
        assert_eq!(hmac_sha1(n, &key, &long, &mut tag, &[]), refused(3));
        assert_eq!(tag, [0xa5; 32]);
    }
}
