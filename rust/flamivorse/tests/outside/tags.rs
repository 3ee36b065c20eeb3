//! Tags against RustCrypto's HMAC, the vectors of RFC 2202 and RFC 4231, and the limits of the rules.

use crate::hashes::{with_each_hash, Tested};
use crate::report;
use flamivorse::{a2b, open_xor, Hash, Key, Refusal, KEY_LIMIT, MESSAGE_LIMIT, SHARES_LIMIT};
use fuzz::calls::{quick_message, COUNTS, SOME_COUNTS};
use fuzz::outside::Vector;
use fuzz::random::Random;

with_each_hash!(
    against_rustcrypto,
    longest_messages,
    vectors_of_the_rfc,
    limits
);

/// The tag by the archive at n shares, with exactly the words that the queries tell.
pub fn tag<H: Hash>(
    n: usize,
    key: &[u8],
    message: &[u8],
    random: &mut Random,
) -> Result<H::Tag, Refusal> {
    let words = random.words(Key::split_for_words::<H>(n, key.len())?.words());
    let key = Key::split_for::<H>(n, key, &words)?;
    let words = random.words(key.tag_words(message.len())?.words());
    key.tag(message, &words)
}

/// Compares one tag of a random key and message.
fn compare<H: Tested>(n: usize, length: usize, random: &mut Random) {
    let key_length = random.key_length();
    let (key, message) = (random.bytes(key_length), random.bytes(length));
    assert_eq!(
        tag::<H>(n, &key, &message, random),
        Ok(H::outside_tag(&key, &message)),
        "{length} bytes under a key of {key_length} at n = {n}"
    );
}

/// Lengths where a block ends (multiples of 64) or its padding does (8 less), and those beside
/// them, for every so manieth block, as far as is quick at so many shares.
fn edges(n: usize, blocks: usize) -> impl Iterator<Item = usize> {
    let around = |edge: usize| [edge - 9, edge - 8, edge - 7, edge - 1, edge, edge + 1];
    let edges = (64 * blocks..=quick_message(n)).step_by(64 * blocks);
    edges.flat_map(around)
}

/// At each share count every so manieth length to 200, and the edges of every so manieth block:
/// fewer at more shares, where a tag draws millions of words.
const TRIED: [(usize, usize, usize); SOME_COUNTS.len()] = [
    (1, 1, 1),
    (2, 1, 1),
    (3, 1, 8),
    (4, 1, 4),
    (5, 3, 4),
    (8, 5, 8),
    (SHARES_LIMIT, 40, 2),
];

fn against_rustcrypto<H: Tested>() {
    let mut random = Random::new(400);
    let mut cases = 0;
    for (n, step, blocks) in TRIED {
        for length in (0..=200).step_by(step).chain(edges(n, blocks)) {
            compare::<H>(n, length, &mut random);
            cases += 1;
        }
    }
    H::report(cases, "tags against RustCrypto");
}

/// In one call at one and two shares: at more the words are hundreds of megabytes.
fn longest_messages<H: Tested>() {
    let mut random = Random::new(403);
    for n in [1, 2] {
        compare::<H>(n, MESSAGE_LIMIT - 1, &mut random);
        compare::<H>(n, MESSAGE_LIMIT, &mut random);
    }
    H::report(4, "tags of the longest messages");
}

/// The RFC may give the first bytes of a tag alone.
fn vectors_of_the_rfc<H: Tested>() {
    let mut random = Random::new(401);
    let mut cases = 0;
    for n in SOME_COUNTS {
        for vector in H::calls().hash.vectors() {
            let Vector { key, message, .. } = &vector;
            let tag = tag::<H>(n, key, message, &mut random).expect("within the limits");
            assert!(tag.as_ref().starts_with(&vector.tag), "{tag:x?}");
            cases += 1;
        }
    }
    H::report(cases, "vectors of the RFC");
}

fn limits<H: Tested>() {
    let mut random = Random::new(402);
    for n in COUNTS {
        let words = random.words(16 * (n - 1));
        let key = Key::split_for::<H>(n, b"key", &words).expect("within the limits");
        let tag = key.tag(&[0; MESSAGE_LIMIT + 1], &words);
        assert_eq!(tag, Err(Refusal::TooLong));
        assert_eq!(key.tag_words(MESSAGE_LIMIT + 1), Err(Refusal::TooLong));
        let short = key.tag(&[0; MESSAGE_LIMIT], &words).err();
        assert_eq!(short, (n > 1).then_some(Refusal::SupplyShort));
        let split = Key::split_for::<H>(n, &[0; KEY_LIMIT + 1], &words);
        assert_eq!(split.err(), Some(Refusal::TooLong));
        let count = Key::split_for_words::<H>(n, KEY_LIMIT + 1);
        assert_eq!(count, Err(Refusal::TooLong));
    }
    for n in SOME_COUNTS {
        let count = Key::split_for_words::<H>(n, KEY_LIMIT).expect("within the limits");
        let words = random.words(count.words());
        assert!(Key::split_for::<H>(n, &[0; KEY_LIMIT], &words).is_ok());
    }
    for n in [0, SHARES_LIMIT + 1] {
        let split = Key::split_for::<H>(n, b"key", &[]);
        assert_eq!(split.err(), Some(Refusal::ShareCount));
    }
    H::report(COUNTS.len() * 5 + SOME_COUNTS.len() + 2, "limits");
}

#[test]
fn limits_of_a_conversion() {
    let (mut x, words) = ([0; 2], Random::new(404).words(34));
    assert_eq!(
        a2b(2, &[900, 100], &mut x, &words[..33]),
        Err(Refusal::SupplyShort)
    );
    assert_eq!(
        a2b(2, &[900, 100], &mut x, &words).map(|drawn| drawn.words()),
        Ok(34)
    );
    assert_eq!(open_xor(2, &x), Ok(1000));
    for n in [0, SHARES_LIMIT + 1] {
        assert_eq!(a2b(n, &[], &mut [], &[]), Err(Refusal::ShareCount));
    }
    report(5, "limits of a conversion");
}
