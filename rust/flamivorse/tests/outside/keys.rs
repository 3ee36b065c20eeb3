//! Keys at the lengths where something ends. Up to 64 bytes they are padded, from 65 on hashed.
//! Their shares are compared with `second`, what the shares open to with RustCrypto's digests, and
//! the tags under them with RustCrypto's HMAC.

use crate::against_second::compare_supplies;
use crate::hashes::{with_each_hash, Tested};
use crate::{report, streams};
use flamivorse::{open_xor, split_key_words, Key, Needed, Sha1, KEY_LIMIT, SHARES_LIMIT};
use fuzz::calls::{refused, Target, COUNTS, SOME_COUNTS};
use fuzz::hashes::Hash;
use fuzz::lent::{Arguments, Lengths};
use fuzz::random::Random;

with_each_hash!(
    shares_and_counts_against_second,
    counts,
    key_blocks_opened,
    tags_in_one_call_and_in_pieces,
    split_for_the_other_hash,
    a_byte_over_the_limit
);

/// The ends of a block, which is not hashed, of the words after it, of the padding within two
/// blocks, of two blocks and of the limit, each with what is beside it; and the shortest.
const LENGTHS: [usize; 14] = [0, 1, 63, 64, 65, 66, 67, 68, 119, 120, 127, 128, 1023, 1024];

/// Some share counts with every such length; at the largest the longest keys are left out, which draw
/// 85 MB of words or more.
fn counts_and_lengths() -> impl Iterator<Item = (usize, usize)> {
    let lengths = |n| LENGTHS.map(|length| (n, length));
    let all = SOME_COUNTS.into_iter().flat_map(lengths);
    all.filter(|&(n, length)| n < SHARES_LIMIT || length < 1000)
}

fn shares_and_counts_against_second<H: Tested>() {
    let (split_key, mut random) = (&H::calls().split_key, Random::new(700));
    let mut cases = 0;
    for (n, length) in counts_and_lengths() {
        let exact = Arguments::random(n, split_key.lengths(n, length), &mut random);
        let (by_c, _) = split_key.compare(Target::C, &exact);
        assert_eq!(by_c.number, 0);
        cases += 1 + compare_supplies(split_key, exact, &mut random);
    }
    H::report(cases, "keys of every kind of length against second");
}

/// How many words a key of so many bytes draws at each of these share counts.
#[rustfmt::skip]
const DRAWN: [(Hash, usize, [usize; SOME_COUNTS.len()]); 12] = [
    (Hash::Sha1, 0, [0, 16, 32, 48, 64, 112, 240]),
    (Hash::Sha1, 64, [0, 16, 32, 48, 64, 112, 240]),
    (Hash::Sha1, 65, [0, 20_897, 62_674, 125_331, 208_868, 584_759, 2_505_855]),
    (Hash::Sha1, 119, [0, 20_910, 62_700, 125_370, 208_920, 584_850, 2_506_050]),
    (Hash::Sha1, 120, [0, 31_350, 94_020, 188_010, 313_320, 877_170, 3_758_850]),
    (Hash::Sha1, 1024, [0, 177_736, 532_952, 1_065_648, 1_775_824, 4_971_232, 21_301_440]),
    (Hash::Sha256, 0, [0, 16, 32, 48, 64, 112, 240]),
    (Hash::Sha256, 64, [0, 16, 32, 48, 64, 112, 240]),
    (Hash::Sha256, 65, [0, 38_673, 116_002, 231_987, 386_628, 1_082_487, 4_638_975]),
    (Hash::Sha256, 119, [0, 38_686, 116_028, 232_026, 386_680, 1_082_578, 4_639_170]),
    (Hash::Sha256, 120, [0, 58_014, 174_012, 347_994, 579_960, 1_623_762, 6_958_530]),
    (Hash::Sha256, 1024, [0, 328_832, 986_240, 1_972_224, 3_286_784, 9_201_920, 39_432_960]),
];

fn counts<H: Tested>() {
    let mut cases = 0;
    for (_, length, drawn) in DRAWN.iter().filter(|row| row.0 == H::calls().hash) {
        let asked = SOME_COUNTS.map(|n| Key::split_for_words::<H>(n, *length).map(Needed::words));
        assert_eq!(asked, drawn.map(Ok));
        cases += asked.len();
    }
    H::report(cases, "words that keys draw");
}

/// HMAC's key block: the key, or of one that is over a block its digest, and zero bytes after it.
fn key_block(hash: Hash, key: &[u8]) -> [u32; 16] {
    let digest = hash.outside_digest(key);
    let bytes = if key.len() > 64 { &digest } else { key };
    let byte = |place: usize| bytes.get(place).copied().unwrap_or(0);
    let word = |place: usize| std::array::from_fn(|i| byte(4 * place + i));
    std::array::from_fn(|place| u32::from_be_bytes(word(place)))
}

fn key_blocks_opened<H: Tested>() {
    let (hash, mut random) = (H::calls().hash, Random::new(701));
    for (n, length) in counts_and_lengths() {
        let (key, split) = random_key::<H>(n, length, &mut random);
        let opened = split.shares().chunks(n).map(|shares| open_xor(n, shares));
        let block = key_block(hash, &key).map(Ok);
        assert!(opened.eq(block), "{length} bytes at n = {n}");
        if length > 64 {
            let after = &split.shares()[hash.words() * n..];
            assert!(after.iter().all(|&share| share == 0));
        }
    }
    H::report(counts_and_lengths().count(), "key blocks opened");
}

/// A key of so many bytes, and its shares.
fn random_key<H: Tested>(n: usize, length: usize, random: &mut Random) -> (Vec<u8>, Key<H>) {
    let count = Key::split_for_words::<H>(n, length).expect("within the limits");
    let (key, words) = (random.bytes(length), random.words(count.words()));
    let split = Key::split_for(n, &key, &words).expect("exactly these words");
    (key, split)
}

/// The shares of a key that is padded are those of a key for the other hash, by the same words. Those
/// of one that is hashed are not, and give the other hash a wrong tag.
fn split_for_the_other_hash<H: Tested>() {
    let lengths = [0, 20, 64, 65, 200];
    for n in [1, 2, 3] {
        for length in lengths {
            let (key, split) = random_key::<H>(n, length, &mut Random::new(704));
            let (same, other) = random_key::<H::Other>(n, length, &mut Random::new(704));
            assert_eq!(key, same);
            let padded = length <= 64;
            assert_eq!(split.shares() == other.shares(), padded);

            let hmac = &H::calls().hmac;
            let lengths = hmac.lengths(n, 70);
            let mut lent = Arguments::random(n, lengths, &mut Random::new(705));
            lent.inputs[0].hold(other.shares());
            let (outcome, after) = hmac.compare(Target::Rust, &lent);
            let tag = H::outside_tag(&key, lent.bytes.slice());
            assert_eq!(outcome.number, 0);
            assert_eq!(after.tag.slice() == tag.as_ref(), padded);
        }
    }
    H::report(3 * lengths.len(), "keys that were split for the other hash");
}

/// Where no hash is named a key is split for SHA-1.
#[test]
fn split_for_no_named_hash() {
    let lengths = [20, 64, 65, 200];
    for length in lengths {
        let count = split_key_words(2, length).expect("within the limits");
        let (key, words) = (vec![7; length], Random::new(706).words(count.words()));
        let [named, unnamed] = [Key::split_for::<Sha1>, Key::split]
            .map(|split| split(2, &key, &words).expect("exactly these words"));
        assert_eq!(unnamed.shares(), named.shares());
    }
    report(lengths.len(), "keys that are split for no named hash");
}

fn tags_in_one_call_and_in_pieces<H: Tested>() {
    let mut random = Random::new(702);
    let mut cases = 0;
    for (n, length) in counts_and_lengths() {
        let (key, message) = (random.bytes(length), random.bytes(70));
        cases += streams::compare::<H>(n, &key, &message, &[vec![63, 7], vec![0, 64, 6]]);
    }
    H::report(cases, "tags under keys of every kind of length");
}

fn a_byte_over_the_limit<H: Tested>() {
    let (split_key, mut random) = (&H::calls().split_key, Random::new(703));
    for n in COUNTS {
        let lengths = Lengths {
            bytes: KEY_LIMIT + 1,
            ..split_key.lengths(n, 0)
        };
        let given = Arguments::random(n, lengths, &mut random);
        for target in [Target::Rust, Target::C] {
            let (outcome, after) = split_key.compare(target, &given);
            assert_eq!(outcome, refused(4));
            assert!(after == given);
        }
    }
    H::report(COUNTS.len() * 2, "keys a byte over the limit");
}
