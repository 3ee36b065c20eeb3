//! The reference values of the rules that hold at 32 bits: P3, P5, P6 and P9 to P11; and those of
//! docs/RULES.md for a supply of given words. Refresh and the short conversion have their counts, and a
//! value each that the tests of `second` work out by hand.

use crate::report;
use flamivorse::{
    a2b, a2b_words, add, add_words, and, and_words, b2a_2_record, b2a_short, b2a_short_words,
    b2a_words, expand, expand_words, hmac_sha1_start_words, hmac_sha1_words,
    hmac_sha256_start_words, hmac_sha256_words, refresh, refresh_words, sha1_compress_words,
    sha256_compress_words, split_key, split_words, Drawn, Needed, Refusal, B2A_SHORT_COUNTS,
    MESSAGE_LIMIT, SHARES_LIMIT,
};
use fuzz::calls::COUNTS;

#[test]
fn shares() {
    let (mut z, mut y, mut record) = ([0; 2], [0; 4], [1; 7]);
    let drawn = and(2, &[0xf0, 0x0f], &[0x3c, 0x00], &mut z, &[0x55]);
    assert_eq!((drawn.map(Drawn::words), z), (Ok(1), [0x65, 0x59]));
    let drawn = refresh(
        4,
        &[1, 2, 4, 8],
        &mut y,
        &[0x10, 0x20, 0x40, 0x80, 0x100, 0x200],
    );
    assert_eq!(
        (drawn.map(Drawn::words), y),
        (Ok(6), [0x71, 0x192, 0x2a4, 0x348])
    );
    let drawn = refresh(3, &[1, 2, 4], &mut y[..3], &[0x10, 0x20, 0x40]);
    assert_eq!(
        (drawn.map(Drawn::words), &y[..3]),
        (Ok(3), &[0x31, 0x52, 0x64][..])
    );
    let drawn = expand(2, &[0x11, 0x22], &mut y, &[0x01, 0x02]);
    assert_eq!(
        (drawn.map(Drawn::words), y),
        (Ok(2), [0x10, 0x01, 0x20, 0x02])
    );
    assert_eq!(
        (b2a_2_record(0, 0, 0, &mut record), record),
        (Ok(()), [0; 7])
    );
    let words = [0x01, 0x02, 0x40, 0x80];
    let drawn = b2a_short(2, &[0x13, 0x36], &mut z, &words);
    assert_eq!((drawn.map(Drawn::words), z), (Ok(4), [0x37, 0xffff_ffee]));
    report(6, "reference values of shares");
}

/// The words that docs/RULES.md lends.
fn given_words(count: usize) -> Vec<u32> {
    let word = |i: u32| (i + 1).wrapping_mul(0x9e37_79b9);
    (0..).map(word).take(count).collect()
}

#[test]
fn shares_by_given_words() {
    let (mut z, mut a, mut x, mut key) = ([0; 2], [0; 4], [0; 8], [1; 32]);
    let (one, other) = ([0x0123_4567, 0x89ab_cdef], [0xffff_ffff, 1]);
    assert!(add(2, &one, &other, &mut z, &given_words(32)).is_ok());
    assert_eq!(z, [0x2982_8944, 0xa10a_01c2]);
    assert!(a2b(8, &[1, 2, 3, 4, 5, 6, 7, 8], &mut x, &given_words(1432)).is_ok());
    assert_eq!(x[..4], [0xc3e0_9b4a, 0x320f_6d3e, 0xa06c_b9e4, 0x511f_f1f0]);
    assert_eq!(x[4..], [0xdf39_f746, 0xea30_c992, 0x3b90_7614, 0x0e05_f684]);
    assert!(a2b(7, &[1, 2, 3, 4, 5, 6, 7], &mut x[..7], &given_words(1082)).is_ok());
    assert_eq!(x[..4], [0x3093_6bf7, 0x6196_d521, 0x174d_f91c, 0x1998_bebe]);
    assert_eq!(x[4..7], [0xf833_ce24, 0x9f6c_0b22, 0x388f_3c6e]);
    assert!(b2a_short(4, &[1, 2, 3, 4], &mut a, &given_words(40)).is_ok());
    assert_eq!(a, [0x1af0_4248, 0x73e5_1ef4, 0xa2bb_c784, 0xce6e_d744]);
    let bytes: Vec<u8> = (0..66).collect();
    let drawn = split_key(2, &bytes, &mut key, &given_words(20_897));
    assert_eq!(drawn.map(Drawn::words), Ok(20_897));
    assert_eq!(
        key[..4],
        [0xb4cd_5c0e, 0x7abd_0772, 0xf09a_f724, 0x904e_995a]
    );
    assert_eq!(
        key[4..8],
        [0x424d_278a, 0x74b3_20b7, 0x265d_8362, 0x9edf_a5fa]
    );
    assert_eq!(key[8..10], [0xf6a3_c5e7, 0xa13f_61f7]);
    assert_eq!(key[10..], [0; 22]);
    report(5, "values for given words");
}

/// What a query tells at each share count.
type Counts = [usize; SHARES_LIMIT];

/// The words that the conversions draw.
#[rustfmt::skip]
const A2B: Counts = [
    0, 34, 134, 264, 496, 758, 1_082, 1_432, 1_928, 2_450, 3_034, 3_650, 4_360, 5_102, 5_902, 6_720,
];
#[rustfmt::skip]
const B2A: Counts = [
    0, 68, 235, 465, 830, 1_258, 1_781, 2_363, 3_124, 3_944, 4_859, 5_839, 6_946, 8_118, 9_381, 10_695,
];

#[test]
fn counts() {
    type Query = fn(usize) -> Result<Needed, Refusal>;
    let pairs: Counts = COUNTS.map(|n| n * (n - 1) / 2);
    let expected: [(Query, Counts); 11] = [
        (split_words, COUNTS.map(|n| n - 1)),
        (refresh_words, pairs),
        (expand_words, COUNTS),
        (and_words, pairs),
        (add_words, pairs.map(|pairs| 32 * pairs)),
        (a2b_words, A2B),
        (b2a_words, B2A),
        (sha1_compress_words, pairs.map(|pairs| 10_440 * pairs)),
        (hmac_sha1_start_words, pairs.map(|pairs| 20_880 * pairs)),
        (sha256_compress_words, pairs.map(|pairs| 19_328 * pairs)),
        (hmac_sha256_start_words, pairs.map(|pairs| 38_656 * pairs)),
    ];
    for (query, counts) in expected {
        let told = COUNTS.map(|n| query(n).map(Needed::words));
        assert_eq!(told, counts.map(Ok));
        assert_eq!(
            [0, SHARES_LIMIT + 1].map(query),
            [Err(Refusal::ShareCount); 2]
        );
    }
    report(
        expected.len() * (COUNTS.len() + 2),
        "reference values of counts",
    );
}

/// The short conversion keeps its four share counts.
#[test]
fn counts_of_the_short_conversion() {
    let short = B2A_SHORT_COUNTS.map(|n| b2a_short_words(n).map(Needed::words));
    assert_eq!(short, [0, 4, 40, 868].map(Ok));
    let others = COUNTS.into_iter().filter(|n| !B2A_SHORT_COUNTS.contains(n));
    for n in others {
        let (x, words, mut a) = (vec![1; n], vec![2; 868], vec![3; n]);
        assert_eq!(b2a_short_words(n), Err(Refusal::ShareCount));
        assert_eq!(b2a_short(n, &x, &mut a, &words), Err(Refusal::ShareCount));
        assert_eq!(a, vec![3; n]);
    }
    report(COUNTS.len(), "share counts of the short conversion");
}

/// At two shares around the end of a block's padding, and at each count what the longest draws.
#[test]
fn counts_of_tags() {
    type Query = fn(usize, usize) -> Result<Needed, Refusal>;
    let expected: [(Query, [usize; 2], usize); 2] = [
        (hmac_sha1_words, [41_760, 52_200], 5_220),
        (hmac_sha256_words, [77_312, 96_640], 9_664),
    ];
    for (query, at_two, compression) in expected {
        let tags = [55, 56].map(|length| query(2, length).map(Needed::words));
        assert_eq!(tags, at_two.map(Ok));
        let longest = COUNTS.map(|n| query(n, MESSAGE_LIMIT).map(Needed::words));
        assert_eq!(
            longest,
            COUNTS.map(|n| Ok(1_028 * compression * n * (n - 1)))
        );
    }
    let cases = expected.len() * (2 + COUNTS.len());
    report(cases, "reference values of tags' counts");
}
