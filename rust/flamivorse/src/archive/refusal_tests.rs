//! What the archive hands back beside the number of a refusal, which the safe calls do not show: no
//! words drawn, the opened word 0, and the state as it was given, of a start zeros.

use super::tested::Tested;
use super::*;
use crate::hash::Sealed;
use crate::{Sha1, Sha256, B2A_SHORT_COUNTS, MESSAGE_LIMIT};

/// A share count, and a number of bytes of a message, that is one too many.
const OVER_SHARES: usize = SHARES_LIMIT + 1;
const OVER_BYTES: usize = MESSAGE_LIMIT + 1;

/// Many words, to lend the first few of.
fn many() -> [u32; 64] {
    [0xa5a5_a5a5; 64]
}

/// One refused call for each number that applies: the share count, the lengths of input and output
/// for each share, and the number.
const REFUSED: [(usize, usize, usize, u32); 4] = [
    (OVER_SHARES, 1, 1, 1),
    (2, 2, 1, 2),
    (2, 1, 2, 3),
    (2, 1, 1, 5),
];

/// A refusal by this number that drew nothing.
fn refused(answer: Answer, number: u32) {
    assert_eq!((answer.number, answer.drawn), (number, 0));
}

#[test]
fn on_shares() {
    for (n, input, output, number) in REFUSED {
        let x = &many()[..n * input];
        let z = &mut many()[..n * output];
        let twice = &mut many()[..2 * n * output];
        let none: &[u32] = &[];
        for answer in [
            call!(flamivorse_refresh(n), reads [x], writes z, draws none),
            call!(flamivorse_expand(n), reads [x], writes twice, draws none),
            call!(flamivorse_and(n), reads [x, x], writes z, draws none),
            call!(flamivorse_add(n), reads [x, x], writes z, draws none),
            call!(flamivorse_a2b(n), reads [x], writes z, draws none),
            call!(flamivorse_b2a(n), reads [x], writes z, draws none),
            call!(flamivorse_b2a_short(n), reads [x], writes z, draws none),
        ] {
            refused(answer, number);
        }
        if number != 2 {
            refused(
                call!(flamivorse_split(n, 7), reads [], writes z, draws none),
                number,
            );
        }
    }
}

/// The short conversion refuses counts that all other calls take.
#[test]
fn by_the_short_conversion() {
    for n in (1..=SHARES_LIMIT).filter(|n| !B2A_SHORT_COUNTS.contains(n)) {
        let (x, z, words) = (&many()[..n], &mut many()[..n], &many());
        refused(
            call!(flamivorse_b2a_short(n), reads [x], writes z, draws words),
            1,
        );
        refused(query!(flamivorse_b2a_short_words(n)), 1);
    }
}

#[test]
fn openings() {
    for (n, length, number) in [
        (OVER_SHARES, OVER_SHARES, 1),
        (0, 0, 1),
        (2, 3, 2),
        (3, 2, 2),
        (SHARES_LIMIT, 0, 2),
    ] {
        let shares = &many()[..length];
        for open in [flamivorse_open_xor, flamivorse_open_sum] {
            // SAFETY: the shares are a slice of Rust's, and nothing is written.
            let opened = unsafe { open(n, shares.as_ptr(), length) };
            assert_eq!((opened.number, opened.word), (number, 0));
        }
    }
}

#[test]
fn on_keys_and_messages() {
    keys_of::<Sha1>();
    keys_of::<Sha256>();
    messages_of::<Sha1>();
    messages_of::<Sha256>();
}

fn keys_of<H: Tested>() {
    let (split_key, none): (_, &[u32]) = (H::FUNCTIONS.split_key, &[]);
    for (n, places, length, number) in [
        (OVER_SHARES, 32, 64, 1),
        (2, 31, 1025, 3),
        (2, 32, 1025, 4),
        (2, 32, 64, 5),
        (2, 32, 65, 5),
        (2, 32, 1024, 5),
    ] {
        let (key, shares) = (&[0; 1025][..length], &mut many()[..places]);
        refused(
            call!(split_key(n), reads [key], writes shares, draws none),
            number,
        );
    }
}

fn messages_of<H: Tested>() {
    let (hmac, none): (_, &[u32]) = (H::FUNCTIONS.hmac, &[]);
    for (n, size, length, number) in [
        (OVER_SHARES, H::TAG, MESSAGE_LIMIT, 1),
        (4, H::TAG - 1, OVER_BYTES, 2),
        (2, H::TAG - 1, OVER_BYTES, 3),
        (2, H::TAG, OVER_BYTES, 4),
        (2, H::TAG, 0, 5),
    ] {
        let (key, message) = (&many()[..32], &[0; OVER_BYTES][..length]);
        let tag = &mut [0; 64][..size];
        refused(
            call!(hmac(n), reads [key, message], writes tag, draws none),
            number,
        );
    }
}

#[test]
fn compressions() {
    compressions_of::<Sha1, CHAIN_WORDS>();
    compressions_of::<Sha256, SHA256_CHAIN_WORDS>();
}

fn compressions_of<H: Sealed<Chain = ChainOf<WORDS>>, const WORDS: usize>() {
    let (block, none) = (&many()[..32], [0u32; 0]);
    for (n, number) in [(OVER_SHARES, 1), (4, 2), (2, 5)] {
        let chain = chain_of(7);
        // SAFETY: both are slices of Rust's, and nothing is written.
        let answer = unsafe {
            (H::FUNCTIONS.compress)(n, chain, block.as_ptr(), block.len(), none.as_ptr(), 0)
        };
        assert_eq!((answer.number, answer.drawn), (number, 0));
        assert_eq!(answer.chain.shares, [7; WORDS]);
    }
}

/// A chain with this word in every place.
fn chain_of<const WORDS: usize>(word: u32) -> ChainOf<WORDS> {
    ChainOf {
        shares: [word; WORDS],
    }
}

/// A state with something in every place, those that are not used among them. Its count of words is
/// that of its shares and bytes, so that it is fit for the hash where these are.
fn full<H: Tested>(n: usize, bytes: u64) -> State {
    State {
        n,
        bytes,
        drawn: H::compression_words(n).wrapping_mul(2 + bytes / 64),
        finished: 0,
        hash: H::CODE,
        inner: chain_of(7),
        outer: chain_of(8),
        tail: [9; 64],
    }
}

/// The chains of a state.
type Chains = [[u32; SHA256_CHAIN_WORDS]; 2];

/// All fields of a state: share count; bytes and words; mark and hash; chains; tail.
fn fields(state: &State) -> (usize, [u64; 2], [u32; 2], Chains, [u8; 64]) {
    let chains = [state.inner.shares, state.outer.shares];
    let (counts, codes) = ([state.bytes, state.drawn], [state.finished, state.hash]);
    (state.n, counts, codes, chains, state.tail)
}

/// A refusal by this number that drew nothing and hands this state back.
fn refused_with(answer: Streamed, number: u32, state: &State) {
    assert_eq!((answer.number, answer.drawn), (number, 0));
    assert_eq!(fields(&answer.state), fields(state));
}

#[test]
fn starts() {
    starts_of::<Sha1>();
    starts_of::<Sha256>();
}

fn starts_of<H: Tested>() {
    let none: &[u32] = &[];
    for (n, places, number) in [(OVER_SHARES, 47, 1), (2, 31, 2), (2, 33, 2), (2, 32, 5)] {
        let key = &many()[..places];
        // SAFETY: both are slices of Rust's, and nothing is written.
        let answer = unsafe { (H::FUNCTIONS.start)(n, key.as_ptr(), places, none.as_ptr(), 0) };
        refused_with(answer, number, &State::default());
    }
}

/// A full state that is fit but for this change.
fn changed<H: Tested>(n: usize, bytes: u64, change: impl FnOnce(&mut State)) -> State {
    let mut state = full::<H>(n, bytes);
    change(&mut state);
    state
}

/// Counts of words that are wrong at n shares after so many bytes: a word or a compression off, with
/// those of a finish, of another share count or hash, right but for the upper half, at the end of 64
/// bits.
fn wrong_counts<H: Tested>(n: usize, bytes: u64) -> impl Iterator<Item = u64> {
    let (right, compression) = (full::<H>(n, bytes).drawn, H::compression_words(n));
    let off = [1, compression].map(|words| [right.wrapping_sub(words), right + words]);
    let finished = [2, 3].map(|compressions| right + compressions * compression);
    let others = [n - 1, n + 1].map(|n| full::<H>(n, bytes).drawn);
    let wide = [right + (1 << 32), right + (1 << 63), u64::MAX];
    let hash = [full::<H::Other>(n, bytes).drawn];
    let all = [off.as_flattened(), &finished, &others, &hash, &wide].concat();
    all.into_iter().filter(move |&drawn| drawn != right)
}

/// States that are unfit for one reason each: share count, bytes, mark, hash, and, at the ends of
/// blocks too, count of words. One that is fit for the other hash; and one for all of these reasons.
fn unfit<H: Tested>() -> Vec<State> {
    let shares = [0, OVER_SHARES, usize::MAX].map(|n| full::<H>(n, 70));
    let bytes = [OVER_BYTES as u64, u64::MAX].map(|bytes| full::<H>(2, bytes));
    let marks = [1, u32::MAX].map(|mark| changed::<H>(2, 70, |state| state.finished = mark));
    let hashes = [H::Other::CODE, 2, 1 << 31, u32::MAX];
    let hashes = hashes.map(|hash| changed::<H>(2, 70, |state| state.hash = hash));
    let begun = [(1, 70), (2, 0), (2, 63), (2, 64), (2, 128), (3, 70)];
    let counts = begun.into_iter().flat_map(|(n, bytes)| {
        let wrong = wrong_counts::<H>(n, bytes);
        wrong.map(move |drawn| changed::<H>(n, bytes, |state| state.drawn = drawn))
    });
    let others = [1, 2, 3].map(|n| full::<H::Other>(n, 70));
    let all = changed::<H>(OVER_SHARES, OVER_BYTES as u64, |state| {
        (state.drawn, state.finished, state.hash) = (1, 1, 2);
    });
    let alone = shares.into_iter().chain(bytes).chain(marks).chain(hashes);
    alone.chain(counts).chain(others).chain([all]).collect()
}

#[test]
fn feeds() {
    feeds_of::<Sha1>();
    feeds_of::<Sha256>();
}

fn feeds_of<H: Tested>() {
    let unfit = unfit::<H>();
    let unfit = unfit.into_iter().map(|state| (state, OVER_BYTES, 6));
    let others = [
        (0, OVER_BYTES, 4),
        (1, MESSAGE_LIMIT, 4),
        (MESSAGE_LIMIT, 1, 4),
        (0, 64, 5),
    ];
    let others = others.map(|(bytes, length, number)| (full::<H>(2, bytes as u64), length, number));
    for (state, length, number) in unfit.chain(others) {
        let (piece, none) = ([0; OVER_BYTES], [0u32; 0]);
        // SAFETY: both are slices of Rust's, and nothing is written.
        let answer =
            unsafe { (H::FUNCTIONS.feed)(state.clone(), piece.as_ptr(), length, none.as_ptr(), 0) };
        refused_with(answer, number, &state);
    }
}

#[test]
fn finishes() {
    finishes_of::<Sha1>();
    finishes_of::<Sha256>();
}

fn finishes_of<H: Tested>() {
    let unfit = unfit::<H>();
    let unfit = unfit.into_iter().map(|state| (state, H::TAG - 1, 6));
    let others = [
        (H::TAG - 1, 3),
        (H::TAG + 1, 3),
        (H::Other::TAG, 3),
        (0, 3),
        (H::TAG, 5),
    ];
    let others = others.map(|(size, number)| (full::<H>(2, MESSAGE_LIMIT as u64), size, number));
    for (state, size, number) in unfit.chain(others) {
        let (mut tag, none) = ([5; 64], [0u32; 0]);
        // SAFETY: both are slices of Rust's that do not overlap.
        let answer = unsafe {
            (H::FUNCTIONS.finish)(state.clone(), tag.as_mut_ptr(), size, none.as_ptr(), 0)
        };
        refused_with(answer, number, &state);
        assert_eq!(tag, [5; 64]);
    }
}

#[test]
fn queries_on_states() {
    queries_on_states_of::<Sha1>();
    queries_on_states_of::<Sha256>();
}

fn queries_on_states_of<H: Tested>() {
    let (feed_words, finish_words) = (H::FUNCTIONS.feed_words, H::FUNCTIONS.finish_words);
    for state in unfit::<H>() {
        refused(query!(finish_words(state.clone())), 6);
        refused(query!(feed_words(state, OVER_BYTES)), 6);
    }
    for (bytes, length) in [
        (0, OVER_BYTES),
        (1, MESSAGE_LIMIT),
        (MESSAGE_LIMIT, 1),
        (1, usize::MAX),
        (MESSAGE_LIMIT, usize::MAX),
    ] {
        let state = full::<H>(2, bytes as u64);
        refused(query!(feed_words(state, length)), 4);
    }
}

#[test]
fn queries() {
    for n in [0, OVER_SHARES, 1 << 31, usize::MAX] {
        refused(query!(flamivorse_split_words(n)), 1);
        refused(query!(flamivorse_refresh_words(n)), 1);
        refused(query!(flamivorse_expand_words(n)), 1);
        refused(query!(flamivorse_and_words(n)), 1);
        refused(query!(flamivorse_add_words(n)), 1);
        refused(query!(flamivorse_a2b_words(n)), 1);
        refused(query!(flamivorse_b2a_words(n)), 1);
        refused(query!(flamivorse_b2a_short_words(n)), 1);
    }
    queries_of::<Sha1>();
    queries_of::<Sha256>();
}

fn queries_of<H: Tested>() {
    let by_count = [H::FUNCTIONS.compress_words, H::FUNCTIONS.start_words];
    let by_length = [
        (H::FUNCTIONS.split_key_words, 1025),
        (H::FUNCTIONS.hmac_words, OVER_BYTES),
    ];
    for n in [0, OVER_SHARES, 1 << 31, usize::MAX] {
        for words in by_count {
            refused(query!(words(n)), 1);
        }
        for (words, length) in by_length {
            refused(query!(words(n, length)), 1);
            refused(query!(words(8, length)), 4);
        }
    }
}
