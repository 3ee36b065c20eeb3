//! Tests of what a state of HMAC-SHA-1 carries (request (xii)): the count of words after every call,
//! beside what the calls drew and beside the rules' draws, and number 6 for any other count and any
//! other hash, before all others.

use crate::stream_tests::{
    compression_count, feed_done, finish, finish_done, fit_count, is_unfit, left, made_up,
    made_up_ways, start_done, wrong_counts, LIMIT,
};
use crate::tests::{done, random_bytes, random_words, refused, COUNTS, LONGEST, WRONG_COUNTS};
use crate::*;

/// Share counts for the tests that hash a few blocks at each.
const SOME_COUNTS: [usize; 6] = [1, 2, 3, 4, 8, 16];

/// Byte counts around full blocks and at the limit.
const SOME_BYTES: [u64; 10] = [0, 1, 55, 56, 63, 64, 65, 128, LIMIT - 1, LIMIT];

/// A piece that is too long for any state.
static TOO_LONG: [u8; LONGEST + 1] = [7; LONGEST + 1];

/// Pseudo-random words for calls that draw for up to four compressions.
fn four_compressions(n: usize) -> Vec<u32> {
    random_words(1, 4 * compression_count(n))
}

/// A finish with a tag slice of this length, in which nothing may be written.
fn finish_unwritten(state: State, length: usize, words: &[u32]) -> Streamed {
    let mut tag = vec![0xa5; length];
    let streamed = hmac_sha1_finish(state, &mut tag, words);
    assert_eq!(tag, vec![0xa5; length]);
    streamed
}

/// Every call on the state gives 6 and leaves it, whether another number would apply too or not,
/// and so do the queries.
fn assert_six(state: State, words: &[u32]) {
    for lent in [&[], words] {
        for piece in [&[], &TOO_LONG[..1], &TOO_LONG[..64], &TOO_LONG] {
            assert_eq!(hmac_sha1_feed(state, piece, lent), left(6, state));
            assert_eq!(hmac_sha1_feed_words(state, piece.len()), refused(6));
        }
        for length in [0, 19, 20, 21] {
            assert_eq!(finish_unwritten(state, length, lent), left(6, state));
        }
    }
    assert_eq!(hmac_sha1_feed_words(state, usize::MAX), refused(6));
    assert_eq!(hmac_sha1_finish_words(state), refused(6));
}

/// A fit state: both queries take it, and so does an empty feed, which leaves its count and hash.
fn assert_fit(state: State) {
    assert_eq!(hmac_sha1_feed_words(state, 0), done(0));
    assert_eq!(hmac_sha1_finish_words(state).number, 0);
    let after = hmac_sha1_feed(state, &[], &[]);
    assert_eq!((after.number, after.drawn), (0, 0));
    assert_eq!((after.state.drawn, after.state.hash), (state.drawn, 0));
}

/// Refused calls of every number but 6 on a fit state, each of which leaves it and so its count;
/// also where the words run out after a block was compressed.
fn refuse_on(state: State, words: &[u32]) {
    assert_eq!(hmac_sha1_feed(state, &TOO_LONG, words), left(4, state));
    assert_eq!(finish_unwritten(state, 19, words), left(3, state));
    if state.n > 1 {
        let drawn = hmac_sha1_feed_words(state, 128).drawn as usize;
        for less in [drawn - 1, drawn / 2, 0] {
            let streamed = hmac_sha1_feed(state, &TOO_LONG[..128], &words[..less]);
            assert_eq!(streamed, left(5, state));
        }
        let drawn = hmac_sha1_finish_words(state).drawn as usize;
        for less in [drawn - 1, 0] {
            let streamed = finish_unwritten(state, 20, &words[..less]);
            assert_eq!(streamed, left(5, state));
        }
    }
}

/// The state's count, beside a sum of what calls drew and beside the rules' draws.
fn assert_count(state: State, sum: u64) {
    assert_eq!((state.drawn, state.hash), (sum, 0));
    assert_eq!(state.drawn, fit_count(state.n, state.bytes));
}

// The running count.

#[test]
fn the_count_is_what_start_and_the_accepted_feeds_drew() {
    let runs: [(usize, &[usize]); 8] = [
        (1, &[0, 1, 62, 1, 64, 100, 0, 192]),
        (2, &[0, 1, 62, 1, 64, 100, 0, 192]),
        (2, &[128, 127, 1, 3]),
        (3, &[63, 1, 0, 65, 127]),
        (4, &[64, 0, 65, 63, 130]),
        (5, &[200, 56]),
        (8, &[30, 34, 70]),
        (16, &[64, 1]),
    ];
    for (n, lengths) in runs {
        let words = four_compressions(n);
        let started = hmac_sha1_start(n, &random_words(2, 16 * n as u64), &words);
        assert_eq!(started.number, 0);
        let (mut state, mut sum) = (started.state, started.drawn);
        assert_count(state, sum);
        refuse_on(state, &words);
        for &length in lengths {
            let fed = hmac_sha1_feed(state, &random_bytes(3, length), &words);
            assert_eq!(fed.number, 0);
            (state, sum) = (fed.state, sum + fed.drawn);
            assert_count(state, sum);
            refuse_on(state, &words);
        }
    }
}

#[test]
fn a_block_is_counted_once_its_tail_is_full() {
    // The compressions so far, the two of start among them.
    let some = [(0, 2), (63, 2), (64, 3), (65, 3), (127, 3), (128, 4)];
    let message = random_bytes(2, 128);
    for n in SOME_COUNTS {
        let words = four_compressions(n);
        let mut rest = &words[..];
        let started = start_done(n, &random_words(3, 16 * n as u64), &mut rest);
        for (bytes, compressions) in some {
            let whole = feed_done(started, &message[..bytes], &mut &rest[..]);
            assert_eq!(whole.drawn, compressions * 5220 * (n * (n - 1)) as u64);
            let (mut state, mut rest) = (started, rest);
            for byte in message[..bytes].chunks(1) {
                state = feed_done(state, byte, &mut rest);
            }
            assert_eq!(state, whole, "n {n}, {bytes} bytes");
        }
    }
}

#[test]
fn counts_at_two_shares_by_hand() {
    // One compression draws 10,440 words at two shares.
    let counts = [20_880, 31_320, 31_320, 41_760];
    for (bytes, count) in [63, 64, 65, 128].into_iter().zip(counts) {
        for drawn in [20_880, 31_320, 41_760, 52_200] {
            let fit = made_up(2, bytes, 0, 1);
            let state = State { drawn, ..fit };
            if drawn == count {
                assert_fit(state);
            } else {
                assert_six(state, &[9; 9]);
            }
        }
    }
}

#[test]
fn a_finish_leaves_the_count_and_its_words_are_not_in_it() {
    for n in SOME_COUNTS {
        let words = four_compressions(n);
        for bytes in [0, 56, 64] {
            let state = made_up(n, bytes, 0, 2);
            let query = hmac_sha1_finish_words(state);
            let (end, _) = finish_done(state, &mut &words[..]);
            assert_eq!(end.drawn, fit_count(n, bytes));
            assert_eq!(end.hash, 0);
            if n > 1 {
                let drawn = state.drawn + query.drawn;
                assert_six(State { drawn, ..state }, &words);
                assert_six(State { drawn, ..end }, &words);
            }
        }
    }
}

#[test]
fn the_count_of_the_longest_message_at_two_shares() {
    let words = random_words(1, 64 * compression_count(2));
    let mut state = start_done(2, &random_words(2, 32), &mut &words[..]);
    for piece in TOO_LONG[..LONGEST].chunks(4096) {
        state = feed_done(state, piece, &mut &words[..]);
    }
    // 1,026 compressions of 10,440 words.
    assert_eq!((state.bytes, state.drawn), (LIMIT, 10_711_440));
    let (end, _) = finish_done(state, &mut &words[..]);
    assert_eq!(end.drawn, 10_711_440);
}

/// The states before and after the finish of a message in pieces of one length, and the tag. Where
/// asked for, refused calls and an empty piece come before each piece.
fn cut_run(n: usize, message: &[u8], size: usize, broken: bool) -> (State, State, Vec<u8>) {
    let words = random_words(4, hmac_sha1_words(n, message.len()).drawn);
    let others = four_compressions(n);
    let mut rest = &words[..];
    let mut state = start_done(n, &random_words(5, 16 * n as u64), &mut rest);
    for piece in message.chunks(size) {
        if broken {
            refuse_on(state, &others);
            state = feed_done(state, &[], &mut rest);
        }
        state = feed_done(state, piece, &mut rest);
    }
    let (end, tag) = finish_done(state, &mut rest);
    assert!(rest.is_empty());
    (state, end, tag)
}

#[test]
fn different_cuts_end_in_equal_states_the_count_included() {
    let message = random_bytes(6, 130);
    for n in [1, 2, 3, 4, 8] {
        let whole = cut_run(n, &message, 130, false);
        let four = 4 * compression_count(n);
        assert_eq!((whole.0.drawn, whole.1.drawn), (four, four));
        for (size, broken) in [(7, false), (40, true), (63, false), (64, true), (65, false)] {
            let cut = cut_run(n, &message, size, broken);
            assert_eq!(cut, whole, "n {n}, pieces of {size}");
        }
    }
}

// Number 6 for a count or a hash that is not the state's.

#[test]
fn any_other_count_is_six() {
    for n in COUNTS {
        for bytes in SOME_BYTES {
            let fit = made_up(n, bytes, 0, 1);
            assert_fit(fit);
            for drawn in wrong_counts(n, bytes) {
                assert_six(State { drawn, ..fit }, &[9; 9]);
            }
        }
    }
}

#[test]
fn all_64_bits_of_the_count_and_all_32_of_the_hash_are_compared() {
    for n in COUNTS {
        for bytes in [0, 65, LIMIT] {
            let fit = made_up(n, bytes, 0, 1);
            for bit in 0..64 {
                let drawn = fit.drawn ^ 1 << bit;
                assert_six(State { drawn, ..fit }, &[]);
            }
            for bit in 0..32 {
                let hash = 1 << bit;
                assert_six(State { hash, ..fit }, &[]);
            }
        }
    }
}

#[test]
fn a_count_of_0_is_right_at_one_share_alone() {
    for bytes in (0..=200).chain([4096, LIMIT - 1, LIMIT]) {
        for n in COUNTS {
            let fit = made_up(n, bytes, 0, 1);
            let state = State { drawn: 0, ..fit };
            if n == 1 {
                assert_fit(state);
            } else {
                assert_six(state, &[]);
            }
        }
        let fit = made_up(1, bytes, 0, 1);
        for drawn in [1, 2, bytes + 1, 10_440, 20_880, 1 << 32, 1 << 63, u64::MAX] {
            assert_six(State { drawn, ..fit }, &[]);
        }
    }
}

#[test]
fn any_other_hash_is_six_with_either_count() {
    for n in COUNTS {
        for bytes in SOME_BYTES {
            let fit = made_up(n, bytes, 0, 1);
            // The count by the draws of SHA-256, with which code 1 is a fit state of that hash.
            let drawn = fit.drawn / 5220 * 9664;
            for hash in [1, 2, 256, 1 << 16, u32::MAX] {
                assert_six(State { hash, ..fit }, &[9; 9]);
                let other = State { hash, drawn, ..fit };
                assert_six(other, &[9; 9]);
            }
        }
    }
}

#[test]
fn six_is_told_before_four_three_and_five() {
    for n in COUNTS {
        let numbers = |state: State| {
            [
                hmac_sha1_feed(state, &TOO_LONG, &[]).number,
                hmac_sha1_feed_words(state, usize::MAX).number,
                finish_unwritten(state, 21, &[]).number,
                hmac_sha1_feed(state, &TOO_LONG[..64], &[]).number,
                finish(state, &[]).0.number,
            ]
        };
        let short = if n == 1 { 0 } else { 5 };
        let states = made_up_ways(n, 63, 1);
        assert_eq!(numbers(states[0]), [4, 4, 3, short, short]);
        for unfit in &states[1..] {
            assert_eq!(numbers(*unfit), [6; 5]);
        }
    }
}

#[test]
fn queries_give_six_exactly_where_their_calls_do() {
    let past = [LIMIT + 1, LIMIT + 64, u64::MAX - 64, u64::MAX];
    for n in COUNTS.into_iter().chain(WRONG_COUNTS) {
        for bytes in SOME_BYTES.into_iter().chain(past) {
            for state in made_up_ways(n, bytes, 1) {
                let six = is_unfit(state);
                for piece in [&[], &TOO_LONG[..64], &TOO_LONG] {
                    let fed = hmac_sha1_feed(state, piece, &[]);
                    let query = hmac_sha1_feed_words(state, piece.len());
                    assert_eq!((fed.number == 6, query.number == 6), (six, six));
                }
                let (finished, _) = finish(state, &[]);
                let query = hmac_sha1_finish_words(state);
                assert_eq!((finished.number == 6, query.number == 6), (six, six));
            }
        }
    }
}
