//! Tests of streaming by HMAC-SHA-256 (request (vii)), with the state that serves both hashes: the
//! order of the draws, every cut, the counts, what is not read and what is cleared, number 6 for a
//! state of the other hash or of none, and the other refusals with what they leave.

use crate::sha256_tests::{
    compress_done, compression_count, hmac_done, key_done, padded, plain_hmac, random_chain,
    start_chain, DIGEST_PADDING, RFC_4231,
};
use crate::stream_tests::{
    answer_of, fit_count as sha1_fit_count, left, made_up as sha1_made_up, LIMIT, ZEROS,
};
use crate::tests::{
    done, hex, opened_bytes, public, random_bytes, random_words, refused, with_pad, words_of,
    COUNTS, FEW_COUNTS, LONGEST, WRONG_COUNTS,
};
use crate::*;

/// A piece that is too long for any state.
static TOO_LONG: [u8; LONGEST + 1] = [7; LONGEST + 1];

/// The count that a fit state carries: two compressions of start and one for each block that the
/// bytes filled. It wraps, so that any byte count at all can be given.
fn fit_count(n: usize, bytes: u64) -> u64 {
    (2 + bytes / 64).wrapping_mul(compression_count(n))
}

/// A made-up state of SHA-256, with pseudo-random words and bytes in every place of its chains and
/// its tail. It is fit where the share count and the byte count are.
fn made_up(n: usize, bytes: u64, seed: u64) -> State {
    State {
        n,
        bytes,
        drawn: fit_count(n, bytes),
        finished: 0,
        hash: 1,
        inner: random_chain(seed),
        outer: random_chain(seed + 1),
        tail: random_bytes(seed + 2, 64).try_into().unwrap(),
    }
}

/// The state with other words and bytes in the places that are not used.
fn with_junk(state: State, seed: u64) -> State {
    let mut junk = State {
        inner: random_chain(seed),
        outer: random_chain(seed + 1),
        tail: random_bytes(seed + 2, 64).try_into().unwrap(),
        ..state
    };
    let (words, bytes) = (8 * state.n, state.bytes as usize % 64);
    junk.inner.shares[..words].copy_from_slice(&state.inner.shares[..words]);
    junk.outer.shares[..words].copy_from_slice(&state.outer.shares[..words]);
    junk.tail[..bytes].copy_from_slice(&state.tail[..bytes]);
    junk
}

/// The state with 0 in the places that are not used.
fn without_junk(state: State) -> State {
    let mut clean = state;
    clean.inner.shares[8 * state.n..].fill(0);
    clean.outer.shares[8 * state.n..].fill(0);
    clean.tail[state.bytes as usize % 64..].fill(0);
    clean
}

/// A finish, and the tag slice of 32 bytes afterwards.
fn finish(state: State, words: &[u32]) -> (Streamed, [u8; 32]) {
    let mut tag = [0xa5; 32];
    let streamed = hmac_sha256_finish(state, &mut tag, words);
    (streamed, tag)
}

/// A finish with a tag slice of this length, in which nothing may be written.
fn finish_unwritten(state: State, length: usize, words: &[u32]) -> Streamed {
    let mut tag = vec![0xa5; length];
    let streamed = hmac_sha256_finish(state, &mut tag, words);
    assert_eq!(tag, vec![0xa5; length]);
    streamed
}

// Calls that take exactly the words that their queries name off the front of a supply. The state
// handed back by a start or feed has the count of the rules' draws, and code 1.

fn take<'a>(query: Answer, words: &mut &'a [u32]) -> &'a [u32] {
    assert_eq!(query.number, 0);
    let (lent, rest) = words.split_at(query.drawn as usize);
    *words = rest;
    lent
}

fn checked(streamed: Streamed, query: Answer) -> State {
    assert_eq!(answer_of(streamed), query);
    let state = streamed.state;
    assert_eq!((state.hash, state.finished), (1, 0));
    assert_eq!(state.drawn, fit_count(state.n, state.bytes));
    state
}

fn start_done(n: usize, key: &[u32], words: &mut &[u32]) -> State {
    let query = hmac_sha256_start_words(n);
    checked(hmac_sha256_start(n, key, take(query, words)), query)
}

fn feed_done(state: State, piece: &[u8], words: &mut &[u32]) -> State {
    let query = hmac_sha256_feed_words(state, piece.len());
    checked(hmac_sha256_feed(state, piece, take(query, words)), query)
}

fn finish_done(state: State, words: &mut &[u32]) -> (State, Vec<u8>) {
    let query = hmac_sha256_finish_words(state);
    let (streamed, tag) = finish(state, take(query, words));
    assert_eq!(answer_of(streamed), query);
    (streamed.state, tag.to_vec())
}

/// A whole message in pieces: the end state and the tag. All the words are drawn.
fn stream_done(n: usize, key: &[u32], pieces: &[&[u8]], words: &[u32]) -> (State, Vec<u8>) {
    let mut rest = words;
    let mut state = start_done(n, key, &mut rest);
    for piece in pieces {
        state = feed_done(state, piece, &mut rest);
    }
    let end = finish_done(state, &mut rest);
    assert!(rest.is_empty());
    end
}

// The order of the draws, by compressions.

#[test]
fn start_does_the_inner_key_block_then_the_outer_one() {
    for n in COUNTS {
        let key = random_words(1, 16 * n as u64);
        let words = random_words(2, 2 * compression_count(n));
        let mut rest = &words[..];
        let [inner, outer] = [0x36363636, 0x5c5c5c5c].map(|pad| {
            let block = with_pad(n, &key, pad);
            compress_done(n, start_chain(n), &block, &mut rest)
        });
        assert!(rest.is_empty());
        let expected = State {
            n,
            drawn: words.len() as u64,
            hash: 1,
            inner,
            outer,
            ..ZEROS
        };
        assert_eq!(start_done(n, &key, &mut &words[..]), expected);
    }
}

#[test]
fn feed_compresses_each_block_once_it_is_full() {
    for n in FEW_COUNTS {
        for (bytes, length) in [(0, 63), (0, 64), (1, 63), (63, 1), (127, 67), (70, 186)] {
            let state = made_up(n, bytes, bytes + 5);
            let piece = random_bytes(3, length);
            let filled = bytes as usize % 64;
            let all = [&state.tail[..filled], &piece].concat();
            let words = random_words(4, all.len() as u64 / 64 * compression_count(n));
            let mut rest = &words[..];
            let mut expected = State {
                bytes: bytes + length as u64,
                drawn: state.drawn + words.len() as u64,
                ..state
            };
            for block in all.chunks(64) {
                if block.len() == 64 {
                    let block = public(n, &words_of(block));
                    expected.inner = compress_done(n, expected.inner, &block, &mut rest);
                } else {
                    expected.tail[..block.len()].copy_from_slice(block);
                }
            }
            assert!(rest.is_empty());
            let after = feed_done(state, &piece, &mut &words[..]);
            assert_eq!(after, without_junk(expected));
        }
    }
}

/// What a finish has to give on a state, by one compression after another.
fn tag_by_compressions(state: State, words: &mut &[u32]) -> Vec<u8> {
    let n = state.n;
    let filled = state.bytes as usize % 64;
    let before = 64 + state.bytes as usize - filled;
    let mut inner = state.inner;
    for block in padded(before, &state.tail[..filled]).chunks(64) {
        inner = compress_done(n, inner, &public(n, &words_of(block)), words);
    }
    let mut block = inner.shares[..8 * n].to_vec();
    block.extend(public(n, &DIGEST_PADDING));
    let outer = compress_done(n, state.outer, &block, words);
    opened_bytes(n, &outer.shares[..8 * n])
}

#[test]
fn finish_does_the_padding_then_the_outer_digest_block() {
    let some = [0, 1, 55, 56, 63, 119, 120, 8127, 8128, LIMIT - 1, LIMIT];
    for n in FEW_COUNTS {
        for bytes in some {
            let state = made_up(n, bytes, bytes + 5);
            let words = random_words(6, hmac_sha256_finish_words(state).drawn);
            let mut rest = &words[..];
            let expected = tag_by_compressions(state, &mut rest);
            assert!(rest.is_empty());
            let finished = State {
                finished: 1,
                ..state
            };
            let end = finish_done(state, &mut &words[..]);
            assert_eq!(end, (finished, expected));
        }
    }
}

// Every cut gives the tag of the one-call form, and one end state.

#[test]
fn every_piece_leads_from_its_place_to_the_next() {
    // From the state after any a bytes, feeding bytes a to b leads to the state after b bytes, so
    // any run of pieces, empty ones included, goes through the same states.
    for (n, length, step) in [(1, 66, 1), (2, 66, 11), (3, 65, 21), (16, 64, 64)] {
        let message = random_bytes(1, length);
        let key = key_done(n, b"any cut", 2);
        let words = random_words(3, hmac_sha256_words(n, length).drawn);
        let mut rest = &words[..];
        let start = start_done(n, &key, &mut rest);
        let mut reached = Vec::new();
        for place in (0..=length).step_by(step).chain([length]) {
            let mut rest = rest;
            let state = feed_done(start, &message[..place], &mut rest);
            reached.push((place, state, rest));
        }
        assert_eq!(reached[0], (0, start, rest));
        for (i, (a, state, rest)) in reached.iter().enumerate() {
            for (b, next, left) in &reached[i..] {
                let mut rest = *rest;
                let state = feed_done(*state, &message[*a..*b], &mut rest);
                assert_eq!((state, rest), (*next, *left), "n {n}, from {a} to {b}");
            }
        }
        let (_, state, mut rest) = reached[reached.len() - 1];
        let (end, tag) = finish_done(state, &mut rest);
        assert!(rest.is_empty());
        assert_eq!((end.n, end.bytes, end.finished), (n, length as u64, 1));
        assert_eq!(tag, hmac_done(n, b"any cut", &message, 4));
    }
}

#[test]
fn any_cutting_gives_one_end_state_and_the_plain_tag() {
    for n in [1, 2, 3] {
        for length in [0, 1, 56, 64, 65, 130] {
            let message = random_bytes(8, length);
            let key = key_done(n, b"in pieces", 9);
            let words = random_words(10, hmac_sha256_words(n, length).drawn);
            let whole = stream_done(n, &key, &[&message], &words);
            assert_eq!(whole.1, plain_hmac(b"in pieces", &message));
            for size in [1, 63, 64, 100] {
                let mut pieces: Vec<&[u8]> = message.chunks(size).collect();
                pieces.insert(pieces.len() / 2, b"");
                assert_eq!(stream_done(n, &key, &pieces, &words), whole);
            }
        }
    }
}

#[test]
fn rfc_4231_in_pieces() {
    for n in [1, 2, 3] {
        for (key, message, tag) in RFC_4231 {
            let shares = key_done(n, key, 1);
            let words = random_words(2, hmac_sha256_words(n, message.len()).drawn);
            let pieces: Vec<&[u8]> = message.chunks(7).collect();
            let (_, bytes) = stream_done(n, &shares, &pieces, &words);
            assert!(hex(&bytes).starts_with(tag), "n {n}");
        }
    }
}

#[test]
fn the_longest_message_in_one_share() {
    let message = random_bytes(1, LONGEST);
    let key = key_done(1, b"limit", 2);
    let pieces: Vec<&[u8]> = message.chunks(999).collect();
    let (end, tag) = stream_done(1, &key, &pieces, &[]);
    assert_eq!((end.bytes, end.drawn, end.finished), (LIMIT, 0, 1));
    assert_eq!(tag, hmac_done(1, b"limit", &message, 3));
    assert_eq!(tag, plain_hmac(b"limit", &message));
}

// The counts.

#[test]
fn counts_of_words() {
    for n in COUNTS {
        let one = sha256_compress_words(n).drawn;
        assert_eq!(hmac_sha256_start_words(n), done(2 * one));
        for bytes in [0, 1, 55, 56, 63, 64, LIMIT - 65, LIMIT - 64, LIMIT] {
            let state = made_up(n, bytes, 1);
            let room = LIMIT - bytes;
            for length in (0..=room).step_by(61).chain([room]) {
                let blocks = (bytes + length) / 64 - bytes / 64;
                let query = hmac_sha256_feed_words(state, length as usize);
                assert_eq!(query, done(blocks * one));
            }
            let blocks = if bytes % 64 < 56 { 2 } else { 3 };
            assert_eq!(hmac_sha256_finish_words(state), done(blocks * one));
            // All in all a message draws what it draws in the one-call form.
            let fed = hmac_sha256_feed_words(made_up(n, 0, 1), bytes as usize);
            let sum = (2 + blocks) * one + fed.drawn;
            assert_eq!(hmac_sha256_words(n, bytes as usize), done(sum));
        }
    }
    // The largest feed: 1,024 compressions of 9,664·16·15 words.
    let fed = hmac_sha256_feed_words(made_up(16, 0, 1), LONGEST);
    assert_eq!(fed, done(2_375_024_640));
}

#[test]
fn one_word_less_is_refused_and_leaves_everything() {
    for n in [2, 3, 8] {
        let key = random_words(1, 16 * n as u64);
        let piece = random_bytes(2, 66);
        let state = made_up(n, 62, 3);
        type Call<'a> = Box<dyn Fn(&[u32]) -> (Streamed, [u8; 32]) + 'a>;
        let start = |words: &[u32]| (hmac_sha256_start(n, &key, words), [0xa5; 32]);
        let feed = |words: &[u32]| (hmac_sha256_feed(state, &piece, words), [0xa5; 32]);
        let calls: [(Answer, State, Call); 3] = [
            (hmac_sha256_start_words(n), ZEROS, Box::new(start)),
            (hmac_sha256_feed_words(state, 66), state, Box::new(feed)),
            (
                hmac_sha256_finish_words(state),
                state,
                Box::new(|words| finish(state, words)),
            ),
        ];
        for (query, given, call) in calls {
            assert_eq!(query.number, 0);
            let drawn = query.drawn as usize;
            let words = random_words(4, query.drawn + 5);
            let accepted = call(&words[..drawn]);
            assert_eq!(answer_of(accepted.0), query);
            // Words after those drawn have no influence.
            assert_eq!(call(&words), accepted);
            for less in [drawn - 1, drawn / 2, 1, 0] {
                assert_eq!(call(&words[..less]), (left(5, given), [0xa5; 32]));
            }
        }
    }
}

// What is not read, what is cleared and what is kept.

#[test]
fn junk_is_not_read_and_feed_clears_it() {
    for n in [1, 2, 3, 5, 15] {
        for (bytes, length) in [(0, 0), (10, 0), (10, 53), (10, 54), (60, 10)] {
            let state = without_junk(made_up(n, bytes, 1));
            let piece = random_bytes(2, length);
            let words = random_words(3, hmac_sha256_feed_words(state, length).drawn);
            let streamed = hmac_sha256_feed(state, &piece, &words);
            assert_eq!(streamed.number, 0);
            assert_eq!(streamed.state, without_junk(streamed.state));
            for seed in 4..6 {
                let junk = with_junk(state, seed);
                assert_eq!(hmac_sha256_feed(junk, &piece, &words), streamed);
            }
        }
    }
}

#[test]
fn an_empty_feed_only_clears() {
    for n in COUNTS {
        for bytes in [0, 1, 63, 64, LIMIT - 1, LIMIT] {
            let state = made_up(n, bytes, bytes + 1);
            let streamed = hmac_sha256_feed(state, &[], &[1, 2, 3]);
            assert_eq!(answer_of(streamed), done(0));
            assert_eq!(streamed.state, without_junk(state));
        }
    }
}

#[test]
fn junk_is_not_read_and_finish_keeps_it() {
    for n in FEW_COUNTS {
        for bytes in [0, 10, 60, 64] {
            let state = without_junk(made_up(n, bytes, 1));
            let words = random_words(2, hmac_sha256_finish_words(state).drawn);
            let (_, tag) = finish_done(state, &mut &words[..]);
            for seed in 3..5 {
                let junk = with_junk(state, seed);
                let finished = State {
                    finished: 1,
                    ..junk
                };
                let end = finish_done(junk, &mut &words[..]);
                assert_eq!(end, (finished, tag.clone()));
            }
        }
    }
}

// Number 6: a state of the other hash or of none, and every other unfit state.

/// Every call of SHA-256 on the state gives 6 and leaves it, whether another number would apply too
/// or not, and so do the queries.
fn assert_six(state: State, words: &[u32]) {
    for lent in [&[], words] {
        for piece in [&[], &TOO_LONG[..1], &TOO_LONG[..64], &TOO_LONG] {
            assert_eq!(hmac_sha256_feed(state, piece, lent), left(6, state));
            assert_eq!(hmac_sha256_feed_words(state, piece.len()), refused(6));
        }
        for length in [0, 20, 31, 32, 33] {
            assert_eq!(finish_unwritten(state, length, lent), left(6, state));
        }
    }
    assert_eq!(hmac_sha256_feed_words(state, usize::MAX), refused(6));
    assert_eq!(hmac_sha256_finish_words(state), refused(6));
}

/// The same of SHA-1.
fn assert_six_of_sha1(state: State, words: &[u32]) {
    for lent in [&[], words] {
        for piece in [&[], &TOO_LONG[..64], &TOO_LONG] {
            assert_eq!(hmac_sha1_feed(state, piece, lent), left(6, state));
            assert_eq!(hmac_sha1_feed_words(state, piece.len()), refused(6));
        }
        for length in [0, 20, 32] {
            let mut tag = vec![0xa5; length];
            assert_eq!(hmac_sha1_finish(state, &mut tag, lent), left(6, state));
            assert_eq!(tag, vec![0xa5; length]);
        }
    }
    assert_eq!(hmac_sha1_finish_words(state), refused(6));
}

/// A fit state: both queries take it, and so does an empty feed, which leaves its count and hash.
fn assert_fit(state: State) {
    assert_eq!(hmac_sha256_feed_words(state, 0), done(0));
    assert_eq!(hmac_sha256_finish_words(state).number, 0);
    let after = hmac_sha256_feed(state, &[], &[]);
    assert_eq!((after.number, after.drawn), (0, 0));
    assert_eq!((after.state.drawn, after.state.hash), (state.drawn, 1));
}

#[test]
fn states_of_the_one_hash_are_refused_by_the_other() {
    // Started and fed, not made up; at one share they differ in the code alone.
    for n in FEW_COUNTS {
        let words = random_words(1, 5 * compression_count(n));
        let key = random_words(2, 16 * n as u64);
        let piece = random_bytes(3, 70);
        let of_256 = hmac_sha256_start(n, &key, &words).state;
        let fed_256 = hmac_sha256_feed(of_256, &piece, &words).state;
        let of_1 = hmac_sha1_start(n, &key, &words).state;
        let fed_1 = hmac_sha1_feed(of_1, &piece, &words).state;
        assert_eq!([of_1.hash, fed_1.hash], [0; 2]);
        assert_eq!([of_256.hash, fed_256.hash], [1; 2]);
        for state in [of_1, fed_1] {
            assert_six(state, &words);
        }
        for state in [of_256, fed_256] {
            assert_fit(state);
            assert_six_of_sha1(state, &words);
        }
    }
}

#[test]
fn code_and_count_both_have_to_be_the_hashs_own() {
    for n in COUNTS {
        for bytes in [0, 1, 63, 64, 128, LIMIT] {
            let fit = made_up(n, bytes, 1);
            assert_fit(fit);
            assert_six_of_sha1(fit, &[9; 9]);
            // Code 1 with the count of SHA-1, which at one share is the same.
            let drawn = sha1_fit_count(n, bytes);
            let mixed = State { drawn, ..fit };
            assert_six_of_sha1(mixed, &[9; 9]);
            if n > 1 {
                assert_six(mixed, &[9; 9]);
            }
            // Codes that are none, and SHA-1's, with either count.
            for hash in [0, 2, 3, 257, 1 << 16 | 1, u32::MAX] {
                assert_six(State { hash, ..fit }, &[9; 9]);
                assert_six(State { hash, ..mixed }, &[9; 9]);
            }
            for hash in [2, 3, u32::MAX] {
                assert_six_of_sha1(State { hash, ..mixed }, &[9; 9]);
            }
        }
    }
}

#[test]
fn a_state_of_sha1_has_5n_words_and_zeros_up_to_128() {
    for n in COUNTS {
        let state = sha1_made_up(n, 10, 0, 1);
        let streamed = hmac_sha1_feed(state, &[], &[]);
        assert_eq!(streamed.number, 0);
        for (chain, given) in [
            (streamed.state.inner, state.inner),
            (streamed.state.outer, state.outer),
        ] {
            assert_eq!(chain.shares[..5 * n], given.shares[..5 * n]);
            assert!(chain.shares[5 * n..].iter().all(|word| *word == 0));
        }
    }
}

#[test]
fn all_64_bits_of_the_count_and_all_32_of_the_hash_are_compared() {
    for n in COUNTS {
        for bytes in [0, 65, LIMIT] {
            let fit = made_up(n, bytes, 1);
            for bit in 0..64 {
                let drawn = fit.drawn ^ 1 << bit;
                assert_six(State { drawn, ..fit }, &[]);
            }
            for bit in 0..32 {
                let hash = fit.hash ^ 1 << bit;
                assert_six(State { hash, ..fit }, &[]);
            }
            if n > 1 {
                for drawn in [0, fit.drawn - compression_count(n), fit.drawn * 2] {
                    assert_six(State { drawn, ..fit }, &[]);
                }
            }
        }
    }
}

#[test]
fn a_mark_a_share_count_or_a_byte_count_makes_a_state_unfit() {
    for n in COUNTS {
        for finished in [1, 2, 0x80000000, u32::MAX] {
            let fit = made_up(n, 20, 1);
            assert_six(State { finished, ..fit }, &[9; 9]);
        }
        for bytes in [LIMIT + 1, LIMIT + 64, u64::MAX - 64, u64::MAX] {
            assert_six(made_up(n, bytes, 1), &[9; 9]);
        }
    }
    for n in WRONG_COUNTS {
        for bytes in [0, 64, LIMIT, u64::MAX] {
            assert_six(made_up(n, bytes, 1), &[9; 9]);
        }
    }
    let zeros_of_256 = State { hash: 1, ..ZEROS };
    assert_six(ZEROS, &[]);
    assert_six(zeros_of_256, &[]);
}

#[test]
fn after_finish_everything_is_refused_but_a_kept_state_goes_on() {
    for n in FEW_COUNTS {
        let message = random_bytes(1, 80);
        let key = key_done(n, b"twice", 2);
        let words = random_words(3, hmac_sha256_words(n, 80).drawn);
        let mut rest = &words[..];
        let state = start_done(n, &key, &mut rest);
        let state = feed_done(state, &message[..30], &mut rest);
        let (end, tag) = finish_done(state, &mut &words[..]);
        assert_eq!(tag, plain_hmac(b"twice", &message[..30]));
        assert_eq!(end.drawn, state.drawn);
        assert_six(end, &words);
        assert_eq!(finish_done(state, &mut &words[..]), (end, tag));
        let state = feed_done(state, &message[30..], &mut rest);
        let (_, tag) = finish_done(state, &mut rest);
        assert_eq!(tag, plain_hmac(b"twice", &message));
    }
}

// The other refusals.

#[test]
fn a_refused_start_is_zeros() {
    for n in WRONG_COUNTS {
        assert_eq!(hmac_sha256_start_words(n), refused(1));
        for length in [0, 1, 16, 256, 16 * 17] {
            let key = random_words(1, length);
            assert_eq!(hmac_sha256_start(n, &key, &[]), left(1, ZEROS));
            assert_eq!(hmac_sha256_start(n, &key, &[9; 9]), left(1, ZEROS));
        }
    }
    for n in FEW_COUNTS {
        let words = random_words(2, hmac_sha256_start_words(n).drawn);
        for other in [0, n, 16 * n - 1, 16 * n + 1, 32 * n] {
            let key = vec![1; other];
            assert_eq!(hmac_sha256_start(n, &key, &[]), left(2, ZEROS));
            assert_eq!(hmac_sha256_start(n, &key, &words), left(2, ZEROS));
        }
        if n > 1 {
            // As many words as SHA-1's start draws are too few.
            let key = vec![1; 16 * n];
            let drawn = hmac_sha1_start_words(n).drawn as usize;
            for less in [0, drawn, words.len() - 1] {
                let streamed = hmac_sha256_start(n, &key, &words[..less]);
                assert_eq!(streamed, left(5, ZEROS));
            }
        }
    }
}

#[test]
fn lengths_at_the_limit() {
    for n in COUNTS {
        for bytes in [0, 1, 4097, LIMIT - 1, LIMIT] {
            let state = made_up(n, bytes, 2);
            let room = LONGEST - bytes as usize;
            for length in [room + 1, room + 2, 1 << 32, usize::MAX - 1, usize::MAX] {
                assert_eq!(hmac_sha256_feed_words(state, length), refused(4));
            }
            assert_eq!(hmac_sha256_feed_words(state, room).number, 0);
            let over = hmac_sha256_feed(state, &TOO_LONG[..room + 1], &[]);
            assert_eq!(over, left(4, state));
        }
    }
}

#[test]
fn tags_of_another_length_stay() {
    for n in FEW_COUNTS {
        let state = made_up(n, 60, 1);
        let words = random_words(2, hmac_sha256_finish_words(state).drawn);
        for length in [0, 20, 31, 33, 64] {
            for lent in [&words[..], &[]] {
                assert_eq!(finish_unwritten(state, length, lent), left(3, state));
            }
        }
    }
}
