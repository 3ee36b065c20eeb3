//! Tests of streaming by HMAC-SHA-1 (request (i), with the share counts and the limit of request
//! (vi) and the state of request (vii)): every cut, the order of the draws and their counts, what is
//! not read and what is cleared, the limits, and every refusal with what it leaves. What the state
//! carries (request (xii)) and streaming by HMAC-SHA-256 have tests of their own, which use the
//! helpers here.

use crate::sha256_tests;
use crate::tests::{
    compress_done, done, hex, hmac_done, opened_bytes, plain_hmac, public, random_bytes,
    random_words, refused, split_key_done, start_chain, with_pad, words_of,
};
use crate::tests::{
    CHAIN_WORDS, COUNTS, DIGEST_PADDING, FEW_COUNTS, LONGEST, RFC_2202, WRONG_COUNTS,
};
use crate::*;

/// The limit as a count of bytes fed.
pub(crate) const LIMIT: u64 = LONGEST as u64;

/// The state that a refused start hands back.
pub(crate) const ZEROS: State = State {
    n: 0,
    bytes: 0,
    drawn: 0,
    finished: 0,
    hash: 0,
    inner: Sha256Chain {
        shares: [0; sha256_tests::CHAIN_WORDS],
    },
    outer: Sha256Chain {
        shares: [0; sha256_tests::CHAIN_WORDS],
    },
    tail: [0; 64],
};

/// A chain of SHA-1 in the record of a state.
fn widened(chain: Chain) -> Sha256Chain {
    let mut wide = ZEROS.inner;
    wide.shares[..CHAIN_WORDS].copy_from_slice(&chain.shares);
    wide
}

/// The chain of SHA-1 in the record of a state, with what stands behind its 5n words.
fn narrowed(chain: Sha256Chain) -> Chain {
    Chain {
        shares: chain.shares[..CHAIN_WORDS].try_into().unwrap(),
    }
}

/// The words of one compression by its ANDs: 32 for each of 325 additions, and 40 of its own. It
/// wraps, so that any share count at all can be given.
pub(crate) fn compression_count(n: usize) -> u64 {
    let pairs_both_ways = (n as u64).wrapping_mul((n as u64).wrapping_sub(1));
    pairs_both_ways.wrapping_mul((325 * 32 + 40) / 2)
}

/// The count that a fit state carries (request (xii)): two compressions of start and one for each
/// block that the bytes filled. It wraps, so that any byte count at all can be given.
pub(crate) fn fit_count(n: usize, bytes: u64) -> u64 {
    (2 + bytes / 64).wrapping_mul(compression_count(n))
}

/// A made-up state, with pseudo-random words and bytes in every place of its chains and its tail.
/// It carries the right count and hash, so that it is fit where the share count, the byte count and
/// the mark are; an unfit one is made from it.
pub(crate) fn made_up(n: usize, bytes: u64, finished: u32, seed: u64) -> State {
    State {
        n,
        bytes,
        drawn: fit_count(n, bytes),
        finished,
        hash: 0,
        inner: sha256_tests::random_chain(seed),
        outer: sha256_tests::random_chain(seed + 1),
        tail: random_bytes(seed + 2, 64).try_into().unwrap(),
    }
}

/// Counts of words other than the one that a state with these counts carries: near it, far from it,
/// equal to it in the low 32 bits, with a finish's two or three compressions in it, without start's
/// two, and those of other bytes, of another share count and of SHA-256 (request (vii)).
pub(crate) fn wrong_counts(n: usize, bytes: u64) -> Vec<u64> {
    let (right, one) = (fit_count(n, bytes), compression_count(n));
    let mut others = vec![0, u64::MAX, u64::MAX - 1, u64::MAX - 5220];
    others.push(fit_count(n.wrapping_add(1), bytes));
    others.push((right / 5220).wrapping_mul(9664));
    for more in [1, 1 << 32, 1 << 63] {
        others.push(right.wrapping_add(more));
        others.push(right.wrapping_sub(more));
    }
    for compressions in 1..=3_u64 {
        let more = compressions.wrapping_mul(one);
        others.push(right.wrapping_add(more));
        others.push(right.wrapping_sub(more));
    }
    others.retain(|other| *other != right);
    others
}

/// Made-up states with these counts: the one of `made_up`, not finished, and after it others that
/// differ from it in the mark, the hash or the count of words, each of which makes a state unfit.
pub(crate) fn made_up_ways(n: usize, bytes: u64, seed: u64) -> Vec<State> {
    let fit = made_up(n, bytes, 0, seed);
    let codes = [1, 2, 0x80000000, u32::MAX];
    let mut states = vec![fit];
    states.extend(codes.map(|finished| State { finished, ..fit }));
    states.extend(codes.map(|hash| State { hash, ..fit }));
    for drawn in wrong_counts(n, bytes) {
        states.push(State { drawn, ..fit });
    }
    states
}

/// The state with other words and bytes in the places that are not used.
fn with_junk(state: State, seed: u64) -> State {
    let mut junk = State {
        inner: sha256_tests::random_chain(seed),
        outer: sha256_tests::random_chain(seed + 1),
        tail: random_bytes(seed + 2, 64).try_into().unwrap(),
        ..state
    };
    let (words, bytes) = (5 * state.n, state.bytes as usize % 64);
    junk.inner.shares[..words].copy_from_slice(&state.inner.shares[..words]);
    junk.outer.shares[..words].copy_from_slice(&state.outer.shares[..words]);
    junk.tail[..bytes].copy_from_slice(&state.tail[..bytes]);
    junk
}

/// The state with 0 in the places that are not used.
fn without_junk(state: State) -> State {
    let mut clean = state;
    clean.inner.shares[5 * state.n..].fill(0);
    clean.outer.shares[5 * state.n..].fill(0);
    clean.tail[state.bytes as usize % 64..].fill(0);
    clean
}

/// The answer without its state.
pub(crate) fn answer_of(streamed: Streamed) -> Answer {
    Answer {
        number: streamed.number,
        drawn: streamed.drawn,
    }
}

/// A refusal that leaves this state.
pub(crate) fn left(number: u32, state: State) -> Streamed {
    Streamed {
        number,
        drawn: 0,
        state,
    }
}

/// A finish, and the tag slice of 20 bytes afterwards.
pub(crate) fn finish(state: State, words: &[u32]) -> (Streamed, [u8; 20]) {
    let mut tag = [0xa5; 20];
    let streamed = hmac_sha1_finish(state, &mut tag, words);
    (streamed, tag)
}

// Calls that take exactly the words that their queries name off the front of a supply.

fn take<'a>(query: Answer, words: &mut &'a [u32]) -> &'a [u32] {
    assert_eq!(query.number, 0);
    let (lent, rest) = words.split_at(query.drawn as usize);
    *words = rest;
    lent
}

pub(crate) fn start_done(n: usize, key: &[u32], words: &mut &[u32]) -> State {
    let query = hmac_sha1_start_words(n);
    let streamed = hmac_sha1_start(n, key, take(query, words));
    assert_eq!(answer_of(streamed), query);
    streamed.state
}

pub(crate) fn feed_done(state: State, piece: &[u8], words: &mut &[u32]) -> State {
    let query = hmac_sha1_feed_words(state, piece.len());
    let streamed = hmac_sha1_feed(state, piece, take(query, words));
    assert_eq!(answer_of(streamed), query);
    streamed.state
}

pub(crate) fn finish_done(state: State, words: &mut &[u32]) -> (State, Vec<u8>) {
    let query = hmac_sha1_finish_words(state);
    let (streamed, tag) = finish(state, take(query, words));
    assert_eq!(answer_of(streamed), query);
    (streamed.state, tag.to_vec())
}

/// A whole message in pieces: the end state and the tag. All the words are drawn.
fn stream_done(n: usize, key: &[u32], pieces: &[&[u8]], words: &[u32]) -> (State, Vec<u8>) {
    let mut rest = words;
    let mut state = start_done(n, key, &mut rest);
    for piece in pieces {
        state = feed_done(state, piece, &mut rest);
    }
    let end = finish_done(state, &mut rest);
    assert!(rest.is_empty());
    end
}

// The order of the draws, by compressions.

#[test]
fn start_does_the_inner_key_block_then_the_outer_one() {
    for n in COUNTS {
        let key = random_words(1, 16 * n as u64);
        let words = random_words(2, 2 * sha1_compress_words(n).drawn);
        let mut rest = &words[..];
        let [inner, outer] = [0x36363636, 0x5c5c5c5c].map(|pad| {
            let block = with_pad(n, &key, pad);
            compress_done(n, start_chain(n), &block, &mut rest)
        });
        assert!(rest.is_empty());
        let expected = State {
            n,
            drawn: words.len() as u64,
            inner: widened(inner),
            outer: widened(outer),
            ..ZEROS
        };
        assert_eq!(start_done(n, &key, &mut &words[..]), expected);
    }
}

#[test]
fn feed_compresses_each_block_once_it_is_full() {
    for n in FEW_COUNTS {
        for (bytes, length) in [(0, 63), (0, 64), (1, 63), (63, 1), (127, 67), (70, 186)] {
            let state = made_up(n, bytes, 0, bytes + 5);
            let piece = random_bytes(3, length);
            let filled = bytes as usize % 64;
            let all = [&state.tail[..filled], &piece].concat();
            let words = random_words(4, all.len() as u64 / 64 * sha1_compress_words(n).drawn);
            let mut rest = &words[..];
            let mut expected = State {
                bytes: bytes + length as u64,
                drawn: state.drawn + words.len() as u64,
                ..state
            };
            for block in all.chunks(64) {
                if block.len() == 64 {
                    let block = public(n, &words_of(block));
                    let inner = narrowed(expected.inner);
                    expected.inner = widened(compress_done(n, inner, &block, &mut rest));
                } else {
                    expected.tail[..block.len()].copy_from_slice(block);
                }
            }
            assert!(rest.is_empty());
            let after = feed_done(state, &piece, &mut &words[..]);
            assert_eq!(after, without_junk(expected));
        }
    }
}

/// What a finish has to give on a state, by one compression after another.
fn tag_by_compressions(state: State, words: &mut &[u32]) -> Vec<u8> {
    let n = state.n;
    let filled = state.bytes as usize % 64;
    let mut padded = state.tail[..filled].to_vec();
    padded.push(0x80);
    padded.resize(if filled < 56 { 56 } else { 120 }, 0);
    padded.extend(((64 + state.bytes) * 8).to_be_bytes());
    let mut inner = narrowed(state.inner);
    for block in padded.chunks(64) {
        inner = compress_done(n, inner, &public(n, &words_of(block)), words);
    }
    let mut block = inner.shares[..5 * n].to_vec();
    block.extend(public(n, &DIGEST_PADDING));
    let outer = compress_done(n, narrowed(state.outer), &block, words);
    opened_bytes(n, &outer.shares[..5 * n])
}

#[test]
fn finish_does_the_padding_then_the_outer_digest_block() {
    // From 8,128 bytes on the length padded in takes more than 16 bits.
    let some = [0, 1, 55, 56, 63, 119, 120, 8127, 8128, LIMIT - 1, LIMIT];
    for n in FEW_COUNTS {
        for bytes in some {
            let state = made_up(n, bytes, 0, bytes + 5);
            let words = random_words(6, hmac_sha1_finish_words(state).drawn);
            let mut rest = &words[..];
            let expected = tag_by_compressions(state, &mut rest);
            assert!(rest.is_empty());
            let finished = State {
                finished: 1,
                ..state
            };
            let end = finish_done(state, &mut &words[..]);
            assert_eq!(end, (finished, expected));
        }
    }
}

// Every cut gives the tag of the one-call form, and one end state.

#[test]
fn every_piece_leads_from_its_place_to_the_next() {
    // From the state after any a bytes, feeding bytes a to b leads to the state after b bytes, so
    // any run of pieces, empty ones included, goes through the same states.
    for (n, length, step) in [(1, 66, 1), (2, 66, 5), (3, 65, 7), (16, 64, 40)] {
        let message = random_bytes(1, length);
        let key = split_key_done(n, b"any cut", 2);
        let words = random_words(3, hmac_sha1_words(n, length).drawn);
        let mut rest = &words[..];
        let start = start_done(n, &key, &mut rest);
        let mut reached = Vec::new();
        for place in 0..=length {
            let mut rest = rest;
            let state = feed_done(start, &message[..place], &mut rest);
            reached.push((state, rest));
        }
        assert_eq!(reached[0], (start, rest));
        for a in (0..=length).step_by(step) {
            for b in a..=length {
                let (state, mut rest) = reached[a];
                let state = feed_done(state, &message[a..b], &mut rest);
                assert_eq!((state, rest), reached[b], "n {n}, from {a} to {b}");
            }
        }
        let (state, mut rest) = reached[length];
        let (end, tag) = finish_done(state, &mut rest);
        assert!(rest.is_empty());
        assert_eq!((end.n, end.bytes, end.finished), (n, length as u64, 1));
        assert_eq!(tag, hmac_done(n, b"any cut", &message, 4));
    }
}

#[test]
fn every_cut_in_two_gives_one_end_state_and_the_one_call_tag() {
    for (n, length, step) in [(1, 66, 1), (2, 66, 11), (3, 57, 19), (11, 64, 64)] {
        let message = random_bytes(5, length);
        let key = split_key_done(n, b"a cut in two", 6);
        let words = random_words(7, hmac_sha1_words(n, length).drawn);
        let whole = stream_done(n, &key, &[&message], &words);
        let mut tag = [0xa5; 20];
        let answer = hmac_sha1(n, &key, &message, &mut tag, &words);
        assert_eq!(answer, done(words.len() as u64));
        assert_eq!(whole.1, tag);
        for cut in (0..=length).step_by(step) {
            let (one, two) = message.split_at(cut);
            let pieces = [b"", one, b"", two, b""];
            let end = stream_done(n, &key, &pieces, &words);
            assert_eq!(end, whole, "n {n}, cut at {cut}");
        }
    }
}

#[test]
fn pieces_of_one_length_give_the_plain_tag() {
    for n in [1, 2] {
        for length in [0, 1, 56, 64, 65, 128, 200] {
            let message = random_bytes(8, length);
            let key = split_key_done(n, b"in pieces", 9);
            let words = random_words(10, hmac_sha1_words(n, length).drawn);
            let whole = stream_done(n, &key, &[&message], &words);
            assert_eq!(whole.1, plain_hmac(b"in pieces", &message));
            for size in [1, 3, 64, 100] {
                let pieces: Vec<&[u8]> = message.chunks(size).collect();
                assert_eq!(stream_done(n, &key, &pieces, &words), whole);
            }
        }
    }
}

#[test]
fn rfc_2202_in_pieces() {
    // One case for each count, so that every case comes twice at least.
    for n in COUNTS {
        let (key, message, tag) = RFC_2202[n % RFC_2202.len()];
        let shares = split_key_done(n, key, 1);
        let words = random_words(2, hmac_sha1_words(n, message.len()).drawn);
        let pieces: Vec<&[u8]> = message.chunks(7).collect();
        let (_, bytes) = stream_done(n, &shares, &pieces, &words);
        assert_eq!(hex(&bytes), tag, "n {n}");
    }
}

// The counts.

#[test]
fn counts_of_words() {
    for n in COUNTS {
        let one = sha1_compress_words(n).drawn;
        assert_eq!(hmac_sha1_start_words(n), done(2 * one));
        for bytes in [0, 1, 55, 56, 63, 64, LIMIT - 65, LIMIT - 64, LIMIT] {
            let state = made_up(n, bytes, 0, 1);
            let room = LIMIT - bytes;
            for length in (0..=room).step_by(61).chain([room]) {
                let blocks = (bytes + length) / 64 - bytes / 64;
                let query = hmac_sha1_feed_words(state, length as usize);
                assert_eq!(query, done(blocks * one));
            }
            let blocks = if bytes % 64 < 56 { 2 } else { 3 };
            assert_eq!(hmac_sha1_finish_words(state), done(blocks * one));
            // All in all a message draws what it draws in the one-call form.
            let fed = hmac_sha1_feed_words(made_up(n, 0, 0, 1), bytes as usize);
            let sum = (2 + blocks) * one + fed.drawn;
            assert_eq!(hmac_sha1_words(n, bytes as usize), done(sum));
        }
    }
    // The largest feed: 1,024 compressions of 5,220·16·15 words.
    let fed = hmac_sha1_feed_words(made_up(16, 0, 0, 1), LONGEST);
    assert_eq!(fed, done(1_282_867_200));
}

#[test]
fn queries_name_what_is_drawn_and_one_word_less_is_refused() {
    for n in [2, 3, 8] {
        let key = random_words(1, 16 * n as u64);
        let piece = random_bytes(2, 66);
        let state = made_up(n, 62, 0, 3);
        type Call<'a> = Box<dyn Fn(&[u32]) -> (Streamed, [u8; 20]) + 'a>;
        let start = |words: &[u32]| (hmac_sha1_start(n, &key, words), [0xa5; 20]);
        let feed = |words: &[u32]| (hmac_sha1_feed(state, &piece, words), [0xa5; 20]);
        let calls: [(Answer, State, Call); 3] = [
            (hmac_sha1_start_words(n), ZEROS, Box::new(start)),
            (hmac_sha1_feed_words(state, 66), state, Box::new(feed)),
            (
                hmac_sha1_finish_words(state),
                state,
                Box::new(|words| finish(state, words)),
            ),
        ];
        for (query, given, call) in calls {
            assert_eq!(query.number, 0);
            let drawn = query.drawn as usize;
            let words = random_words(4, query.drawn + 5);
            let accepted = call(&words[..drawn]);
            assert_eq!(answer_of(accepted.0), query);
            // Words after those drawn have no influence.
            assert_eq!(call(&words), accepted);
            for less in [drawn - 1, drawn / 2, 1, 0] {
                assert_eq!(call(&words[..less]), (left(5, given), [0xa5; 20]));
            }
        }
    }
}

#[test]
fn a_piece_that_completes_no_block_needs_no_words() {
    for n in COUNTS {
        for (bytes, length) in [(0, 0), (0, 63), (1, 62), (63, 0), (64, 63), (LIMIT, 0)] {
            let state = made_up(n, bytes, 0, 1);
            let piece = random_bytes(2, length);
            let streamed = hmac_sha1_feed(state, &piece, &[]);
            assert_eq!(answer_of(streamed), done(0));
            assert_eq!(hmac_sha1_feed_words(state, length), done(0));
            let filled = bytes as usize % 64;
            let mut expected = without_junk(state);
            expected.bytes += length as u64;
            expected.tail[filled..filled + length].copy_from_slice(&piece);
            assert_eq!(streamed.state, expected);
        }
    }
}

// What is not read, what is cleared and what is kept.

#[test]
fn junk_is_not_read_and_feed_clears_it() {
    for n in FEW_COUNTS {
        for (bytes, length) in [(0, 0), (0, 10), (10, 0), (10, 53), (10, 54), (60, 70)] {
            let state = without_junk(made_up(n, bytes, 0, 1));
            let piece = random_bytes(2, length);
            let words = random_words(3, hmac_sha1_feed_words(state, length).drawn);
            let streamed = hmac_sha1_feed(state, &piece, &words);
            assert_eq!(streamed.number, 0);
            assert_eq!(streamed.state, without_junk(streamed.state));
            for seed in 4..7 {
                let junk = with_junk(state, seed);
                assert_eq!(hmac_sha1_feed(junk, &piece, &words), streamed);
            }
        }
    }
}

#[test]
fn an_empty_feed_only_clears() {
    for n in COUNTS {
        for bytes in [0, 1, 63, 64, LIMIT - 1, LIMIT] {
            let state = made_up(n, bytes, 0, bytes + 1);
            let streamed = hmac_sha1_feed(state, &[], &[1, 2, 3]);
            assert_eq!(answer_of(streamed), done(0));
            assert_eq!(streamed.state, without_junk(state));
            let again = hmac_sha1_feed(streamed.state, &[], &[]);
            assert_eq!(again, streamed);
        }
    }
}

#[test]
fn junk_is_not_read_and_finish_keeps_it() {
    for n in FEW_COUNTS {
        for bytes in [0, 10, 60, 64] {
            let state = without_junk(made_up(n, bytes, 0, 1));
            let words = random_words(2, hmac_sha1_finish_words(state).drawn);
            let (_, tag) = finish_done(state, &mut &words[..]);
            for seed in 3..6 {
                let junk = with_junk(state, seed);
                let finished = State {
                    finished: 1,
                    ..junk
                };
                let end = finish_done(junk, &mut &words[..]);
                assert_eq!(end, (finished, tag.clone()));
            }
        }
    }
}

// Finishing, and going on from a state that was kept.

#[test]
fn a_state_is_a_value_and_can_be_finished_again() {
    for n in FEW_COUNTS {
        let message = random_bytes(1, 80);
        let key = split_key_done(n, b"twice", 2);
        let words = random_words(3, hmac_sha1_words(n, 80).drawn);
        let mut rest = &words[..];
        let state = start_done(n, &key, &mut rest);
        let state = feed_done(state, &message[..30], &mut rest);
        let first = finish_done(state, &mut &words[..]);
        assert_eq!(first.1, plain_hmac(b"twice", &message[..30]));
        assert_eq!(finish_done(state, &mut &words[..]), first);
        let others = random_words(4, words.len() as u64);
        assert_eq!(finish_done(state, &mut &others[..]), first);
        let state = feed_done(state, &message[30..], &mut rest);
        let (_, tag) = finish_done(state, &mut rest);
        assert_eq!(tag, plain_hmac(b"twice", &message));
    }
}

#[test]
fn after_finish_everything_is_refused() {
    for n in FEW_COUNTS {
        let words = random_words(1, 4 * sha1_compress_words(n).drawn);
        let (mut state, _) = finish_done(made_up(n, 20, 0, 2), &mut &words[..]);
        assert_eq!(state.finished, 1);
        for mark in [1, 2, 0x80000000, u32::MAX] {
            state.finished = mark;
            for length in [0, 44, LONGEST - 20, LONGEST - 19] {
                let piece = vec![7; length];
                assert_eq!(hmac_sha1_feed(state, &piece, &words), left(6, state));
                assert_eq!(hmac_sha1_feed(state, &piece, &[]), left(6, state));
                assert_eq!(hmac_sha1_feed_words(state, length), refused(6));
            }
            assert_eq!(finish(state, &words), (left(6, state), [0xa5; 20]));
            assert_eq!(finish(state, &[]), (left(6, state), [0xa5; 20]));
            assert_eq!(hmac_sha1_finish_words(state), refused(6));
        }
    }
}

// The limits and the refusals.

#[test]
fn the_limit_counts_all_pieces() {
    let message = random_bytes(1, LONGEST + 1);
    let cut = LONGEST - 96;
    let key = split_key_done(1, b"limit", 2);
    let mut state = start_done(1, &key, &mut &[][..]);
    for piece in message[..cut].chunks(999) {
        state = feed_done(state, piece, &mut &[][..]);
    }
    let over = hmac_sha1_feed(state, &message[cut..], &[]);
    assert_eq!(over, left(4, state));
    let state = feed_done(state, &message[cut..LONGEST], &mut &[][..]);
    assert_eq!(state.bytes, LIMIT);
    assert_eq!(feed_done(state, &[], &mut &[][..]), state);
    let one_more = hmac_sha1_feed(state, &message[LONGEST..], &[]);
    assert_eq!(one_more, left(4, state));
    let (end, tag) = finish_done(state, &mut &[][..]);
    assert_eq!((end.bytes, end.finished), (LIMIT, 1));
    assert_eq!(tag, plain_hmac(b"limit", &message[..LONGEST]));
}

#[test]
fn lengths_at_the_limit() {
    let message = random_bytes(1, LONGEST + 1);
    for n in COUNTS {
        for bytes in [0, 1, 4096, 4097, LIMIT - 96, LIMIT - 1, LIMIT] {
            let state = made_up(n, bytes, 0, 2);
            let room = LONGEST - bytes as usize;
            for length in [room + 1, room + 2, 1 << 32, usize::MAX - 1, usize::MAX] {
                assert_eq!(hmac_sha1_feed_words(state, length), refused(4));
            }
            assert_eq!(hmac_sha1_feed_words(state, room).number, 0);
            let over = hmac_sha1_feed(state, &message[..room + 1], &[]);
            assert_eq!(over, left(4, state));
            if FEW_COUNTS.contains(&n) && room < 100 {
                let words = random_words(3, hmac_sha1_feed_words(state, room).drawn);
                let after = feed_done(state, &message[..room], &mut &words[..]);
                assert_eq!(after.bytes, LIMIT);
            }
        }
    }
}

#[test]
fn a_byte_count_past_the_limit_is_six() {
    let piece = random_bytes(1, LONGEST + 1);
    let some = [
        LIMIT + 1,
        LIMIT + 64,
        1 << 32,
        u64::MAX - LIMIT,
        u64::MAX - 1,
        u64::MAX,
    ];
    for n in COUNTS {
        for bytes in some {
            let state = made_up(n, bytes, 0, 5);
            assert_eq!(hmac_sha1_feed_words(state, 0), refused(6));
            assert_eq!(hmac_sha1_feed_words(state, usize::MAX), refused(6));
            assert_eq!(hmac_sha1_finish_words(state), refused(6));
            assert_eq!(hmac_sha1_feed(state, &[], &[]), left(6, state));
            assert_eq!(hmac_sha1_feed(state, &piece, &[]), left(6, state));
            assert_eq!(finish(state, &[]), (left(6, state), [0xa5; 20]));
        }
    }
}

#[test]
fn a_refused_start_is_zeros() {
    for n in WRONG_COUNTS {
        assert_eq!(hmac_sha1_start_words(n), refused(1));
        for length in [0, 1, 16, 256, 16 * 17] {
            let key = random_words(1, length);
            assert_eq!(hmac_sha1_start(n, &key, &[]), left(1, ZEROS));
            assert_eq!(hmac_sha1_start(n, &key, &[9; 9]), left(1, ZEROS));
        }
    }
    for n in FEW_COUNTS {
        let words = random_words(2, hmac_sha1_start_words(n).drawn);
        for other in [0, n, 16 * n - 1, 16 * n + 1, 32 * n] {
            let key = vec![1; other];
            assert_eq!(hmac_sha1_start(n, &key, &[]), left(2, ZEROS));
            assert_eq!(hmac_sha1_start(n, &key, &words), left(2, ZEROS));
        }
    }
    // What a refused start leaves is refused in turn.
    assert_eq!(hmac_sha1_feed(ZEROS, &[], &[]), left(6, ZEROS));
    assert_eq!(finish(ZEROS, &[]), (left(6, ZEROS), [0xa5; 20]));
    assert_eq!(hmac_sha1_feed_words(ZEROS, 0), refused(6));
    assert_eq!(hmac_sha1_finish_words(ZEROS), refused(6));
}

#[test]
fn a_state_without_an_allowed_count_is_six_and_never_one() {
    for n in WRONG_COUNTS {
        for (bytes, finished) in [(0, 0), (20, 0), (LIMIT, 0), (20, 1), (u64::MAX, 9)] {
            let state = made_up(n, bytes, finished, 1);
            for length in [0, 1, 64, LONGEST + 1] {
                let piece = vec![7; length];
                assert_eq!(hmac_sha1_feed(state, &piece, &[]), left(6, state));
                assert_eq!(hmac_sha1_feed_words(state, length), refused(6));
            }
            for length in [0, 19, 20, 21] {
                let mut tag = vec![0xa5; length];
                assert_eq!(hmac_sha1_finish(state, &mut tag, &[]), left(6, state));
                assert_eq!(tag, vec![0xa5; length]);
            }
            assert_eq!(hmac_sha1_finish_words(state), refused(6));
        }
    }
}

#[test]
fn tags_of_another_length_stay() {
    for n in FEW_COUNTS {
        let state = made_up(n, 60, 0, 1);
        let finished = made_up(n, 60, 1, 1);
        let words = random_words(2, hmac_sha1_finish_words(state).drawn);
        for other in [0, 1, 19, 21, 40] {
            let mut tag = vec![0xa5; other];
            for lent in [&words[..], &[]] {
                assert_eq!(hmac_sha1_finish(state, &mut tag, lent), left(3, state));
                let after = hmac_sha1_finish(finished, &mut tag, lent);
                assert_eq!(after, left(6, finished));
            }
            assert_eq!(tag, vec![0xa5; other]);
        }
    }
}

/// Whether a state has to be refused with number 6.
pub(crate) fn is_unfit(state: State) -> bool {
    state.finished != 0
        || !COUNTS.contains(&state.n)
        || state.bytes > LIMIT
        || state.hash != 0
        || state.drawn != fit_count(state.n, state.bytes)
}

/// The number that a feed has to give, in numbers wide enough for any sum.
fn feed_number(state: State, length: usize, lent: u64) -> u32 {
    let sum = state.bytes as u128 + length as u128;
    if is_unfit(state) {
        6
    } else if sum > LIMIT as u128 {
        4
    } else {
        let blocks = sum as u64 / 64 - state.bytes / 64;
        if blocks * sha1_compress_words(state.n).drawn > lent {
            5
        } else {
            0
        }
    }
}

#[test]
fn any_state_at_all_can_be_fed_or_refused() {
    let some = [
        0,
        1,
        63,
        4097,
        LIMIT - 1,
        LIMIT,
        LIMIT + 1,
        u64::MAX - 64,
        u64::MAX,
    ];
    let words = random_words(1, sha1_compress_words(4).drawn);
    for n in COUNTS.into_iter().chain(WRONG_COUNTS) {
        for (place, bytes) in some.into_iter().enumerate() {
            for state in made_up_ways(n, bytes, place as u64 + 2) {
                for length in [0, 1, 2, 63, 64, 65, LONGEST + 1] {
                    let number = feed_number(state, length, words.len() as u64);
                    let streamed = hmac_sha1_feed(state, &vec![7; length], &words);
                    assert_eq!(streamed.number, number);
                    let query = hmac_sha1_feed_words(state, length);
                    if number == 0 {
                        assert_eq!(answer_of(streamed), query);
                        let after = streamed.state;
                        assert_eq!(after.bytes, bytes + length as u64);
                        assert_eq!(after.drawn, fit_count(n, after.bytes));
                    } else {
                        assert_eq!(streamed, left(number, state));
                        let named = if number == 5 { 0 } else { number };
                        assert_eq!(query.number, named);
                    }
                }
            }
        }
    }
}

#[test]
fn any_state_at_all_can_be_finished_or_refused() {
    let some = [
        0,
        55,
        56,
        4097,
        LIMIT - 1,
        LIMIT,
        LIMIT + 1,
        u64::MAX - 64,
        u64::MAX,
    ];
    let words = random_words(1, sha1_compress_words(4).drawn);
    for n in COUNTS.into_iter().chain(WRONG_COUNTS) {
        for (place, bytes) in some.into_iter().enumerate() {
            for state in made_up_ways(n, bytes, place as u64 + 2) {
                let (streamed, tag) = finish(state, &words);
                let blocks = if bytes % 64 < 56 { 2 } else { 3 };
                if is_unfit(state) {
                    assert_eq!((streamed, tag), (left(6, state), [0xa5; 20]));
                    assert_eq!(hmac_sha1_finish_words(state), refused(6));
                } else if blocks * 5220 * n * (n - 1) > words.len() {
                    assert_eq!((streamed, tag), (left(5, state), [0xa5; 20]));
                } else {
                    let finished = 1;
                    assert_eq!(streamed.state, State { finished, ..state });
                    assert_eq!(answer_of(streamed), hmac_sha1_finish_words(state));
                }
            }
        }
    }
}
