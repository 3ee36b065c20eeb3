//! Streaming (request (i)): HMAC by start, feed and finish, with the state handed in and out, written
//! once for both hashes. Every call is lent its own words and draws from place 0 of them, so that the
//! place its supply has reached is what the call itself drew. From there start and feed take the
//! state's "running count of words drawn" (request (xii)).

use crate::hash::{chain_record, Hash};
use crate::hmac;
use crate::numbers::{
    first_refusal, first_state_refusal, would_pass_the_limit, Sha256Chain, State, Streamed,
};
use crate::sha1::SHA_1;
use crate::sha256::SHA_256;
use crate::shared::{public_words, shared_words, Shared};
use crate::supply::Supply;

/// A streaming call, its tests but 5 already made: the rule on the supply from place 0. The rule
/// gives nothing when the supply runs out, which is number 5; a refusal has the state given here.
fn call(
    number: u32,
    refused: State,
    words: &[u32],
    rule: impl FnOnce(&mut Supply) -> Option<State>,
) -> Streamed {
    let mut supply = Supply::new(words);
    let (number, drawn, state) = match number {
        0 => match rule(&mut supply) {
            Some(state) => (0, supply.drawn(), state),
            None => (5, 0, refused),
        },
        _ => (number, 0, refused),
    };
    Streamed {
        number,
        drawn,
        state,
    }
}

/// A start of this hash. Tests 1, 2, 5.
fn start_call(hash: &Hash, n: usize, key: &[u32], words: &[u32]) -> Streamed {
    let number = first_refusal(n, &[(2, key.len() != n.saturating_mul(16))]);
    call(number, State::ZEROS, words, |supply| {
        start(hash, n, key, supply)
    })
}

/// A feed of this hash. Tests 6, 4, 5.
fn feed_call(hash: &Hash, state: State, piece: &[u8], words: &[u32]) -> Streamed {
    let tests = [(4, would_pass_the_limit(&state, piece.len()))];
    let number = first_state_refusal(hash, &state, &tests);
    call(number, state, words, |supply| {
        feed(hash, &state, piece, supply)
    })
}

/// A finish of this hash. Tests 6, 3, 5. "An accepted finish only sets the finished mark", so what is
/// unused in the state is kept too.
fn finish_call(hash: &Hash, state: State, tag: &mut [u8], words: &[u32]) -> Streamed {
    let tests = [(3, tag.len() != hash.digest_bytes())];
    let number = first_state_refusal(hash, &state, &tests);
    call(number, state, words, |supply| {
        tag.copy_from_slice(&finish(hash, &state, supply)?);
        Some(State {
            finished: 1,
            ..state
        })
    })
}

/// Starts an HMAC-SHA-1 tag under a key lent as 16n words. Tests 1, 2, 5; a refusal has a state of
/// zeros.
pub fn hmac_sha1_start(n: usize, key: &[u32], words: &[u32]) -> Streamed {
    start_call(&SHA_1, n, key, words)
}

/// Feeds a piece of the message, of any length, to a state of HMAC-SHA-1. Tests 6, 4, 5; a refusal
/// has the state as given.
pub fn hmac_sha1_feed(state: State, piece: &[u8], words: &[u32]) -> Streamed {
    feed_call(&SHA_1, state, piece, words)
}

/// Writes the HMAC-SHA-1 tag, 20 bytes, of what was fed. Tests 6, 3, 5; a refusal has the state as
/// given, and otherwise only the finished mark is set in it.
pub fn hmac_sha1_finish(state: State, tag: &mut [u8], words: &[u32]) -> Streamed {
    finish_call(&SHA_1, state, tag, words)
}

/// Starts an HMAC-SHA-256 tag (request (vii)) under a key lent as 16n words. Tests 1, 2, 5; a refusal
/// has a state of zeros, its hash too.
pub fn hmac_sha256_start(n: usize, key: &[u32], words: &[u32]) -> Streamed {
    start_call(&SHA_256, n, key, words)
}

/// Feeds a piece of the message, of any length, to a state of HMAC-SHA-256. Tests 6, 4, 5; a refusal
/// has the state as given.
pub fn hmac_sha256_feed(state: State, piece: &[u8], words: &[u32]) -> Streamed {
    feed_call(&SHA_256, state, piece, words)
}

/// Writes the HMAC-SHA-256 tag, 32 bytes, of what was fed. Tests 6, 3, 5; a refusal has the state as
/// given, and otherwise only the finished mark is set in it.
pub fn hmac_sha256_finish(state: State, tag: &mut [u8], words: &[u32]) -> Streamed {
    finish_call(&SHA_256, state, tag, words)
}

/// A chain as a state has it, in the wider record for either hash.
fn state_chain(chain: &[Shared]) -> Sha256Chain {
    Sha256Chain {
        shares: chain_record(chain),
    }
}

/// "start does the inner key block, then the outer one". The state gets what they drew and "the
/// hash it belongs to" (request (xii)).
fn start(hash: &Hash, n: usize, key: &[u32], supply: &mut Supply) -> Option<State> {
    let key = shared_words(n, key);
    let inner = hmac::inner_key_chain(hash, &key, supply)?;
    let outer = hmac::outer_key_chain(hash, &key, supply)?;
    Some(State {
        n,
        drawn: supply.drawn(),
        hash: hash.code,
        inner: state_chain(&inner),
        outer: state_chain(&outer),
        ..State::ZEROS
    })
}

/// How many bytes of the block that is not yet full have come.
fn filled(state: &State) -> usize {
    (state.bytes % 64) as usize
}

/// "Unfilled bytes and unused chain words aren't read; an accepted start or feed makes them 0."
fn cleared(hash: &Hash, state: &State) -> State {
    let used = hash.used(state.n);
    let mut clear = *state;
    clear.inner.shares[used..].fill(0);
    clear.outer.shares[used..].fill(0);
    clear.tail[filled(state)..].fill(0);
    clear
}

/// A piece goes in byte by byte, so that how a message is cut cannot matter. What its blocks drew
/// is added to the count at the end (request (xii)).
fn feed(hash: &Hash, state: &State, piece: &[u8], supply: &mut Supply) -> Option<State> {
    let mut after = cleared(hash, state);
    for &byte in piece {
        feed_byte(hash, &mut after, byte, supply)?;
    }
    after.drawn += supply.drawn();
    Some(after)
}

/// The next byte of the message; a block is compressed as soon as it is full ("a full block at
/// once").
fn feed_byte(hash: &Hash, state: &mut State, byte: u8, supply: &mut Supply) -> Option<()> {
    state.tail[filled(state)] = byte;
    state.bytes += 1;
    if filled(state) == 0 {
        let old = hash.chain_in(state.n, &state.inner.shares);
        let block = public_words(state.n, &state.tail);
        state.inner = state_chain(&(hash.compress)(&old, &block, supply)?);
        state.tail = [0; 64];
    }
    Some(())
}

/// "finish does the padding and the outer digest block".
fn finish(hash: &Hash, state: &State, supply: &mut Supply) -> Option<Vec<u8>> {
    let inner = hash.chain_in(state.n, &state.inner.shares);
    let outer = hash.chain_in(state.n, &state.outer.shares);
    let rest = &state.tail[..filled(state)];
    let digest = hmac::inner_digest(hash, inner, rest, state.bytes, supply)?;
    hmac::open_tag(hash, outer, &digest, supply)
}
