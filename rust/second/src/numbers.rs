//! The numbers handed back (section 3, and number 6 of requests (i) and (xii)), and the records
//! that carry them.

use crate::hash::Hash;

/// Request (vi): "Allow every share count from 1 to 16".
const SHARE_LIMIT: usize = 16;

/// Request (vi): "The chain record grows to 80 words", five in as many shares as are allowed.
const CHAIN_WORDS: usize = 5 * SHARE_LIMIT;

/// Request (vii): "Its chain record has 128 words", eight in as many shares as are allowed.
const SHA256_CHAIN_WORDS: usize = 8 * SHARE_LIMIT;

/// Request (vi): "messages of 65,536 bytes, streamed ones included". The limit "counts all pieces"
/// (request (i)).
pub(crate) const MESSAGE_LIMIT: u64 = 65_536;

/// Request (iii): "Splitting accepts up to 1,024 bytes."
pub(crate) const KEY_LIMIT: usize = 1024;

/// What a call that takes a supply hands back, and what a query hands back.
#[derive(Debug, Clone, Copy, PartialEq, Eq)]
pub struct Answer {
    /// The number of section 3 or, from a query on a state, of request (i).
    pub number: u32,
    /// How many words were drawn, or for a query will be drawn; 0 on every refusal.
    pub drawn: u64,
}

/// What an opening hands back.
#[derive(Debug, Clone, Copy, PartialEq, Eq)]
pub struct Opened {
    /// The number of section 3.
    pub number: u32,
    /// The opened word; 0 on every refusal.
    pub word: u32,
}

/// The chain of SHA-1. Section 6: "The masked chain value is one record", of whose words "5n are
/// used".
#[derive(Debug, Clone, Copy, PartialEq, Eq)]
pub struct Chain {
    /// Share i of chain word w, both from 0, stands at place w·n + i.
    pub shares: [u32; CHAIN_WORDS],
}

/// The chain of SHA-256. Request (vii): "Its chain record has 128 words, 8n used". A state has its
/// chains in such records for either hash.
#[derive(Debug, Clone, Copy, PartialEq, Eq)]
pub struct Sha256Chain {
    /// Share i of chain word w, both from 0, stands at place w·n + i.
    pub shares: [u32; SHA256_CHAIN_WORDS],
}

impl Sha256Chain {
    /// A record with no word used yet.
    const ZEROS: Sha256Chain = Sha256Chain {
        shares: [0; SHA256_CHAIN_WORDS],
    };
}

/// What a compression of SHA-1 hands back.
#[derive(Debug, Clone, Copy, PartialEq, Eq)]
pub struct Compressed {
    /// The number of section 3.
    pub number: u32,
    /// How many words were drawn; 0 on every refusal.
    pub drawn: u64,
    /// The new chain, 0 in the places not used; on every refusal the chain exactly as given.
    pub chain: Chain,
}

/// What a compression of SHA-256 hands back.
#[derive(Debug, Clone, Copy, PartialEq, Eq)]
pub struct Sha256Compressed {
    /// The number of section 3.
    pub number: u32,
    /// How many words were drawn; 0 on every refusal.
    pub drawn: u64,
    /// The new chain, 0 in the places not used; on every refusal the chain exactly as given.
    pub chain: Sha256Chain,
}

/// The state of a tag in the making, "handed in and out" (request (i)), for either hash. A caller may
/// hand in any state at all, also one made up; an unfit one is refused with number 6.
#[derive(Debug, Clone, Copy, PartialEq, Eq)]
pub struct State {
    /// The share count.
    pub n: usize,
    /// How many bytes of the message have been fed so far.
    pub bytes: u64,
    /// Request (xii): "a running count of words drawn by start and feeds". A finish's words are not
    /// in it.
    pub drawn: u64,
    /// 0, and 1 after an accepted finish; anything but 0 counts as finished.
    pub finished: u32,
    /// Request (xii): "the hash it belongs to", which is 0 for SHA-1 and 1 for SHA-256.
    pub hash: u32,
    /// The chain after the inner key block and the full blocks of the message. Of the words in it
    /// and in the outer one SHA-1 uses 5n and SHA-256 uses 8n.
    pub inner: Sha256Chain,
    /// The chain after the outer key block.
    pub outer: Sha256Chain,
    /// The bytes of the block that is not yet full: the first bytes % 64 places.
    pub tail: [u8; 64],
}

impl State {
    /// What a refused start hands back.
    pub(crate) const ZEROS: State = State {
        n: 0,
        bytes: 0,
        drawn: 0,
        finished: 0,
        hash: 0,
        inner: Sha256Chain::ZEROS,
        outer: Sha256Chain::ZEROS,
        tail: [0; 64],
    };
}

/// What start, feed and finish hand back.
#[derive(Debug, Clone, Copy, PartialEq, Eq)]
pub struct Streamed {
    /// The number of section 3 or of request (i).
    pub number: u32,
    /// How many words this call drew; 0 on every refusal.
    pub drawn: u64,
    /// The new state; on every refusal zeros from a start, and otherwise the state exactly as given.
    pub state: State,
}

/// Request (vi): "Number 1 now means 0 or over 16".
fn allowed(n: usize) -> bool {
    (1..=SHARE_LIMIT).contains(&n)
}

/// Request (vi): "(iv) keeps its four counts".
pub(crate) fn allowed_for_short_conversion(n: usize) -> bool {
    [1, 2, 4, 8].contains(&n)
}

/// Request (xii): "the rules' draws for the bytes fed so far", which are those of start's two key
/// blocks and of the blocks that the bytes filled.
fn draws_so_far(hash: &Hash, n: u64, bytes: u64) -> u64 {
    (2 + bytes / 64) * hash.compression_words(n)
}

/// Whether a feed or finish of this hash takes the state. Request (i) refuses one "after finish, or on a state
/// whose share count isn't allowed or whose byte count is past the limit"; request (xii) one "with
/// the wrong hash" and "a state whose count differs from the rules' draws for its byte count, share
/// count and hash". The draws are worked out only where the two counts are within their limits.
fn is_fit(hash: &Hash, state: &State) -> bool {
    state.finished == 0
        && allowed(state.n)
        && state.bytes <= MESSAGE_LIMIT
        && state.hash == hash.code
        && state.drawn == draws_so_far(hash, state.n as u64, state.bytes)
}

/// The first number that applies, or 0.
fn first_that_applies(tests: &[(u32, bool)]) -> u32 {
    for &(number, applies) in tests {
        if applies {
            return number;
        }
    }
    0
}

/// Section 3, tests 1 to 4: the first number that applies, or 0. A call lists what it takes, in
/// the order of the numbers, each number with whether it applies:
///
/// - 1, tested here for every call: the share count is 0 or over 16 (request (vi)); a call with
///   fewer counts lists its own test of them first;
/// - 2: an input slice has not exactly the length that the count asks for;
/// - 3: an output slice or record has not exactly its length;
/// - 4: the message is over 65,536 bytes (request (vi): "Number 4 for messages begins at 65,537"),
///   or the key given for splitting is over 1,024 (request (iii): "Number 4 for keys now starts at
///   1,025").
pub(crate) fn first_refusal(n: usize, tests: &[(u32, bool)]) -> u32 {
    if !allowed(n) {
        return 1;
    }
    first_that_applies(tests)
}

/// The same for a call of this hash that takes a state, where number 6, for an unfit state, stands in
/// place of 1: "tested before all others" (request (i)).
pub(crate) fn first_state_refusal(hash: &Hash, state: &State, tests: &[(u32, bool)]) -> u32 {
    if !is_fit(hash, state) {
        return 6;
    }
    first_that_applies(tests)
}

/// Request (i): "a piece that would pass it gives 4". A sum past 64 bits passes the limit too.
pub(crate) fn would_pass_the_limit(state: &State, piece_len: usize) -> bool {
    state.bytes.saturating_add(piece_len as u64) > MESSAGE_LIMIT
}
