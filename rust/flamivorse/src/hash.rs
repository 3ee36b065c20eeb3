//! The hashes that HMAC is over: the archive's functions of each, named once, and the calls over
//! either.

use crate::answer::drawn;
use crate::archive::{self, call, cleared, query, Answer, Compressed, Streamed};
use crate::{Chain, Drawn, Needed, Refusal, Sha256Chain, State, SHA256_TAG_BYTES, TAG_BYTES};
use core::fmt;

/// The longest key that can be split, in bytes.
pub const KEY_LIMIT: usize = 1024;

/// The longest message that can be tagged, in bytes.
pub const MESSAGE_LIMIT: usize = 65_536;

/// The bytes of a block of either hash: a message is compressed by so many.
pub const BLOCK_BYTES: usize = 64;

/// The words of a key block of either hash: a key has so many times n in shares.
pub const KEY_BLOCK_WORDS: usize = 16;

/// A hash that HMAC is over: [`Sha1`] or [`Sha256`], and no other.
///
/// A [`Key`](crate::Key) and a [`Stream`](crate::Stream) are of one hash, since the shares of a key of
/// over 64 bytes that was split for one give a wrong tag with the other, and no call can see that.
pub trait Hash: Sealed + Send + Sync + 'static {
    /// The bytes of a tag.
    type Tag: AsRef<[u8]> + AsMut<[u8]> + Copy + Default + fmt::Debug + Eq;
}

/// SHA-1, whose tags have [`TAG_BYTES`] bytes.
#[derive(Debug)]
pub enum Sha1 {}

/// SHA-256, whose tags have [`SHA256_TAG_BYTES`] bytes.
#[derive(Debug)]
pub enum Sha256 {}

impl Hash for Sha1 {
    type Tag = [u8; TAG_BYTES];
}

impl Hash for Sha256 {
    type Tag = [u8; SHA256_TAG_BYTES];
}

type SplitKey =
    unsafe extern "C" fn(usize, *const u8, usize, *mut u32, usize, *const u32, usize) -> Answer;
type Compress<C> =
    unsafe extern "C" fn(usize, C, *const u32, usize, *const u32, usize) -> Compressed<C>;
#[rustfmt::skip]
type Hmac = unsafe extern "C" fn(
    usize, *const u32, usize, *const u8, usize, *mut u8, usize, *const u32, usize,
) -> Answer;
type Start = unsafe extern "C" fn(usize, *const u32, usize, *const u32, usize) -> Streamed;
type Feed = unsafe extern "C" fn(State, *const u8, usize, *const u32, usize) -> Streamed;
type Finish = unsafe extern "C" fn(State, *mut u8, usize, *const u32, usize) -> Streamed;
type ByCount = unsafe extern "C" fn(usize) -> Answer;
type ByLength = unsafe extern "C" fn(usize, usize) -> Answer;
type ByPiece = unsafe extern "C" fn(State, usize) -> Answer;
type ByState = unsafe extern "C" fn(State) -> Answer;

/// The archive's functions of one hash.
#[derive(Debug)]
pub struct Functions<C> {
    pub(crate) split_key: SplitKey,
    pub(crate) compress: Compress<C>,
    pub(crate) hmac: Hmac,
    pub(crate) start: Start,
    pub(crate) feed: Feed,
    pub(crate) finish: Finish,
    pub(crate) split_key_words: ByLength,
    pub(crate) compress_words: ByCount,
    pub(crate) hmac_words: ByLength,
    pub(crate) start_words: ByCount,
    pub(crate) feed_words: ByPiece,
    pub(crate) finish_words: ByState,
}

/// What only this crate's hashes have: nobody outside can name this trait.
pub trait Sealed {
    /// Its chain, as its compression takes it.
    type Chain: Clone;
    /// Its functions.
    const FUNCTIONS: Functions<Self::Chain>;
}

impl Sealed for Sha1 {
    type Chain = Chain;
    const FUNCTIONS: Functions<Chain> = Functions {
        split_key: archive::flamivorse_split_key,
        compress: archive::flamivorse_sha1_compress,
        hmac: archive::flamivorse_hmac_sha1,
        start: archive::flamivorse_hmac_sha1_start,
        feed: archive::flamivorse_hmac_sha1_feed,
        finish: archive::flamivorse_hmac_sha1_finish,
        split_key_words: archive::flamivorse_split_key_words,
        compress_words: archive::flamivorse_sha1_compress_words,
        hmac_words: archive::flamivorse_hmac_sha1_words,
        start_words: archive::flamivorse_hmac_sha1_start_words,
        feed_words: archive::flamivorse_hmac_sha1_feed_words,
        finish_words: archive::flamivorse_hmac_sha1_finish_words,
    };
}

impl Sealed for Sha256 {
    type Chain = Sha256Chain;
    const FUNCTIONS: Functions<Sha256Chain> = Functions {
        split_key: archive::flamivorse_sha256_split_key,
        compress: archive::flamivorse_sha256_compress,
        hmac: archive::flamivorse_hmac_sha256,
        start: archive::flamivorse_hmac_sha256_start,
        feed: archive::flamivorse_hmac_sha256_feed,
        finish: archive::flamivorse_hmac_sha256_finish,
        split_key_words: archive::flamivorse_sha256_split_key_words,
        compress_words: archive::flamivorse_sha256_compress_words,
        hmac_words: archive::flamivorse_hmac_sha256_words,
        start_words: archive::flamivorse_hmac_sha256_start_words,
        feed_words: archive::flamivorse_hmac_sha256_feed_words,
        finish_words: archive::flamivorse_hmac_sha256_finish_words,
    };
}

/// Splits a key.
pub(crate) fn split_key<H: Sealed>(
    n: usize,
    key: &[u8],
    shares: &mut [u32],
    words: &[u32],
) -> Result<Drawn, Refusal> {
    let split_key = H::FUNCTIONS.split_key;
    call!(split_key(n), reads [key], writes shares, draws words).result()
}

/// How many words that draws.
pub(crate) fn split_key_words<H: Sealed>(n: usize, key_len: usize) -> Result<Needed, Refusal> {
    let split_key_words = H::FUNCTIONS.split_key_words;
    query!(split_key_words(n, key_len)).needed()
}

/// Puts a block into a chain.
pub(crate) fn compress<H: Sealed>(
    n: usize,
    chain: &mut H::Chain,
    block: &[u32],
    words: &[u32],
) -> Result<Drawn, Refusal> {
    cleared(|| {
        // SAFETY: both are slices of Rust's, the chain goes by value, and nothing is written.
        let answer = unsafe {
            (H::FUNCTIONS.compress)(
                n,
                chain.clone(),
                block.as_ptr(),
                block.len(),
                words.as_ptr(),
                words.len(),
            )
        };
        *chain = answer.chain;
        drawn(answer.number, answer.drawn)
    })
}

/// How many words that draws.
pub(crate) fn compress_words<H: Sealed>(n: usize) -> Result<Needed, Refusal> {
    let compress_words = H::FUNCTIONS.compress_words;
    query!(compress_words(n)).needed()
}

/// The tag of a whole message.
pub(crate) fn hmac<H: Sealed>(
    n: usize,
    key: &[u32],
    message: &[u8],
    tag: &mut [u8],
    words: &[u32],
) -> Result<Drawn, Refusal> {
    let hmac = H::FUNCTIONS.hmac;
    call!(hmac(n), reads [key, message], writes tag, draws words).result()
}

/// How many words that draws.
pub(crate) fn hmac_words<H: Sealed>(n: usize, message_len: usize) -> Result<Needed, Refusal> {
    let hmac_words = H::FUNCTIONS.hmac_words;
    query!(hmac_words(n, message_len)).needed()
}

/// The state before the first byte.
pub(crate) fn start<H: Sealed>(
    n: usize,
    key: &[u32],
    state: &mut State,
    words: &[u32],
) -> Result<Drawn, Refusal> {
    cleared(|| {
        // SAFETY: both are slices of Rust's, and nothing is written.
        taken(
            unsafe {
                (H::FUNCTIONS.start)(n, key.as_ptr(), key.len(), words.as_ptr(), words.len())
            },
            state,
        )
    })
}

/// How many words that draws.
pub(crate) fn start_words<H: Sealed>(n: usize) -> Result<Needed, Refusal> {
    let start_words = H::FUNCTIONS.start_words;
    query!(start_words(n)).needed()
}

/// The state after one more piece.
pub(crate) fn feed<H: Sealed>(
    state: &mut State,
    piece: &[u8],
    words: &[u32],
) -> Result<Drawn, Refusal> {
    cleared(|| {
        // SAFETY: both are slices of Rust's, the state goes by value, and nothing is written.
        taken(
            unsafe {
                (H::FUNCTIONS.feed)(
                    state.clone(),
                    piece.as_ptr(),
                    piece.len(),
                    words.as_ptr(),
                    words.len(),
                )
            },
            state,
        )
    })
}

/// How many words that draws.
pub(crate) fn feed_words<H: Sealed>(state: &State, piece_len: usize) -> Result<Needed, Refusal> {
    let feed_words = H::FUNCTIONS.feed_words;
    query!(feed_words(outline(state), piece_len)).needed()
}

/// The tag of all that was fed.
pub(crate) fn finish<H: Sealed>(
    state: &mut State,
    tag: &mut [u8],
    words: &[u32],
) -> Result<Drawn, Refusal> {
    cleared(|| {
        // SAFETY: both are slices of Rust's that do not overlap, and the state goes by value.
        taken(
            unsafe {
                (H::FUNCTIONS.finish)(
                    state.clone(),
                    tag.as_mut_ptr(),
                    tag.len(),
                    words.as_ptr(),
                    words.len(),
                )
            },
            state,
        )
    })
}

/// How many words that draws.
pub(crate) fn finish_words<H: Sealed>(state: &State) -> Result<Needed, Refusal> {
    let finish_words = H::FUNCTIONS.finish_words;
    query!(finish_words(outline(state))).needed()
}

/// Takes over the state of an accepted call, and how many words it drew. The answer is handed on as it
/// comes: where it has a name an unoptimised build copies it once more.
fn taken(answer: Streamed, state: &mut State) -> Result<Drawn, Refusal> {
    let drawn = drawn(answer.number, answer.drawn)?;
    *state = answer.state;
    Ok(drawn)
}

/// All of a state that a query looks at, so that no share is copied for it.
fn outline(state: &State) -> State {
    let mut outline = State::default();
    (outline.n, outline.bytes, outline.drawn) = (state.n, state.bytes, state.drawn);
    (outline.finished, outline.hash) = (state.finished, state.hash);
    outline
}
