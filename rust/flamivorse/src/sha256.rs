//! SHA-256 and HMAC-SHA-256 on shares: the calls of `sha1` with the other hash.

use crate::hash;
use crate::{Drawn, Needed, Refusal, Sha256, Sha256Chain, State};

/// The length of a tag of HMAC-SHA-256, in bytes.
pub const SHA256_TAG_BYTES: usize = 32;

/// Splits a key of at most [`KEY_LIMIT`](crate::KEY_LIMIT) bytes into the Boolean shares of
/// HMAC-SHA-256's key block, as [`split_key`](crate::split_key) does for HMAC-SHA-1.
///
/// A key of up to 64 bytes has the same shares for both. A longer one is hashed by SHA-256, and the
/// eight words of the digest, still in shares, then zero shares, are the key block: with shares that
/// were split for the other hash a tag is wrong, and nothing is refused. A [`Key`](crate::Key) knows
/// its hash.
///
/// ```
/// let mut shares = [0; 16];
/// flamivorse::sha256_split_key(1, b"Jefe", &mut shares, &[])?;
/// assert_eq!(shares[..2], [0x4a656665, 0]);
///
/// // Of a key of 131 bytes, its digest.
/// flamivorse::sha256_split_key(1, &[0xaa; 131], &mut shares, &[])?;
/// assert_eq!(shares[..2], [0x45ad4b37, 0xc6e2fc0a]);
/// assert_eq!(shares[8..], [0; 8]);
/// # Ok::<(), flamivorse::Refusal>(())
/// ```
pub fn sha256_split_key(
    n: usize,
    key: &[u8],
    shares: &mut [u32],
    words: &[u32],
) -> Result<Drawn, Refusal> {
    hash::split_key::<Sha256>(n, key, shares, words)
}

/// How many words [`sha256_split_key`] draws at n shares for a key of `key_len` bytes: as many as
/// [`split_key`](crate::split_key) for the splitting, and for the hashing as many compressions of
/// SHA-256.
///
/// ```
/// use flamivorse::{sha256_compress_words, sha256_split_key_words, Refusal};
///
/// let compression = sha256_compress_words(4)?.words();
/// assert_eq!(sha256_split_key_words(4, 64)?.words(), 48);
/// assert_eq!(sha256_split_key_words(4, 65)?.words(), 51 + 2 * compression);
/// assert_eq!(sha256_split_key_words(4, 1025), Err(Refusal::TooLong));
/// # Ok::<(), Refusal>(())
/// ```
pub fn sha256_split_key_words(n: usize, key_len: usize) -> Result<Needed, Refusal> {
    hash::split_key_words::<Sha256>(n, key_len)
}

/// One compression of SHA-256: the chain becomes the chain after the block, which has 16n words. A
/// refusal leaves the chain as it came.
///
/// What [`sha1_compress`](crate::sha1_compress) says of the copies of a chain holds here too.
///
/// ```
/// use flamivorse::{sha256_compress, Sha256Chain};
///
/// // The digest of the empty message, in one share.
/// let mut chain = Sha256Chain::default();
/// chain.shares[..4].copy_from_slice(&[0x6a09e667, 0xbb67ae85, 0x3c6ef372, 0xa54ff53a]);
/// chain.shares[4..8].copy_from_slice(&[0x510e527f, 0x9b05688c, 0x1f83d9ab, 0x5be0cd19]);
/// let mut block = [0; 16];
/// block[0] = 0x80000000;
/// sha256_compress(1, &mut chain, &block, &[])?;
/// assert_eq!(chain.shares[0], 0xe3b0c442);
/// # Ok::<(), flamivorse::Refusal>(())
/// ```
pub fn sha256_compress(
    n: usize,
    chain: &mut Sha256Chain,
    block: &[u32],
    words: &[u32],
) -> Result<Drawn, Refusal> {
    hash::compress::<Sha256>(n, chain, block, words)
}

/// How many words [`sha256_compress`] draws at n shares.
///
/// ```
/// assert_eq!(flamivorse::sha256_compress_words(2)?.words(), 19_328);
/// # Ok::<(), flamivorse::Refusal>(())
/// ```
pub fn sha256_compress_words(n: usize) -> Result<Needed, Refusal> {
    hash::compress_words::<Sha256>(n)
}

/// The HMAC-SHA-256 tag of a whole message of at most [`MESSAGE_LIMIT`](crate::MESSAGE_LIMIT) bytes,
/// under a key of 16n words as [`sha256_split_key`] writes it.
///
/// `tag` has [`SHA256_TAG_BYTES`] bytes. The tag is opened, and nothing else. Its words are lent as
/// those of [`hmac_sha1`](crate::hmac_sha1) are, and they are nearly twice as many.
///
/// ```
/// use flamivorse::{hmac_sha256, sha256_split_key, SHA256_TAG_BYTES};
///
/// let (mut key, mut tag) = ([0; 16], [0; SHA256_TAG_BYTES]);
/// sha256_split_key(1, b"Jefe", &mut key, &[])?;
/// hmac_sha256(1, &key, b"what do ya want for nothing?", &mut tag, &[])?;
/// assert_eq!(tag[..4], [0x5b, 0xdc, 0xc1, 0x46]);
/// # Ok::<(), flamivorse::Refusal>(())
/// ```
pub fn hmac_sha256(
    n: usize,
    key: &[u32],
    message: &[u8],
    tag: &mut [u8],
    words: &[u32],
) -> Result<Drawn, Refusal> {
    hash::hmac::<Sha256>(n, key, message, tag, words)
}

/// How many words [`hmac_sha256`] draws at n shares for a message of `message_len` bytes.
///
/// ```
/// use flamivorse::{hmac_sha256_words, Refusal, MESSAGE_LIMIT};
///
/// assert_eq!(hmac_sha256_words(2, 55)?.words(), 77_312);
/// assert_eq!(hmac_sha256_words(16, MESSAGE_LIMIT)?.words(), 2_384_302_080);
/// assert_eq!(hmac_sha256_words(2, MESSAGE_LIMIT + 1), Err(Refusal::TooLong));
/// # Ok::<(), Refusal>(())
/// ```
pub fn hmac_sha256_words(n: usize, message_len: usize) -> Result<Needed, Refusal> {
    hash::hmac_words::<Sha256>(n, message_len)
}

/// Starts a message under a key of 16n words as [`sha256_split_key`] writes it: `state` becomes the
/// one before the first byte. A refusal leaves it as it came.
///
/// The state is of this hash: the calls of HMAC-SHA-1 refuse it, as those here refuse theirs.
///
/// ```
/// use flamivorse::{
///     hmac_sha1_feed, hmac_sha256_feed, hmac_sha256_finish, hmac_sha256_start, sha256_split_key,
///     Refusal, State, SHA256_TAG_BYTES,
/// };
///
/// let (mut key, mut state, mut tag) = ([0; 16], State::default(), [0; SHA256_TAG_BYTES]);
/// sha256_split_key(1, b"Jefe", &mut key, &[])?;
/// hmac_sha256_start(1, &key, &mut state, &[])?;
/// hmac_sha256_feed(&mut state, b"what do ya want ", &[])?;
/// assert_eq!(hmac_sha1_feed(&mut state, b"for nothing?", &[]), Err(Refusal::StateUnfit));
/// hmac_sha256_feed(&mut state, b"for nothing?", &[])?;
/// hmac_sha256_finish(&mut state, &mut tag, &[])?;
/// assert_eq!(tag[..4], [0x5b, 0xdc, 0xc1, 0x46]);
/// # Ok::<(), Refusal>(())
/// ```
pub fn hmac_sha256_start(
    n: usize,
    key: &[u32],
    state: &mut State,
    words: &[u32],
) -> Result<Drawn, Refusal> {
    hash::start::<Sha256>(n, key, state, words)
}

/// How many words [`hmac_sha256_start`] draws at n shares.
///
/// ```
/// assert_eq!(flamivorse::hmac_sha256_start_words(2)?.words(), 38_656);
/// # Ok::<(), flamivorse::Refusal>(())
/// ```
pub fn hmac_sha256_start_words(n: usize) -> Result<Needed, Refusal> {
    hash::start_words::<Sha256>(n)
}

/// Feeds one more piece of the message, of any length, as [`hmac_sha1_feed`](crate::hmac_sha1_feed)
/// does. A refusal leaves the state as it came.
pub fn hmac_sha256_feed(state: &mut State, piece: &[u8], words: &[u32]) -> Result<Drawn, Refusal> {
    hash::feed::<Sha256>(state, piece, words)
}

/// How many words [`hmac_sha256_feed`] draws for a piece of `piece_len` bytes.
///
/// ```
/// use flamivorse::{hmac_sha256_feed_words, hmac_sha256_start, Refusal, State, MESSAGE_LIMIT};
/// # let (key, words) = ([0; 32], [0; 38_656]);
///
/// let mut state = State::default();
/// assert_eq!(hmac_sha256_feed_words(&state, 1), Err(Refusal::StateUnfit));
/// hmac_sha256_start(2, &key, &mut state, &words)?;
/// assert_eq!(hmac_sha256_feed_words(&state, 63)?.words(), 0);
/// assert_eq!(hmac_sha256_feed_words(&state, 64)?.words(), 19_328);
/// assert_eq!(hmac_sha256_feed_words(&state, MESSAGE_LIMIT + 1), Err(Refusal::TooLong));
/// # Ok::<(), Refusal>(())
/// ```
pub fn hmac_sha256_feed_words(state: &State, piece_len: usize) -> Result<Needed, Refusal> {
    hash::feed_words::<Sha256>(state, piece_len)
}

/// Writes the tag of all that was fed, and marks the state as finished, which is all that changes in
/// it. A refusal leaves both as they came.
///
/// `tag` has [`SHA256_TAG_BYTES`] bytes. The tag is opened, and nothing else.
pub fn hmac_sha256_finish(
    state: &mut State,
    tag: &mut [u8],
    words: &[u32],
) -> Result<Drawn, Refusal> {
    hash::finish::<Sha256>(state, tag, words)
}

/// How many words [`hmac_sha256_finish`] draws.
///
/// ```
/// use flamivorse::{hmac_sha256_feed, hmac_sha256_finish_words, hmac_sha256_start, State};
/// # let (key, words) = ([0; 32], [0; 38_656]);
///
/// let mut state = State::default();
/// hmac_sha256_start(2, &key, &mut state, &words)?;
/// hmac_sha256_feed(&mut state, &[0; 55], &[])?;
/// assert_eq!(hmac_sha256_finish_words(&state)?.words(), 38_656);
/// hmac_sha256_feed(&mut state, &[0], &[])?;
/// assert_eq!(hmac_sha256_finish_words(&state)?.words(), 57_984);
/// # Ok::<(), flamivorse::Refusal>(())
/// ```
pub fn hmac_sha256_finish_words(state: &State) -> Result<Needed, Refusal> {
    hash::finish_words::<Sha256>(state)
}
