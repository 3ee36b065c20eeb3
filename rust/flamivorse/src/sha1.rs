//! SHA-1 and HMAC-SHA-1 on shares: the calls on slices and those on a state, each with the query that
//! says what it draws.

use crate::hash;
use crate::{Chain, Drawn, Needed, Refusal, Sha1, State};

/// The length of a tag of HMAC-SHA-1, in bytes.
pub const TAG_BYTES: usize = 20;

/// Splits a key of at most [`KEY_LIMIT`](crate::KEY_LIMIT) bytes into the Boolean shares of HMAC-SHA-1's key
/// block, 16 big-endian words.
///
/// `shares` has 16n words. [`Key::split`](crate::Key::split) does the same and keeps the shares, cleared when dropped.
///
/// A key of up to 64 bytes is padded with zero bytes to 64 and split word by word. That draws
/// 16(n − 1) words.
///
/// A longer one is hashed, as HMAC has it (RFC 2104, section 2), and in shares: its bytes, the last
/// word filled with zero bytes, are split word by word and hashed by SHA-1 under their true length.
/// The five words of the digest, still in shares, then zero shares, are the key block; for HMAC-SHA-256
/// it is another ([`sha256_split_key`](crate::sha256_split_key)). That draws many more words, as
/// [`split_key_words`] tells: at two shares 16 for 64 bytes, but 20,897 for 65, which are 17 for the
/// splitting and two compressions.
///
/// ```
/// let mut shares = [0; 16];
/// flamivorse::split_key(1, b"Jefe", &mut shares, &[])?;
/// assert_eq!(shares[..2], [0x4a656665, 0]);
///
/// // Of a key of 80 bytes, its digest.
/// flamivorse::split_key(1, &[0xaa; 80], &mut shares, &[])?;
/// assert_eq!(shares[..2], [0x4ca0ef38, 0xf1794b28]);
/// assert_eq!(shares[5..], [0; 11]);
/// # Ok::<(), flamivorse::Refusal>(())
/// ```
pub fn split_key(
    n: usize,
    key: &[u8],
    shares: &mut [u32],
    words: &[u32],
) -> Result<Drawn, Refusal> {
    hash::split_key::<Sha1>(n, key, shares, words)
}

/// How many words [`split_key`] draws at n shares for a key of `key_len` bytes.
///
/// Up to 64 bytes it is 16(n − 1). From 65 bytes on it is ⌈`key_len` / 4⌉(n − 1), and what
/// ⌊(`key_len` + 8) / 64⌋ + 1 compressions draw besides.
///
/// ```
/// use flamivorse::{sha1_compress_words, split_key_words, Refusal};
///
/// let compression = sha1_compress_words(4)?.words();
/// assert_eq!(split_key_words(4, 64)?.words(), 48);
/// assert_eq!(split_key_words(4, 65)?.words(), 51 + 2 * compression);
/// assert_eq!(split_key_words(4, 1024)?.words(), 768 + 17 * compression);
/// assert_eq!(split_key_words(4, 1025), Err(Refusal::TooLong));
/// # Ok::<(), Refusal>(())
/// ```
pub fn split_key_words(n: usize, key_len: usize) -> Result<Needed, Refusal> {
    hash::split_key_words::<Sha1>(n, key_len)
}

/// One compression of SHA-1: the chain becomes the chain after the block, which has 16n words. A
/// refusal leaves the chain as it came.
///
/// The archive takes and gives the chain by value, so Rust's compiler copies it in registers as wide
/// as it likes, with all shares of a word in one. [`hmac_sha1`] keeps its chains inside the archive,
/// which copies one share at a time.
///
/// ```
/// use flamivorse::{sha1_compress, Chain};
///
/// // The digest of the empty message, in one share.
/// let mut chain = Chain::default();
/// chain.shares[..5].copy_from_slice(&[0x67452301, 0xefcdab89, 0x98badcfe, 0x10325476, 0xc3d2e1f0]);
/// let mut block = [0; 16];
/// block[0] = 0x80000000;
/// sha1_compress(1, &mut chain, &block, &[])?;
/// assert_eq!(chain.shares[0], 0xda39a3ee);
/// # Ok::<(), flamivorse::Refusal>(())
/// ```
pub fn sha1_compress(
    n: usize,
    chain: &mut Chain,
    block: &[u32],
    words: &[u32],
) -> Result<Drawn, Refusal> {
    hash::compress::<Sha1>(n, chain, block, words)
}

/// How many words [`sha1_compress`] draws at n shares.
///
/// ```
/// assert_eq!(flamivorse::sha1_compress_words(2)?.words(), 10_440);
/// # Ok::<(), flamivorse::Refusal>(())
/// ```
pub fn sha1_compress_words(n: usize) -> Result<Needed, Refusal> {
    hash::compress_words::<Sha1>(n)
}

/// The HMAC-SHA-1 tag of a whole message of at most [`MESSAGE_LIMIT`](crate::MESSAGE_LIMIT) bytes, under a key of 16n
/// words as [`split_key`] writes it.
///
/// `tag` has [`TAG_BYTES`] bytes. The tag is opened, and nothing else. One that came with the message
/// is compared with it by [`same_tag`](crate::same_tag).
///
/// All its words are lent at once, those of a compression for each block of the message: for a long
/// message at many shares they are more than most memories hold ([`hmac_sha1_words`]). A
/// [`Stream`](crate::Stream) gives the same tag block by block.
///
/// ```
/// use flamivorse::{hmac_sha1, split_key, TAG_BYTES};
///
/// let (mut key, mut tag) = ([0; 16], [0; TAG_BYTES]);
/// split_key(1, b"Jefe", &mut key, &[])?;
/// hmac_sha1(1, &key, b"what do ya want for nothing?", &mut tag, &[])?;
/// assert_eq!(tag[..4], [0xef, 0xfc, 0xdf, 0x6a]);
/// # Ok::<(), flamivorse::Refusal>(())
/// ```
pub fn hmac_sha1(
    n: usize,
    key: &[u32],
    message: &[u8],
    tag: &mut [u8],
    words: &[u32],
) -> Result<Drawn, Refusal> {
    hash::hmac::<Sha1>(n, key, message, tag, words)
}

/// How many words [`hmac_sha1`] draws at n shares for a message of `message_len` bytes.
///
/// ```
/// use flamivorse::{hmac_sha1_words, Refusal, MESSAGE_LIMIT};
///
/// assert_eq!(hmac_sha1_words(2, 55)?.words(), 41_760);
/// assert_eq!(hmac_sha1_words(16, MESSAGE_LIMIT)?.words(), 1_287_878_400);
/// assert_eq!(hmac_sha1_words(2, MESSAGE_LIMIT + 1), Err(Refusal::TooLong));
/// # Ok::<(), Refusal>(())
/// ```
pub fn hmac_sha1_words(n: usize, message_len: usize) -> Result<Needed, Refusal> {
    hash::hmac_words::<Sha1>(n, message_len)
}

/// Starts a message under a key of 16n words as [`split_key`] writes it: `state`
/// becomes the one before the first byte. A refusal leaves it as it came.
///
/// [`Key::start`](crate::Key::start) does the same and keeps the state.
///
/// ```
/// use flamivorse::{hmac_sha1_feed, hmac_sha1_finish, hmac_sha1_start, split_key, State, TAG_BYTES};
///
/// let (mut key, mut state, mut tag) = ([0; 16], State::default(), [0; TAG_BYTES]);
/// split_key(1, b"Jefe", &mut key, &[])?;
/// hmac_sha1_start(1, &key, &mut state, &[])?;
/// hmac_sha1_feed(&mut state, b"what do ya want ", &[])?;
/// hmac_sha1_feed(&mut state, b"for nothing?", &[])?;
/// hmac_sha1_finish(&mut state, &mut tag, &[])?;
/// assert_eq!(tag[..4], [0xef, 0xfc, 0xdf, 0x6a]);
/// # Ok::<(), flamivorse::Refusal>(())
/// ```
pub fn hmac_sha1_start(
    n: usize,
    key: &[u32],
    state: &mut State,
    words: &[u32],
) -> Result<Drawn, Refusal> {
    hash::start::<Sha1>(n, key, state, words)
}

/// How many words [`hmac_sha1_start`] draws at n shares.
///
/// ```
/// assert_eq!(flamivorse::hmac_sha1_start_words(2)?.words(), 20_880);
/// # Ok::<(), flamivorse::Refusal>(())
/// ```
pub fn hmac_sha1_start_words(n: usize) -> Result<Needed, Refusal> {
    hash::start_words::<Sha1>(n)
}

/// Feeds one more piece of the message, of any length: each block that becomes full is compressed
/// at once. A refusal leaves the state as it came.
///
/// All pieces together have at most [`MESSAGE_LIMIT`](crate::MESSAGE_LIMIT) bytes. The archive takes
/// and gives the state by value: what [`sha1_compress`] says of the copies of a
/// chain holds here too.
pub fn hmac_sha1_feed(state: &mut State, piece: &[u8], words: &[u32]) -> Result<Drawn, Refusal> {
    hash::feed::<Sha1>(state, piece, words)
}

/// How many words [`hmac_sha1_feed`] draws for a piece of `piece_len` bytes.
///
/// ```
/// use flamivorse::{hmac_sha1_feed_words, hmac_sha1_start, Refusal, State, MESSAGE_LIMIT};
/// # let (key, words) = ([0; 32], [0; 20_880]);
///
/// let mut state = State::default();
/// assert_eq!(hmac_sha1_feed_words(&state, 1), Err(Refusal::StateUnfit));
/// hmac_sha1_start(2, &key, &mut state, &words)?;
/// assert_eq!(hmac_sha1_feed_words(&state, 63)?.words(), 0);
/// assert_eq!(hmac_sha1_feed_words(&state, 64)?.words(), 10_440);
/// assert_eq!(hmac_sha1_feed_words(&state, MESSAGE_LIMIT + 1), Err(Refusal::TooLong));
/// # Ok::<(), Refusal>(())
/// ```
pub fn hmac_sha1_feed_words(state: &State, piece_len: usize) -> Result<Needed, Refusal> {
    hash::feed_words::<Sha1>(state, piece_len)
}

/// Writes the tag of all that was fed, and marks the state as finished, which is all that changes in
/// it. A refusal leaves both as they came.
///
/// `tag` has [`TAG_BYTES`] bytes. The tag is opened, and nothing else. A copy of the state from
/// before can be fed further or finished again.
pub fn hmac_sha1_finish(
    state: &mut State,
    tag: &mut [u8],
    words: &[u32],
) -> Result<Drawn, Refusal> {
    hash::finish::<Sha1>(state, tag, words)
}

/// How many words [`hmac_sha1_finish`] draws.
///
/// ```
/// use flamivorse::{hmac_sha1_feed, hmac_sha1_finish_words, hmac_sha1_start, State};
/// # let (key, words) = ([0; 32], [0; 20_880]);
///
/// let mut state = State::default();
/// hmac_sha1_start(2, &key, &mut state, &words)?;
/// hmac_sha1_feed(&mut state, &[0; 55], &[])?;
/// assert_eq!(hmac_sha1_finish_words(&state)?.words(), 20_880);
/// hmac_sha1_feed(&mut state, &[0], &[])?;
/// assert_eq!(hmac_sha1_finish_words(&state)?.words(), 31_320);
/// # Ok::<(), flamivorse::Refusal>(())
/// ```
pub fn hmac_sha1_finish_words(state: &State) -> Result<Needed, Refusal> {
    hash::finish_words::<Sha1>(state)
}
