//! Masked conversions of 32-bit words, masked HMAC-SHA-1 and masked HMAC-SHA-256, for devices that
//! stand where somebody may measure them.
//!
//! A secret exists only in shares, and every operation works on shares and on random words that the
//! caller lends. The work is done by `libflamivorse.a`, which is written in Rattle and proved
//! against its rules; this crate makes its calls safe to use from Rust. Nothing here panics, and no
//! arguments make a call undefined: what cannot be done is a [`Refusal`], and a refused call leaves
//! everything that was lent to it as it came.
//!
//! ```
//! use flamivorse::{hmac_sha1_words, split_key_words, Key, Supply};
//!
//! let (key, log) = (b"sixteen byte key", b"07:30 door opened");
//! let mut supply = Supply::from_system()?;
//! let key = Key::split(4, key, supply.lend(split_key_words(4, key.len())?)?)?;
//! let tag = key.tag(log, supply.lend(hmac_sha1_words(4, log.len())?)?)?;
//! assert_eq!(tag[..4], [0xf6, 0x7d, 0x6c, 0x12]);
//! # Ok::<(), Box<dyn std::error::Error>>(())
//! ```
//!
//! A key that is split for SHA-256, by [`Key::split_for`], makes tags of that hash.
//!
//! Whoever gets a tag has it verified, and does not compare it with `==`, which tells by its time how
//! much of a forged tag is right:
//!
//! ```
//! # use flamivorse::{hmac_sha1_words, split_key_words, Key, Supply};
//! # let (log, mut supply) = (b"07:30 door opened", Supply::from_system()?);
//! # let key = Key::split(4, b"sixteen byte key", supply.lend(split_key_words(4, 16)?)?)?;
//! # let tag = key.tag(log, supply.lend(hmac_sha1_words(4, log.len())?)?)?;
//! key.verify(log, &tag, supply.lend(hmac_sha1_words(4, log.len())?)?)?;
//! # Ok::<(), Box<dyn std::error::Error>>(())
//! ```
//!
//! A message that comes in pieces is fed to a [`Stream`] as it comes, so that neither it nor all its
//! words are ever in memory at once:
//!
//! ```
//! # use flamivorse::{split_key_words, Key, Supply};
//! # use std::io;
//! # let (mut supply, mut log) = (Supply::from_system()?, &b"07:30 door opened"[..]);
//! # let key = Key::split(4, b"sixteen byte key", supply.lend(split_key_words(4, 16)?)?)?;
//! let mut stream = key.start(supply.lend(key.start_words()?)?)?;
//! io::copy(&mut log, &mut stream.writer(&mut supply))?;
//! let tag = stream.finish(supply.lend(stream.finish_words()?)?)?;
//! assert_eq!(tag[..4], [0xf6, 0x7d, 0x6c, 0x12]);
//! # Ok::<(), Box<dyn std::error::Error>>(())
//! ```
//!
//! # Shares
//!
//! The share count n is 1 to [`SHARES_LIMIT`], every one of them; the short conversion alone takes no
//! others than [`B2A_SHORT_COUNTS`]. Boolean shares of a word give it by XOR, arithmetic shares by
//! their sum modulo 2^32. Of several words, share i of word w (both from 0) stands at place
//! w·n + i.
//!
//! Each call that sees shares or a secret clears, when it is done, what it left on the stack and in
//! registers. What a program keeps in its own variables is its own to clear; a [`Key`], a
//! [`Stream`], a [`State`], a [`Chain`], a [`Sha256Chain`] and a [`Supply`] clear themselves.
//!
//! # Words
//!
//! Each call that draws random words takes them as a slice, uses them from its start, and says how
//! many it drew ([`Drawn`]). Each word must be fresh: no word may serve two draws. For every such call
//! a query of the same name with `_words` says how many it draws ([`Needed`]), and a [`Supply`] lends
//! as many.
//!
//! They grow with n(n − 1): a tag of the longest message at 16 shares draws 1.3·10^9 words by SHA-1,
//! which are 5 GB, and 2.4·10^9 by SHA-256. A [`Stream`] that is fed by blocks asks for the words of
//! three compressions at once at most, there 15 MB or 28 MB.
//!
//! # Features
//!
//! `std`, which is on unless `default-features = false` is said: [`Key`], [`Stream`] and its
//! [`Writer`], [`Supply`] with its [`Source`] and [`Bytes`], [`Failure`], and the errors as
//! [`std::error::Error`]. A key and a stream keep their shares where no move copies them, which takes
//! an allocation.
//!
//! Without it the crate needs `core` alone and allocates nothing. All other calls are there, on slices
//! and on a [`State`], and [`same_tag`] compares tags. A [`State`] or a chain that is moved leaves its
//! shares where it was: it is best made in its place, and lent.
//!
//! # Rust versions
//!
//! The crate and the command line build with Rust 1.63 and cargo 1.65, which are Debian 12's; the tests
//! with Rust 1.85.

#![cfg_attr(not(feature = "std"), no_std)]
#![deny(missing_docs)]
#![deny(missing_debug_implementations)]
#![deny(unsafe_op_in_unsafe_fn)]

#[cfg(not(all(target_arch = "x86_64", target_pointer_width = "64")))]
compile_error!("libflamivorse.a is for x86-64");

mod answer;
mod archive;
mod hash;
#[cfg(feature = "std")]
mod key;
mod sha1;
mod sha256;
mod shares;
#[cfg(feature = "std")]
mod stream;
#[cfg(feature = "std")]
mod supply;
mod two;
mod verify;
mod wide;

pub use answer::{Drawn, Needed, Refusal};
pub use archive::{Chain, ChainOf, Sha256Chain, State, CHAIN_WORDS, SHA256_CHAIN_WORDS};
pub use hash::{Hash, Sha1, Sha256, BLOCK_BYTES, KEY_BLOCK_WORDS, KEY_LIMIT, MESSAGE_LIMIT};
#[cfg(feature = "std")]
pub use key::Key;
pub use sha1::{
    hmac_sha1, hmac_sha1_feed, hmac_sha1_feed_words, hmac_sha1_finish, hmac_sha1_finish_words,
    hmac_sha1_start, hmac_sha1_start_words, hmac_sha1_words, sha1_compress, sha1_compress_words,
    split_key, split_key_words, TAG_BYTES,
};
pub use sha256::{
    hmac_sha256, hmac_sha256_feed, hmac_sha256_feed_words, hmac_sha256_finish,
    hmac_sha256_finish_words, hmac_sha256_start, hmac_sha256_start_words, hmac_sha256_words,
    sha256_compress, sha256_compress_words, sha256_split_key, sha256_split_key_words,
    SHA256_TAG_BYTES,
};
pub use shares::{
    a2b, a2b_words, add, add_words, and, and_words, b2a, b2a_short, b2a_short_words, b2a_words,
    expand, expand_words, open_sum, open_xor, refresh, refresh_words, split, split_words,
    B2A_SHORT_COUNTS, SHARES_LIMIT,
};
#[cfg(feature = "std")]
pub use stream::{Failure, Stream, Writer};
#[cfg(feature = "std")]
pub use supply::{Bytes, Source, Supply};
pub use two::{a2b_2, a2b_2_record, b2a_2, b2a_2_record, A2B_2_STEPS, B2A_2_STEPS};
pub use verify::{same_tag, Unverified};
