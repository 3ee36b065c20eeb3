//! A key that is kept in shares, for one hash.

use crate::archive::cleared;
use crate::hash;
use crate::verify::same_tag;
use crate::{Drawn, Hash, Needed, Refusal, Sha1, Unverified, KEY_BLOCK_WORDS, SHARES_LIMIT};
use core::fmt;
use core::marker::PhantomData;
use zeroize::{Zeroize, Zeroizing};

/// A key in Boolean shares, split for one hash, SHA-1 unless another is named; cleared when dropped.
///
/// ```
/// use flamivorse::Key;
///
/// let key = Key::split(2, b"Jefe", &[7; 16])?;
/// assert_eq!(key.shares()[..2], [7, 7 ^ 0x4a656665]);
/// assert_eq!(format!("{key:?}"), "Key { n: 2, .. }");
/// # Ok::<(), flamivorse::Refusal>(())
/// ```
///
/// The hash is part of its type. A key that was split for SHA-256 makes tags of 32 bytes:
///
/// ```
/// use flamivorse::{Key, Sha256};
///
/// let key: Key<Sha256> = Key::split_for(1, b"Jefe", &[])?;
/// let tag: [u8; 32] = key.tag(b"what do ya want for nothing?", &[])?;
/// assert_eq!(tag[..4], [0x5b, 0xdc, 0xc1, 0x46]);
/// # Ok::<(), flamivorse::Refusal>(())
/// ```
///
/// Neither can stand for the other:
///
/// ```compile_fail,E0308
/// use flamivorse::{Key, Sha256};
///
/// let key: Key<Sha256> = Key::split(1, b"Jefe", &[])?;
/// # Ok::<(), flamivorse::Refusal>(())
/// ```
///
/// ```compile_fail,E0308
/// use flamivorse::{Key, Sha256};
///
/// let key: Key = Key::split_for::<Sha256>(1, b"Jefe", &[])?;
/// # Ok::<(), flamivorse::Refusal>(())
/// ```
#[must_use]
pub struct Key<H = Sha1> {
    n: usize,
    /// Not in an array, so that moving the key leaves no shares behind.
    shares: Zeroizing<Vec<u32>>,
    hash: PhantomData<H>,
}

impl Key {
    /// Splits a key of at most [`KEY_LIMIT`](crate::KEY_LIMIT) bytes into n shares for SHA-1, as
    /// [`split_key`](crate::split_key) does: one of over 64 bytes is hashed, and draws many more words
    /// ([`split_key_words`](crate::split_key_words)).
    pub fn split(n: usize, key: &[u8], words: &[u32]) -> Result<Key, Refusal> {
        Key::split_for(n, key, words)
    }

    /// Splits a key for a hash, as [`Key::split`] does for SHA-1.
    ///
    /// ```
    /// use flamivorse::{Key, Sha256, Supply};
    ///
    /// let (key, log) = (b"sixteen byte key", b"07:30 door opened");
    /// let mut supply = Supply::from_system()?;
    /// let words = supply.lend(Key::split_for_words::<Sha256>(4, key.len())?)?;
    /// let key = Key::split_for::<Sha256>(4, key, words)?;
    /// let tag = key.tag(log, supply.lend(key.tag_words(log.len())?)?)?;
    /// assert_eq!(tag[..4], [0x09, 0x39, 0x30, 0x00]);
    /// # Ok::<(), Box<dyn std::error::Error>>(())
    /// ```
    pub fn split_for<H: Hash>(n: usize, key: &[u8], words: &[u32]) -> Result<Key<H>, Refusal> {
        let length = KEY_BLOCK_WORDS * n.min(SHARES_LIMIT);
        let mut shares = Zeroizing::new(vec![0; length]);
        hash::split_key::<H>(n, key, &mut shares, words)?;
        let hash = PhantomData;
        Ok(Key { n, shares, hash })
    }

    /// How many words [`Key::split_for`] draws at n shares for a key of `key_len` bytes.
    pub fn split_for_words<H: Hash>(n: usize, key_len: usize) -> Result<Needed, Refusal> {
        hash::split_key_words::<H>(n, key_len)
    }
}

impl<H: Hash> Key<H> {
    /// The tag of a whole message of at most [`MESSAGE_LIMIT`](crate::MESSAGE_LIMIT) bytes, as
    /// [`hmac_sha1`](crate::hmac_sha1) or [`hmac_sha256`](crate::hmac_sha256) gives it. A tag that came
    /// with the message is for [`Key::verify`].
    pub fn tag(&self, message: &[u8], words: &[u32]) -> Result<H::Tag, Refusal> {
        let mut tag = H::Tag::default();
        hash::hmac::<H>(self.n, &self.shares, message, tag.as_mut(), words)?;
        Ok(tag)
    }

    /// Says whether a tag of a whole message is the right one: works it out as [`Key::tag`] does,
    /// compares the two in constant time, and clears the one worked out. A part of a tag is a wrong tag.
    ///
    /// ```
    /// use flamivorse::{split_key_words, Key, Supply, Unverified};
    ///
    /// let log = b"what do ya want for nothing?";
    /// let sent = *b"\xef\xfc\xdf\x6a\xe5\xeb\x2f\xa2\xd2\x74\x16\xd5\xf1\x84\xdf\x9c\x25\x9a\x7c\x79";
    /// let mut supply = Supply::from_system()?;
    /// let key = Key::split(2, b"Jefe", supply.lend(split_key_words(2, 4)?)?)?;
    /// key.verify(log, &sent, supply.lend(key.tag_words(log.len())?)?)?;
    ///
    /// let verdict = key.verify(log, &sent[..10], supply.lend(key.tag_words(log.len())?)?);
    /// assert_eq!(verdict, Err(Unverified::WrongTag));
    /// # Ok::<(), Box<dyn std::error::Error>>(())
    /// ```
    pub fn verify(&self, message: &[u8], tag: &[u8], words: &[u32]) -> Result<(), Unverified> {
        verified::<H>(tag, |right| {
            hash::hmac::<H>(self.n, &self.shares, message, right, words)
        })
    }

    /// How many words [`Key::tag`] and [`Key::verify`] draw for a message of `message_len` bytes.
    pub fn tag_words(&self, message_len: usize) -> Result<Needed, Refusal> {
        hash::hmac_words::<H>(self.n, message_len)
    }
}

/// Has the right tag worked out, compares the one given with it, and clears it and what that leaves.
pub(crate) fn verified<H: Hash>(
    given: &[u8],
    work_out: impl FnOnce(&mut [u8]) -> Result<Drawn, Refusal>,
) -> Result<(), Unverified> {
    cleared(|| {
        let mut right = H::Tag::default();
        // A refused call has written nothing.
        work_out(right.as_mut())?;
        let same = same_tag(right.as_ref(), given);
        right.as_mut().zeroize();
        if same {
            Ok(())
        } else {
            Err(Unverified::WrongTag)
        }
    })
}

impl<H> Key<H> {
    /// The share count n.
    #[must_use]
    pub fn share_count(&self) -> usize {
        self.n
    }

    /// The 16n words: share i of word w at place w·n + i.
    #[must_use]
    pub fn shares(&self) -> &[u32] {
        &self.shares
    }
}

impl<H> fmt::Debug for Key<H> {
    fn fmt(&self, f: &mut fmt::Formatter<'_>) -> fmt::Result {
        f.debug_struct("Key")
            .field("n", &self.n)
            .finish_non_exhaustive()
    }
}
