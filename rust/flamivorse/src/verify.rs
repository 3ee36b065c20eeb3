//! Comparing tags: a tag that is compared with `==` tells by the time it takes how much of it is
//! right.

use crate::archive::{cleared, flamivorse_same_tag};
use crate::Refusal;
use core::fmt;

/// Whether two tags are the same, in a time that depends on their lengths alone.
///
/// It is for those who have no [`Key`](crate::Key), as without the feature `std`:
/// [`Key::verify`](crate::Key::verify) works the tag out, compares and clears it.
///
/// ```
/// use flamivorse::{hmac_sha1, same_tag, split_key, TAG_BYTES};
///
/// let (mut key, mut tag) = ([0; 16], [0; TAG_BYTES]);
/// split_key(1, b"Jefe", &mut key, &[])?;
/// hmac_sha1(1, &key, b"what do ya want for nothing?", &mut tag, &[])?;
/// let sent = *b"\xef\xfc\xdf\x6a\xe5\xeb\x2f\xa2\xd2\x74\x16\xd5\xf1\x84\xdf\x9c\x25\x9a\x7c\x79";
/// assert!(same_tag(&tag, &sent));
/// assert!(!same_tag(&tag, &sent[..19]));
/// # Ok::<(), flamivorse::Refusal>(())
/// ```
#[must_use]
pub fn same_tag(one: &[u8], other: &[u8]) -> bool {
    // SAFETY: of Rust's slices all bytes are there, and nothing is written.
    let same = cleared(|| unsafe {
        flamivorse_same_tag(one.as_ptr(), one.len(), other.as_ptr(), other.len())
    });
    same == 1
}

/// Why a tag is not verified. There is no `false` that a caller could forget to look at.
///
/// ```
/// use flamivorse::{Key, Refusal, Unverified};
///
/// let key = Key::split(1, b"Jefe", &[])?;
/// assert_eq!(key.verify(b"07:30 door opened", &[0; 20], &[]), Err(Unverified::WrongTag));
/// assert_eq!(key.verify(&[0; 65_537], &[0; 20], &[]), Err(Refusal::TooLong.into()));
/// # Ok::<(), Refusal>(())
/// ```
#[derive(Clone, Copy, Debug, PartialEq, Eq)]
pub enum Unverified {
    /// The right tag could not be worked out, since a call was refused.
    Refused(Refusal),
    /// The tag is another, or its length is.
    WrongTag,
}

impl From<Refusal> for Unverified {
    fn from(refusal: Refusal) -> Unverified {
        Unverified::Refused(refusal)
    }
}

impl fmt::Display for Unverified {
    fn fmt(&self, f: &mut fmt::Formatter<'_>) -> fmt::Result {
        match self {
            Unverified::Refused(refusal) => refusal.fmt(f),
            Unverified::WrongTag => f.write_str("the tag is not right"),
        }
    }
}

#[cfg(feature = "std")]
impl std::error::Error for Unverified {}
