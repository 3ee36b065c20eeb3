//! A stream: a message that comes in pieces, tagged by one hash, and ways to feed it from a supply.

use crate::archive::cleared;
use crate::hash;
use crate::key::verified;
use crate::{
    Drawn, Hash, Key, Needed, Refusal, Sha1, Source, State, Supply, Unverified, BLOCK_BYTES,
};
use core::fmt;
use core::iter;
use core::marker::PhantomData;
use std::error::Error;
use std::io::{self, Write};

/// A message that is tagged as it comes, piece by piece: its state, cleared when dropped.
///
/// However the message is cut, its tag is the one that [`Key::tag`] gives. A refused call leaves the
/// stream as it was, ready for the same call with what it lacked.
///
/// ```
/// use flamivorse::{split_key_words, Key, Refusal, Supply};
///
/// let mut supply = Supply::from_system()?;
/// let key = Key::split(2, b"Jefe", supply.lend(split_key_words(2, 4)?)?)?;
/// let mut stream = key.start(supply.lend(key.start_words()?)?)?;
/// for piece in ["what do ya want ", "for nothing?"] {
///     stream.feed(piece.as_bytes(), supply.lend(stream.feed_words(piece.len())?)?)?;
/// }
/// assert_eq!(stream.finish(&[]), Err(Refusal::SupplyShort));
/// let tag = stream.finish(supply.lend(stream.finish_words()?)?)?;
/// assert_eq!(tag[..4], [0xef, 0xfc, 0xdf, 0x6a]);
/// assert_eq!(stream.feed(b"more", &[]), Err(Refusal::StateUnfit));
/// # Ok::<(), Box<dyn std::error::Error>>(())
/// ```
///
/// A copy is a stream of its own, so that a log can be tagged as far as it goes:
///
/// ```
/// # use flamivorse::Key;
/// # let key = Key::split(1, b"Jefe", &[])?;
/// let mut stream = key.start(&[])?;
/// stream.feed(b"what do ya want ", &[])?;
/// let so_far = stream.clone().finish(&[])?;
/// stream.feed(b"for nothing?", &[])?;
/// assert_ne!(stream.finish(&[])?, so_far);
/// # Ok::<(), flamivorse::Refusal>(())
/// ```
///
/// A stream is of its key's hash, and so is its tag:
///
/// ```
/// use flamivorse::{Key, Sha256, Stream};
///
/// let mut stream: Stream<Sha256> = Key::split_for::<Sha256>(1, b"Jefe", &[])?.start(&[])?;
/// stream.feed(b"what do ya want for nothing?", &[])?;
/// assert_eq!(stream.finish(&[])?[..4], [0x5b, 0xdc, 0xc1, 0x46]);
/// # Ok::<(), flamivorse::Refusal>(())
/// ```
///
/// ```compile_fail,E0308
/// use flamivorse::{Key, Sha256, Stream};
///
/// let mut stream: Stream<Sha256> = Key::split(1, b"Jefe", &[])?.start(&[])?;
/// # Ok::<(), flamivorse::Refusal>(())
/// ```
#[must_use]
pub struct Stream<H = Sha1> {
    /// In a box, so that moving the stream leaves no shares behind.
    state: Box<State>,
    hash: PhantomData<H>,
}

impl<H: Hash> Key<H> {
    /// Starts a message that comes in pieces, as [`hmac_sha1_start`](crate::hmac_sha1_start) or
    /// [`hmac_sha256_start`](crate::hmac_sha256_start) does.
    pub fn start(&self, words: &[u32]) -> Result<Stream<H>, Refusal> {
        let (mut state, hash) = (Box::default(), PhantomData);
        hash::start::<H>(self.share_count(), self.shares(), &mut state, words)?;
        Ok(Stream { state, hash })
    }

    /// How many words [`Key::start`] draws.
    pub fn start_words(&self) -> Result<Needed, Refusal> {
        hash::start_words::<H>(self.share_count())
    }
}

impl<H: Hash> Stream<H> {
    /// Feeds one more piece, as [`hmac_sha1_feed`](crate::hmac_sha1_feed) does.
    pub fn feed(&mut self, piece: &[u8], words: &[u32]) -> Result<Drawn, Refusal> {
        hash::feed::<H>(&mut self.state, piece, words)
    }

    /// How many words [`Stream::feed`] draws for a piece of `piece_len` bytes.
    pub fn feed_words(&self, piece_len: usize) -> Result<Needed, Refusal> {
        hash::feed_words::<H>(&self.state, piece_len)
    }

    /// The tag of all that was fed, as [`hmac_sha1_finish`](crate::hmac_sha1_finish) gives it. After it
    /// the stream refuses every call.
    pub fn finish(&mut self, words: &[u32]) -> Result<H::Tag, Refusal> {
        let mut tag = H::Tag::default();
        hash::finish::<H>(&mut self.state, tag.as_mut(), words)?;
        Ok(tag)
    }

    /// Says whether a tag of all that was fed is the right one, as [`Key::verify`] does for a whole
    /// message. After it, whatever it says of the tag, the stream refuses every call.
    ///
    /// ```
    /// use flamivorse::{Key, Unverified};
    ///
    /// let mut stream = Key::split(1, b"Jefe", &[])?.start(&[])?;
    /// stream.feed(b"what do ya want for nothing?", &[])?;
    /// let right = stream.clone().finish(&[])?;
    /// stream.clone().verify(&right, &[])?;
    /// assert_eq!(stream.verify(&[0; 20], &[]), Err(Unverified::WrongTag));
    /// # Ok::<(), Unverified>(())
    /// ```
    pub fn verify(&mut self, tag: &[u8], words: &[u32]) -> Result<(), Unverified> {
        verified::<H>(tag, |right| {
            hash::finish::<H>(&mut self.state, right, words)
        })
    }

    /// How many words [`Stream::finish`] and [`Stream::verify`] draw.
    pub fn finish_words(&self) -> Result<Needed, Refusal> {
        hash::finish_words::<H>(&self.state)
    }

    /// Feeds one more piece, of any length, with words from a supply, which lends the words of one
    /// block at a time.
    ///
    /// A refusal comes before any word is lent. Where the source fails the stream is as it was before
    /// the piece, and the words lent until then are spent.
    ///
    /// ```
    /// use flamivorse::{split_key_words, Key, Supply};
    ///
    /// let mut supply = Supply::from_system()?;
    /// let key = Key::split(2, b"Jefe", supply.lend(split_key_words(2, 4)?)?)?;
    /// let mut stream = key.start(supply.lend(key.start_words()?)?)?;
    /// let drawn = stream.feed_by_blocks(&[0; 1000], &mut supply)?;
    /// assert_eq!(drawn.words(), 15 * 10_440);
    /// # Ok::<(), Box<dyn std::error::Error>>(())
    /// ```
    pub fn feed_by_blocks<S: Source>(
        &mut self,
        piece: &[u8],
        supply: &mut Supply<S>,
    ) -> Result<Drawn, Failure<S::Error>> {
        // Asked of the whole piece, so that a refusal comes before any word is lent.
        let _ = self.feed_words(piece.len())?;
        let filled = self.state.bytes as usize % BLOCK_BYTES;
        let (first, rest) = piece.split_at(piece.len().min(BLOCK_BYTES - filled));
        let mut fed = self.clone();
        for part in iter::once(first).chain(rest.chunks(BLOCK_BYTES)) {
            let words = supply.lend(fed.feed_words(part.len())?);
            fed.feed(part, words.map_err(Failure::Source)?)?;
        }
        let drawn = fed.state.drawn.wrapping_sub(self.state.drawn);
        *self = fed;
        Ok(Drawn(drawn))
    }

    /// Something to write the message to, with words from a supply.
    ///
    /// ```
    /// use flamivorse::{split_key_words, Key, Refusal, Supply, MESSAGE_LIMIT};
    /// use std::io::{self, Write};
    ///
    /// let mut log = &b"what do ya want for nothing?"[..];    // or a file, or a socket
    /// let mut supply = Supply::from_system()?;
    /// let key = Key::split(2, b"Jefe", supply.lend(split_key_words(2, 4)?)?)?;
    /// let mut stream = key.start(supply.lend(key.start_words()?)?)?;
    /// io::copy(&mut log, &mut stream.writer(&mut supply))?;
    ///
    /// // What is refused is an error that has the refusal inside, and nothing of it is taken.
    /// let error = stream.writer(&mut supply).write_all(&[0; MESSAGE_LIMIT]).unwrap_err();
    /// assert_eq!(error.get_ref().and_then(|inner| inner.downcast_ref()), Some(&Refusal::TooLong));
    ///
    /// let tag = stream.finish(supply.lend(stream.finish_words()?)?)?;
    /// assert_eq!(tag[..4], [0xef, 0xfc, 0xdf, 0x6a]);
    /// # Ok::<(), Box<dyn std::error::Error>>(())
    /// ```
    pub fn writer<'a, S>(&'a mut self, supply: &'a mut Supply<S>) -> Writer<'a, S, H> {
        Writer {
            stream: self,
            supply,
        }
    }
}

impl<H> Stream<H> {
    /// The state as it stands.
    #[must_use]
    pub fn state(&self) -> &State {
        &self.state
    }
}

impl<H> Clone for Stream<H> {
    fn clone(&self) -> Stream<H> {
        cleared(|| Stream {
            state: self.state.clone(),
            hash: PhantomData,
        })
    }
}

impl<H> fmt::Debug for Stream<H> {
    fn fmt(&self, f: &mut fmt::Formatter<'_>) -> fmt::Result {
        f.debug_struct("Stream")
            .field("state", &self.state)
            .finish()
    }
}

/// A stream and the supply of its words, to write a message to; made by [`Stream::writer`].
///
/// Each write feeds all that it is given, or nothing ([`Stream::feed_by_blocks`]).
#[must_use]
pub struct Writer<'a, S, H = Sha1> {
    stream: &'a mut Stream<H>,
    supply: &'a mut Supply<S>,
}

impl<S, H> fmt::Debug for Writer<'_, S, H> {
    fn fmt(&self, f: &mut fmt::Formatter<'_>) -> fmt::Result {
        f.debug_struct("Writer")
            .field("stream", &self.stream)
            .finish_non_exhaustive()
    }
}

impl<S, H> Write for Writer<'_, S, H>
where
    S: Source,
    S::Error: Into<io::Error>,
    H: Hash,
{
    fn write(&mut self, piece: &[u8]) -> io::Result<usize> {
        self.stream.feed_by_blocks(piece, self.supply)?;
        Ok(piece.len())
    }

    fn flush(&mut self) -> io::Result<()> {
        Ok(())
    }
}

/// Why a piece was not fed with words from a supply.
#[derive(Clone, Copy, Debug, PartialEq, Eq)]
pub enum Failure<E> {
    /// The call is refused.
    Refused(Refusal),
    /// The supply's source failed.
    Source(E),
}

impl<E> From<Refusal> for Failure<E> {
    fn from(refusal: Refusal) -> Failure<E> {
        Failure::Refused(refusal)
    }
}

impl<E: Into<io::Error>> From<Failure<E>> for io::Error {
    fn from(failure: Failure<E>) -> io::Error {
        match failure {
            Failure::Refused(refusal) => io::Error::new(io::ErrorKind::InvalidInput, refusal),
            Failure::Source(error) => error.into(),
        }
    }
}

impl<E: fmt::Display> fmt::Display for Failure<E> {
    fn fmt(&self, f: &mut fmt::Formatter<'_>) -> fmt::Result {
        match self {
            Failure::Refused(refusal) => refusal.fmt(f),
            Failure::Source(error) => error.fmt(f),
        }
    }
}

impl<E: Error> Error for Failure<E> {
    fn source(&self) -> Option<&(dyn Error + 'static)> {
        match self {
            Failure::Refused(refusal) => refusal.source(),
            Failure::Source(error) => error.source(),
        }
    }
}
