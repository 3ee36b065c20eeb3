//! Fresh random words for the calls, from any source the caller has.

use crate::archive::cleared;
use crate::Needed;
use core::fmt;
use std::fs::File;
use std::io::{self, Read};
use zeroize::{Zeroize, Zeroizing};

/// Where random words come from: anything that can fill a slice with them, such as a closure over a
/// generator.
///
/// ```
/// use flamivorse::{split_words, Supply};
/// use std::convert::Infallible;
///
/// // A counter stands in for a generator here; the words of a real supply are random.
/// let mut next = 0;
/// let mut supply = Supply::new(|words: &mut [u32]| {
///     words.fill_with(|| { next += 1; next });
///     Ok::<(), Infallible>(())
/// });
/// assert_eq!(supply.lend(split_words(4)?)?, [1, 2, 3]);
/// assert_eq!(supply.lend(split_words(2)?)?, [4]);
/// # Ok::<(), Box<dyn std::error::Error>>(())
/// ```
pub trait Source {
    /// Why words could not be had.
    type Error;

    /// Fills the whole slice with words that were never handed out before, or says why it cannot.
    fn fill(&mut self, words: &mut [u32]) -> Result<(), Self::Error>;
}

impl<F, E> Source for F
where
    F: FnMut(&mut [u32]) -> Result<(), E>,
{
    type Error = E;

    fn fill(&mut self, words: &mut [u32]) -> Result<(), E> {
        self(words)
    }
}

/// A source of words from bytes: each four bytes are a word, the most significant first.
///
/// ```
/// use flamivorse::{split_words, Bytes, Supply};
///
/// let mut supply = Supply::new(Bytes(&[0u8, 0, 0, 1, 0xff][..]));
/// assert_eq!(supply.lend(split_words(2)?)?, [1]);
/// assert!(supply.lend(split_words(2)?).is_err());
/// # Ok::<(), Box<dyn std::error::Error>>(())
/// ```
pub struct Bytes<R>(
    /// Where the bytes are read from. An end inside a request is [`io::ErrorKind::UnexpectedEof`].
    pub R,
);

impl<R> fmt::Debug for Bytes<R> {
    /// Nothing of where the bytes are read from: a slice would show them.
    fn fmt(&self, f: &mut fmt::Formatter<'_>) -> fmt::Result {
        f.debug_struct("Bytes").finish_non_exhaustive()
    }
}

impl<R: Read> Source for Bytes<R> {
    type Error = io::Error;

    fn fill(&mut self, words: &mut [u32]) -> io::Result<()> {
        let mut buffer = Zeroizing::new([0; 4096]);
        for words in words.chunks_mut(buffer.len() / 4) {
            let bytes = &mut buffer[..4 * words.len()];
            self.0.read_exact(bytes)?;
            for (word, four) in words.iter_mut().zip(bytes.chunks_exact(4)) {
                *word = u32::from_be_bytes([four[0], four[1], four[2], four[3]]);
            }
        }
        Ok(())
    }
}

/// Lends each call exactly the words that its query asks for, each word once. What was lent is
/// cleared before the next lending and when the supply is dropped; what the source left of the words
/// on the stack and in registers, at once.
#[must_use]
pub struct Supply<S> {
    source: S,
    words: Zeroizing<Vec<u32>>,
}

impl<S: Source> Supply<S> {
    /// A supply of the source's words.
    pub fn new(source: S) -> Supply<S> {
        Supply {
            source,
            words: Zeroizing::default(),
        }
    }

    /// Lends as many fresh words as a query says, or gives the source's error.
    pub fn lend(&mut self, count: Needed) -> Result<&[u32], S::Error> {
        self.words.zeroize();
        // A long key draws many more words than a block does. Their room, if it were kept, would be
        // cleared again before each block.
        self.words.shrink_to(count.words());
        self.words.resize(count.words(), 0);
        cleared(|| self.source.fill(&mut self.words))?;
        Ok(&self.words)
    }
}

impl<S> fmt::Debug for Supply<S> {
    fn fmt(&self, f: &mut fmt::Formatter<'_>) -> fmt::Result {
        f.debug_struct("Supply").finish_non_exhaustive()
    }
}

impl Supply<Bytes<File>> {
    /// A supply from the operating system's generator.
    pub fn from_system() -> io::Result<Self> {
        File::open("/dev/urandom").map(|file| Supply::new(Bytes(file)))
    }
}
