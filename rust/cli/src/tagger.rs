//! Tags logs: a key, in shares for one hash, and the supply of words that its tags draw.

use crate::arguments::Options;
use crate::hash::Hash;
use crate::problem::Problem;
use flamivorse::{
    Bytes, Failure, Key, Needed, Refusal, Sha1, Sha256, Stream, Supply, Unverified, KEY_LIMIT,
    MESSAGE_LIMIT,
};
use std::ffi::{OsStr, OsString};
use std::fs::File;
use std::io::{self, ErrorKind, Read, Take};
use zeroize::Zeroizing;

/// Words from a file; the operating system's generator is one.
pub struct Words {
    name: OsString,
    supply: Supply<Bytes<File>>,
}

impl Words {
    pub fn open(file: Option<&OsString>) -> Result<Words, Problem> {
        let (name, supply) = match file {
            Some(name) => (
                name.clone(),
                File::open(name).map(|file| Supply::new(Bytes(file))),
            ),
            None => ("the operating system's words".into(), Supply::from_system()),
        };
        let supply = supply.map_err(|error| Problem::file(&name, error))?;
        Ok(Words { name, supply })
    }

    /// Lends as many words as the count says.
    fn lend(&mut self, count: Needed) -> Result<&[u32], Problem> {
        let lent = self.supply.lend(count);
        lent.map_err(|error| missing(&self.name, error))
    }
}

/// Why words could not be had. A file that ends before is the refusal of a short supply.
fn missing(name: &OsStr, error: io::Error) -> Problem {
    match error.kind() {
        ErrorKind::UnexpectedEof => Problem::refused(name, Refusal::SupplyShort),
        _ => Problem::file(name, error),
    }
}

/// A log that is read as it comes. At most one byte over the limit is read of it: enough for the
/// library to refuse it.
struct Log<'a> {
    name: &'a OsStr,
    file: Take<Box<dyn Read>>,
    piece: Zeroizing<Vec<u8>>,
}

impl Log<'_> {
    /// Opens a log, or standard input where its name is `-`.
    fn open(name: &OsStr) -> Result<Log<'_>, Problem> {
        let file = open(name).map_err(|error| Problem::file(name, error))?;
        let most = MESSAGE_LIMIT + 1;
        Ok(Log {
            name,
            file: file.take(most as u64),
            piece: Zeroizing::new(vec![0; most]),
        })
    }

    /// What there is to read by now, or else what comes first. Nothing is the log's end.
    fn read_piece(&mut self) -> Result<&[u8], Problem> {
        let length = loop {
            match self.file.read(&mut self.piece) {
                Err(error) if error.kind() == ErrorKind::Interrupted => {}
                read => break read.map_err(|error| Problem::file(self.name, error))?,
            }
        };
        Ok(&self.piece[..length])
    }
}

/// The key as its file has it, and how many shares it is to have.
pub struct PlainKey {
    name: OsString,
    bytes: Zeroizing<Vec<u8>>,
    shares: usize,
}

impl PlainKey {
    /// Reads the key. What is refused of it or of the share count is refused for every hash, and here.
    pub fn read(options: &Options) -> Result<PlainKey, Problem> {
        let (name, shares) = (options.key.clone(), options.shares);
        let key = File::open(&name).and_then(|file| read(file, KEY_LIMIT));
        let bytes = key.map_err(|error| Problem::file(&name, error))?;
        let key = PlainKey {
            name,
            bytes,
            shares,
        };
        key.words::<Sha1>().map(|_| key)
    }

    /// How many words its splitting draws.
    fn words<H: flamivorse::Hash>(&self) -> Result<Needed, Problem> {
        let count = Key::split_for_words::<H>(self.shares, self.bytes.len());
        count.map_err(|refusal| match refusal {
            Refusal::ShareCount => Problem::refused(format!("--shares {}", self.shares), refusal),
            other => Problem::refused(&self.name, other),
        })
    }

    /// Splits it for a hash.
    pub fn split(&self, hash: Hash, words: &mut Words) -> Result<Box<dyn Tagger>, Problem> {
        match hash {
            Hash::Sha1 => self.split_for::<Sha1>(words),
            Hash::Sha256 => self.split_for::<Sha256>(words),
        }
    }

    fn split_for<H: flamivorse::Hash>(
        &self,
        words: &mut Words,
    ) -> Result<Box<dyn Tagger>, Problem> {
        let words = words.lend(self.words::<H>()?)?;
        let key = Key::split_for::<H>(self.shares, &self.bytes, words);
        let key = key.map_err(|refusal| Problem::refused(&self.name, refusal))?;
        Ok(Box::new(key))
    }
}

/// What tags logs: a key in shares, whatever its hash is.
pub trait Tagger {
    /// Reads a log, standard input where its name is `-`, until it ends, and gives its tag.
    fn tag(&self, name: &OsStr, words: &mut Words) -> Result<Vec<u8>, Problem>;

    /// Reads a log likewise, and says whether this is its tag.
    fn is_tag(&self, tag: &[u8], name: &OsStr, words: &mut Words) -> Result<bool, Problem>;
}

impl<H: flamivorse::Hash> Tagger for Key<H> {
    fn tag(&self, name: &OsStr, words: &mut Words) -> Result<Vec<u8>, Problem> {
        let refused = |refusal| Problem::refused(name, refusal);
        let mut stream = stream(self, name, words)?;
        let count = stream.finish_words().map_err(refused)?;
        let tag = stream.finish(words.lend(count)?).map_err(refused)?;
        Ok(tag.as_ref().to_vec())
    }

    fn is_tag(&self, tag: &[u8], name: &OsStr, words: &mut Words) -> Result<bool, Problem> {
        let refused = |refusal| Problem::refused(name, refusal);
        let mut stream = stream(self, name, words)?;
        let count = stream.finish_words().map_err(refused)?;
        match stream.verify(tag, words.lend(count)?) {
            Ok(()) => Ok(true),
            Err(Unverified::WrongTag) => Ok(false),
            Err(Unverified::Refused(refusal)) => Err(refused(refusal)),
        }
    }
}

/// Feeds a whole log to a stream, as it is read.
fn stream<H: flamivorse::Hash>(
    key: &Key<H>,
    name: &OsStr,
    words: &mut Words,
) -> Result<Stream<H>, Problem> {
    let refused = |refusal| Problem::refused(name, refusal);
    let mut log = Log::open(name)?;
    let mut piece = log.read_piece()?;
    // No words are spent on a log that is already too long.
    let _ = key.tag_words(piece.len()).map_err(refused)?;
    let count = key.start_words().map_err(refused)?;
    let mut stream = key.start(words.lend(count)?).map_err(refused)?;
    while !piece.is_empty() {
        let fed = stream.feed_by_blocks(piece, &mut words.supply);
        fed.map_err(|failure| match failure {
            Failure::Refused(refusal) => refused(refusal),
            Failure::Source(error) => missing(&words.name, error),
        })?;
        piece = log.read_piece()?;
    }
    Ok(stream)
}

/// Opens a file, or standard input where the name is `-`.
pub fn open(name: &OsStr) -> io::Result<Box<dyn Read>> {
    Ok(match name == "-" {
        true => Box::new(io::stdin()),
        false => Box::new(File::open(name)?),
    })
}

/// Reads at most one byte more than the limit: enough for the library to refuse it.
fn read(file: impl Read, limit: usize) -> io::Result<Zeroizing<Vec<u8>>> {
    let mut bytes = Zeroizing::new(Vec::with_capacity(limit + 1));
    file.take(limit as u64 + 1).read_to_end(&mut bytes)?;
    Ok(bytes)
}
