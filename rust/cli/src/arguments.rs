//! What the arguments ask for.

use crate::hash::Hash;
use crate::problem::Problem;
use lexopt::prelude::*;
use std::ffi::OsString;

/// The share count where none is asked for.
const SHARES: usize = 4;

/// The key's length where none is asked for: a block. All keys up to it draw the same.
const KEY_LENGTH: usize = 64;

pub const HELP: &str = "\
Tags logs with HMAC-SHA-1 or HMAC-SHA-256 and checks such tags. The key is split
into shares first, and only the tag is ever put together again.

Usage:
  flamivorse tag --key FILE [--hash HASH] [--shares N] [--words FILE] [LOG...]
  flamivorse check --key FILE [--shares N] [--words FILE] [TAGS...]
  flamivorse words [--hash HASH] [--shares N] [--key-length K] --length L

Commands:
  tag     print the tag and the name of each LOG
  check   read lines as tag prints them from each TAGS, and say of each log
          whether its tag is right; one of 40 digits is of SHA-1, one of 64 of
          SHA-256
  words   print how many random words the tag of a log of L bytes draws, how
          many splitting a key of K bytes draws (once a run for each hash), and
          the sum of the two

With no LOG or TAGS, or where it is -, standard input is read.

Options:
  --key FILE      the key: the bytes of FILE as they stand, at most 1,024; a
                  line end at the end of FILE is part of it
  --hash HASH     tag by sha1 or by sha256 (sha1 unless said otherwise)
  --shares N      work with N shares, 1 to 16 (4 unless said otherwise)
  --words FILE    take the random words from FILE, four bytes a word, the most
                  significant first, so that a run can be repeated; unless said
                  otherwise they come from the operating system
  --length L      the length of the log in bytes
  --key-length K  the length of the key in bytes (64 unless said otherwise)
  -h, --help      print this
  -V, --version   print the version

A log has at most 65,536 bytes. It is tagged block by block, so that few of its
words are in memory at once. Keys of up to 64 bytes all draw the same few words;
a longer one is hashed in shares, as HMAC has it, and draws many more, all at
once: words --key-length K says how many.

Exit status: 0 if all was done and every tag was right; 1 if a tag was not
right, or a list had none, whatever else happened; 2 if something could not be
done, and standard error says why. A refusal of the library is told by its
number and in words.
";

/// A run of the program.
pub enum Command {
    Help,
    Version,
    Tag {
        options: Options,
        hash: Hash,
        logs: Vec<OsString>,
    },
    Check {
        options: Options,
        lists: Vec<OsString>,
    },
    Words {
        hash: Hash,
        shares: usize,
        key_length: usize,
        length: usize,
    },
}

/// What both tagging and checking need.
pub struct Options {
    pub key: OsString,
    pub shares: usize,
    pub words: Option<OsString>,
}

/// All that can stand on the command line.
#[derive(Default)]
struct Given {
    verb: Option<OsString>,
    key: Option<OsString>,
    hash: Option<Hash>,
    shares: Option<usize>,
    words: Option<OsString>,
    length: Option<usize>,
    key_length: Option<usize>,
    names: Vec<OsString>,
}

/// The command that the arguments spell, or what is wrong with them.
pub fn parse(mut parser: lexopt::Parser) -> Result<Command, Problem> {
    let mut given = Given::default();
    while let Some(argument) = parser.next()? {
        match argument {
            Short('h') | Long("help") => return Ok(Command::Help),
            Short('V') | Long("version") => return Ok(Command::Version),
            Long("key") => given.key = Some(parser.value()?),
            Long("hash") => given.hash = Some(parser.value()?.parse()?),
            Long("shares") => given.shares = Some(parser.value()?.parse()?),
            Long("words") => given.words = Some(parser.value()?),
            Long("length") => given.length = Some(parser.value()?.parse()?),
            Long("key-length") => given.key_length = Some(parser.value()?.parse()?),
            Value(verb) if given.verb.is_none() => given.verb = Some(verb),
            Value(name) => given.names.push(name),
            other => return Err(other.unexpected().into()),
        }
    }
    given.command()
}

impl Given {
    fn command(mut self) -> Result<Command, Problem> {
        let verb = self.verb.take().unwrap_or_default();
        match verb.to_str() {
            Some("tag") => self.tag(),
            Some("check") => self.check(),
            Some("words") => self.words(),
            Some("") => Err(Problem::usage("tag, check or words is missing")),
            _ => Err(Problem::usage(format!(
                "{verb:?} is not tag, check or words"
            ))),
        }
    }

    fn tag(self) -> Result<Command, Problem> {
        let hash = self.hash.unwrap_or_default();
        let (options, logs) = self.files()?;
        Ok(Command::Tag {
            options,
            hash,
            logs,
        })
    }

    fn check(self) -> Result<Command, Problem> {
        if self.hash.is_some() {
            return Err(Problem::usage(
                "check takes no --hash: it knows the hash by the length of the tag",
            ));
        }
        let (options, lists) = self.files()?;
        Ok(Command::Check { options, lists })
    }

    /// The options, and the names, or standard input where none is given.
    fn files(mut self) -> Result<(Options, Vec<OsString>), Problem> {
        if self.length.is_some() || self.key_length.is_some() {
            return Err(Problem::usage(
                "--length and --key-length are for words alone",
            ));
        }
        if self.names.is_empty() {
            self.names.push("-".into());
        }
        let key = self.key.ok_or(Problem::usage("--key is missing"))?;
        let shares = self.shares.unwrap_or(SHARES);
        Ok((
            Options {
                key,
                shares,
                words: self.words,
            },
            self.names,
        ))
    }

    fn words(self) -> Result<Command, Problem> {
        if self.key.is_some() || self.words.is_some() || !self.names.is_empty() {
            return Err(Problem::usage(
                "words takes --hash, --shares, --key-length and --length alone",
            ));
        }
        let length = self.length.ok_or(Problem::usage("--length is missing"))?;
        Ok(Command::Words {
            hash: self.hash.unwrap_or_default(),
            shares: self.shares.unwrap_or(SHARES),
            key_length: self.key_length.unwrap_or(KEY_LENGTH),
            length,
        })
    }
}
