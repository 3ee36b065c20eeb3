//! The command line of Flamivorse: tags logs and checks tags, in the habit of sha1sum.

#![forbid(unsafe_code)]

mod arguments;
mod check;
mod hash;
mod line;
mod problem;
mod tagger;

use arguments::{Command, Options, HELP};
use flamivorse::{hmac_sha1_words, hmac_sha256_words, sha256_split_key_words, split_key_words};
use hash::Hash;
use problem::{complain, Problem};
use std::ffi::OsString;
use std::io::{self, Write};
use std::process::ExitCode;
use tagger::{PlainKey, Words};

/// How a run ends.
#[derive(Clone, Copy)]
pub enum Status {
    /// All done, and every tag checked was right.
    Done = 0,
    /// A tag was not right.
    Failed = 1,
    /// Something could not be done: a refusal, a file, the command line itself.
    Trouble = 2,
}

fn main() -> ExitCode {
    let status = arguments::parse(lexopt::Parser::from_env()).and_then(run);
    let status = status.unwrap_or_else(|problem| {
        complain(&problem);
        Status::Trouble
    });
    ExitCode::from(status as u8)
}

fn run(command: Command) -> Result<Status, Problem> {
    match command {
        Command::Help => print(HELP.as_bytes())?,
        Command::Version => {
            print(concat!("flamivorse ", env!("CARGO_PKG_VERSION"), "\n").as_bytes())?
        }
        Command::Words {
            hash,
            shares,
            key_length,
            length,
        } => words(hash, shares, key_length, length)?,
        Command::Tag {
            options,
            hash,
            logs,
        } => return tag(&options, hash, &logs),
        Command::Check { options, lists } => return check::check(&options, &lists),
    }
    Ok(Status::Done)
}

/// Writes to standard output.
fn print(text: &[u8]) -> Result<(), Problem> {
    io::stdout()
        .write_all(text)
        .map_err(|error| Problem::file("standard output", error))
}

/// Prints the tag and the name of each log. One that cannot be tagged is told of, and the rest are
/// tagged all the same.
fn tag(options: &Options, hash: Hash, logs: &[OsString]) -> Result<Status, Problem> {
    let mut words = Words::open(options.words.as_ref())?;
    let key = PlainKey::read(options)?.split(hash, &mut words)?;
    let mut status = Status::Done;
    for name in logs {
        match key.tag(name, &mut words) {
            Ok(tag) => print(&line::write(&tag, name))?,
            Err(problem) => {
                complain(&problem);
                status = Status::Trouble;
            }
        }
    }
    Ok(status)
}

/// Prints how many words a tag draws, how many the splitting of the key draws, and the sum.
fn words(hash: Hash, shares: usize, key_length: usize, length: usize) -> Result<(), Problem> {
    let refused = |option, length: usize| {
        let asked = format!("--shares {shares} {option} {length}");
        move |refusal| Problem::refused(asked, refusal)
    };
    let (tag, key) = match hash {
        Hash::Sha1 => (
            hmac_sha1_words(shares, length),
            split_key_words(shares, key_length),
        ),
        Hash::Sha256 => (
            hmac_sha256_words(shares, length),
            sha256_split_key_words(shares, key_length),
        ),
    };
    let tag = tag.map_err(refused("--length", length))?;
    let key = key.map_err(refused("--key-length", key_length))?;
    let total = tag.words() + key.words();
    print(format!("{tag} tag\n{key} key\n{total} total\n").as_bytes())
}
