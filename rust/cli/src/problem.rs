//! What keeps the program from doing what was asked, in words for standard error.

use flamivorse::Refusal;
use std::ffi::OsStr;
use std::fmt;
use std::io::{self, Write};

pub enum Problem {
    Usage(String),
    File(String, io::Error),
    Refused(String, Refusal),
}

impl Problem {
    pub fn usage(text: impl Into<String>) -> Problem {
        Problem::Usage(text.into())
    }

    pub fn file(name: impl AsRef<OsStr>, error: io::Error) -> Problem {
        Problem::File(readable(name), error)
    }

    pub fn refused(name: impl AsRef<OsStr>, refusal: Refusal) -> Problem {
        Problem::Refused(readable(name), refusal)
    }
}

/// A name for people to read.
fn readable(name: impl AsRef<OsStr>) -> String {
    name.as_ref().to_string_lossy().into_owned()
}

impl From<lexopt::Error> for Problem {
    fn from(error: lexopt::Error) -> Problem {
        Problem::Usage(error.to_string())
    }
}

impl fmt::Display for Problem {
    fn fmt(&self, f: &mut fmt::Formatter<'_>) -> fmt::Result {
        match self {
            Problem::Usage(text) => write!(f, "{text}\nTry 'flamivorse --help'."),
            Problem::File(name, error) => write!(f, "{name}: {error}"),
            Problem::Refused(name, refusal) => {
                write!(f, "{name}: refused, number {}: {refusal}", refusal.number())
            }
        }
    }
}

/// Says something on standard error. Where that cannot be written to, there is nobody to tell.
pub fn complain(text: impl fmt::Display) {
    let _ = writeln!(io::stderr(), "flamivorse: {text}");
}
