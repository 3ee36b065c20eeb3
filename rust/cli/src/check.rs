//! Checks tags: reads lines as `tag` prints them, and says of each log whether its tag is right.

use crate::arguments::Options;
use crate::hash::Hash;
use crate::line::Line;
use crate::problem::{complain, Problem};
use crate::tagger::{open, PlainKey, Tagger, Words};
use crate::{line, print, Status};
use std::ffi::{OsStr, OsString};
use std::io::{self, BufRead, BufReader};

/// What came of the lists so far.
#[derive(Default)]
struct Tally {
    right: usize,
    wrong: usize,
    unread: usize,
    no_tag: usize,
    other_length: usize,
    empty: usize,
    refused: usize,
    unlisted: usize,
    unprinted: usize,
}

impl Tally {
    /// Failed where a tag is not right, whatever else went wrong: nothing else may hide it.
    fn status(&self) -> Status {
        let failed = self.wrong + self.unread + self.no_tag + self.other_length + self.empty;
        let trouble = self.refused + self.unlisted + self.unprinted;
        match (failed, trouble) {
            (0, 0) => Status::Done,
            (0, _) => Status::Trouble,
            _ => Status::Failed,
        }
    }

    /// Says on standard error what was not as it should be.
    fn warn(&self) {
        let warnings = [
            (self.wrong, "tags that are not right"),
            (self.unread, "logs that could not be read"),
            (self.no_tag, "lines that are no tag and name"),
            (self.other_length, "tags of neither 40 nor 64 digits"),
            (self.empty, "lists without a tag"),
            (self.refused, "logs that were refused"),
            (self.unlisted, "lists that could not be read"),
            (self.unprinted, "verdicts that could not be printed"),
        ];
        for (count, what) in warnings.into_iter().filter(|(count, _)| *count > 0) {
            complain(format_args!("WARNING: {what}: {count}"));
        }
    }

    /// How many lines had a tag.
    fn tags(&self) -> usize {
        self.right + self.wrong + self.unread + self.refused
    }
}

/// The key, split for each hash when the first tag of that hash comes. Till the end the key itself is
/// kept as well, since the next line may be of the other hash.
struct Keys {
    plain: PlainKey,
    words: Words,
    sha1: Option<Box<dyn Tagger>>,
    sha256: Option<Box<dyn Tagger>>,
}

impl Keys {
    fn read(options: &Options) -> Result<Keys, Problem> {
        let words = Words::open(options.words.as_ref())?;
        Ok(Keys {
            plain: PlainKey::read(options)?,
            words,
            sha1: None,
            sha256: None,
        })
    }

    fn is_tag(&mut self, hash: Hash, tag: &[u8], name: &OsStr) -> Result<bool, Problem> {
        let split = match hash {
            Hash::Sha1 => &mut self.sha1,
            Hash::Sha256 => &mut self.sha256,
        };
        let key = match split {
            Some(key) => key,
            None => split.insert(self.plain.split(hash, &mut self.words)?),
        };
        key.is_tag(tag, name, &mut self.words)
    }
}

/// Checks every line of every list. One that cannot be read to its end is told of, and the others
/// are checked all the same.
pub fn check(options: &Options, lists: &[OsString]) -> Result<Status, Problem> {
    let mut keys = Keys::read(options)?;
    let mut tally = Tally::default();
    for list in lists {
        let before = tally.tags();
        if let Err(error) = check_list(&mut keys, list, &mut tally) {
            complain(Problem::file(list, error));
            tally.unlisted += 1;
        } else if tally.tags() == before {
            complain(format_args!(
                "{}: no tags are in it",
                list.to_string_lossy()
            ));
            tally.empty += 1;
        }
    }
    tally.warn();
    Ok(tally.status())
}

fn check_list(keys: &mut Keys, list: &OsStr, tally: &mut Tally) -> io::Result<()> {
    for line in BufReader::new(open(list)?).split(b'\n') {
        match line::read(&line?) {
            Line::Tag { hash, tag, name } => check_tag(keys, hash, &tag, &name, tally),
            Line::OtherLength => tally.other_length += 1,
            Line::NoTag => tally.no_tag += 1,
        }
    }
    Ok(())
}

/// Checks one tag, prints the verdict, and counts it.
fn check_tag(keys: &mut Keys, hash: Hash, tag: &[u8], name: &OsStr, tally: &mut Tally) {
    let (verdict, count) = match keys.is_tag(hash, tag, name) {
        Ok(true) => ("OK", &mut tally.right),
        Ok(false) => ("FAILED", &mut tally.wrong),
        Err(problem) => {
            complain(&problem);
            match problem {
                Problem::Refused(..) => ("REFUSED", &mut tally.refused),
                _ => ("FAILED open or read", &mut tally.unread),
            }
        }
    };
    *count += 1;
    if let Err(problem) = print(&line::verdict(name, verdict)) {
        complain(&problem);
        tally.unprinted += 1;
    }
}
