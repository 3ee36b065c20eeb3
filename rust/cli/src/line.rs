//! The lines that `tag` prints and `check` reads: a tag in hexadecimal, two spaces and a name. As
//! sha1sum has it, a line whose name has line ends or backslashes starts with a backslash, and the
//! name has `\n`, `\r` and `\\` in their place.

use crate::hash::Hash;
use std::ffi::{OsStr, OsString};
use std::os::unix::ffi::{OsStrExt, OsStringExt};

/// What a line says.
#[derive(Debug, PartialEq)]
pub enum Line {
    /// The tag of a log.
    Tag {
        hash: Hash,
        tag: Vec<u8>,
        name: OsString,
    },
    /// The same with as many digits as no hash has.
    OtherLength,
    /// Anything else.
    NoTag,
}

/// What stands for a byte that a name on a line cannot have.
const ESCAPES: [(u8, u8); 3] = [(b'\\', b'\\'), (b'\n', b'n'), (b'\r', b'r')];

/// The line for a tag and a name, with its line end.
pub fn write(tag: &[u8], name: &OsStr) -> Vec<u8> {
    let (mark, name) = escape(name);
    [mark, hex::encode(tag).as_bytes(), b"  ", &name, b"\n"].concat()
}

/// The line that gives the verdict on a name, with its line end.
pub fn verdict(name: &OsStr, verdict: &str) -> Vec<u8> {
    let (mark, name) = escape(name);
    [mark, &name, b": ", verdict.as_bytes(), b"\n"].concat()
}

/// What a line without its end says.
pub fn read(line: &[u8]) -> Line {
    match split(line) {
        None => Line::NoTag,
        Some((digits, name)) => match (Hash::by_digits(digits.len()), hex::decode(digits)) {
            (Some(hash), Ok(tag)) => Line::Tag { hash, tag, name },
            _ => Line::OtherLength,
        },
    }
}

/// The digits that a line starts with, and the name, or nothing where it is no such line.
fn split(line: &[u8]) -> Option<(&[u8], OsString)> {
    let escaped = line.strip_prefix(b"\\");
    let line = escaped.unwrap_or(line);
    let end = line.iter().position(|byte| !byte.is_ascii_hexdigit())?;
    let (digits, rest) = line.split_at(end);
    let name = rest.strip_prefix(b"  ").or(rest.strip_prefix(b" *"))?;
    let name = if escaped.is_some() {
        unescape(name)?
    } else {
        name.to_vec()
    };
    let said = !digits.is_empty() && !name.is_empty();
    said.then(|| (digits, OsString::from_vec(name)))
}

/// A name as a line has it, and the mark that such a line starts with.
fn escape(name: &OsStr) -> (&'static [u8], Vec<u8>) {
    let mut escaped = Vec::new();
    for &byte in name.as_bytes() {
        match ESCAPES.iter().find(|(plain, _)| *plain == byte) {
            Some(&(_, letter)) => escaped.extend([b'\\', letter]),
            None => escaped.push(byte),
        }
    }
    let mark: &[u8] = if escaped == name.as_bytes() {
        b""
    } else {
        b"\\"
    };
    (mark, escaped)
}

/// The name that was escaped, or nothing where a backslash stands before another letter.
fn unescape(escaped: &[u8]) -> Option<Vec<u8>> {
    let mut name = Vec::new();
    let mut bytes = escaped.iter();
    while let Some(&byte) = bytes.next() {
        if byte != b'\\' {
            name.push(byte);
            continue;
        }
        let letter = bytes.next()?;
        let (plain, _) = ESCAPES.iter().find(|(_, other)| other == letter)?;
        name.push(*plain);
    }
    Some(name)
}

#[cfg(test)]
mod tests {
    use super::*;

    #[test]
    fn a_line_is_read_as_it_was_written() {
        for (hash, bytes) in [(Hash::Sha1, 20), (Hash::Sha256, 32)] {
            let tag: Vec<u8> = (0..bytes).map(|place| 13u8.wrapping_mul(place)).collect();
            for name in ["trial.log", "two  spaces", "a\\b", "a\nb\r", "*", "\\n"] {
                let line = write(&tag, OsStr::new(name));
                let (end, line) = line.split_last().expect("a line");
                assert_eq!(*end, b'\n');
                assert!(!line.contains(&b'\n'));
                let (tag, name) = (tag.clone(), name.into());
                assert_eq!(read(line), Line::Tag { hash, tag, name });
            }
        }
    }

    #[test]
    fn other_lines_are_not_read() {
        for digits in ["0".repeat(40), "0".repeat(64)] {
            for line in [
                "",
                "  ",
                "  a",
                "\\",
                &digits,
                &format!("{digits}  "),
                &format!("{digits} a"),
                &format!("+{}  a", &digits[1..]),
                &format!("\\{digits}  a\\b"),
            ] {
                assert_eq!(read(line.as_bytes()), Line::NoTag, "{line:?}");
            }
        }
        for length in (1..150).filter(|length| ![40, 64].contains(length)) {
            let line = format!("{}  a", "0".repeat(length));
            assert_eq!(read(line.as_bytes()), Line::OtherLength, "{line:?}");
        }
    }
}
