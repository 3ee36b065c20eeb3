//! The hashes that logs are tagged by.

use std::str::FromStr;

#[derive(Clone, Copy, Debug, Default, PartialEq)]
pub enum Hash {
    #[default]
    Sha1,
    Sha256,
}

impl Hash {
    /// The hash whose tags have so many hexadecimal digits.
    pub fn by_digits(digits: usize) -> Option<Hash> {
        match digits {
            40 => Some(Hash::Sha1),
            64 => Some(Hash::Sha256),
            _ => None,
        }
    }
}

impl FromStr for Hash {
    type Err = &'static str;

    fn from_str(name: &str) -> Result<Hash, &'static str> {
        match name {
            "sha1" => Ok(Hash::Sha1),
            "sha256" => Ok(Hash::Sha256),
            _ => Err("it is neither sha1 nor sha256"),
        }
    }
}
