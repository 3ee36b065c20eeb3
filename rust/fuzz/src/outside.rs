//! What others say of the hashes: RustCrypto's digests and tags, and the cases of the RFCs.

use crate::hashes::Hash;
use hmac::digest::KeyInit;
use hmac::{Hmac, Mac};
use sha1::Sha1;
use sha2::{Digest, Sha256};

/// Each line: the case's number, and its key, message and tag in hexadecimal.
const RFC_2202: &str = include_str!("../../../crates/cases/data/rfc2202.txt");
const RFC_4231: &str = include_str!("../../../crates/cases/data/rfc4231.txt");

/// A case of an RFC. Its tag may be cut short.
pub struct Vector {
    pub key: Vec<u8>,
    pub message: Vec<u8>,
    pub tag: Vec<u8>,
}

impl Hash {
    /// The digest by RustCrypto.
    pub fn outside_digest(self, bytes: &[u8]) -> Vec<u8> {
        match self {
            Hash::Sha1 => Sha1::digest(bytes).to_vec(),
            Hash::Sha256 => Sha256::digest(bytes).to_vec(),
        }
    }

    /// The tag by RustCrypto.
    pub fn outside_tag(self, key: &[u8], message: &[u8]) -> Vec<u8> {
        match self {
            Hash::Sha1 => tag_by::<Hmac<Sha1>>(key, message),
            Hash::Sha256 => tag_by::<Hmac<Sha256>>(key, message),
        }
    }

    /// The cases of the RFC that has them. The keys of the last two are hashed.
    pub fn vectors(self) -> [Vector; 7] {
        let text = match self {
            Hash::Sha1 => RFC_2202,
            Hash::Sha256 => RFC_4231,
        };
        let lines = text.lines().filter(|line| !line.starts_with('#'));
        let lines = lines.filter(|line| !line.is_empty());
        let cases: Vec<Vector> = lines.map(vector).collect();
        cases.try_into().ok().expect("seven cases")
    }
}

fn tag_by<M: Mac + KeyInit>(key: &[u8], message: &[u8]) -> Vec<u8> {
    let mut mac = <M as Mac>::new_from_slice(key).expect("HMAC takes any key");
    mac.update(message);
    mac.finalize().into_bytes().to_vec()
}

/// The case on a line.
fn vector(line: &str) -> Vector {
    let fields: Vec<_> = line.split(' ').skip(1).map(bytes_of).collect();
    let [key, message, tag] = fields.try_into().expect("three fields after the number");
    Vector { key, message, tag }
}

/// The bytes that a text of hexadecimal digits stands for.
fn bytes_of(digits: &str) -> Vec<u8> {
    let pairs = (0..digits.len()).step_by(2);
    let byte = |at| u8::from_str_radix(&digits[at..at + 2], 16).expect("two digits");
    pairs.map(byte).collect()
}
