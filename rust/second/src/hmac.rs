//! HMAC over either hash (section 6 and RFC 2104), and the splitting of keys for it (section 2 and
//! request (iii)). A rule gives nothing when the supply runs out under it.

use crate::hash::Hash;
use crate::rules::open_xor;
use crate::shared::{big_endian_word, public_words, split_bytes, xor_constant, Shared};
use crate::supply::Supply;

/// The key block, 16n words. Section 2: "A key of up to 64 bytes is padded on the right with zero
/// bytes to 64"; request (iii), for a longer one: "the 5n digest words, then zero shares, become
/// the key block". Request (vii): with SHA-256 "A long key's digest gives 8n words."
pub(crate) fn split_key(
    hash: &Hash,
    n: usize,
    key: &[u8],
    supply: &mut Supply,
) -> Option<Vec<u32>> {
    let mut block = match key.len() {
        0..=64 => split_bytes(n, key, 64, supply)?,
        _ => long_key_digest(hash, n, key, supply)?,
    };
    block.resize(16, vec![0; n]);
    Some(block.concat())
}

/// Request (iii): "A long key's bytes are split as they stand, in big-endian words, the last one
/// filled with zero bytes, and then hashed in shares under their true length". Section 6: "a
/// padding byte in a word already shared, goes into share 1", "whole words of padding" are public.
fn long_key_digest(hash: &Hash, n: usize, key: &[u8], supply: &mut Supply) -> Option<Vec<Shared>> {
    let length = key.len().next_multiple_of(4);
    let mut words = split_bytes(n, key, length, supply)?;
    let padding = padding(key.len() as u64);
    let (in_last_word, whole_words) = padding.split_at(length - key.len());
    let last = words.len() - 1;
    words[last] = xor_constant(&words[last], big_endian_word(in_last_word));
    words.extend(public_words(n, whole_words));
    hash.compress_blocks(hash.starting_chain(n), &words, supply)
}

/// FIPS 180-4, 5.1.1: the padding after this many bytes.
fn padding(length: u64) -> Vec<u8> {
    let mut bytes = vec![0x80];
    while (length + bytes.len() as u64) % 64 != 56 {
        bytes.push(0);
    }
    bytes.extend((length * 8).to_be_bytes());
    bytes
}

/// RFC 2104: the key block with a pad XORed into each of its words, compressed into the starting
/// chain.
fn key_chain(hash: &Hash, key: &[Shared], pad: u32, supply: &mut Supply) -> Option<Vec<Shared>> {
    let block: Vec<Shared> = key.iter().map(|word| xor_constant(word, pad)).collect();
    hash.compress_blocks(hash.starting_chain(key[0].len()), &block, supply)
}

/// RFC 2104: the chain after the inner key block.
pub(crate) fn inner_key_chain(
    hash: &Hash,
    key: &[Shared],
    supply: &mut Supply,
) -> Option<Vec<Shared>> {
    key_chain(hash, key, 0x36363636, supply)
}

/// RFC 2104: the chain after the outer key block.
pub(crate) fn outer_key_chain(
    hash: &Hash,
    key: &[Shared],
    supply: &mut Supply,
) -> Option<Vec<Shared>> {
    key_chain(hash, key, 0x5c5c5c5c, supply)
}

/// The inner digest: the chain after the rest of a message with the padding of FIPS 180-4, 5.1.1.
/// The length is the whole message's; padded in, it counts the inner key block's 64 bytes too.
pub(crate) fn inner_digest(
    hash: &Hash,
    chain: Vec<Shared>,
    rest: &[u8],
    length: u64,
    supply: &mut Supply,
) -> Option<Vec<Shared>> {
    let mut bytes = rest.to_vec();
    bytes.extend(padding(64 + length));
    let words = public_words(chain[0].len(), &bytes);
    hash.compress_blocks(chain, &words, supply)
}

/// The inner digest, still in shares, with the padding of FIPS 180-4, 5.1.1, as whole public
/// words. The length padded in counts the 64 bytes of the outer key block too.
fn digest_block(hash: &Hash, digest: &[Shared]) -> Vec<Shared> {
    let padding = padding(64 + hash.digest_bytes() as u64);
    let mut block = digest.to_vec();
    block.extend(public_words(digest[0].len(), &padding));
    block
}

/// The tag's bytes: the digest block compressed into the outer chain, and opened. Section 6: "The
/// inner digest stays in shares. Only the tag is opened."
pub(crate) fn open_tag(
    hash: &Hash,
    outer: Vec<Shared>,
    digest: &[Shared],
    supply: &mut Supply,
) -> Option<Vec<u8>> {
    let digest = hash.compress_blocks(outer, &digest_block(hash, digest), supply)?;
    let mut tag = Vec::new();
    for word in digest {
        tag.extend(open_xor(&word).to_be_bytes());
    }
    Some(tag)
}

/// RFC 2104. Section 6: HMAC "compresses the inner key block, the message blocks, the outer key
/// block, the digest block".
pub(crate) fn hmac(
    hash: &Hash,
    key: &[Shared],
    message: &[u8],
    supply: &mut Supply,
) -> Option<Vec<u8>> {
    let inner = inner_key_chain(hash, key, supply)?;
    let digest = inner_digest(hash, inner, message, message.len() as u64, supply)?;
    let outer = outer_key_chain(hash, key, supply)?;
    open_tag(hash, outer, &digest, supply)
}
