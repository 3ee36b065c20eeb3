//! A program without the standard library: in two shares it makes a tag of SHA-1 in pieces and one of
//! SHA-256 in one call, and ends with status 0 where both are right.
//!
//! The standard library has a panic handler, and a program can have no second one: if the crate or
//! what it needs brought that library in, this would not compile. And the handler calls what is
//! nowhere: if anything here could panic, this would not link.

#![no_std]
#![no_main]

use core::panic::PanicInfo;
use flamivorse::{
    hmac_sha1_feed, hmac_sha1_finish, hmac_sha1_start, hmac_sha256, hmac_sha256_words, same_tag,
    sha256_split_key, split_key, Refusal, State, KEY_BLOCK_WORDS, SHA256_TAG_BYTES, TAG_BYTES,
};

// What starts and ends a program, and copies memory.
#[link(name = "c")]
extern "C" {}

extern "C" {
    fn something_can_panic() -> !;
}

#[panic_handler]
fn panicked(_: &PanicInfo) -> ! {
    // SAFETY: it is never linked.
    unsafe { something_can_panic() }
}

const N: usize = 2;
const KEY: &[u8] = b"Jefe";
const MESSAGE: &[u8] = b"what do ya want for nothing?";

const SHA1_TAG: [u8; TAG_BYTES] =
    *b"\xef\xfc\xdf\x6a\xe5\xeb\x2f\xa2\xd2\x74\x16\xd5\xf1\x84\xdf\x9c\x25\x9a\x7c\x79";
const SHA256_TAG: [u8; SHA256_TAG_BYTES] =
    *b"\x5b\xdc\xc1\x46\xbf\x60\x75\x4e\x6a\x04\x24\x26\x08\x95\x75\xc7\
       \x5a\x00\x3f\x08\x9d\x27\x39\x83\x9d\xec\x58\xb9\x64\xec\x38\x43";

/// They stand for random words here, and serve every call; a real program has fresh ones for each.
static WORDS: [u32; 77_312] = [0x5bd1_e995; 77_312];

#[no_mangle]
extern "C" fn main() -> i32 {
    match (sha1_in_pieces(), sha256_in_one_call()) {
        (Ok(true), Ok(true)) => 0,
        (Ok(_), Ok(_)) => 1,
        _ => 2,
    }
}

fn sha1_in_pieces() -> Result<bool, Refusal> {
    let (mut key, mut tag) = ([0; N * KEY_BLOCK_WORDS], [0; TAG_BYTES]);
    let mut state = State::default();
    split_key(N, KEY, &mut key, &WORDS)?;
    hmac_sha1_start(N, &key, &mut state, &WORDS)?;
    for piece in MESSAGE.chunks(5) {
        hmac_sha1_feed(&mut state, piece, &WORDS)?;
    }
    hmac_sha1_finish(&mut state, &mut tag, &WORDS)?;
    Ok(same_tag(&tag, &SHA1_TAG))
}

fn sha256_in_one_call() -> Result<bool, Refusal> {
    let (mut key, mut tag) = ([0; N * KEY_BLOCK_WORDS], [0; SHA256_TAG_BYTES]);
    sha256_split_key(N, KEY, &mut key, &WORDS)?;
    let drawn = hmac_sha256(N, &key, MESSAGE, &mut tag, &WORDS)?;
    let needed = hmac_sha256_words(N, MESSAGE.len())?;
    Ok(drawn.words() == needed.words() && same_tag(&tag, &SHA256_TAG))
}
