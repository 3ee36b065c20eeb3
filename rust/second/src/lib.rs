//! A second program for the rules of masked HMAC-SHA-1 and HMAC-SHA-256, written from them and the
//! later requests alone, to be run beside the library and compared with it. Sections and requests
//! are those of docs/RULES.md and REQUESTS.md; quoted words are of the longer text that these have in
//! short.
//!
//! A call for n shares tests its arguments (section 3), works the rule out on vectors of its own
//! (sections 2, 5 and 6, and the requests), and only then writes its output, so that a refusal
//! leaves every output as it came. The supply itself tells when it runs out, and the count reported
//! is the place it ended at. The streaming calls go the same way, with the state in place of an
//! output. Only the queries, and the test of the count that a state carries, use formulas.
//!
//! SHA-1 and SHA-256 (request (vii)) each give one description of themselves: the starting chain,
//! the compression, what it draws, and the code in a state. Key splitting, HMAC, streaming and the
//! queries are written once over that description, and the public calls name the hash they are of.

#![forbid(unsafe_code)]
#![deny(missing_docs)]

mod calls;
mod hash;
mod hmac;
mod numbers;
mod queries;
mod rules;
mod sha1;
mod sha256;
#[cfg(test)]
mod sha256_stream_tests;
#[cfg(test)]
mod sha256_tests;
mod shared;
#[cfg(test)]
mod short_tests;
#[cfg(test)]
mod state_tests;
mod stream;
#[cfg(test)]
mod stream_tests;
mod supply;
#[cfg(test)]
mod tests;
mod two;

pub use calls::{
    a2b, add, and, b2a, b2a_short, expand, hmac_sha1, hmac_sha256, open_sum, open_xor, refresh,
    same_tag, sha1_compress, sha256_compress, sha256_split_key, split, split_key,
};
pub use numbers::{
    Answer, Chain, Compressed, Opened, Sha256Chain, Sha256Compressed, State, Streamed,
};
pub use queries::{
    a2b_words, add_words, and_words, b2a_short_words, b2a_words, expand_words,
    hmac_sha1_feed_words, hmac_sha1_finish_words, hmac_sha1_start_words, hmac_sha1_words,
    hmac_sha256_feed_words, hmac_sha256_finish_words, hmac_sha256_start_words, hmac_sha256_words,
    refresh_words, sha1_compress_words, sha256_compress_words, sha256_split_key_words,
    split_key_words, split_words,
};
pub use stream::{
    hmac_sha1_feed, hmac_sha1_finish, hmac_sha1_start, hmac_sha256_feed, hmac_sha256_finish,
    hmac_sha256_start,
};
pub use two::{a2b_2, a2b_2_record, b2a_2, b2a_2_record};
