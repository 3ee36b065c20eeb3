//! The archive from outside: every call through this crate, against `second` (an independent
//! program written from the rules alone), against RustCrypto's HMAC, SHA-1 and SHA-256, and against
//! the limits of the rules.
//!
//! All random values are seeded, so that every run has the same cases. Each test prints how many it
//! ran, as `cases: N, what`.

mod against_second;
mod both_ways;
mod hashes;
mod keys;
mod openings;
mod reference;
mod refusals;
mod streams;
mod tags;
mod texts;
mod two_shares;
mod verified;
mod without_std;

/// Says how many cases a test ran.
fn report(cases: usize, what: &str) {
    println!("cases: {cases}, {what}");
}
