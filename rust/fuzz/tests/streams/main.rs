//! Messages in pieces, by Rust and by C, each call compared with `second`: whole messages, however
//! they are cut, and states of any kind.
//!
//! All random values are seeded, so that every run has the same cases. Each test prints how many it
//! ran, as `cases: N, what`.

/// Makes tests of functions that take a hash with its calls: each with either.
macro_rules! with_each_hash {
    ($($test:ident),*) => {
        mod sha1 {$(
            #[test]
            fn $test() {
                super::$test(&fuzz::calls::HASHED[0]);
            }
        )*}

        mod sha256 {$(
            #[test]
            fn $test() {
                super::$test(&fuzz::calls::HASHED[1]);
            }
        )*}
    };
}

mod cuts;
mod states;

use fuzz::calls::Target;
use fuzz::hashes::Hash;

const TARGETS: [Target; 2] = [Target::Rust, Target::C];

/// Says how many cases a test ran with a hash.
fn report(hash: Hash, cases: usize, what: &str) {
    println!("cases: {cases}, {hash:?}: {what}");
}
