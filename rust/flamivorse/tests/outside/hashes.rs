//! The hashes as the tests know them.

use flamivorse::{
    hmac_sha1_feed, hmac_sha1_finish, hmac_sha256_feed, hmac_sha256_finish, Drawn, Hash, Refusal,
    Sha1, Sha256, State,
};
use fuzz::calls::{Hashed, HASHED};

type Feed = fn(&mut State, &[u8], &[u32]) -> Result<Drawn, Refusal>;
type Finish = fn(&mut State, &mut [u8], &[u32]) -> Result<Drawn, Refusal>;

/// A hash, and what stands outside the types of the crate: its calls on any state, and its rows in the
/// table of all calls, with what the rules and others say of it.
pub trait Tested: Hash {
    type Other: Tested;
    const FEED: Feed;
    const FINISH: Finish;

    fn calls() -> &'static Hashed;

    /// The tag by RustCrypto.
    fn outside_tag(key: &[u8], message: &[u8]) -> Self::Tag {
        let mut tag = Self::Tag::default();
        let bytes = Self::calls().hash.outside_tag(key, message);
        tag.as_mut().copy_from_slice(&bytes);
        tag
    }

    /// Says how many cases a test ran with this hash.
    fn report(cases: usize, what: &str) {
        crate::report(cases, &format!("{:?}: {what}", Self::calls().hash));
    }
}

impl Tested for Sha1 {
    type Other = Sha256;
    const FEED: Feed = hmac_sha1_feed;
    const FINISH: Finish = hmac_sha1_finish;

    fn calls() -> &'static Hashed {
        &HASHED[0]
    }
}

impl Tested for Sha256 {
    type Other = Sha1;
    const FEED: Feed = hmac_sha256_feed;
    const FINISH: Finish = hmac_sha256_finish;

    fn calls() -> &'static Hashed {
        &HASHED[1]
    }
}

/// Makes tests of functions over a hash: each with either.
macro_rules! with_each_hash {
    ($($test:ident),*) => {
        mod sha1 {$(
            #[test]
            fn $test() {
                super::$test::<flamivorse::Sha1>();
            }
        )*}

        mod sha256 {$(
            #[test]
            fn $test() {
                super::$test::<flamivorse::Sha256>();
            }
        )*}
    };
}

pub(crate) use with_each_hash;
