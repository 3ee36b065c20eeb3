//! The table of all calls: what each takes, and how the archive, by Rust or by C, and `second` make
//! it.

use crate::by_c;
use crate::hashes::Hash;
use crate::lent::{Arguments, Lengths, Outline};
use crate::states::{by_archive, by_second};
use flamivorse::{
    Drawn, Needed, Refusal, State, A2B_2_STEPS, B2A_2_STEPS, B2A_SHORT_COUNTS, KEY_LIMIT,
    MESSAGE_LIMIT, SHARES_LIMIT,
};

/// The share counts that are not refused; by the short conversion most of them are.
pub const COUNTS: [usize; SHARES_LIMIT] = [1, 2, 3, 4, 5, 6, 7, 8, 9, 10, 11, 12, 13, 14, 15, 16];

/// Those of them at which slow calls are tried: the few that have forms of their own, small and large
/// ones of the others, and the largest.
pub const SOME_COUNTS: [usize; 7] = [1, 2, 3, 4, 5, 8, SHARES_LIMIT];

/// The longest message that is tagged often at so many shares.
pub fn quick_message(n: usize) -> usize {
    match n {
        1..=4 => 4096,
        5..=8 => 1024,
        _ => 128,
    }
}

/// Share counts that every call refuses.
pub const WRONG_COUNTS: [usize; 5] = [0, SHARES_LIMIT + 1, 2 * SHARES_LIMIT, 1 << 31, usize::MAX];

/// How the archive is reached: through the Rust calls, or from C through the header.
#[derive(Clone, Copy, Debug)]
pub enum Target {
    Rust,
    C,
}

/// What a call hands back: its number, and its count of words (of an opening or a two-share form
/// the word).
#[repr(C)]
#[derive(Clone, Copy, Debug, PartialEq)]
pub struct Outcome {
    pub number: u32,
    pub count: u64,
}

/// The outcome of a refusal.
pub fn refused(number: u32) -> Outcome {
    number_alone(number)
}

/// The outcome of a recording form.
fn number_alone(number: u32) -> Outcome {
    Outcome { number, count: 0 }
}

/// The outcome of a call that hands back a word and refuses nothing: a two-share form, comparing.
impl From<u32> for Outcome {
    fn from(word: u32) -> Outcome {
        Outcome {
            number: 0,
            count: word.into(),
        }
    }
}

/// The outcome of a call or a query that hands back a count of words.
fn counted(answer: Result<usize, Refusal>) -> Outcome {
    match answer {
        Ok(words) => Outcome {
            number: 0,
            count: words as u64,
        },
        Err(refusal) => refused(refusal.number()),
    }
}

impl From<Result<Drawn, Refusal>> for Outcome {
    fn from(answer: Result<Drawn, Refusal>) -> Outcome {
        counted(answer.map(Drawn::words))
    }
}

impl From<Result<Needed, Refusal>> for Outcome {
    fn from(answer: Result<Needed, Refusal>) -> Outcome {
        counted(answer.map(Needed::words))
    }
}

impl From<Result<(), Refusal>> for Outcome {
    fn from(answer: Result<(), Refusal>) -> Outcome {
        number_alone(answer.map_or_else(Refusal::number, |()| 0))
    }
}

impl From<Result<u32, Refusal>> for Outcome {
    fn from(answer: Result<u32, Refusal>) -> Outcome {
        match answer {
            Ok(word) => word.into(),
            Err(refusal) => refused(refusal.number()),
        }
    }
}

impl From<second::Answer> for Outcome {
    fn from(answer: second::Answer) -> Outcome {
        Outcome {
            number: answer.number,
            count: answer.drawn,
        }
    }
}

impl From<second::Opened> for Outcome {
    fn from(opened: second::Opened) -> Outcome {
        Outcome {
            number: opened.number,
            count: opened.word.into(),
        }
    }
}

/// A call as the archive makes it through the Rust calls, and as `second` does. C makes it by its
/// name.
type Made = [fn(&mut Arguments) -> Outcome; 2];

/// A query of both, of a state, or the share count alone, and the number of bytes.
type Query = [fn(Outline, usize) -> Outcome; 2];

/// A call. What it does not take is 0 or none.
pub struct Call {
    /// Its name in Rust; in C `flamivorse_` stands before it.
    pub name: &'static str,
    /// The hash by which it compresses, whatever it is lent.
    pub hash: Option<Hash>,
    /// Whether it takes a state.
    pub on_state: bool,
    /// The share counts that it does not refuse.
    pub counts: &'static [usize],
    /// Words in each input, for each share.
    pub inputs: [usize; 2],
    /// The most bytes it takes.
    pub limit: Option<usize>,
    /// Words in the output, for each share.
    pub output: usize,
    /// Entries in the record of a two-share form.
    pub record: usize,
    /// Bytes in the tag.
    pub tag: usize,
    pub made: Made,
    pub query: Option<Query>,
}

impl Call {
    /// Share counts that the call refuses, among them all those that others do not.
    pub fn wrong_counts(&self) -> Vec<usize> {
        let others = COUNTS.into_iter().filter(|n| !self.counts.contains(n));
        others.chain(WRONG_COUNTS).collect()
    }

    /// Whether the call compresses, whatever it is lent.
    pub fn is_slow(&self) -> bool {
        self.hash.is_some()
    }

    /// The lengths that the call asks for, on a state or at a share count.
    pub fn lengths(&self, state: impl Into<Outline>, bytes: usize) -> Lengths {
        let state = state.into();
        let words = self
            .query
            .map_or(0, |[_, second]| second(state, bytes).count as usize);
        let inputs = self.inputs.map(|words| words * state.n);
        Lengths {
            inputs,
            bytes,
            output: self.output * state.n + self.record,
            tag: self.tag,
            words,
        }
    }

    /// Makes the call on both sides, and compares what they hand back and every slice with its
    /// guards. Gives what was handed back, and what was lent as it stands after the call. Panics
    /// where there is a difference.
    pub fn compare(&self, target: Target, arguments: &Arguments) -> (Outcome, Arguments) {
        let (mut ours, mut theirs) = (arguments.clone(), arguments.clone());
        let [rust, second] = self.made;
        let outcome = match target {
            Target::Rust => rust(&mut ours),
            Target::C => by_c::make(self.name, &mut ours),
        };
        let name = self.name;
        assert_eq!(outcome, second(&mut theirs), "{name} of {arguments:x?}");
        assert!(
            ours == theirs,
            "{name} of {arguments:x?}: first differences at {:?}",
            ours.differences(&theirs)
        );
        (outcome, ours)
    }

    /// Asks both sides how many words the call draws, on a state or at a share count, and compares
    /// what they tell. A call without a query tells nothing. Panics where there is a difference.
    pub fn compare_query(
        &self,
        target: Target,
        state: impl Into<Outline>,
        bytes: usize,
    ) -> Option<Outcome> {
        let (state, [rust, second]) = (state.into(), self.query?);
        let outcome = match target {
            Target::Rust => rust(state, bytes),
            Target::C => by_c::ask(self.name, state, bytes),
        };
        let name = self.name;
        assert_eq!(
            outcome,
            second(state, bytes),
            "{name}_words({state:?}, {bytes})"
        );
        Some(outcome)
    }
}

/// The function of this name in the archive and in `second`.
macro_rules! both {
    (|$($parameter:ident),*| $function:ident($($argument:expr),*)) => {[
        |$($parameter),*| flamivorse::$function($($argument),*).into(),
        |$($parameter),*| second::$function($($argument),*).into(),
    ]};
}

/// What a call has where nothing else is said.
const OPENING: Call = Call {
    name: "open_xor",
    hash: None,
    on_state: false,
    counts: &COUNTS,
    inputs: [1, 0],
    limit: None,
    output: 0,
    record: 0,
    tag: 0,
    made: both!(|a| open_xor(a.state.n, a.inputs[0].slice())),
    query: None,
};

/// The recording form of this name in the archive and in `second`, which hands back a bare number.
macro_rules! recording {
    ($function:ident) => {
        [
            |a| {
                flamivorse::$function(a.values[0], a.values[1], a.values[2], a.output.slice_mut())
                    .into()
            },
            |a| {
                number_alone(second::$function(
                    a.values[0],
                    a.values[1],
                    a.values[2],
                    a.output.slice_mut(),
                ))
            },
        ]
    };
}

/// Every two-share form. They take no share count.
pub static TWO_SHARE_CALLS: [Call; 4] = [
    Call {
        name: "b2a_2",
        inputs: [0, 0],
        made: both!(|a| b2a_2(a.values[0], a.values[1], a.values[2])),
        ..OPENING
    },
    Call {
        name: "a2b_2",
        inputs: [0, 0],
        made: both!(|a| a2b_2(a.values[0], a.values[1], a.values[2])),
        ..OPENING
    },
    Call {
        name: "b2a_2_record",
        inputs: [0, 0],
        record: B2A_2_STEPS,
        made: recording!(b2a_2_record),
        ..OPENING
    },
    Call {
        name: "a2b_2_record",
        inputs: [0, 0],
        record: A2B_2_STEPS,
        made: recording!(a2b_2_record),
        ..OPENING
    },
];

/// Comparing: it takes no share count either, and two texts of any lengths.
pub static SAME_TAG: Call = Call {
    name: "same_tag",
    inputs: [0, 0],
    made: [
        |a| u32::from(flamivorse::same_tag(a.bytes.slice(), a.tag.slice())).into(),
        |a| second::same_tag(a.bytes.slice(), a.tag.slice()).into(),
    ],
    ..OPENING
};

/// Every call on n shares that knows no hash.
static SHARE_CALLS: [Call; 10] = [
    OPENING,
    Call {
        name: "open_sum",
        made: both!(|a| open_sum(a.state.n, a.inputs[0].slice())),
        ..OPENING
    },
    Call {
        name: "split",
        inputs: [0, 0],
        output: 1,
        made: both!(|a| split(
            a.state.n,
            a.values[0],
            a.output.slice_mut(),
            a.words.slice()
        )),
        query: Some(both!(|state, _bytes| split_words(state.n))),
        ..OPENING
    },
    Call {
        name: "refresh",
        output: 1,
        made: both!(|a| refresh(
            a.state.n,
            a.inputs[0].slice(),
            a.output.slice_mut(),
            a.words.slice()
        )),
        query: Some(both!(|state, _bytes| refresh_words(state.n))),
        ..OPENING
    },
    Call {
        name: "expand",
        output: 2,
        made: both!(|a| expand(
            a.state.n,
            a.inputs[0].slice(),
            a.output.slice_mut(),
            a.words.slice()
        )),
        query: Some(both!(|state, _bytes| expand_words(state.n))),
        ..OPENING
    },
    Call {
        name: "and",
        inputs: [1, 1],
        output: 1,
        made: both!(|a| and(
            a.state.n,
            a.inputs[0].slice(),
            a.inputs[1].slice(),
            a.output.slice_mut(),
            a.words.slice()
        )),
        query: Some(both!(|state, _bytes| and_words(state.n))),
        ..OPENING
    },
    Call {
        name: "add",
        inputs: [1, 1],
        output: 1,
        made: both!(|a| add(
            a.state.n,
            a.inputs[0].slice(),
            a.inputs[1].slice(),
            a.output.slice_mut(),
            a.words.slice()
        )),
        query: Some(both!(|state, _bytes| add_words(state.n))),
        ..OPENING
    },
    Call {
        name: "a2b",
        output: 1,
        made: both!(|a| a2b(
            a.state.n,
            a.inputs[0].slice(),
            a.output.slice_mut(),
            a.words.slice()
        )),
        query: Some(both!(|state, _bytes| a2b_words(state.n))),
        ..OPENING
    },
    Call {
        name: "b2a",
        output: 1,
        made: both!(|a| b2a(
            a.state.n,
            a.inputs[0].slice(),
            a.output.slice_mut(),
            a.words.slice()
        )),
        query: Some(both!(|state, _bytes| b2a_words(state.n))),
        ..OPENING
    },
    Call {
        name: "b2a_short",
        counts: &B2A_SHORT_COUNTS,
        output: 1,
        made: both!(|a| b2a_short(
            a.state.n,
            a.inputs[0].slice(),
            a.output.slice_mut(),
            a.words.slice()
        )),
        query: Some(both!(|state, _bytes| b2a_short_words(state.n))),
        ..OPENING
    },
];

/// A compression of this name in the archive and in `second`. The chain, lent by value, is written
/// back to the arguments.
macro_rules! compression {
    ($function:ident($chain:ident)) => {
        [
            |a| {
                let (block, shares) = (a.inputs[0].slice(), a.chain_words());
                let mut chain = flamivorse::$chain { shares };
                let answer = flamivorse::$function(a.state.n, &mut chain, block, a.words.slice());
                a.put_chain(&chain.shares);
                answer.into()
            },
            |a| {
                let (block, shares) = (a.inputs[0].slice(), a.chain_words());
                let chain = second::$chain { shares };
                let answer = second::$function(a.state.n, chain, block, a.words.slice());
                a.put_chain(&answer.chain.shares);
                Outcome {
                    number: answer.number,
                    count: answer.drawn,
                }
            },
        ]
    };
}

/// A start of this name in the archive and in `second`. Where it is refused the archive hands back
/// zeros, and the safe call leaves the state as it came; so zeros are given to it.
macro_rules! start {
    ($function:ident) => {
        [
            |a| {
                by_archive(a, State::default(), |state, a| {
                    let (key, words) = (a.inputs[0].slice(), a.words.slice());
                    flamivorse::$function(a.state.n, key, state, words)
                })
            },
            |a| {
                by_second(a, |_, a| {
                    second::$function(a.state.n, a.inputs[0].slice(), a.words.slice())
                })
            },
        ]
    };
}

/// The call of this name on a state in the archive and in `second`.
macro_rules! on_state {
    ($function:ident(|$a:ident| $argument:expr)) => {
        [
            |a| {
                by_archive(a, State::from(&*a), |state, $a| {
                    flamivorse::$function(state, $argument, $a.words.slice())
                })
            },
            |a| {
                by_second(a, |state, $a| {
                    second::$function(state, $argument, $a.words.slice())
                })
            },
        ]
    };
}

/// The calls of a hash.
pub struct Hashed {
    pub hash: Hash,
    pub split_key: Call,
    pub compress: Call,
    pub hmac: Call,
    pub start: Call,
    pub feed: Call,
    pub finish: Call,
}

/// The calls of a hash by their names, each with its query's, and its chain's.
macro_rules! hashed {
    (
        $hash:ident, $chain:ident;
        $split_key:ident, $split_key_words:ident;
        $compress:ident, $compress_words:ident;
        $hmac:ident, $hmac_words:ident;
        $start:ident, $start_words:ident;
        $feed:ident, $feed_words:ident;
        $finish:ident, $finish_words:ident;
    ) => {
        Hashed {
            hash: Hash::$hash,
            split_key: Call {
                name: stringify!($split_key),
                inputs: [0, 0],
                limit: Some(KEY_LIMIT),
                output: 16,
                made: both!(|a| $split_key(
                    a.state.n,
                    a.bytes.slice(),
                    a.output.slice_mut(),
                    a.words.slice()
                )),
                query: Some(both!(|state, bytes| $split_key_words(state.n, bytes))),
                ..OPENING
            },
            compress: Call {
                name: stringify!($compress),
                hash: Some(Hash::$hash),
                inputs: [16, 0],
                made: compression!($compress($chain)),
                query: Some(both!(|state, _bytes| $compress_words(state.n))),
                ..OPENING
            },
            hmac: Call {
                name: stringify!($hmac),
                hash: Some(Hash::$hash),
                inputs: [16, 0],
                limit: Some(MESSAGE_LIMIT),
                tag: Hash::$hash.tag_bytes(),
                made: both!(|a| $hmac(
                    a.state.n,
                    a.inputs[0].slice(),
                    a.bytes.slice(),
                    a.tag.slice_mut(),
                    a.words.slice()
                )),
                query: Some(both!(|state, bytes| $hmac_words(state.n, bytes))),
                ..OPENING
            },
            start: Call {
                name: stringify!($start),
                hash: Some(Hash::$hash),
                inputs: [16, 0],
                made: start!($start),
                query: Some(both!(|state, _bytes| $start_words(state.n))),
                ..OPENING
            },
            feed: Call {
                name: stringify!($feed),
                hash: Some(Hash::$hash),
                on_state: true,
                inputs: [0, 0],
                limit: Some(MESSAGE_LIMIT),
                made: on_state!($feed(|a| a.bytes.slice())),
                query: Some([
                    |state, bytes| flamivorse::$feed_words(&state.into(), bytes).into(),
                    |state, bytes| second::$feed_words(state.into(), bytes).into(),
                ]),
                ..OPENING
            },
            finish: Call {
                name: stringify!($finish),
                hash: Some(Hash::$hash),
                on_state: true,
                inputs: [0, 0],
                tag: Hash::$hash.tag_bytes(),
                made: on_state!($finish(|a| a.tag.slice_mut())),
                query: Some([
                    |state, _bytes| flamivorse::$finish_words(&state.into()).into(),
                    |state, _bytes| second::$finish_words(state.into()).into(),
                ]),
                ..OPENING
            },
        }
    };
}

/// Every hash with its calls.
pub static HASHED: [Hashed; 2] = [
    hashed! {
        Sha1, Chain;
        split_key, split_key_words;
        sha1_compress, sha1_compress_words;
        hmac_sha1, hmac_sha1_words;
        hmac_sha1_start, hmac_sha1_start_words;
        hmac_sha1_feed, hmac_sha1_feed_words;
        hmac_sha1_finish, hmac_sha1_finish_words;
    },
    hashed! {
        Sha256, Sha256Chain;
        sha256_split_key, sha256_split_key_words;
        sha256_compress, sha256_compress_words;
        hmac_sha256, hmac_sha256_words;
        hmac_sha256_start, hmac_sha256_start_words;
        hmac_sha256_feed, hmac_sha256_feed_words;
        hmac_sha256_finish, hmac_sha256_finish_words;
    },
];

impl Hashed {
    /// The calls on n shares.
    fn calls(&self) -> [&Call; 3] {
        [&self.split_key, &self.compress, &self.hmac]
    }

    /// The calls of a message in pieces.
    pub fn stream_calls(&self) -> [&Call; 3] {
        [&self.start, &self.feed, &self.finish]
    }
}

/// Every call on n shares.
pub fn calls() -> impl Iterator<Item = &'static Call> + Clone {
    SHARE_CALLS
        .iter()
        .chain(HASHED.iter().flat_map(Hashed::calls))
}

/// The call of this name on n shares.
pub fn named(name: &str) -> &'static Call {
    calls().find(|call| call.name == name).expect(name)
}
