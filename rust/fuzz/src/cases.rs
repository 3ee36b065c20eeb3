//! Random cases: a call or a query with a share count, lengths and contents of any kind, right and
//! wrong ones mixed. A seed and a number give the same case on every machine.

use crate::calls::{
    calls, quick_message, Call, Outcome, Target, HASHED, SAME_TAG, TWO_SHARE_CALLS,
};
use crate::hashes::Hash;
use crate::lent::{Arguments, Lengths, Outline};
use crate::random::Random;
use flamivorse::{KEY_LIMIT, MESSAGE_LIMIT, SHARES_LIMIT};

/// Every so manieth case is of a message in pieces. The number decides, and nothing drawn, so that
/// all other cases are what they would be without these. As often tags are compared, beside a case.
const STREAMED: u32 = 24;

/// A call that draws more words than these is lent a few: the longest message at two shares draws no
/// more by either hash, and at 16 it draws so many that no memory holds them.
const MOST_WORDS: usize = 20_000_000;

/// What is asked of a call: to be made, or how many words it draws.
enum Asked {
    Made(Box<Arguments>),
    Query { state: Outline, bytes: usize },
}

/// A call or a query, and its arguments.
pub struct Case {
    call: &'static Call,
    asked: Asked,
}

impl Case {
    /// The case of this number, and the comparison beside it, if there is one.
    pub fn all(seed: u32, number: u32) -> impl Iterator<Item = Case> {
        let beside = (number % STREAMED == 0).then(|| compared(seed, number));
        [Case::new(seed, number)].into_iter().chain(beside)
    }

    /// The case of this number.
    fn new(seed: u32, number: u32) -> Case {
        let mut random = random(seed, number);
        let streamed = number % STREAMED == STREAMED - 1;
        let queried = random.below(8) == 0;
        match (streamed, queried) {
            (false, false) => made(&mut random),
            (false, true) => query(&mut random),
            (true, false) => made_on_state(&mut random),
            (true, true) => query_on_state(&mut random),
        }
    }

    /// The function's name.
    pub fn name(&self) -> String {
        let queried = matches!(self.asked, Asked::Query { .. });
        self.call.name.to_string() + if queried { "_words" } else { "" }
    }

    /// Compares the target with `second`. Panics where there is a difference.
    pub fn compare(&self, target: Target) -> Outcome {
        match &self.asked {
            Asked::Made(arguments) => self.call.compare(target, arguments).0,
            Asked::Query { state, bytes } => self
                .call
                .compare_query(target, *state, *bytes)
                .expect("a call that has a query"),
        }
    }
}

/// What the cases of this number draw from.
fn random(seed: u32, number: u32) -> Random {
    Random::new(u64::from(seed) << 32 | u64::from(number))
}

/// A query, also of lengths that no slice has.
fn query(random: &mut Random) -> Case {
    let asked: Vec<&Call> = calls().filter(|call| call.query.is_some()).collect();
    let call = asked[random.below(asked.len())];
    let fitting = fitting(call, random);
    let state = count(call, fitting, random).into();
    let bytes = asked_length(random, |random| bytes(call, random));
    let asked = Asked::Query { state, bytes };
    Case { call, asked }
}

/// A query on a state.
fn query_on_state(random: &mut Random) -> Case {
    let (call, hash) = pick_streamed(&[0, 1, 2], random);
    let state = with_count(call, made_up(call, hash, random), hash, random);
    let bytes = asked_length(random, |random| piece(call, state.fed, random));
    let asked = Asked::Query { state, bytes };
    Case { call, asked }
}

/// A length of the kind that slices have, or any other; some wrap when they are added to another.
fn asked_length(random: &mut Random, length: impl Fn(&mut Random) -> usize) -> usize {
    match random.below(8) {
        0 => random.number(),
        1 => usize::MAX - random.below(64),
        2 => length(random) + (1 << 32),
        _ => length(random),
    }
}

/// A call with its arguments, a quarter of them words at the edges of the range.
fn made(random: &mut Random) -> Case {
    let call = pick(random);
    let fitting = fitting(call, random);
    let right = call.lengths(fitting, quick_bytes(call, fitting, random));
    let lengths = lengths(right, random);
    let mut arguments = Arguments::random(count(call, fitting, random), lengths, random);
    if random.below(4) == 0 {
        arguments.to_edges(random);
    }
    let asked = Asked::Made(arguments.into());
    Case { call, asked }
}

/// Two tags, often of one of the right lengths: the same, nearly the same, of lengths one off, or any.
fn compared(seed: u32, number: u32) -> Case {
    let mut random = random(seed, number);
    let length = [0, 1, 20, 32, random.below(100)][random.below(5)];
    let lengths = Lengths {
        tag: random.below(100),
        ..SAME_TAG.lengths(0, length)
    };
    let mut arguments = Arguments::random(0, lengths, &mut random);
    let mut tag = arguments.bytes.slice().to_vec();
    match random.below(8) {
        0..=2 => {}
        3 | 4 if length > 0 => tag[random.below(length)] ^= 1 << random.below(8),
        5 => drop(tag.pop()),
        6 => tag.push(0),
        _ => tag = arguments.tag.slice().to_vec(),
    }
    arguments.tag.hold(&tag);
    let (call, asked) = (&SAME_TAG, Asked::Made(arguments.into()));
    Case { call, asked }
}

/// A call of a message in pieces on any state, likewise. Most are feeds.
fn made_on_state(random: &mut Random) -> Case {
    let (call, hash) = pick_streamed(&[0, 1, 1, 1, 1, 1, 2, 2], random);
    let state = made_up(call, hash, random);
    let right = call.lengths(state, piece(call, state.fed, random));
    let mut arguments = Arguments::random(state.n, lengths(right, random), random);
    arguments.make_up(with_count(call, state, hash, random), random);
    if random.below(4) == 0 {
        arguments.to_edges(random);
    }
    let asked = Asked::Made(arguments.into());
    Case { call, asked }
}

/// A call of a message in pieces, one of these places among those of any hash, and the hash.
fn pick_streamed(places: &[usize], random: &mut Random) -> (&'static Call, Hash) {
    let hashed = &HASHED[random.below(HASHED.len())];
    let place = places[random.below(places.len())];
    (hashed.stream_calls()[place], hashed.hash)
}

/// A state, mostly a fit one; else it has too many bytes, or one of its other numbers is wrong, or it
/// is fit for the other hash.
fn made_up(call: &Call, hash: Hash, random: &mut Random) -> Outline {
    let mut state = Outline::of(hash, fitting(call, random), fed(random));
    match random.below(64) {
        0 => state.finished = code(random),
        1 => state.hash = [0, 1, 2, code(random)][random.below(4)],
        2 | 3 => state.drawn = other_words(state, hash, random),
        4 => state = Outline::of(hash.other(), state.n, state.fed),
        _ => {}
    }
    state
}

/// The same with the share count that is given. Where that is another, the words are of either count.
fn with_count(call: &Call, state: Outline, hash: Hash, random: &mut Random) -> Outline {
    let mut given = state;
    given.n = count(call, state.n, random);
    if given.n != state.n && random.below(2) == 0 {
        given.drawn = Outline::of(hash, given.n, given.fed).drawn;
    }
    given
}

/// How many bytes a state has: few, nearly all, or around the ends of blocks and of their padding;
/// or too many, some of which are few where a number is cut or a sum wraps.
fn fed(random: &mut Random) -> u64 {
    let (limit, few) = (MESSAGE_LIMIT as u64, random.below(200) as u64);
    match random.below(32) {
        0 => limit + 1 + few * random.below(2) as u64,
        1 => u64::MAX - few,
        2 => random.number() as u64,
        3 => (1 << (32 + random.below(32))) + few,
        4 => random.below(MESSAGE_LIMIT + 1) as u64,
        5 | 6 => limit,
        7..=12 => limit - few,
        13..=18 => {
            let blocks = random.below(MESSAGE_LIMIT / 64);
            (64 * blocks + [0, 1, 55, 56, 63][random.below(5)]) as u64
        }
        19 | 20 => 0,
        _ => few,
    }
}

/// A mark, or a hash: 1, one bit, or any.
fn code(random: &mut Random) -> u32 {
    match random.below(4) {
        0 | 1 => 1,
        2 => 1 << random.below(32),
        _ => random.word(),
    }
}

/// A wrong count of words: one word or one compression off, with those of a finish, of another share
/// count or the other hash, right where a number is cut, near 2^64, or any. At one share, where a
/// compression draws none, it is that of two.
fn other_words(state: Outline, hash: Hash, random: &mut Random) -> u64 {
    let (right, compression) = (state.drawn, hash.compression_words(state.n.max(2)));
    match random.below(11) {
        0 => right.wrapping_add(1),
        1 => right.wrapping_sub(1),
        2 => right.wrapping_add(compression),
        3 => right.wrapping_sub(compression),
        4 => right.wrapping_add(compression * (2 + random.below(2) as u64)),
        5 => Outline::of(hash, near_count(random), state.fed).drawn,
        6 => Outline::of(hash.other(), state.n, state.fed).drawn,
        7 => right.wrapping_add(1 << 32),
        8 => right.wrapping_add(1 << (32 + random.below(32))),
        9 => u64::MAX - random.below(64) as u64,
        _ => random.number() as u64,
    }
}

/// How long a piece is: mostly short; else around the end of the block, or of the limit, or any.
fn piece(call: &Call, fed: u64, random: &mut Random) -> usize {
    if call.limit.is_none() {
        return 0;
    }
    let short = random.below(201);
    let block = 64 - fed as usize % 64;
    let rest = MESSAGE_LIMIT.saturating_sub(fed as usize);
    match random.below(24) {
        0 => MESSAGE_LIMIT + random.below(2),
        1 => MESSAGE_LIMIT + 2 + random.below(MESSAGE_LIMIT),
        2 => rest + 1 + random.below(2),
        3 if random.below(64) == 0 => rest.saturating_sub(random.below(2)),
        4 if random.below(64) == 0 => random.below(rest + 1),
        5..=7 if rest < 200 => rest.saturating_sub(random.below(2)),
        8..=12 => block + random.below(3) - 1,
        13 => 0,
        _ => short,
    }
}

/// Any call. Of the slow ones most are put back.
fn pick(random: &mut Random) -> &'static Call {
    let all: Vec<&Call> = TWO_SHARE_CALLS.iter().chain(calls()).collect();
    loop {
        let call = all[random.below(all.len())];
        if !call.is_slow() || random.below(16) == 0 {
            return call;
        }
    }
}

/// The share count that the slices are made for: mostly a right one, and of a slow call mostly 1
/// or 2, and seldom many.
fn fitting(call: &Call, random: &mut Random) -> usize {
    let most = match (call.is_slow(), random.below(32)) {
        (false, _) | (true, 0) => call.counts.len(),
        (true, 1..=3) => 5,
        (true, _) => 2,
    };
    match random.below(16) {
        0 if call.is_slow() => [0, SHARES_LIMIT + 1][random.below(2)],
        0 => near_count(random),
        _ => call.counts[random.below(most)],
    }
}

/// Any right share count, or one beside them.
fn near_count(random: &mut Random) -> usize {
    random.below(SHARES_LIMIT + 2)
}

/// The share count given: mostly the one that the slices are made for; or another; or one that
/// agrees with it in the low bits, so that it passes where a number is cut or a product wraps.
fn count(call: &Call, fitting: usize, random: &mut Random) -> usize {
    let wrong = call.wrong_counts();
    match random.below(24) {
        0 => wrong[random.below(wrong.len())],
        1 => fitting + (1 << (32 + random.below(32))),
        2 => near_count(random),
        3 => random.number(),
        _ => fitting,
    }
}

/// How many bytes a call is given at so many shares. Of the keys that are hashed and of the long
/// messages, which is slow, most are put back, and more of them where there are more shares; but not
/// the longest message at one or two.
fn quick_bytes(call: &Call, n: usize, random: &mut Random) -> usize {
    let slow = match call.limit {
        Some(KEY_LIMIT) => 65..=KEY_LIMIT,
        _ => quick_message(n) + 1..=MESSAGE_LIMIT,
    };
    loop {
        let bytes = bytes(call, random);
        let longest = bytes == MESSAGE_LIMIT && n <= 2;
        if !slow.contains(&bytes) || longest || random.below(8 * n.max(1)) == 0 {
            return bytes;
        }
    }
}

/// How many bytes there are: mostly few, else up to the limit, around it, or over it.
fn bytes(call: &Call, random: &mut Random) -> usize {
    let Some(limit) = call.limit else {
        return 0;
    };
    match random.below(16) {
        0 => limit + 1 + random.below(limit),
        1 => limit + random.below(2),
        2 => random.below(limit + 1),
        _ if limit == KEY_LIMIT => random.key_length(),
        _ => random.below(limit.min(200) + 1),
    }
}

/// The right lengths in half of the cases, with a word less than is drawn, as many, or some more;
/// else about a third of them wrong.
fn lengths(right: Lengths, random: &mut Random) -> Lengths {
    let mut lengths = right;
    if lengths.words > MOST_WORDS {
        lengths.words = random.below(200);
    }
    let [first, second] = &mut lengths.inputs;
    if random.below(2) == 0 {
        lengths.words = (lengths.words + random.below(8)).saturating_sub(1);
        return lengths;
    }
    let all = [
        first,
        second,
        &mut lengths.output,
        &mut lengths.tag,
        &mut lengths.words,
    ];
    for length in all {
        if random.below(3) == 0 {
            *length = misfit(*length, random);
        }
    }
    lengths
}

/// A length other than the right one, or, seldom, the same: none, one off, double, or any.
fn misfit(right: usize, random: &mut Random) -> usize {
    match random.below(5) {
        0 => 0,
        1 => right.saturating_sub(1),
        2 => right + 1,
        3 => 2 * right,
        _ => random.below(2 * right + 9),
    }
}

#[cfg(test)]
mod tests {
    use super::*;
    use crate::calls::Hashed;
    use crate::tally::Tally;
    use std::collections::{BTreeMap, BTreeSet};

    const HEADER: &str = include_str!("../../../include/flamivorse.h");

    /// The numbers that a call can give, by what it takes.
    fn possible(call: &Call, counted: bool) -> [bool; 7] {
        [
            true,
            counted && !call.on_state,
            call.inputs != [0, 0],
            call.output + call.record + call.tag > 0,
            call.limit.is_some(),
            call.query.is_some(),
            call.on_state,
        ]
    }

    /// The same of its query.
    fn possible_asked(call: &Call) -> [bool; 7] {
        let (state, long) = (call.on_state, call.limit.is_some());
        [true, !state, false, false, long, false, state]
    }

    /// The same for every function.
    fn all_possible() -> BTreeMap<String, [bool; 7]> {
        let two = TWO_SHARE_CALLS.iter().chain([&SAME_TAG]);
        let two = two.map(|call| (call.name.into(), possible(call, false)));
        let calls = calls().chain(HASHED.iter().flat_map(Hashed::stream_calls));
        let queries = calls.clone().filter(|call| call.query.is_some());
        let calls = calls.map(|call| (call.name.into(), possible(call, true)));
        let queries = queries.map(|call| (format!("{}_words", call.name), possible_asked(call)));
        two.chain(calls).chain(queries).collect()
    }

    /// The name at the start of the text, if a parenthesis follows.
    fn function(text: &str) -> Option<String> {
        let end = text.find(|c: char| !c.is_ascii_alphanumeric() && c != '_')?;
        text[end..].starts_with('(').then(|| text[..end].into())
    }

    /// All but the clearing, which hands nothing back; every safe call makes it.
    #[test]
    fn every_function_of_the_header_is_in_the_table() {
        let functions = HEADER.split("flamivorse_").skip(1).filter_map(function);
        let functions = functions.filter(|name| name != "clear_stack" && name != "clear_stack_of");
        let table = all_possible().into_keys().collect();
        assert_eq!(functions.collect::<BTreeSet<_>>(), table);
    }

    #[test]
    fn every_number_of_every_call_comes_up() {
        let mut tally = Tally::default();
        for number in 0..40_000 {
            for case in Case::all(0, number) {
                tally.add(case.name(), case.compare(Target::Rust).number);
            }
        }
        let seen = tally
            .calls()
            .map(|(name, counts)| (name.to_string(), counts.map(|count| count > 0)));
        assert_eq!(seen.collect::<BTreeMap<_, _>>(), all_possible());
    }
}
