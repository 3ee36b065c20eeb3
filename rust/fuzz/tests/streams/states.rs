//! States of any kind: what is not read of them has no say, and is 0 after a start or a feed; a
//! refusal and a finish hand them back as they came; which fault is told first; the queries.

use crate::{report, TARGETS};
use flamivorse::MESSAGE_LIMIT;
use fuzz::calls::{refused, Call, Hashed, Outcome, Target, COUNTS, SOME_COUNTS, WRONG_COUNTS};
use fuzz::hashes::Hash;
use fuzz::lent::{Arguments, Outline};
use fuzz::random::Random;

with_each_hash!(
    unread_places_have_no_say,
    every_combination_of_faults,
    queries
);

/// The most bytes that a state can have.
const LIMIT: u64 = MESSAGE_LIMIT as u64;

/// Where the places of a state begin that a call does not read: in its chains, and in its tail.
fn unread(call: &Call, state: Outline) -> (usize, usize) {
    let fits = |hash: &Hash| state == Outline::of(*hash, state.n, state.fed);
    match call.hash.filter(fits) {
        Some(hash) if COUNTS.contains(&state.n) && state.fed <= LIMIT => {
            (hash.words() * state.n, state.fed as usize % 64)
        }
        _ => (0, 0),
    }
}

/// Whether these places are 0.
fn is_cleared(call: &Call, state: &Arguments) -> bool {
    let (words, bytes) = unread(call, state.state);
    let mut chains = [&state.chain, &state.outer].into_iter();
    chains.all(|chain| chain.slice()[words..].iter().all(|&word| word == 0))
        && state.tail.slice()[bytes..].iter().all(|&byte| byte == 0)
}

/// Whether the state came back as it was, but for the mark of an accepted finish, and no slice but
/// that one's tag is another.
fn is_kept(given: &Arguments, outcome: Outcome, after: &Arguments) -> bool {
    let mut expected = given.clone();
    if outcome.number == 0 {
        expected.state.finished = 1;
        expected.tag = after.tag.clone();
    }
    *after == expected
}

/// Makes a call twice, the second time with other contents in the places that are not read: both
/// answers are the same, but for the state that a refusal and a finish hand back as it came.
fn compare_unread(call: &Call, target: Target, given: &Arguments, random: &mut Random) -> Outcome {
    let (words, bytes) = unread(call, given.state);
    let mut other = given.clone();
    for chain in [&mut other.chain, &mut other.outer] {
        chain.slice_mut()[words..].fill_with(|| random.word());
    }
    other.tail.slice_mut()[bytes..].fill_with(|| random.word() as u8);
    let (outcome, after) = call.compare(target, given);
    let (again, other_after) = call.compare(target, &other);
    assert_eq!(outcome, again);
    if call.on_state && (outcome.number != 0 || call.tag > 0) {
        assert!(is_kept(given, outcome, &after) && is_kept(&other, outcome, &other_after));
        assert!(after.tag == other_after.tag);
    } else {
        assert!(is_cleared(call, &after) && after == other_after);
    }
    outcome
}

/// A call on this state, made with the words that it draws and, where it draws any, with one less.
/// Gives how many cases that were.
fn compare_supplies(call: &Call, state: Outline, piece: usize, random: &mut Random) -> usize {
    let mut given = Arguments::random(state.n, call.lengths(state, piece), random);
    given.make_up(state, random);
    let drawn = given.words.slice().len();
    let mut short = given.clone();
    short.words.resize(drawn.saturating_sub(1));
    for target in TARGETS {
        let outcome = compare_unread(call, target, &given, random);
        assert_eq!((outcome.number, outcome.count), (0, drawn as u64));
        if drawn > 0 {
            let outcome = compare_unread(call, target, &short, random);
            assert_eq!(outcome, refused(5));
        }
    }
    TARGETS.len() * (1 + usize::from(drawn > 0))
}

/// Bytes so far and the next piece: that ends before a block does, with it, and after it; with an
/// empty tail; with padding of two blocks; up to the limit, and at it.
const FIT: [(u64, usize); 7] = [
    (3, 60),
    (3, 61),
    (63, 66),
    (0, 0),
    (119, 0),
    (LIMIT - 96, 96),
    (LIMIT, 0),
];

fn unread_places_have_no_say(calls: &Hashed) {
    let mut random = Random::new(602);
    let mut cases = 0;
    for n in SOME_COUNTS {
        for (fed, piece) in FIT {
            let state = Outline::of(calls.hash, n, fed);
            for call in calls.stream_calls() {
                cases += compare_supplies(call, state, piece, &mut random);
            }
        }
    }
    report(
        calls.hash,
        cases,
        "states with anything in the places not read",
    );
}

/// The same state with counts of words that are not its own: a word or a compression off, with those
/// of a finish, of two shares or three, of the other hash, right but for the upper half, and at the
/// end of 64 bits.
fn miscounted(hash: Hash, fit: Outline) -> impl Iterator<Item = Outline> {
    let (right, compression) = (fit.drawn, hash.compression_words(fit.n));
    let off = [1, compression].map(|words| [right.wrapping_sub(words), right + words]);
    let finished = [2, 3].map(|compressions| right + compressions * compression);
    let others = [(hash, 2), (hash, 3), (hash.other(), fit.n)];
    let others = others.map(|(hash, n)| Outline::of(hash, n, fit.fed).drawn);
    let wide = [right + (1 << 32), right + (1 << 63), u64::MAX];
    let all = [off.as_flattened(), &finished, &others, &wide].concat();
    let states = all.into_iter().map(move |drawn| Outline { drawn, ..fit });
    states.filter(move |state| *state != fit)
}

/// States of n shares: one that is fit for a hash, and unfit ones by their share count, their bytes,
/// their mark, their hash and their count of words; and one that is fit for the other hash.
fn states(hash: Hash, n: usize) -> Vec<Outline> {
    let fit = Outline::of(hash, n, 70);
    let counts = WRONG_COUNTS.map(|n| Outline::of(hash, n, 70));
    let bytes = [LIMIT + 1, 70 + (1 << 32), u64::MAX].map(|fed| Outline::of(hash, n, fed));
    let marks = [1, 2, 1 << 31, u32::MAX].map(|finished| Outline { finished, ..fit });
    let codes = [hash.other().code(), 2, 1 << 31, u32::MAX];
    let hashes = codes.map(|hash| Outline { hash, ..fit });
    let other = Outline::of(hash.other(), n, 70);
    let others = counts.into_iter().chain(bytes).chain(marks).chain(hashes);
    let unfit = others.chain(miscounted(hash, fit)).chain([other]);
    [fit].into_iter().chain(unfit).collect()
}

/// Which of the numbers is told first where the state is unfit, where the piece is too long or the
/// tag has another length, and where there is a word too few.
fn first(call: &Call, [unfit, wrong, short]: [bool; 3]) -> u32 {
    match (unfit, wrong, short) {
        (true, _, _) => 6,
        (_, true, _) if call.tag > 0 => 3,
        (_, true, _) => 4,
        (_, _, true) => 5,
        _ => 0,
    }
}

/// A feed or a finish on each of these states, the first of which is fit, with these two faults.
fn compare_faults(
    call: &Call,
    states: &[Outline],
    wrong: bool,
    short: bool,
    random: &mut Random,
) -> usize {
    let mut lengths = call.lengths(states[0], 64);
    if wrong {
        (lengths.bytes, lengths.tag) = (MESSAGE_LIMIT - 69, call.tag.saturating_sub(1));
    }
    let short = short && lengths.words > 0;
    lengths.words -= usize::from(short);
    let mut given = Arguments::random(states[0].n, lengths, random);
    for (place, &state) in states.iter().enumerate() {
        given.make_up(state, random);
        for target in TARGETS {
            let outcome = compare_unread(call, target, &given, random);
            assert_eq!(outcome.number, first(call, [place > 0, wrong, short]));
        }
    }
    TARGETS.len() * states.len()
}

fn every_combination_of_faults(calls: &Hashed) {
    let mut random = Random::new(603);
    let mut cases = 0;
    for states in SOME_COUNTS.map(|n| states(calls.hash, n)) {
        for call in [&calls.feed, &calls.finish] {
            for faults in 0..4 {
                let (wrong, short) = (faults & 1 > 0, faults & 2 > 0);
                cases += compare_faults(call, &states, wrong, short, &mut random);
            }
        }
    }
    report(
        calls.hash,
        cases,
        "feeds and finishes with every combination of faults",
    );
}

/// Numbers of bytes from 0 on, around the limit, and at the ends of 32 and 64 bits.
fn lengths() -> impl Iterator<Item = u64> {
    let edges = [LIMIT, 1 << 32, u64::MAX];
    let around = edges.map(|edge| edge - 66..=edge.saturating_add(1));
    (0..=130).chain(around.into_iter().flatten())
}

/// Asks each call on a state how many words it draws, for pieces of many lengths.
fn compare_queries(calls: &Hashed, target: Target, state: Outline) -> usize {
    calls.start.compare_query(target, state, 0);
    calls.finish.compare_query(target, state, 0);
    let pieces = lengths().step_by(5);
    let fed = pieces.map(|piece| calls.feed.compare_query(target, state, piece as usize));
    2 + fed.count()
}

/// A state with its own count of words, and with one that is a word or a compression more; finished;
/// called another hash's, and of the other hash.
fn kinds(hash: Hash, n: usize, fed: u64) -> [Outline; 6] {
    let state = Outline::of(hash, n, fed);
    let more = |words| Outline {
        drawn: state.drawn.wrapping_add(words),
        ..state
    };
    let (finished, code) = (1, hash.other().code());
    [
        state,
        more(1),
        more(hash.compression_words(n)),
        Outline { finished, ..state },
        Outline {
            hash: code,
            ..state
        },
        Outline::of(hash.other(), n, fed),
    ]
}

fn queries(calls: &Hashed) {
    let (mut asked, hash) = (0, calls.hash);
    for n in COUNTS.into_iter().chain(WRONG_COUNTS) {
        for state in lengths().flat_map(|fed| kinds(hash, n, fed)) {
            asked += TARGETS
                .map(|target| compare_queries(calls, target, state))
                .iter()
                .sum::<usize>();
        }
    }
    println!("queries: {asked}, {hash:?}: on states, against second");
}
