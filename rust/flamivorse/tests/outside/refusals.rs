//! Refusals: every number, every combination of two faults, and wrong share counts. Each is
//! compared with `second` and with what the rules say: the least number, no words drawn, and every
//! slice and its guards as they came.

use crate::against_second::counts;
use crate::report;
use flamivorse::{KEY_LIMIT, SHARES_LIMIT};
use fuzz::calls::{calls, refused, Call, Target};
use fuzz::lent::Arguments;
use fuzz::random::Random;

/// What can be wrong with the arguments of a call.
#[derive(Clone, Copy, Debug, PartialEq)]
enum Place {
    ShareCount,
    Input(usize),
    Output,
    Tag,
    Bytes,
    Words,
}

/// A wrong share count, or a wrong length.
#[derive(Clone, Copy, Debug)]
struct Fault {
    place: Place,
    value: usize,
}

impl Fault {
    fn number(self) -> u32 {
        match self.place {
            Place::ShareCount => 1,
            Place::Input(_) => 2,
            Place::Output | Place::Tag => 3,
            Place::Bytes => 4,
            Place::Words => 5,
        }
    }

    fn apply(self, arguments: &mut Arguments) {
        match self.place {
            Place::ShareCount => arguments.state.n = self.value,
            Place::Input(which) => arguments.inputs[which].resize(self.value),
            Place::Output => arguments.output.resize(self.value),
            Place::Tag => arguments.tag.resize(self.value),
            Place::Bytes => arguments.bytes.resize(self.value),
            Place::Words => arguments.words.resize(self.value),
        }
    }
}

/// Wrong lengths beside the right one, where the call takes such a slice at all.
fn wrong_lengths(right: usize) -> Vec<usize> {
    match right {
        0 => vec![],
        1 => vec![0, 2],
        _ => vec![0, right - 1, right + 1, 2 * right],
    }
}

/// Every fault that the call can have at this share count.
fn faults(call: &Call, n: usize, arguments: &Arguments) -> Vec<Fault> {
    let words = arguments.words.slice().len();
    let mut short = wrong_lengths(words);
    short.retain(|&length| length < words);
    let long = call
        .limit
        .map_or(vec![], |limit| vec![limit + 1, 2 * limit]);
    let wrong = [
        (Place::ShareCount, call.wrong_counts()),
        (Place::Input(0), wrong_lengths(call.inputs[0] * n)),
        (Place::Input(1), wrong_lengths(call.inputs[1] * n)),
        (Place::Output, wrong_lengths(call.output * n)),
        (Place::Tag, wrong_lengths(call.tag)),
        (Place::Bytes, long),
        (Place::Words, short),
    ];
    let faults = |(place, values): (Place, Vec<usize>)| {
        values.into_iter().map(move |value| Fault { place, value })
    };
    wrong.into_iter().flat_map(faults).collect()
}

/// Makes the call with these faults: the least of their numbers is given, and nothing else happens.
fn compare_faults(call: &Call, arguments: &Arguments, faults: &[Fault]) {
    let mut arguments = arguments.clone();
    faults.iter().for_each(|fault| fault.apply(&mut arguments));
    let (outcome, after) = call.compare(Target::Rust, &arguments);
    let number = faults.iter().map(|fault| fault.number()).min().unwrap_or(0);
    assert_eq!(outcome, refused(number), "{} with {faults:?}", call.name);
    assert!(
        after == arguments,
        "{} with {faults:?}: a refusal changed something",
        call.name
    );
}

/// Each fault by itself, and with each fault in another place. Gives how many cases that were.
fn compare_all(call: &Call, arguments: &Arguments, faults: &[Fault]) -> usize {
    let mut cases = 0;
    for (place, fault) in faults.iter().enumerate() {
        compare_faults(call, arguments, &[*fault]);
        let others = faults[place + 1..]
            .iter()
            .filter(|other| other.place != fault.place);
        cases += 1 + others
            .map(|other| compare_faults(call, arguments, &[*fault, *other]))
            .count();
    }
    cases
}

/// How many bytes a call is given: of a key few, which are padded, and at some share counts more,
/// which are hashed.
fn byte_counts(call: &Call, n: usize) -> &'static [usize] {
    match call.limit {
        None => &[0],
        Some(KEY_LIMIT) if n <= 4 => &[20, 100],
        Some(_) => &[20],
    }
}

#[test]
fn every_fault_and_every_two_faults() {
    for (seed, call) in calls().enumerate() {
        let mut random = Random::new(200 + seed as u64);
        let mut cases = 0;
        for &n in counts(call) {
            for &bytes in byte_counts(call, n) {
                let arguments = Arguments::random(n, call.lengths(n, bytes), &mut random);
                cases += compare_all(call, &arguments, &faults(call, n, &arguments));
            }
        }
        report(cases, &format!("{} with one fault or two", call.name));
    }
}

/// A wrong share count with slices of just the lengths that it would ask for, if it were a right
/// one.
#[test]
fn wrong_share_counts_with_fitting_slices() {
    let mut random = Random::new(300);
    let mut cases = 0;
    for call in calls() {
        let counts = call.wrong_counts().into_iter();
        for value in counts.filter(|&n| n <= 2 * SHARES_LIMIT) {
            for words in [0, 10_000] {
                let mut lengths = call.lengths(value, call.limit.map_or(0, |_| 20));
                lengths.words = words;
                let arguments = Arguments::random(value, lengths, &mut random);
                compare_faults(
                    call,
                    &arguments,
                    &[Fault {
                        place: Place::ShareCount,
                        value,
                    }],
                );
                cases += 1;
            }
        }
    }
    report(cases, "wrong share counts with slices that would fit");
}
