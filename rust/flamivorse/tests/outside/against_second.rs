//! Every call on n shares against `second`, on random shares, words and lengths: the shares, the
//! counts, and every slice that was lent.

use crate::report;
use flamivorse::{KEY_LIMIT, SHARES_LIMIT};
use fuzz::calls::{quick_message, refused, Call, Target, SOME_COUNTS};
use fuzz::lent::Arguments;
use fuzz::random::Random;

/// The share counts that a call is tried at: all that it takes; some where it is slow.
pub fn counts(call: &Call) -> &'static [usize] {
    match call.is_slow() {
        true => &SOME_COUNTS,
        false => call.counts,
    }
}

/// How many random cases a call has at a share count: fewer where they draw more words.
fn repeats(call: &Call, n: usize) -> usize {
    let words = call.lengths(n, 0).words;
    (2_000_000 / words.max(1)).clamp(1, 60)
}

/// A length that the call takes: mostly short, now and then any. At up to eight shares one key in
/// eight is hashed, which is slow.
fn length(call: &Call, n: usize, random: &mut Random) -> usize {
    match call.limit {
        None => 0,
        Some(KEY_LIMIT) if n > 8 || random.below(2) == 0 => random.below(65),
        Some(KEY_LIMIT) => random.key_length(),
        Some(_) if random.below(12) == 0 => random.below(quick_message(n) + 1),
        Some(_) => random.below(quick_message(n).min(200) + 1),
    }
}

/// One random case: with exactly the words that the query tells, with more, with others after those
/// drawn, and with one word less. Gives how many cases that were.
pub fn compare_supplies(call: &Call, exact: Arguments, random: &mut Random) -> usize {
    let (outcome, after) = call.compare(Target::Rust, &exact);
    assert_eq!(outcome.number, 0, "{}", call.name);
    if call.query.is_none() {
        return 1;
    }
    let drawn = exact.words.slice().len();
    let mut longer = exact.clone();
    longer.words.resize(drawn + 1 + random.below(9));
    for _ in 0..2 {
        let (again, mut longer_after) = call.compare(Target::Rust, &longer);
        longer_after.words = after.words.clone();
        assert!(again == outcome, "{}: the tail has a say", call.name);
        assert!(longer_after == after, "{}: the tail has a say", call.name);
        longer.words.slice_mut()[drawn..].fill_with(|| random.word());
    }
    if drawn == 0 {
        return 3;
    }
    let mut shorter = exact;
    shorter.words.resize(drawn - 1);
    let (outcome, after) = call.compare(Target::Rust, &shorter);
    assert_eq!(outcome, refused(5), "{}: one word less", call.name);
    assert!(after == shorter, "{}: one word less", call.name);
    4
}

#[test]
fn calls() {
    for (seed, call) in fuzz::calls::calls().enumerate() {
        let mut random = Random::new(seed as u64);
        let mut cases = 0;
        for &n in counts(call) {
            for _ in 0..repeats(call, n) {
                let lengths = call.lengths(n, length(call, n, &mut random));
                let exact = Arguments::random(n, lengths, &mut random);
                cases += compare_supplies(call, exact, &mut random);
            }
        }
        report(cases, &format!("{} against second", call.name));
    }
}

#[test]
fn queries() {
    let mut asked = 0;
    for call in fuzz::calls::calls().filter(|call| call.query.is_some()) {
        let lengths = call.limit.map_or(vec![0], |limit| {
            (0..=limit + 1).chain([1 << 31, usize::MAX]).collect()
        });
        for n in (0..=SHARES_LIMIT).chain(call.wrong_counts()) {
            for &bytes in &lengths {
                call.compare_query(Target::Rust, n, bytes);
            }
            asked += lengths.len();
        }
    }
    println!("queries: {asked}, against second");
}
