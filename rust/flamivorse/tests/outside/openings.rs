//! What shares open to, at every share count and whatever words are lent: the operation on what the
//! inputs open to.

use crate::report;
use flamivorse::{open_sum, open_xor, Refusal};
use fuzz::calls::{named, Target, COUNTS};
use fuzz::lent::Arguments;
use fuzz::random::Random;

/// How many inputs there are at each share count, every other one with words at the edges of the range.
const REPEATS: usize = 40;

/// The XOR of shares, of any count.
fn xor(shares: &[u32]) -> u32 {
    shares.iter().fold(0, |opened, share| opened ^ share)
}

/// Makes the call of this name by Rust, with the words that it draws, and gives the arguments as they
/// came and what it wrote.
fn made(name: &str, n: usize, repeat: usize, random: &mut Random) -> (Arguments, Vec<u32>) {
    let call = named(name);
    let mut given = Arguments::random(n, call.lengths(n, 0), random);
    if repeat % 2 == 1 {
        given.to_edges(random);
    }
    let (outcome, after) = call.compare(Target::Rust, &given);
    assert_eq!(outcome.number, 0);
    (given, after.output.slice().to_vec())
}

/// What a call with these inputs opens to, in Boolean shares.
fn expected(name: &str, given: &Arguments) -> u32 {
    let [x, y] = [0, 1].map(|place| xor(given.inputs[place].slice()));
    match name {
        "split" => given.values[0],
        "refresh" | "expand" => x,
        "and" => x & y,
        _ => x.wrapping_add(y),
    }
}

#[test]
fn of_shares() {
    let names = ["split", "refresh", "expand", "and", "add"];
    let mut random = Random::new(900);
    for n in COUNTS {
        for name in names {
            for repeat in 0..REPEATS {
                let (given, output) = made(name, n, repeat, &mut random);
                assert_eq!(xor(&output), expected(name, &given), "{name} of {given:x?}");
            }
        }
    }
    report(names.len() * COUNTS.len() * REPEATS, "shares opened");
}

/// How shares are opened: by XOR or by sum.
type Open = fn(usize, &[u32]) -> Result<u32, Refusal>;

/// Each conversion, and the other one on what it gave.
const CONVERSIONS: [(&str, &str, [Open; 2]); 2] = [
    ("b2a", "a2b", [open_xor, open_sum]),
    ("a2b", "b2a", [open_sum, open_xor]),
];

#[test]
fn there_and_back() {
    let mut random = Random::new(901);
    for n in COUNTS {
        for (there, back, [before, between]) in CONVERSIONS {
            for repeat in 0..REPEATS {
                let (given, output) = made(there, n, repeat, &mut random);
                let secret = before(n, given.inputs[0].slice());
                assert_eq!(between(n, &output), secret, "{there} of {given:x?}");
                let call = named(back);
                let mut again = Arguments::random(n, call.lengths(n, 0), &mut random);
                again.inputs[0].hold(&output);
                let (_, after) = call.compare(Target::Rust, &again);
                let opened = before(n, after.output.slice());
                assert_eq!(opened, secret, "{back} of {again:x?}");
            }
        }
    }
    let cases = CONVERSIONS.len() * 2 * COUNTS.len() * REPEATS;
    report(cases, "conversions there and back");
}
