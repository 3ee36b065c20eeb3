//! However a message is cut, its end state is the same for the same words, and its tag is that of the
//! one-call form and of RustCrypto.

use crate::{report, TARGETS};
use flamivorse::MESSAGE_LIMIT;
use fuzz::calls::{quick_message, Call, Hashed, Target, SOME_COUNTS};
use fuzz::lent::{Arguments, Lengths};
use fuzz::outside::Vector;
use fuzz::random::Random;

with_each_hash!(cuts_of_the_rfc, cuts_of_random_messages, longest_message);

/// A message on its way: all that its calls are lent, the state among it, and the words to come.
#[derive(Clone)]
struct Run {
    calls: &'static Hashed,
    target: Target,
    lent: Arguments,
    words: Random,
    drawn: u64,
}

impl Run {
    /// Before the start, under this key.
    fn new(calls: &'static Hashed, target: Target, n: usize, key: &[u8]) -> Run {
        let (split_key, mut random) = (&calls.split_key, Random::new(600));
        let mut lent = Arguments::random(n, split_key.lengths(n, key.len()), &mut random);
        lent.bytes.hold(key);
        let (outcome, split) = split_key.compare(target, &lent);
        assert_eq!(outcome.number, 0);
        let lengths = Lengths {
            tag: calls.finish.tag,
            ..calls.start.lengths(n, 0)
        };
        let mut lent = Arguments::random(n, lengths, &mut random);
        lent.inputs[0].hold(split.output.slice());
        Run {
            calls,
            target,
            lent,
            words: random,
            drawn: 0,
        }
    }

    /// Makes a call with exactly the words that its query tells, now and then with more.
    fn make(&mut self, call: &Call, piece: &[u8]) {
        let asked = call.compare_query(self.target, self.lent.state, piece.len());
        let need = asked.expect("a call that has a query");
        let words = self.words.words(need.count as usize);
        self.lent.bytes.hold(piece);
        self.lent.words.hold(&words);
        if self.lent.state.fed % 3 == 1 {
            self.lent.words.resize(words.len() + 5);
        }
        let (outcome, after) = call.compare(self.target, &self.lent);
        assert_eq!((outcome.number, outcome), (0, need), "{}", call.name);
        self.lent = after;
        self.drawn += need.count;
    }

    /// Feeds a message in pieces of these lengths. After each the state counts all words so far.
    fn feed(&mut self, message: &[u8], lengths: &[usize]) {
        let mut rest = message;
        for &length in lengths {
            let (piece, after) = rest.split_at(length);
            self.make(&self.calls.feed, piece);
            assert_eq!(self.lent.state.drawn, self.drawn);
            rest = after;
        }
        assert!(rest.is_empty());
    }

    /// Compares the end of two runs: the state, field by field, and how many words were drawn.
    fn ends_as(&self, other: &Run) -> bool {
        let (a, b) = (&self.lent, &other.lent);
        let chains = (&a.chain, &a.outer) == (&b.chain, &b.outer);
        a.state == b.state && chains && a.tail == b.tail && self.drawn == other.drawn
    }
}

/// Compares every one of these cuts with the first, with the one-call form and with RustCrypto.
fn compare_cuts(
    calls: &'static Hashed,
    n: usize,
    (key, message): (&[u8], &[u8]),
    cuts: &[Vec<usize>],
) -> usize {
    let tag = calls.hash.outside_tag(key, message);
    for target in TARGETS {
        let mut started = Run::new(calls, target, n, key);
        let mut whole = started.clone();
        whole.make(&calls.hmac, message);
        assert_eq!(whole.lent.tag.slice(), tag);
        started.make(&calls.start, &[]);
        let mut first: Option<Run> = None;
        for lengths in cuts {
            let mut run = started.clone();
            run.feed(message, lengths);
            let same = run.ends_as(first.get_or_insert(run.clone()));
            assert!(same, "{lengths:?} at n = {n}");
            run.make(&calls.finish, &[]);
            assert_eq!(run.lent.tag.slice(), tag, "{lengths:?} at n = {n}");
            assert_eq!(run.drawn, whole.drawn);
        }
    }
    TARGETS.len() * cuts.len()
}

/// Every cut in two, empty pieces among them, and single bytes.
fn every_cut(length: usize) -> Vec<Vec<usize>> {
    let in_two = (0..=length).map(|first| vec![first, length - first]);
    in_two.chain([vec![1; length]]).collect()
}

/// Pieces of lengths that are drawn one by one, from what is left.
fn pieces(length: usize, mut next: impl FnMut(usize) -> usize) -> Vec<usize> {
    let (mut lengths, mut rest) = (vec![], length);
    while rest > 0 {
        let piece = next(rest).min(rest);
        lengths.push(piece);
        rest -= piece;
    }
    lengths
}

/// Single bytes; pieces around a block; any, a third of them empty; the whole.
fn some_cuts(length: usize, random: &mut Random) -> [Vec<usize>; 4] {
    let around = pieces(length, |_| 62 + random.below(5));
    let any = pieces(length, |rest| {
        let most = [0, 130, rest][random.below(3)];
        random.below(most + 1)
    });
    [vec![1; length], around, any, vec![length]]
}

/// Every cut at up to four shares; some at more, where each draws many words, and where the key is
/// hashed, since the calls of a message know nothing of that.
fn cuts_of_the_rfc(calls: &'static Hashed) {
    let mut random = Random::new(604);
    let mut cases = 0;
    for Vector { key, message, tag } in calls.hash.vectors() {
        let outside = calls.hash.outside_tag(&key, &message);
        assert!(outside.starts_with(&tag));
        let (every, some) = (
            every_cut(message.len()),
            some_cuts(message.len(), &mut random),
        );
        for n in SOME_COUNTS {
            let cuts = match (n, key.len()) {
                (..=4, ..=64) => &every[..],
                (..=8, _) => &some[..],
                _ => &some[..2],
            };
            cases += compare_cuts(calls, n, (&key, &message), cuts);
        }
    }
    report(
        calls.hash,
        cases,
        "cuts of the RFC's messages by Rust and C, against second",
    );
}

/// At each share count lengths around the ends of blocks and of their padding, then any, and the
/// longest that is quick; fewer of them, and fewer cuts, where they draw more words.
fn cuts_of_random_messages(calls: &'static Hashed) {
    let mut random = Random::new(601);
    let mut cases = 0;
    let tried = [(2, 4), (1, 4), (0, 2), (1, 3), (0, 2), (0, 2), (0, 1)];
    for (n, (any, cuts)) in SOME_COUNTS.into_iter().zip(tried) {
        let any = (0..any).map(|_| random.below(quick_message(n)));
        let any: Vec<_> = any.chain([quick_message(n)]).collect();
        for length in [0, 55, 56, 64, 65, 183].into_iter().chain(any) {
            let key = random.key_length();
            let (key, message) = (random.bytes(key), random.bytes(length));
            let lengths = some_cuts(length, &mut random);
            cases += compare_cuts(calls, n, (&key, &message), &lengths[..cuts]);
        }
    }
    report(
        calls.hash,
        cases,
        "cuts of random messages by Rust and C, against second",
    );
}

/// The longest message in pieces around a block, with words made for each of them.
fn longest_message(calls: &'static Hashed) {
    let counts = [1, 2, 3];
    let mut random = Random::new(605);
    let message = random.bytes(MESSAGE_LIMIT);
    let tag = calls.hash.outside_tag(b"key", &message);
    let lengths = pieces(MESSAGE_LIMIT, |_| 62 + random.below(5));
    for (n, target) in counts.into_iter().zip([Target::Rust, Target::C, Target::C]) {
        let mut run = Run::new(calls, target, n, b"key");
        run.make(&calls.start, &[]);
        run.feed(&message, &lengths);
        run.make(&calls.finish, &[]);
        assert_eq!(run.lent.tag.slice(), tag);
    }
    report(
        calls.hash,
        counts.len(),
        "longest messages by Rust and C, against second",
    );
}
