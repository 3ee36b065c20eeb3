//! The two-share conversions against `second`, and the refusals of their recording forms.

use crate::report;
use fuzz::calls::{Call, Target, TWO_SHARE_CALLS};
use fuzz::lent::Arguments;
use fuzz::random::{Random, EDGES};

/// How many random triples each conversion is tried on.
const REPEATS: usize = 2000;

/// All triples of edges, then random ones.
fn triples() -> Vec<[u32; 3]> {
    let mut triples = Vec::new();
    for x in EDGES {
        for r in EDGES {
            triples.extend(EDGES.map(|g| [x, r, g]));
        }
    }
    let mut random = Random::new(100);
    triples.extend((0..REPEATS).map(|_| [random.word(), random.word(), random.word()]));
    triples
}

#[test]
fn working_forms() {
    let triples = triples();
    for &[x, r, g] in &triples {
        let arithmetic = flamivorse::b2a_2(x, r, g);
        assert_eq!(arithmetic, second::b2a_2(x, r, g));
        assert_eq!(arithmetic.wrapping_add(r), x ^ r);
        let boolean = flamivorse::a2b_2(x, r, g);
        assert_eq!(boolean, second::a2b_2(x, r, g));
        assert_eq!(boolean ^ r, x.wrapping_add(r));
    }
    report(2 * triples.len(), "two-share working forms against second");
}

/// Compares records, a quarter of them of any length up to twice the right one.
fn compare_records(call: &Call, triples: &[[u32; 3]]) {
    let mut random = Random::new(101);
    for (case, &values) in triples.iter().enumerate() {
        let mut lengths = call.lengths(2, 0);
        if case % 4 == 0 {
            lengths.output = case % (2 * call.record);
        }
        let mut arguments = Arguments::random(2, lengths, &mut random);
        arguments.values = values;
        let (outcome, _) = call.compare(Target::Rust, &arguments);
        let right = lengths.output == call.record;
        assert_eq!(outcome.number, if right { 0 } else { 3 });
    }
}

#[test]
fn recording_forms() {
    let triples = triples();
    let recording = TWO_SHARE_CALLS.iter().filter(|call| call.record > 0);
    let forms = recording
        .map(|call| compare_records(call, &triples))
        .count();
    report(
        forms * triples.len(),
        "two-share recording forms against second, a quarter with other lengths",
    );
}
