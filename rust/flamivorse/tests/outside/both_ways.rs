//! Both ways from Boolean to arithmetic, on the same input: whatever words are lent, the shares of
//! either add up to what the input opens to. The shares themselves are compared with `second`.

use crate::report;
use flamivorse::{open_sum, open_xor, B2A_SHORT_COUNTS};
use fuzz::calls::{named, Target};
use fuzz::lent::Arguments;
use fuzz::random::Random;

/// How many inputs there are at each share count, every other one with words at the edges of the range.
const REPEATS: usize = 200;

#[test]
fn open_to_the_same_secret() {
    let ways = ["b2a", "b2a_short"].map(named);
    let mut random = Random::new(800);
    for n in B2A_SHORT_COUNTS {
        for repeat in 0..REPEATS {
            let lent = ways.map(|call| Arguments::random(n, call.lengths(n, 0), &mut random));
            let [mut long, mut short] = lent;
            if repeat % 2 == 1 {
                long.to_edges(&mut random);
                short.to_edges(&mut random);
            }
            short.inputs[0] = long.inputs[0].clone();
            let secret = open_xor(n, long.inputs[0].slice());
            for (call, exact) in ways.into_iter().zip([long, short]) {
                let (_, after) = call.compare(Target::Rust, &exact);
                let sum = open_sum(n, after.output.slice());
                assert_eq!(sum, secret, "{} of {exact:x?}", call.name);
            }
        }
    }
    report(
        2 * B2A_SHORT_COUNTS.len() * REPEATS,
        "conversions opened, by both ways",
    );
}
