//! How fast the archive is beside the same steps in optimised Rust.
//!
//! ```text
//! bench                                times every step on both sides in turns, and prints the ratios
//! bench STEP N SIDE REPEATS [BYTES]    makes one step so often and prints nothing, to count instructions
//! bench time N BYTES                   times the archive's tag of so many bytes, in microseconds
//! bench plot UNIT                      draws lines `shares bytes figure` of its input as an SVG
//! ```

mod optimised;
mod plot;

use flamivorse::{
    ChainOf, Drawn, Needed, Refusal, State, B2A_SHORT_COUNTS, CHAIN_WORDS, MESSAGE_LIMIT,
    SHA256_CHAIN_WORDS, SHA256_TAG_BYTES, SHARES_LIMIT, TAG_BYTES,
};
use optimised::{Convert, ConvertShort, Hash, Optimised, Sha1, Sha256, Supply};
use std::hint::black_box;
use std::time::{Duration, Instant};

/// Those of a hash are SHA-1's, and the same with the name of the other one before them.
const STEPS: [&str; 15] = [
    "refresh",
    "addition",
    "a2b",
    "b2a",
    "b2a-short",
    "compression",
    "key",
    "long-key",
    "tag",
    "streamed",
    "sha256-compression",
    "sha256-key",
    "sha256-long-key",
    "sha256-tag",
    "sha256-streamed",
];

/// What stands before the steps of SHA-256.
const OTHER: &str = "sha256-";

/// The share counts at which a step is measured. A tag at 16 shares needs a third of a gigabyte of
/// words at once.
fn counts(step: &str) -> &'static [usize] {
    match step.trim_start_matches(OTHER) {
        "b2a-short" => &B2A_SHORT_COUNTS,
        "tag" | "streamed" => &[1, 2, 3, 4, 8],
        _ => &[1, 2, 3, 4, 8, SHARES_LIMIT],
    }
}

/// The key that a step splits: a block, or more than a block, which is hashed as well.
fn key(step: &str) -> &'static [u8] {
    match step.trim_start_matches(OTHER) {
        "key" => &[0x61; 64],
        _ => &[0x61; 100],
    }
}

/// The longest message, and how many bytes of it a tag is of unless its length is given: at 8 shares
/// the words of one call still fit into memory.
const MESSAGE: &[u8] = &[0x61; MESSAGE_LIMIT];
const TAGGED: usize = 4096;

/// The pieces of a streamed message: blocks, the shortest with which each feed has one to compress.
const PIECE: usize = 64;

/// The arguments of every step fit.
const DONE: &str = "the arguments are right";

/// What one measurement takes at least. Short, so that some fall between whatever else runs.
const SPAN: Duration = Duration::from_millis(2);

/// How many measurements are made of each side, in turns, and for how long, at least.
const TURNS: usize = 15;
const BUDGET: Duration = Duration::from_secs(1);

/// Makes a step once, and gives a number that depends on the whole answer.
type Step = Box<dyn FnMut() -> u32>;

/// What both sides of a step read: the very same words of memory, so that neither has them nearer.
#[derive(Clone, Copy)]
struct Lent {
    input: &'static [u32],
    message: &'static [u8],
    words: &'static [u32],
}

/// Random words, the same in every run.
fn random_words(count: usize) -> &'static [u32] {
    let mut state = 1u64;
    let next = || {
        state = state
            .wrapping_mul(6_364_136_223_846_793_005)
            .wrapping_add(1);
        (state >> 32) as u32
    };
    std::iter::repeat_with(next)
        .take(count)
        .collect::<Vec<_>>()
        .leak()
}

fn digest(words: impl IntoIterator<Item = u32>) -> u32 {
    words
        .into_iter()
        .fold(0, |sum: u32, word| sum.rotate_left(1) ^ word)
}

/// The words of a slice, N shares to a word.
fn shared<const N: usize, const WORDS: usize>(words: &[u32]) -> [[u32; N]; WORDS] {
    std::array::from_fn(|word| std::array::from_fn(|share| words[word * N + share]))
}

type Answer = Result<Drawn, Refusal>;
type Asked = Result<Needed, Refusal>;
type Hmac = fn(usize, &[u32], &[u8], &mut [u8], &[u32]) -> Answer;

/// The archive's calls of a hash, but for its compression, whose chain is its own.
struct Calls {
    split_key: fn(usize, &[u8], &mut [u32], &[u32]) -> Answer,
    hmac: Hmac,
    start: fn(usize, &[u32], &mut State, &[u32]) -> Answer,
    feed: fn(&mut State, &[u8], &[u32]) -> Answer,
    finish: fn(&mut State, &mut [u8], &[u32]) -> Answer,
    compress_words: fn(usize) -> Asked,
    split_key_words: fn(usize, usize) -> Asked,
    hmac_words: fn(usize, usize) -> Asked,
    tag_bytes: usize,
}

static SHA1: Calls = Calls {
    split_key: flamivorse::split_key,
    hmac: flamivorse::hmac_sha1,
    start: flamivorse::hmac_sha1_start,
    feed: flamivorse::hmac_sha1_feed,
    finish: flamivorse::hmac_sha1_finish,
    compress_words: flamivorse::sha1_compress_words,
    split_key_words: flamivorse::split_key_words,
    hmac_words: flamivorse::hmac_sha1_words,
    tag_bytes: TAG_BYTES,
};

static SHA256: Calls = Calls {
    split_key: flamivorse::sha256_split_key,
    hmac: flamivorse::hmac_sha256,
    start: flamivorse::hmac_sha256_start,
    feed: flamivorse::hmac_sha256_feed,
    finish: flamivorse::hmac_sha256_finish,
    compress_words: flamivorse::sha256_compress_words,
    split_key_words: flamivorse::sha256_split_key_words,
    hmac_words: flamivorse::hmac_sha256_words,
    tag_bytes: SHA256_TAG_BYTES,
};

/// The calls of a step's hash, and the step by itself.
fn hashed(step: &str) -> (&'static Calls, &str) {
    match step.strip_prefix(OTHER) {
        Some(step) => (&SHA256, step),
        None => (&SHA1, step),
    }
}

/// The step as the archive makes it.
fn archive<const N: usize>(step: &str, lent: Lent) -> Step {
    let Lent { input, words, .. } = lent;
    let (x, y) = (&input[..N], &input[N..2 * N]);
    let mut z = [0; N];
    match step {
        "refresh" => Box::new(move || {
            flamivorse::refresh(N, black_box(x), &mut z, words).expect(DONE);
            digest(z)
        }),
        "addition" => Box::new(move || {
            flamivorse::add(N, black_box(x), y, &mut z, words).expect(DONE);
            digest(z)
        }),
        "a2b" => Box::new(move || {
            flamivorse::a2b(N, black_box(x), &mut z, words).expect(DONE);
            digest(z)
        }),
        "b2a" => Box::new(move || {
            flamivorse::b2a(N, black_box(x), &mut z, words).expect(DONE);
            digest(z)
        }),
        "b2a-short" => Box::new(move || {
            flamivorse::b2a_short(N, black_box(x), &mut z, words).expect(DONE);
            digest(z)
        }),
        "compression" => {
            Box::new(move || compressed::<N, 5, CHAIN_WORDS>(flamivorse::sha1_compress, lent))
        }
        "sha256-compression" => Box::new(move || {
            compressed::<N, 8, SHA256_CHAIN_WORDS>(flamivorse::sha256_compress, lent)
        }),
        _ => match hashed(step) {
            (calls, "tag") => Box::new(move || tag::<N>(calls, lent)),
            (calls, "streamed") => Box::new(move || streamed::<N>(calls, lent)),
            (calls, _) => {
                let key = key(step);
                Box::new(move || split_key::<N>(calls, key, words))
            }
        },
    }
}

/// The chain after a block, by the archive.
fn compressed<const N: usize, const WORDS: usize, const PLACES: usize>(
    compress: fn(usize, &mut ChainOf<PLACES>, &[u32], &[u32]) -> Answer,
    Lent { input, words, .. }: Lent,
) -> u32 {
    let mut chain = ChainOf::default();
    chain.shares[..WORDS * N].copy_from_slice(&input[..WORDS * N]);
    compress(N, &mut chain, black_box(&input[..16 * N]), words).expect(DONE);
    digest(chain.shares[..WORDS * N].iter().copied())
}

/// The shares of a key by the archive.
fn split_key<const N: usize>(calls: &Calls, key: &[u8], words: &[u32]) -> u32 {
    let mut shares = [[0; N]; 16];
    let shares = shares.as_flattened_mut();
    (calls.split_key)(N, black_box(key), shares, words).expect(DONE);
    digest(shares.iter().copied())
}

/// The archive's tag in one call.
fn tag<const N: usize>(calls: &Calls, lent: Lent) -> u32 {
    let tag = &mut [0; SHA256_TAG_BYTES][..calls.tag_bytes];
    let key = black_box(&lent.input[..16 * N]);
    (calls.hmac)(N, key, lent.message, tag, lent.words).expect(DONE);
    digest(tag.iter().copied().map(u32::from))
}

/// The archive's tag of a message in pieces. Each call is lent the words that those before it left.
fn streamed<const N: usize>(calls: &Calls, lent: Lent) -> u32 {
    let (mut state, mut tag) = (State::default(), [0; SHA256_TAG_BYTES]);
    let tag = &mut tag[..calls.tag_bytes];
    let key = black_box(&lent.input[..16 * N]);
    let drawn = (calls.start)(N, key, &mut state, lent.words);
    let mut words = &lent.words[drawn.expect(DONE).words()..];
    for piece in lent.message.chunks(PIECE) {
        let drawn = (calls.feed)(&mut state, piece, words);
        words = &words[drawn.expect(DONE).words()..];
    }
    (calls.finish)(&mut state, tag, words).expect(DONE);
    digest(tag.iter().copied().map(u32::from))
}

/// The step in optimised Rust.
fn rust<const N: usize>(step: &str, lent: Lent) -> Step
where
    Optimised: Convert<N>,
{
    let Lent { input, words, .. } = lent;
    let [x, y] = shared::<N, 2>(input);
    let supply = move || Supply { words, place: 0 };
    match step {
        "refresh" => Box::new(move || digest(optimised::refresh(black_box(&x), &mut supply()))),
        "addition" => Box::new(move || digest(optimised::add(black_box(&x), &y, &mut supply()))),
        "a2b" => Box::new(move || digest(Optimised::a2b(black_box(&x), &mut supply()))),
        "b2a" => Box::new(move || digest(Optimised::b2a(black_box(&x), &mut supply()))),
        _ => match step.strip_prefix(OTHER) {
            Some(step) => rust_hashed::<N, Sha256, 8>(step, lent),
            None => rust_hashed::<N, Sha1, 5>(step, lent),
        },
    }
}

/// A step of a hash in optimised Rust. A streamed tag has the compressions of a tag, and is compared
/// with that.
fn rust_hashed<const N: usize, H: Hash<WORDS>, const WORDS: usize>(step: &str, lent: Lent) -> Step {
    let Lent { input, words, .. } = lent;
    let supply = move || Supply { words, place: 0 };
    match step {
        "compression" => Box::new(move || {
            let (chain, block) = (shared(input), shared(black_box(input)));
            digest(H::compress::<N>(&chain, &block, &mut supply()).concat())
        }),
        "key" | "long-key" => {
            let key = key(step);
            Box::new(move || {
                let shares = optimised::split_key::<H, WORDS, N>(black_box(key), &mut supply());
                digest(shares.concat())
            })
        }
        _ => Box::new(move || {
            let key = shared::<N, 16>(black_box(input));
            let tag = optimised::hmac::<H, WORDS, N>(&key, lent.message, &mut supply());
            digest(tag.concat().into_iter().map(u32::from))
        }),
    }
}

/// The short conversion in optimised Rust.
fn rust_short<const N: usize>(Lent { input, words, .. }: Lent) -> Step
where
    Optimised: ConvertShort<N>,
{
    let [x] = shared::<N, 1>(input);
    let supply = move || Supply { words, place: 0 };
    Box::new(move || digest(Optimised::b2a_short(black_box(&x), &mut supply())))
}

/// How many words a step draws.
fn needed(step: &str, n: usize, bytes: usize) -> usize {
    let needed = match step {
        "refresh" => flamivorse::refresh_words(n),
        "addition" => flamivorse::add_words(n),
        "a2b" => flamivorse::a2b_words(n),
        "b2a" => flamivorse::b2a_words(n),
        "b2a-short" => flamivorse::b2a_short_words(n),
        _ => match hashed(step) {
            (calls, "compression") => (calls.compress_words)(n),
            (calls, "tag" | "streamed") => (calls.hmac_words)(n, bytes),
            (calls, _) => (calls.split_key_words)(n, key(step).len()),
        },
    };
    needed.expect("the share count is right").words()
}

/// Both sides of a step on the same words: the archive's, and Rust's.
fn sides(step: &str, n: usize, bytes: usize) -> [Step; 2] {
    let (input, words) = random_words(16 * n + needed(step, n, bytes)).split_at(16 * n);
    let lent = Lent {
        input,
        message: &MESSAGE[..bytes],
        words,
    };
    match (step, n) {
        ("b2a-short", 1) => [archive::<1>(step, lent), rust_short::<1>(lent)],
        ("b2a-short", 2) => [archive::<2>(step, lent), rust_short::<2>(lent)],
        ("b2a-short", 4) => [archive::<4>(step, lent), rust_short::<4>(lent)],
        ("b2a-short", _) => [archive::<8>(step, lent), rust_short::<8>(lent)],
        (_, 1) => [archive::<1>(step, lent), rust::<1>(step, lent)],
        (_, 2) => [archive::<2>(step, lent), rust::<2>(step, lent)],
        (_, 3) => [archive::<3>(step, lent), rust::<3>(step, lent)],
        (_, 4) => [archive::<4>(step, lent), rust::<4>(step, lent)],
        (_, 8) => [archive::<8>(step, lent), rust::<8>(step, lent)],
        _ => [archive::<16>(step, lent), rust::<16>(step, lent)],
    }
}

fn time(step: &mut Step, repeats: u32) -> Duration {
    let start = Instant::now();
    for _ in 0..repeats {
        black_box(step());
    }
    start.elapsed()
}

/// The least time of each side for one step, in microseconds, over many turns.
fn measure<const SIDES: usize>(mut sides: [Step; SIDES]) -> [f64; SIDES] {
    let mut repeats = 1;
    while time(&mut sides[0], repeats) < SPAN {
        repeats *= 2;
    }
    let mut least = [Duration::MAX; SIDES];
    let start = Instant::now();
    for turn in 0.. {
        if turn >= TURNS && start.elapsed() > BUDGET {
            break;
        }
        for (step, least) in sides.iter_mut().zip(&mut least) {
            *least = (*least).min(time(step, repeats));
        }
    }
    least.map(|time| time.as_secs_f64() * 1e6 / f64::from(repeats))
}

/// Both sides of a step, which must give the same answer.
fn compared(step: &str, n: usize, bytes: usize) -> [Step; 2] {
    let mut sides = sides(step, n, bytes);
    let [archive, rust] = sides.each_mut().map(|step| step());
    assert_eq!(archive, rust, "{step} at n = {n}");
    sides
}

/// Compares the answers of both sides, times them, and prints the table.
fn table() {
    println!("| step | shares | archive, µs | optimised Rust, µs | ratio |");
    println!("|---|---|---|---|---|");
    for step in STEPS {
        for &n in counts(step) {
            let [archive, rust] = measure(compared(step, n, TAGGED));
            println!(
                "| {step} | {n} | {archive:.3} | {rust:.3} | {:.2} |",
                archive / rust
            );
        }
    }
}

/// Makes a step of one side so often.
fn repeat(step: &str, n: &str, side: &str, repeats: &str, bytes: usize) {
    let [mut archive, mut rust] = sides(step, number(n), bytes);
    let side = if side == "archive" {
        &mut archive
    } else {
        &mut rust
    };
    time(side, number(repeats) as u32);
}

fn number(argument: &str) -> usize {
    argument.parse().expect("a number")
}

fn main() -> std::io::Result<()> {
    let arguments: Vec<String> = std::env::args().skip(1).collect();
    let arguments: Vec<&str> = arguments.iter().map(String::as_str).collect();
    match arguments[..] {
        ["plot", unit] => {
            let lines = std::io::read_to_string(std::io::stdin())?;
            print!("{}", plot::svg(unit, &lines));
        }
        ["time", n, bytes] => {
            let [archive, _] = sides("tag", number(n), number(bytes));
            println!("{:.3}", measure([archive])[0]);
        }
        [step, n, side, repeats] => repeat(step, n, side, repeats, TAGGED),
        [step, n, side, repeats, bytes] => repeat(step, n, side, repeats, number(bytes)),
        _ => table(),
    }
    Ok(())
}

#[cfg(test)]
mod tests {
    use super::*;

    #[test]
    fn both_sides_give_the_same_answers() {
        for step in STEPS {
            for &n in counts(step) {
                let _ = compared(step, n, 100);
            }
        }
    }
}
