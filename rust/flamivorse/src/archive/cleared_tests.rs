//! What is left on the stack and in registers: after the archive's own call shares are found there,
//! after a safe call none are, and of the stack nothing is; nor is the right tag after another was
//! found wrong, nor are words after they were lent. And what is left of a state that was dropped.

use super::tested::Tested;
use super::*;
use crate::hash::{self, Sealed};
use crate::{Bytes, Key, Sha1, Sha256, Supply, Unverified};
use std::arch::asm;
use std::mem::MaybeUninit;

/// How far below the caller is looked, in words.
const WORDS: usize = 8192;

/// As much of that has the frames of the safe call itself, which sees no shares.
const NEAR: usize = 512;

/// What stands on the stack before a call.
const PAINT: u32 = 0xa5a5_a5a5;

/// The share counts that are tried: some of each form that the addition has, and the largest, which
/// takes the most stack.
const COUNTS: [usize; 6] = [1, 2, 3, 4, 8, SHARES_LIMIT];

/// The words of all vector registers, of the widest kind there is.
const WIDE: usize = 32 * 16;

/// What is found.
struct Found {
    stack: Box<[u32; WORDS]>,
    registers: Box<[u32; WIDE]>,
    /// Whether the machine has 32 registers of 64 bytes, or else 16 of 32 bytes.
    widest: bool,
    wide: bool,
}

impl Found {
    fn nothing() -> Found {
        Found {
            stack: Box::new([0; WORDS]),
            registers: Box::new([0; WIDE]),
            widest: is_x86_feature_detected!("avx512f"),
            wide: is_x86_feature_detected!("avx"),
        }
    }

    /// Paints the stack below this frame.
    #[inline(always)]
    fn paint() {
        // SAFETY: a thread's stack is far longer, and nothing is kept there.
        unsafe {
            asm!(
                "lea rdi, [rsp - 4 * {words}]",
                "rep stosd",
                words = const WORDS,
                out("rdi") _,
                inout("rcx") WORDS => _,
                in("eax") PAINT,
                options(nostack)
            );
        }
    }

    /// Looks at the registers, and at the stack below this frame.
    #[inline(always)]
    fn look(&mut self) {
        // SAFETY: only registers that the machine has are read. A thread's stack is far longer, and
        // reading it changes nothing.
        unsafe {
            if self.widest {
                asm!(
                    ".irp number, 0, 1, 2, 3, 4, 5, 6, 7, 8, 9, 10, 11, 12, 13, 14, 15",
                    "vmovdqu32 [rdi + 64 * \\number], zmm\\number",
                    ".endr",
                    ".irp number, 16, 17, 18, 19, 20, 21, 22, 23, 24, 25, 26, 27, 28, 29, 30, 31",
                    "vmovdqu32 [rdi + 64 * \\number], zmm\\number",
                    ".endr",
                    in("rdi") self.registers.as_mut_ptr(),
                    options(nostack)
                );
            } else if self.wide {
                asm!(
                    ".irp number, 0, 1, 2, 3, 4, 5, 6, 7, 8, 9, 10, 11, 12, 13, 14, 15",
                    "vmovdqu [rdi + 64 * \\number], ymm\\number",
                    ".endr",
                    in("rdi") self.registers.as_mut_ptr(),
                    options(nostack)
                );
            }
            asm!(
                "lea rsi, [rsp - 4 * {words}]",
                "rep movsd",
                words = const WORDS,
                out("rsi") _,
                inout("rcx") WORDS => _,
                inout("rdi") self.stack.as_mut_ptr() => _,
                options(nostack)
            );
        }
    }

    /// How many of these words are found.
    fn count(&self, words: &[u32]) -> usize {
        let found = |word: &&u32| self.stack.contains(word) || self.registers.contains(word);
        words.iter().filter(found).count()
    }

    /// Whether four bytes that follow each other here do so there, wherever they start.
    fn has_bytes_of(&self, bytes: &[u8]) -> bool {
        let found = [&self.stack[..], &self.registers[..]].map(|words| {
            let found = words.iter().flat_map(|word| word.to_ne_bytes());
            found.collect::<Vec<u8>>()
        });
        let mut windows = found.iter().flat_map(|found| found.windows(4));
        windows.any(|four| bytes.windows(4).any(|other| other == four))
    }

    /// How many words a call has left on the stack, shares or not.
    fn left(&self) -> usize {
        let far = &self.stack[..WORDS - NEAR];
        far.iter().filter(|word| ![0, PAINT].contains(word)).count()
    }

    /// How many of the words that a state's chains use are found.
    fn of_state<H: Tested>(&self, state: &State) -> usize {
        let used = H::WORDS * state.n;
        self.count(&state.inner.shares[..used]) + self.count(&state.outer.shares[..used])
    }
}

/// The seeds of the words that a chain, a block or key in shares, a plain key, an outer chain and a
/// supply have.
const CHAIN: u32 = 1;
const BLOCK: u32 = 1000;
const KEY: u32 = 1500;
const OUTER: u32 = 2000;
const SUPPLY: u32 = 3000;

/// Words that stand nowhere by chance.
fn fresh(count: usize, seed: u32) -> Vec<u32> {
    let words = (1..).map(|place: u32| (place + seed).wrapping_mul(0x9e37_79b1) ^ 0x5bd1_e995);
    words.take(count).collect()
}

/// What a compression is given, and what is found after it. The chain is in a box, so that the test
/// itself leaves nothing of it on the stack.
struct Compression<const PLACES: usize> {
    chain: Box<ChainOf<PLACES>>,
    block: Vec<u32>,
    words: Vec<u32>,
    found: Found,
}

/// A hash whose chain has so many places.
trait Chained<const PLACES: usize>: Tested + Sealed<Chain = ChainOf<PLACES>> {}
impl Chained<CHAIN_WORDS> for Sha1 {}
impl Chained<SHA256_CHAIN_WORDS> for Sha256 {}

impl<const PLACES: usize> Compression<PLACES> {
    fn new<H: Chained<PLACES>>(n: usize) -> Self {
        let mut chain: Box<ChainOf<PLACES>> = Box::default();
        chain.shares[..H::WORDS * n].copy_from_slice(&fresh(H::WORDS * n, CHAIN));
        let words = hash::compress_words::<H>(n).expect("a right count");
        Compression {
            chain,
            block: fresh(16 * n, BLOCK),
            words: fresh(words.words(), SUPPLY),
            found: Found::nothing(),
        }
    }
}

#[test]
fn shares_are_found_after_the_call_of_the_archive() {
    compressed_by_the_archive::<Sha1, CHAIN_WORDS>();
    compressed_by_the_archive::<Sha256, SHA256_CHAIN_WORDS>();
}

fn compressed_by_the_archive<H: Chained<PLACES>, const PLACES: usize>() {
    for n in COUNTS {
        let mut call = Compression::new::<H>(n);
        let (block, words) = (&call.block, &call.words);
        let chain = ChainOf::clone(&call.chain);
        // SAFETY: both are slices of Rust's, and the chain goes by value.
        let answer = unsafe {
            (H::FUNCTIONS.compress)(
                n,
                chain,
                block.as_ptr(),
                block.len(),
                words.as_ptr(),
                words.len(),
            )
        };
        call.found.look();
        assert_eq!(answer.number, 0);
        assert!(call.found.count(&answer.chain.shares[..H::WORDS * n]) > 0);
    }
}

#[test]
fn no_shares_are_found_after_a_safe_call() {
    compressed_by_the_safe_call::<Sha1, CHAIN_WORDS>();
    compressed_by_the_safe_call::<Sha256, SHA256_CHAIN_WORDS>();
}

fn compressed_by_the_safe_call<H: Chained<PLACES>, const PLACES: usize>() {
    for n in COUNTS {
        let mut call = Compression::new::<H>(n);
        Found::paint();
        let done = hash::compress::<H>(n, &mut call.chain, &call.block, &call.words);
        call.found.look();
        assert!(done.is_ok());
        assert_eq!(call.found.left(), 0);
        assert_eq!(call.found.count(&call.block), 0);
        assert_eq!(call.found.count(&fresh(H::WORDS * n, CHAIN)), 0);
        assert_eq!(call.found.count(&call.chain.shares[..H::WORDS * n]), 0);
    }
}

/// The words of the longest key, before it is split.
fn plain_key() -> Vec<u32> {
    fresh(crate::KEY_LIMIT / 4, KEY)
}

/// The longest key, which is hashed when it is split, its shares, and what is found after that.
struct Splitting {
    key: Vec<u8>,
    shares: Vec<u32>,
    words: Vec<u32>,
    found: Found,
}

impl Splitting {
    fn new<H: Tested>(n: usize) -> Splitting {
        let words = hash::split_key_words::<H>(n, crate::KEY_LIMIT).expect("a right count");
        let key = plain_key().into_iter().flat_map(u32::to_be_bytes);
        Splitting {
            key: key.collect(),
            shares: vec![0; 16 * n],
            words: fresh(words.words(), SUPPLY),
            found: Found::nothing(),
        }
    }

    /// How many are found of the last shares of the key's words, and of the shares of its digest.
    fn count<H: Tested>(&self) -> [usize; 2] {
        let n = self.shares.len() / 16;
        let drawn = |place: usize| &self.words[place * (n - 1)..][..n - 1];
        let last = |(place, word)| drawn(place).iter().fold(word, |last, word| last ^ word);
        let lasts: Vec<u32> = (0..).zip(plain_key()).map(last).collect();
        [&lasts, &self.shares[..H::WORDS * n]].map(|words| self.found.count(words))
    }
}

#[test]
fn shares_are_found_after_the_archive_has_split_a_long_key() {
    split_by_the_archive::<Sha1>();
    split_by_the_archive::<Sha256>();
}

fn split_by_the_archive<H: Tested>() {
    for n in COUNTS {
        let mut call = Splitting::new::<H>(n);
        let (key, shares, words) = (&call.key, &mut call.shares, &call.words);
        // SAFETY: all are slices of Rust's, and none overlaps another.
        let answer = unsafe {
            (H::FUNCTIONS.split_key)(
                n,
                key.as_ptr(),
                key.len(),
                shares.as_mut_ptr(),
                shares.len(),
                words.as_ptr(),
                words.len(),
            )
        };
        call.found.look();
        assert_eq!(answer.number, 0);
        assert!(call.count::<H>().into_iter().all(|found| found > 0));
    }
}

#[test]
fn no_shares_are_found_after_a_long_key_is_split() {
    split_by_the_safe_call::<Sha1>();
    split_by_the_safe_call::<Sha256>();
}

fn split_by_the_safe_call<H: Tested>() {
    for n in COUNTS {
        let mut call = Splitting::new::<H>(n);
        Found::paint();
        let done = hash::split_key::<H>(n, &call.key, &mut call.shares, &call.words);
        call.found.look();
        assert!(done.is_ok());
        assert_eq!(call.found.left(), 0);
        assert_eq!(call.count::<H>(), [0, 0]);
        assert_eq!(call.found.count(&plain_key()), 0);
    }
}

/// A state whose chains stand nowhere by chance, its block one byte short of full, and what is found
/// after a call on it. It is in a box as well.
struct Streaming {
    state: Box<State>,
    words: Vec<u32>,
    found: Found,
}

impl Streaming {
    fn new<H: Tested>(n: usize) -> Streaming {
        let (mut state, used): (Box<State>, _) = (Box::default(), H::WORDS * n);
        (state.n, state.bytes, state.hash) = (n, 63, H::CODE);
        state.drawn = 2 * H::compression_words(n);
        state.inner.shares[..used].copy_from_slice(&fresh(used, CHAIN));
        state.outer.shares[..used].copy_from_slice(&fresh(used, OUTER));
        let words = hash::finish_words::<H>(&state).expect("a fit state");
        Streaming {
            state,
            words: fresh(words.words(), SUPPLY),
            found: Found::nothing(),
        }
    }
}

#[test]
fn chains_are_found_after_a_feed_of_the_archive() {
    fed_by_the_archive::<Sha1>();
    fed_by_the_archive::<Sha256>();
}

fn fed_by_the_archive<H: Tested>() {
    for n in COUNTS {
        let mut call = Streaming::new::<H>(n);
        let (given, words) = (State::clone(&call.state), &call.words);
        // SAFETY: both are slices of Rust's, and the state goes by value.
        let answer =
            unsafe { (H::FUNCTIONS.feed)(given, [0].as_ptr(), 1, words.as_ptr(), words.len()) };
        call.found.look();
        assert_eq!(answer.number, 0);
        assert!(call.found.of_state::<H>(&answer.state) > 0);
    }
}

#[test]
fn no_chains_are_found_after_a_safe_call_on_a_state() {
    fed_by_the_safe_call::<Sha1>();
    fed_by_the_safe_call::<Sha256>();
}

fn fed_by_the_safe_call<H: Tested>() {
    for n in COUNTS {
        let mut call = Streaming::new::<H>(n);
        Found::paint();
        let fed = hash::feed::<H>(&mut call.state, &[0], &call.words);
        call.found.look();
        assert!(fed.is_ok());
        assert_eq!(call.found.left(), 0);
        assert_eq!(call.found.count(&fresh(H::WORDS * n, CHAIN)), 0);
        assert_eq!(call.found.of_state::<H>(&call.state), 0);

        let mut tag = H::Tag::default();
        Found::paint();
        let finished = hash::finish::<H>(&mut call.state, tag.as_mut(), &call.words);
        call.found.look();
        assert!(finished.is_ok());
        assert_eq!(call.found.left(), 0);
        assert_eq!(call.found.of_state::<H>(&call.state), 0);
    }
}

#[test]
fn no_chains_are_found_after_a_start() {
    started_by_the_safe_call::<Sha1>();
    started_by_the_safe_call::<Sha256>();
}

fn started_by_the_safe_call<H: Tested>() {
    for n in COUNTS {
        let mut call = Streaming::new::<H>(n);
        let key = fresh(16 * n, BLOCK);
        Found::paint();
        let started = hash::start::<H>(n, &key, &mut call.state, &call.words);
        call.found.look();
        assert!(started.is_ok());
        assert_eq!(call.found.left(), 0);
        assert_eq!(call.found.of_state::<H>(&call.state), 0);
    }
}

#[test]
fn no_right_tag_is_found_after_a_wrong_one() {
    verified_by_the_safe_call::<Sha1>();
    verified_by_the_safe_call::<Sha256>();
}

fn verified_by_the_safe_call<H: Tested>() {
    for n in COUNTS {
        let (key, words) = (fresh(16, KEY), fresh(16 * (n - 1), BLOCK));
        let key: Vec<u8> = key.into_iter().flat_map(u32::to_be_bytes).collect();
        let key = Key::split_for::<H>(n, &key, &words).expect("its words");
        let count = key.tag_words(1).expect("a right count");
        let words = fresh(count.words(), SUPPLY);
        let right = key.tag(&[0], &words).expect("its words");
        let mut found = Found::nothing();
        Found::paint();
        // A frame of its own, so that no copy stands in this one, which is not looked at.
        let verdict = in_own_frame(|| key.verify(&[0], &[0; 20], &words));
        found.look();
        assert_eq!(verdict, Err(Unverified::WrongTag));
        assert_eq!(found.left(), 0);
        assert!(!found.has_bytes_of(right.as_ref()));
        assert_eq!(found.count(key.shares()), 0);
    }
}

#[test]
fn no_chains_are_found_after_a_stream_is_copied() {
    copied::<Sha1>();
    copied::<Sha256>();
}

fn copied<H: Tested>() {
    for n in COUNTS {
        let key = Key::split_for::<H>(n, b"key", &fresh(16 * (n - 1), BLOCK)).expect("its words");
        let count = key.start_words().expect("a right count");
        let stream = key.start(&fresh(count.words(), SUPPLY)).expect("its words");
        let mut found = Found::nothing();
        Found::paint();
        let copy = in_own_frame(|| stream.clone());
        found.look();
        assert_eq!(found.left(), 0);
        assert_eq!(found.of_state::<H>(copy.state()), 0);
    }
}

#[test]
fn no_words_are_found_after_they_are_lent() {
    let count = crate::and_words(SHARES_LIMIT).expect("a right count");
    let words = fresh(count.words(), SUPPLY);
    let bytes: Vec<u8> = words.iter().flat_map(|word| word.to_be_bytes()).collect();
    let (mut supply, mut found) = (Supply::new(Bytes(&bytes[..])), Found::nothing());
    Found::paint();
    let lent = in_own_frame(|| supply.lend(count).is_ok());
    found.look();
    assert!(lent);
    assert_eq!(found.left(), 0);
    assert_eq!(found.count(&words), 0);
    assert!(!found.has_bytes_of(&bytes));
}

#[test]
fn a_dropped_state_is_cleared() {
    let mut place = MaybeUninit::new(State {
        n: 2,
        bytes: 63,
        drawn: 20_880,
        finished: 0,
        hash: 0,
        inner: ChainOf {
            shares: [7; SHA256_CHAIN_WORDS],
        },
        outer: ChainOf {
            shares: [8; SHA256_CHAIN_WORDS],
        },
        tail: [9; 64],
    });
    // SAFETY: the state is dropped once, and its fields are plain numbers, which stay readable.
    let (inner, outer, tail) = unsafe {
        place.assume_init_drop();
        let left = place.as_ptr();
        ((*left).inner.shares, (*left).outer.shares, (*left).tail)
    };
    assert_eq!([inner, outer], [[0; SHA256_CHAIN_WORDS]; 2]);
    assert_eq!(tail, [0; 64]);
}
