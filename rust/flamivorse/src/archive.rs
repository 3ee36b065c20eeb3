//! The archive's functions and structs, as include/flamivorse.h declares them. The tests beside
//! this file hold the two together.

use crate::answer;
use crate::wide::{self, Width};
use crate::{Drawn, Needed, Refusal, BLOCK_BYTES, SHARES_LIMIT};
use core::arch::asm;
use core::fmt;
use zeroize::Zeroize;

#[cfg(test)]
mod cleared_tests;
#[cfg(test)]
mod header_tests;
#[cfg(test)]
mod refusal_tests;
#[cfg(test)]
mod tested;

/// `flamivorse_answer`
#[repr(C)]
pub struct Answer {
    pub(crate) number: u32,
    pub(crate) drawn: u64,
}

impl Answer {
    /// What it says as the answer of a call.
    pub(crate) fn result(self) -> Result<Drawn, Refusal> {
        answer::drawn(self.number, self.drawn)
    }

    /// What it says as the answer of a query.
    pub(crate) fn needed(self) -> Result<Needed, Refusal> {
        answer::needed(self.number, self.drawn)
    }
}

/// `flamivorse_opened`
#[repr(C)]
pub(crate) struct Opened {
    pub(crate) number: u32,
    pub(crate) word: u32,
}

impl Opened {
    pub(crate) fn result(self) -> Result<u32, Refusal> {
        answer::done(self.number).map(|()| self.word)
    }
}

/// How many words a [`Chain`] has: SHA-1's five in as many shares as there can be.
pub const CHAIN_WORDS: usize = 5 * SHARES_LIMIT;

/// How many words a [`Sha256Chain`] has: SHA-256's eight in as many shares as there can be.
pub const SHA256_CHAIN_WORDS: usize = 8 * SHARES_LIMIT;

/// A chain value of SHA-1: 5n places are used.
pub type Chain = ChainOf<CHAIN_WORDS>;

/// A chain value of SHA-256: 8n places are used. A [`State`] has it for either hash, with 5n or 8n.
pub type Sha256Chain = ChainOf<SHA256_CHAIN_WORDS>;

/// A chain value of a hash in Boolean shares, cleared when dropped: a [`Chain`] or a [`Sha256Chain`].
///
/// Share i of chain word w stands at place w·n + i. The places after the last word are not looked at,
/// and are 0 after an accepted compression.
#[repr(C)]
#[derive(Clone)]
pub struct ChainOf<const WORDS: usize> {
    /// The shares.
    pub shares: [u32; WORDS],
}

impl<const WORDS: usize> Default for ChainOf<WORDS> {
    /// Zeros.
    fn default() -> Self {
        ChainOf { shares: [0; WORDS] }
    }
}

impl<const WORDS: usize> Drop for ChainOf<WORDS> {
    fn drop(&mut self) {
        self.shares.zeroize();
    }
}

impl<const WORDS: usize> fmt::Debug for ChainOf<WORDS> {
    fn fmt(&self, f: &mut fmt::Formatter<'_>) -> fmt::Result {
        f.debug_struct("Chain").finish_non_exhaustive()
    }
}

/// `flamivorse_compressed` and `flamivorse_sha256_compressed`
#[repr(C)]
pub struct Compressed<C> {
    pub(crate) number: u32,
    pub(crate) drawn: u64,
    pub(crate) chain: C,
}

/// What is carried from piece to piece of a message that is tagged as it comes, for either hash,
/// cleared when dropped.
///
/// Any state may be given to a call: one that is not refused ([`Refusal::StateUnfit`]) is taken as
/// it stands. Both chains come from the key, and whoever has them can make tags under it.
#[repr(C)]
#[derive(Clone)]
pub struct State {
    /// The share count.
    pub n: usize,
    /// How many bytes of the message were fed so far.
    pub bytes: u64,
    /// How many words the start and the feeds drew: those of 2 + `bytes` / 64 compressions, and with
    /// any other count the state is unfit. A finish adds nothing.
    pub drawn: u64,
    /// 0; 1 after an accepted finish. Anything but 0 counts as finished.
    pub finished: u32,
    /// The hash that the state belongs to: 0 is SHA-1, 1 is SHA-256, and there is no other.
    pub hash: u32,
    /// The chain after the inner key block and the full blocks of the message.
    pub inner: Sha256Chain,
    /// The chain after the outer key block.
    pub outer: Sha256Chain,
    /// The bytes of the block that is not yet full: the first `bytes` modulo 64. The others are not
    /// looked at, and are 0 after an accepted start or feed.
    pub tail: [u8; BLOCK_BYTES],
}

impl Default for State {
    /// Zeros, as a state is before it is started.
    fn default() -> State {
        State {
            n: 0,
            bytes: 0,
            drawn: 0,
            finished: 0,
            hash: 0,
            inner: Sha256Chain::default(),
            outer: Sha256Chain::default(),
            tail: [0; BLOCK_BYTES],
        }
    }
}

impl Drop for State {
    fn drop(&mut self) {
        self.tail.zeroize();
    }
}

impl fmt::Debug for State {
    fn fmt(&self, f: &mut fmt::Formatter<'_>) -> fmt::Result {
        f.debug_struct("State")
            .field("n", &self.n)
            .field("bytes", &self.bytes)
            .field("drawn", &self.drawn)
            .field("finished", &self.finished)
            .field("hash", &self.hash)
            .finish_non_exhaustive()
    }
}

/// `flamivorse_streamed`
#[repr(C)]
pub struct Streamed {
    pub(crate) number: u32,
    pub(crate) drawn: u64,
    pub(crate) state: State,
}

/// Makes calls that see a secret, and then clears what they left: on the stack, their own frame
/// among it, and in registers.
pub(crate) fn cleared<T>(calls: impl FnOnce() -> T) -> T {
    let answer = in_own_frame(calls);
    // SAFETY: it writes below this frame alone, where nothing is kept any more.
    unsafe { flamivorse_clear_stack() };
    clear_wide_registers();
    answer
}

/// Clears the vector registers that the archive does not use. A chain or a state that goes by value
/// is copied by the C library, through the widest that the machine has.
fn clear_wide_registers() {
    let width = wide::width();
    if width >= Width::Bytes64 {
        // SAFETY: the machine has these registers, and nothing is kept in them.
        unsafe {
            asm!(
                ".irp number, 16, 17, 18, 19, 20, 21, 22, 23, 24, 25, 26, 27, 28, 29, 30, 31",
                "vpxord zmm\\number, zmm\\number, zmm\\number",
                ".endr",
                clobber_abi("sysv64"),
                options(nomem, nostack)
            );
        }
    }
    if width >= Width::Bytes32 {
        // SAFETY: as above; these are all the others, and the wide parts of those that the archive uses.
        unsafe { asm!("vzeroall", clobber_abi("sysv64"), options(nomem, nostack)) };
    }
}

#[inline(never)]
fn in_own_frame<T>(calls: impl FnOnce() -> T) -> T {
    calls()
}

/// Calls a function of the archive that takes numbers, reads slices, writes one slice and draws words,
/// and clears after it. In each place the caller has a `&[T]` or, for what is written, a `&mut [T]`.
macro_rules! call {
    ($($function:ident)::+($($value:expr),*), reads [$($input:expr),*], writes $output:expr, draws $words:expr) => {{
        let (output, words) = (&mut *$output, $words);
        // SAFETY: of Rust's slices all elements are there, no pointer is null, and what is written
        // overlaps nothing else.
        $crate::archive::cleared(|| unsafe {
            $($function)::+(
                $($value,)*
                $($input.as_ptr(), $input.len(),)*
                output.as_mut_ptr(),
                output.len(),
                words.as_ptr(),
                words.len(),
            )
        })
    }};
}

/// Calls a function of the archive that takes numbers alone.
macro_rules! query {
    ($($function:ident)::+($($value:expr),*)) => {
        // SAFETY: it takes any numbers, and no memory.
        unsafe { $($function)::+($($value),*) }
    };
}

/// The queries of calls whose draws the share count alone decides.
macro_rules! queries {
    ($($query:ident = $function:ident, $call:literal, $at_two:literal;)*) => {$(
        #[doc = concat!("How many words [`", $call, "`](crate::", $call, ") draws at n shares.")]
        ///
        /// ```
        #[doc = concat!("assert_eq!(flamivorse::", stringify!($query), "(2)?.words(), ", $at_two, ");")]
        /// # Ok::<(), flamivorse::Refusal>(())
        /// ```
        pub fn $query(n: usize) -> Result<crate::Needed, crate::Refusal> {
            $crate::archive::query!(archive::$function(n)).needed()
        }
    )*};
}

pub(crate) use {call, queries, query};

#[rustfmt::skip]
#[allow(dead_code)] // flamivorse_clear_stack_of is for C: the frames of Rust's callers have no figures.
extern "C" {
    pub(crate) fn flamivorse_b2a_2(x1: u32, r: u32, g: u32) -> u32;
    pub(crate) fn flamivorse_a2b_2(a: u32, r: u32, g: u32) -> u32;
    pub(crate) fn flamivorse_b2a_2_record(x1: u32, r: u32, g: u32, record: *mut u32, record_len: usize) -> u32;
    pub(crate) fn flamivorse_a2b_2_record(a: u32, r: u32, g: u32, record: *mut u32, record_len: usize) -> u32;

    pub(crate) fn flamivorse_split(
        n: usize, value: u32, shares: *mut u32, shares_len: usize, words: *const u32, words_len: usize
    ) -> Answer;
    pub(crate) fn flamivorse_open_xor(n: usize, shares: *const u32, shares_len: usize) -> Opened;
    pub(crate) fn flamivorse_open_sum(n: usize, shares: *const u32, shares_len: usize) -> Opened;
    pub(crate) fn flamivorse_refresh(
        n: usize, x: *const u32, x_len: usize, y: *mut u32, y_len: usize, words: *const u32, words_len: usize
    ) -> Answer;
    pub(crate) fn flamivorse_expand(
        n: usize, x: *const u32, x_len: usize, y: *mut u32, y_len: usize, words: *const u32, words_len: usize
    ) -> Answer;
    pub(crate) fn flamivorse_and(
        n: usize, x: *const u32, x_len: usize, y: *const u32, y_len: usize, z: *mut u32, z_len: usize,
        words: *const u32, words_len: usize
    ) -> Answer;
    pub(crate) fn flamivorse_add(
        n: usize, x: *const u32, x_len: usize, y: *const u32, y_len: usize, z: *mut u32, z_len: usize,
        words: *const u32, words_len: usize
    ) -> Answer;
    pub(crate) fn flamivorse_a2b(
        n: usize, a: *const u32, a_len: usize, x: *mut u32, x_len: usize, words: *const u32, words_len: usize
    ) -> Answer;
    pub(crate) fn flamivorse_b2a(
        n: usize, x: *const u32, x_len: usize, a: *mut u32, a_len: usize, words: *const u32, words_len: usize
    ) -> Answer;
    pub(crate) fn flamivorse_b2a_short(
        n: usize, x: *const u32, x_len: usize, a: *mut u32, a_len: usize, words: *const u32, words_len: usize
    ) -> Answer;

    pub(crate) fn flamivorse_split_key(
        n: usize, key: *const u8, key_len: usize, shares: *mut u32, shares_len: usize,
        words: *const u32, words_len: usize
    ) -> Answer;
    pub(crate) fn flamivorse_sha1_compress(
        n: usize, chain: Chain, block: *const u32, block_len: usize, words: *const u32, words_len: usize
    ) -> Compressed<Chain>;
    pub(crate) fn flamivorse_hmac_sha1(
        n: usize, key: *const u32, key_len: usize, message: *const u8, message_len: usize,
        tag: *mut u8, tag_len: usize, words: *const u32, words_len: usize
    ) -> Answer;

    pub(crate) fn flamivorse_hmac_sha1_start(
        n: usize, key: *const u32, key_len: usize, words: *const u32, words_len: usize
    ) -> Streamed;
    pub(crate) fn flamivorse_hmac_sha1_feed(
        state: State, piece: *const u8, piece_len: usize, words: *const u32, words_len: usize
    ) -> Streamed;
    pub(crate) fn flamivorse_hmac_sha1_finish(
        state: State, tag: *mut u8, tag_len: usize, words: *const u32, words_len: usize
    ) -> Streamed;

    pub(crate) fn flamivorse_sha256_split_key(
        n: usize, key: *const u8, key_len: usize, shares: *mut u32, shares_len: usize,
        words: *const u32, words_len: usize
    ) -> Answer;
    pub(crate) fn flamivorse_sha256_compress(
        n: usize, chain: Sha256Chain, block: *const u32, block_len: usize, words: *const u32, words_len: usize
    ) -> Compressed<Sha256Chain>;
    pub(crate) fn flamivorse_hmac_sha256(
        n: usize, key: *const u32, key_len: usize, message: *const u8, message_len: usize,
        tag: *mut u8, tag_len: usize, words: *const u32, words_len: usize
    ) -> Answer;

    pub(crate) fn flamivorse_hmac_sha256_start(
        n: usize, key: *const u32, key_len: usize, words: *const u32, words_len: usize
    ) -> Streamed;
    pub(crate) fn flamivorse_hmac_sha256_feed(
        state: State, piece: *const u8, piece_len: usize, words: *const u32, words_len: usize
    ) -> Streamed;
    pub(crate) fn flamivorse_hmac_sha256_finish(
        state: State, tag: *mut u8, tag_len: usize, words: *const u32, words_len: usize
    ) -> Streamed;

    pub(crate) fn flamivorse_same_tag(a: *const u8, a_len: usize, b: *const u8, b_len: usize) -> u32;

    pub(crate) fn flamivorse_split_words(n: usize) -> Answer;
    pub(crate) fn flamivorse_refresh_words(n: usize) -> Answer;
    pub(crate) fn flamivorse_expand_words(n: usize) -> Answer;
    pub(crate) fn flamivorse_and_words(n: usize) -> Answer;
    pub(crate) fn flamivorse_add_words(n: usize) -> Answer;
    pub(crate) fn flamivorse_a2b_words(n: usize) -> Answer;
    pub(crate) fn flamivorse_b2a_words(n: usize) -> Answer;
    pub(crate) fn flamivorse_b2a_short_words(n: usize) -> Answer;
    pub(crate) fn flamivorse_split_key_words(n: usize, key_len: usize) -> Answer;
    pub(crate) fn flamivorse_sha1_compress_words(n: usize) -> Answer;
    pub(crate) fn flamivorse_hmac_sha1_words(n: usize, message_len: usize) -> Answer;
    pub(crate) fn flamivorse_hmac_sha1_start_words(n: usize) -> Answer;
    pub(crate) fn flamivorse_hmac_sha1_feed_words(state: State, piece_len: usize) -> Answer;
    pub(crate) fn flamivorse_hmac_sha1_finish_words(state: State) -> Answer;
    pub(crate) fn flamivorse_sha256_split_key_words(n: usize, key_len: usize) -> Answer;
    pub(crate) fn flamivorse_sha256_compress_words(n: usize) -> Answer;
    pub(crate) fn flamivorse_hmac_sha256_words(n: usize, message_len: usize) -> Answer;
    pub(crate) fn flamivorse_hmac_sha256_start_words(n: usize) -> Answer;
    pub(crate) fn flamivorse_hmac_sha256_feed_words(state: State, piece_len: usize) -> Answer;
    pub(crate) fn flamivorse_hmac_sha256_finish_words(state: State) -> Answer;

    pub(crate) fn flamivorse_clear_stack();
    pub(crate) fn flamivorse_clear_stack_of(bytes: usize);
}
