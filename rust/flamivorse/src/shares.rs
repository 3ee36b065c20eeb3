//! n shares: splitting, opening, refresh, expand, AND, addition and the conversions, each with the
//! query that says what it draws.
//!
//! Every slice has n words where nothing else is said. Each call tests its share count, then its
//! inputs, its output and its words.

use crate::archive::{self, call, cleared, queries};
use crate::{Drawn, Refusal};

/// The largest share count. Every count from 1 to it is allowed.
pub const SHARES_LIMIT: usize = 16;

/// The share counts that [`b2a_short`] takes, and its query.
pub const B2A_SHORT_COUNTS: [usize; 4] = [1, 2, 4, 8];

/// Splits a value into n Boolean shares.
///
/// ```
/// use flamivorse::{open_xor, split};
///
/// let mut shares = [0; 4];
/// assert_eq!(split(4, 1000, &mut shares, &[7, 8, 9])?.words(), 3);
/// assert_eq!(shares[..3], [7, 8, 9]);
/// assert_eq!(open_xor(4, &shares), Ok(1000));
/// # Ok::<(), flamivorse::Refusal>(())
/// ```
pub fn split(n: usize, value: u32, shares: &mut [u32], words: &[u32]) -> Result<Drawn, Refusal> {
    call!(archive::flamivorse_split(n, value), reads [], writes shares, draws words).result()
}

/// Opens n Boolean shares: their XOR.
///
/// ```
/// assert_eq!(flamivorse::open_xor(4, &[1, 2, 4, 8]), Ok(15));
/// ```
pub fn open_xor(n: usize, shares: &[u32]) -> Result<u32, Refusal> {
    // SAFETY: the shares are a slice of Rust's, and nothing is written.
    cleared(|| unsafe { archive::flamivorse_open_xor(n, shares.as_ptr(), shares.len()) }).result()
}

/// Opens n arithmetic shares: their sum modulo 2^32.
///
/// ```
/// assert_eq!(flamivorse::open_sum(2, &[1, u32::MAX]), Ok(0));
/// ```
pub fn open_sum(n: usize, shares: &[u32]) -> Result<u32, Refusal> {
    // SAFETY: the shares are a slice of Rust's, and nothing is written.
    cleared(|| unsafe { archive::flamivorse_open_sum(n, shares.as_ptr(), shares.len()) }).result()
}

/// Writes to `y` fresh Boolean shares of what `x` shares: each pair of shares gets a word of its own.
///
/// ```
/// let mut y = [0; 2];
/// flamivorse::refresh(2, &[1, 2], &mut y, &[16])?;
/// assert_eq!(y, [17, 18]);
/// # Ok::<(), flamivorse::Refusal>(())
/// ```
pub fn refresh(n: usize, x: &[u32], y: &mut [u32], words: &[u32]) -> Result<Drawn, Refusal> {
    call!(archive::flamivorse_refresh(n), reads [x], writes y, draws words).result()
}

/// Writes to `y`, of 2n words, twice as many Boolean shares of what `x` shares. From n = 9 on these
/// are more shares than any call takes.
///
/// ```
/// let mut y = [0; 4];
/// flamivorse::expand(2, &[0x11, 0x22], &mut y, &[0x01, 0x02])?;
/// assert_eq!(y, [0x10, 0x01, 0x20, 0x02]);
/// # Ok::<(), flamivorse::Refusal>(())
/// ```
pub fn expand(n: usize, x: &[u32], y: &mut [u32], words: &[u32]) -> Result<Drawn, Refusal> {
    call!(archive::flamivorse_expand(n), reads [x], writes y, draws words).result()
}

/// Writes to `z` Boolean shares of the AND of what `x` and `y` share.
///
/// ```
/// let mut z = [0; 2];
/// flamivorse::and(2, &[0xf0, 0x0f], &[0x3c, 0x00], &mut z, &[0x55])?;
/// assert_eq!(z, [0x65, 0x59]);
/// # Ok::<(), flamivorse::Refusal>(())
/// ```
pub fn and(n: usize, x: &[u32], y: &[u32], z: &mut [u32], words: &[u32]) -> Result<Drawn, Refusal> {
    call!(archive::flamivorse_and(n), reads [x, y], writes z, draws words).result()
}

/// Writes to `z` Boolean shares of the sum modulo 2^32 of what `x` and `y` share, both Boolean.
///
/// ```
/// use flamivorse::{add, add_words, open_xor, Supply};
///
/// let mut supply = Supply::from_system()?;
/// let mut z = [0; 2];
/// add(2, &[900, 0], &[100, 0], &mut z, supply.lend(add_words(2)?)?)?;
/// assert_eq!(open_xor(2, &z), Ok(1000));
/// # Ok::<(), Box<dyn std::error::Error>>(())
/// ```
pub fn add(n: usize, x: &[u32], y: &[u32], z: &mut [u32], words: &[u32]) -> Result<Drawn, Refusal> {
    call!(archive::flamivorse_add(n), reads [x, y], writes z, draws words).result()
}

/// Arithmetic to Boolean: writes to `x` Boolean shares of what `a` shares arithmetically.
///
/// ```
/// use flamivorse::{a2b, a2b_words, open_xor, Supply};
///
/// let mut supply = Supply::from_system()?;
/// let mut x = [0; 2];
/// a2b(2, &[900, 100], &mut x, supply.lend(a2b_words(2)?)?)?;
/// assert_eq!(open_xor(2, &x), Ok(1000));
/// # Ok::<(), Box<dyn std::error::Error>>(())
/// ```
pub fn a2b(n: usize, a: &[u32], x: &mut [u32], words: &[u32]) -> Result<Drawn, Refusal> {
    call!(archive::flamivorse_a2b(n), reads [a], writes x, draws words).result()
}

/// Boolean to arithmetic: writes to `a` arithmetic shares of what `x` shares by XOR.
///
/// ```
/// use flamivorse::{b2a, b2a_words, open_sum, Supply};
///
/// let mut supply = Supply::from_system()?;
/// let mut a = [0; 2];
/// b2a(2, &[1001, 1], &mut a, supply.lend(b2a_words(2)?)?)?;
/// assert_eq!(open_sum(2, &a), Ok(1000));
/// # Ok::<(), Box<dyn std::error::Error>>(())
/// ```
pub fn b2a(n: usize, x: &[u32], a: &mut [u32], words: &[u32]) -> Result<Drawn, Refusal> {
    call!(archive::flamivorse_b2a(n), reads [x], writes a, draws words).result()
}

/// Boolean to arithmetic by the short conversion, which has no carry loop: writes to `a` arithmetic
/// shares of what `x` shares by XOR, as [`b2a`] does, but draws fewer words. The share count is one
/// of [`B2A_SHORT_COUNTS`].
///
/// ```
/// use flamivorse::{b2a_short, b2a_short_words, open_sum, Refusal, Supply};
///
/// let mut supply = Supply::from_system()?;
/// let mut a = [0; 2];
/// b2a_short(2, &[1001, 1], &mut a, supply.lend(b2a_short_words(2)?)?)?;
/// assert_eq!(open_sum(2, &a), Ok(1000));
/// assert_eq!(b2a_short_words(3), Err(Refusal::ShareCount));
/// # Ok::<(), Box<dyn std::error::Error>>(())
/// ```
pub fn b2a_short(n: usize, x: &[u32], a: &mut [u32], words: &[u32]) -> Result<Drawn, Refusal> {
    call!(archive::flamivorse_b2a_short(n), reads [x], writes a, draws words).result()
}

queries! {
    split_words = flamivorse_split_words, "split", 1;
    refresh_words = flamivorse_refresh_words, "refresh", 1;
    expand_words = flamivorse_expand_words, "expand", 2;
    and_words = flamivorse_and_words, "and", 1;
    add_words = flamivorse_add_words, "add", 32;
    a2b_words = flamivorse_a2b_words, "a2b", 34;
    b2a_words = flamivorse_b2a_words, "b2a", 68;
    b2a_short_words = flamivorse_b2a_short_words, "b2a_short", 4;
}
