//! Two shares, after Goubin: Boolean to arithmetic and back, each in a working form and in a form
//! that records its steps.

use crate::answer::done;
use crate::archive::{self, cleared, query};
use crate::Refusal;

/// How many steps Boolean to arithmetic has: the length of its record.
pub const B2A_2_STEPS: usize = 7;

/// How many steps arithmetic to Boolean has: the length of its record.
pub const A2B_2_STEPS: usize = 165;

/// Boolean to arithmetic: from `x1` and `r` with x = `x1` ⊕ `r`, and the fresh word `g`, gives x −
/// `r` modulo 2^32.
///
/// ```
/// let (x, r, g) = (1000, 0x1234_5678, 0x9abc_def0);
/// assert_eq!(flamivorse::b2a_2(x ^ r, r, g).wrapping_add(r), x);
/// ```
#[must_use]
pub fn b2a_2(x1: u32, r: u32, g: u32) -> u32 {
    cleared(|| query!(archive::flamivorse_b2a_2(x1, r, g)))
}

/// Arithmetic to Boolean: from `a` and `r` with x = `a` + `r` modulo 2^32, and the fresh word `g`,
/// gives x ⊕ `r`.
///
/// ```
/// let (x, r, g) = (1000u32, 0x1234_5678, 0x9abc_def0);
/// assert_eq!(flamivorse::a2b_2(x.wrapping_sub(r), r, g) ^ r, x);
/// ```
#[must_use]
pub fn a2b_2(a: u32, r: u32, g: u32) -> u32 {
    cleared(|| query!(archive::flamivorse_a2b_2(a, r, g)))
}

/// Boolean to arithmetic as [`b2a_2`], writing the value of each step to `record`, in order; the
/// last is the answer.
///
/// Refuses a record that has not exactly [`B2A_2_STEPS`] entries ([`Refusal::OutputLength`]).
///
/// ```
/// use flamivorse::{b2a_2, b2a_2_record, B2A_2_STEPS};
///
/// let mut record = [0; B2A_2_STEPS];
/// b2a_2_record(18, 52, 86, &mut record)?;
/// assert_eq!(record[6], b2a_2(18, 52, 86));
/// # Ok::<(), flamivorse::Refusal>(())
/// ```
pub fn b2a_2_record(x1: u32, r: u32, g: u32, record: &mut [u32]) -> Result<(), Refusal> {
    // SAFETY: the record is a slice of Rust's, and nothing else is lent.
    done(cleared(|| unsafe {
        archive::flamivorse_b2a_2_record(x1, r, g, record.as_mut_ptr(), record.len())
    }))
}

/// Arithmetic to Boolean as [`a2b_2`], writing the value of each step to `record`, in order; the
/// last is the answer.
///
/// Refuses a record that has not exactly [`A2B_2_STEPS`] entries ([`Refusal::OutputLength`]).
///
/// ```
/// use flamivorse::{a2b_2, a2b_2_record, A2B_2_STEPS};
///
/// let mut record = [0; A2B_2_STEPS];
/// a2b_2_record(9, 12, 6, &mut record)?;
/// assert_eq!(record[164], a2b_2(9, 12, 6));
/// # Ok::<(), flamivorse::Refusal>(())
/// ```
pub fn a2b_2_record(a: u32, r: u32, g: u32, record: &mut [u32]) -> Result<(), Refusal> {
    // SAFETY: the record is a slice of Rust's, and nothing else is lent.
    done(cleared(|| unsafe {
        archive::flamivorse_a2b_2_record(a, r, g, record.as_mut_ptr(), record.len())
    }))
}
