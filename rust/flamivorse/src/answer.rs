//! What a query and a call hand back: how many words are needed or were drawn, or why it refused.

use core::fmt;

/// How many random words a call will draw, as its query says: so many are to be lent to it.
///
/// ```
/// assert_eq!(flamivorse::add_words(4)?.words(), 192);
/// # Ok::<(), flamivorse::Refusal>(())
/// ```
///
/// It is not the type for what was drawn, so that neither can be taken for the other:
///
/// ```compile_fail,E0308
/// let mut shares = [0; 2];
/// let needed: flamivorse::Needed = flamivorse::split(2, 1000, &mut shares, &[7])?;
/// # Ok::<(), flamivorse::Refusal>(())
/// ```
#[derive(Clone, Copy, Debug, PartialEq, Eq, PartialOrd, Ord, Hash)]
#[must_use]
pub struct Needed(u64);

/// How many random words a call drew: its words up to there are spent.
///
/// ```
/// let mut shares = [0; 2];
/// assert_eq!(flamivorse::split(2, 1000, &mut shares, &[7, 8, 9])?.words(), 1);
/// # Ok::<(), flamivorse::Refusal>(())
/// ```
#[derive(Clone, Copy, Debug, PartialEq, Eq, PartialOrd, Ord, Hash)]
pub struct Drawn(pub(crate) u64);

/// What both counts of words can do.
macro_rules! count {
    ($count:ident) => {
        impl $count {
            /// The count, as a length of slices.
            #[must_use]
            pub const fn words(self) -> usize {
                self.0 as usize
            }
        }

        impl fmt::Display for $count {
            fn fmt(&self, f: &mut fmt::Formatter<'_>) -> fmt::Result {
                self.0.fmt(f)
            }
        }
    };
}

count!(Needed);
count!(Drawn);

/// Why a call was refused. Where several reasons apply, number 6 comes before all others, and of the
/// others the least is given.
///
/// ```
/// use flamivorse::{open_xor, Refusal};
///
/// assert_eq!(open_xor(17, &[0; 17]), Err(Refusal::ShareCount));
/// assert_eq!(Refusal::ShareCount.number(), 1);
/// assert_eq!(Refusal::OutputLength.to_string(), "an output has not exactly its length");
/// ```
#[derive(Clone, Copy, Debug, PartialEq, Eq, Hash)]
#[non_exhaustive]
pub enum Refusal {
    /// Number 1: the share count is 0 or over 16, or of the short conversion not 1, 2, 4 or 8.
    ShareCount,
    /// Number 2: an input slice has not exactly the length that the share count asks for.
    InputLength,
    /// Number 3: an output slice or record has not exactly its length.
    OutputLength,
    /// Number 4: the message is over 65,536 bytes, or the key given for splitting is over 1,024.
    TooLong,
    /// Number 5: fewer random words are lent than the call draws.
    SupplyShort,
    /// Number 6: the state is finished, its share count is 0 or over 16, its byte count is over
    /// 65,536, its hash is not the call's, or its count of words is not what a start and feeds draw
    /// for these.
    StateUnfit,
    /// Another number. No call hands one back; it would mean an archive of another version.
    Unknown(u32),
}

impl Refusal {
    /// The number that the archive hands back for this refusal.
    #[must_use]
    pub const fn number(self) -> u32 {
        match self {
            Refusal::ShareCount => 1,
            Refusal::InputLength => 2,
            Refusal::OutputLength => 3,
            Refusal::TooLong => 4,
            Refusal::SupplyShort => 5,
            Refusal::StateUnfit => 6,
            Refusal::Unknown(number) => number,
        }
    }
}

impl fmt::Display for Refusal {
    fn fmt(&self, f: &mut fmt::Formatter<'_>) -> fmt::Result {
        f.write_str(match self {
            Refusal::ShareCount => {
                "the share count is 0 or over 16, or of the short conversion not 1, 2, 4 or 8"
            }
            Refusal::InputLength => {
                "an input has not exactly the length that the share count asks for"
            }
            Refusal::OutputLength => "an output has not exactly its length",
            Refusal::TooLong => "the message is over 65,536 bytes, or the key is over 1,024",
            Refusal::SupplyShort => "there are fewer random words than the call draws",
            Refusal::StateUnfit => {
                "the state is finished or of another hash, or its share, byte or word count is wrong"
            }
            Refusal::Unknown(number) => {
                return write!(f, "the archive gave the unknown number {number}")
            }
        })
    }
}

#[cfg(feature = "std")]
impl std::error::Error for Refusal {}

/// Done (number 0), or the refusal that a number stands for.
pub(crate) fn done(number: u32) -> Result<(), Refusal> {
    Err(match number {
        0 => return Ok(()),
        1 => Refusal::ShareCount,
        2 => Refusal::InputLength,
        3 => Refusal::OutputLength,
        4 => Refusal::TooLong,
        5 => Refusal::SupplyShort,
        6 => Refusal::StateUnfit,
        other => Refusal::Unknown(other),
    })
}

/// The count of an accepted call, or its refusal.
pub(crate) fn drawn(number: u32, words: u64) -> Result<Drawn, Refusal> {
    done(number).map(|()| Drawn(words))
}

/// The count of an accepted query, or its refusal.
pub(crate) fn needed(number: u32, words: u64) -> Result<Needed, Refusal> {
    done(number).map(|()| Needed(words))
}

#[cfg(test)]
mod tests {
    use super::*;

    #[test]
    fn every_number_has_its_refusal() {
        assert_eq!(done(0), Ok(()));
        for number in (1..10).chain([u32::MAX]) {
            let refusal = done(number).unwrap_err();
            assert_eq!(refusal.number(), number);
            assert_eq!(matches!(refusal, Refusal::Unknown(_)), number > 6);
            assert!(!refusal.to_string().is_empty());
        }
    }
}
