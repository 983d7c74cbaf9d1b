//! The numbers under which calls and files are turned away: §13.1.

use crate::words;
use std::error::Error;
use std::fmt;

/// The number under which a call or a file is turned away.
///
/// ```
/// use polzaintu::seam;
///
/// let refusal = seam::join(Some(1 << 41), None).unwrap_err();
/// assert_eq!(refusal.number(), 31);
/// assert_eq!(refusal.to_string(), "refused 31: a correct tile has a time above 2^41 - 1");
/// ```
#[derive(Clone, Copy, Debug, PartialEq, Eq, Hash)]
pub struct Refusal(u32);

impl Refusal {
    /// The answer of an operation: 0, or a number.
    pub(crate) fn check(answer: u32) -> Result<(), Refusal> {
        match answer {
            0 => Ok(()),
            number => Err(Refusal(number)),
        }
    }

    /// The number: 1 to 9, 11 to 13, 21 to 26, 31, 41 to 45, or 51 to 54.
    #[must_use]
    pub fn number(self) -> u32 {
        self.0
    }

    /// When the number is given, in the words of `docs/NUMBERS.md`.
    #[must_use]
    pub fn condition(self) -> &'static str {
        words::of(self.0)
    }
}

impl fmt::Display for Refusal {
    fn fmt(&self, f: &mut fmt::Formatter<'_>) -> fmt::Result {
        write!(f, "refused {}: {}", self.0, self.condition())
    }
}

impl Error for Refusal {}
