//! Which rule fixed a pulse: §E3.1 to §E3.3.

use std::fmt;

/// Which part of the forwarding rule fixed a pulse. A calibrator reads from it how the pulse jumps,
/// which is how P stands to own; P follows from the letter and the stamps.
///
/// Own is the stamp of the tile's own column. Of the neighbours' stamps that are not silent, min is
/// the earliest and max the latest; their middle is the largest that the smaller of min + 8hs and
/// max - 8hs can be, s being 0, 1, 2 and so on. J is 2h + 2h × r / 1,000,000, the fraction rounded
/// up.
///
/// ```
/// use polzaintu::Letter;
///
/// assert_eq!((Letter::Late.byte(), Letter::Late.to_string()), (b'l', "l".to_string()));
/// assert_eq!(Letter::from_byte(b'e'), Some(Letter::Early));
/// assert_eq!(Letter::from_byte(b'E'), None);
/// ```
#[repr(u8)]
#[derive(Clone, Copy, Debug, PartialEq, Eq, PartialOrd, Ord, Hash)]
pub enum Letter {
    /// Own is neither early nor late, or it is not early and a neighbour is silent: no jump. P is
    /// own.
    Kept = b'k',
    /// Own is more than 3h before the earliest neighbour that is heard, and the tile waits: a jump to
    /// later. P is min - 3h.
    Early = b'e',
    /// Own is h to h + J after the middle of the neighbours, and the tile goes by that: a jump to
    /// earlier by J at most, or none. P is the middle + h, whatever own is.
    Middle = b'm',
    /// Own is later than that, and at most 3h + J after the latest neighbour: a jump to earlier by J.
    /// P is own - J.
    Back = b'b',
    /// Own is more than 3h + J after the latest neighbour, a jump to earlier by more than J; or own
    /// is silent. P is max + 3h.
    Late = b'l',
}

impl Letter {
    /// All five.
    pub const ALL: [Letter; 5] = [
        Letter::Kept,
        Letter::Early,
        Letter::Middle,
        Letter::Back,
        Letter::Late,
    ];

    /// The letter in ASCII, as the static library has it: `k`, `e`, `m`, `b` or `l`.
    #[must_use]
    pub const fn byte(self) -> u8 {
        self as u8
    }

    /// The letter as a character, as `wallrun` prints it.
    #[must_use]
    pub const fn as_char(self) -> char {
        self as u8 as char
    }

    /// The letter of a byte; `None` where it is no letter.
    #[must_use]
    pub fn from_byte(byte: u8) -> Option<Letter> {
        Letter::ALL.into_iter().find(|letter| letter.byte() == byte)
    }
}

impl fmt::Display for Letter {
    fn fmt(&self, f: &mut fmt::Formatter<'_>) -> fmt::Result {
        self.as_char().fmt(f)
    }
}
