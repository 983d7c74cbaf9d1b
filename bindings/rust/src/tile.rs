//! One tile, and what it forwards by the stamps of its predecessors: §6.1 to §6.3, §E3.3.

use crate::{ffi, Letter, Refusal, Settings};

/// The stamps of a tile's predecessors, each up to 2^41 - 1. `None` is silent, and so is 2^64 - 1.
#[derive(Clone, Copy, Debug)]
pub struct Stamps<'a> {
    /// The stamp of the predecessor in the tile's own column.
    pub own: Option<u64>,
    /// Those of its neighbours, of which there are two or three.
    pub neighbours: &'a [Option<u64>],
}

/// What a tile forwards.
#[derive(Clone, Copy, Debug, PartialEq, Eq)]
pub enum Forwarded {
    /// Own was heard.
    Corrected {
        /// P: the tile pulses when its clock reads P + A.
        p: i64,
        /// Own's stamp minus P, below zero where the tile waits.
        correction: i64,
        /// Which rule fixed P.
        letter: Letter,
    },
    /// Own is silent, so there is no correction.
    Uncorrected {
        /// P, as above.
        p: i64,
        /// [`Letter::Late`], always.
        letter: Letter,
    },
}

/// P, the correction and the letter by the forwarding rule, or number 11 to 13.
///
/// ```
/// use polzaintu::tile::{self, Forwarded, Stamps};
/// use polzaintu::Letter;
/// # use polzaintu::{Limits, Settings};
/// # let settings = Settings::new(Limits {
/// #     width: 6, rows: 1, delay: 100, uncertainty: 10, hold: 400, drift: 0, unit: 12,
/// # })?;
///
/// let neighbours = &[Some(100), Some(130)];
/// let early = tile::forward(&settings, Stamps { own: Some(63), neighbours })?;
/// assert_eq!(early, Forwarded::Corrected { p: 64, correction: -1, letter: Letter::Early });
/// let silent = tile::forward(&settings, Stamps { own: None, neighbours })?;
/// assert_eq!(silent, Forwarded::Uncorrected { p: 166, letter: Letter::Late });
/// # Ok::<(), polzaintu::Refusal>(())
/// ```
pub fn forward(settings: &Settings, stamps: Stamps) -> Result<Forwarded, Refusal> {
    let mut places = [ffi::SILENT; 3];
    for (place, &stamp) in places.iter_mut().zip(stamps.neighbours) {
        *place = word(stamp);
    }
    let lent = ffi::Stamps {
        own: word(stamps.own),
        neighbours: places,
        count: stamps.neighbours.len() as u64,
    };
    let mut answer = ffi::Forwarded::default();
    Refusal::check(ffi::tile(settings.limits(), &lent, &mut answer))?;
    let ffi::Forwarded {
        p,
        correction,
        corrected,
        letter,
    } = answer;
    let letter = u8::try_from(letter).ok().and_then(Letter::from_byte);
    let letter = letter.expect("an answer has one of the five letters");
    Ok(match corrected {
        0 => Forwarded::Uncorrected { p, letter },
        _ => Forwarded::Corrected {
            p,
            correction,
            letter,
        },
    })
}

fn word(stamp: Option<u64>) -> u64 {
    stamp.unwrap_or(ffi::SILENT)
}
