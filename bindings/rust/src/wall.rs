//! Wall files, and the rows that a file describes as they become known: §9.1 to §9.8, §10.1, §E3.6.
//!
//! `docs/FORMAT.md` has the format. The marks of a row come with the row after it, so a row is
//! known, and its seams with it, once the next row is accepted; the last once the file has ended.
//! Row 0 is given by the file itself and is not among the rows shown; [`Reader::start`] has it.

mod reader;
mod search;
mod shown;

pub use crate::seam::{RowSeam, Wide};
pub use reader::{Error, Reader, WideSeam};
pub use search::{SearchError, SearchRange, Tile};
pub use shown::Row;

use crate::{ffi, Letter, Refusal, Settings};
use std::{error, fmt, mem};

/// A file is turned away.
#[derive(Clone, Copy, Debug, PartialEq, Eq)]
pub struct Refused {
    /// Number 1 to 9, 22, 24 to 26, 41 to 45, or 53.
    pub refusal: Refusal,
    /// Where, in bytes from the start of the file: at the tag of the faulty field, or for 44 at the
    /// first byte that is too many.
    pub offset: u64,
}

impl fmt::Display for Refused {
    fn fmt(&self, f: &mut fmt::Formatter<'_>) -> fmt::Result {
        let Refused { refusal, offset } = self;
        write!(
            f,
            "refused {} at {}: {}",
            refusal.number(),
            offset,
            refusal.condition()
        )
    }
}

impl error::Error for Refused {
    fn source(&self) -> Option<&(dyn error::Error + 'static)> {
        Some(&self.refusal)
    }
}

/// What is due next in a file.
#[derive(Clone, Copy, Debug, PartialEq, Eq)]
pub enum Stage {
    /// The settings.
    Settings,
    /// Row 0.
    Start,
    /// The next row: the marks of the row before, then its own tiles.
    Row,
    /// The end of the file.
    End,
    /// Nothing: the file has ended rightly.
    Ended,
    /// Nothing: the file is turned away.
    Refused,
}

/// A wall file on its way, taken step by step: the settings, row 0, each row and the end of the
/// file. [`Reader`] takes the steps of a file that can be read.
#[derive(Clone, Debug)]
pub struct Wall {
    at: ffi::Wall,
    /// The last row accepted, and room for the next: of W tiles each, once the settings are taken.
    row: Pulses,
    next: Pulses,
}

/// The pulses of a row: their times and letters. Row 0 has no letters; what stands in their place
/// says nothing.
#[derive(Clone, Debug, Default, PartialEq, Eq)]
struct Pulses {
    times: Vec<u64>,
    letters: Vec<Letter>,
}

impl Pulses {
    /// Room for a row of so many tiles.
    fn room(width: usize) -> Pulses {
        Pulses {
            times: vec![0; width],
            letters: vec![Letter::Kept; width],
        }
    }
}

impl Wall {
    /// The most bytes that a step is due.
    pub const DUE_MOST: usize = 7_734;

    /// A file of which nothing is taken.
    #[must_use]
    pub fn new() -> Wall {
        Wall {
            at: ffi::wall_new(),
            row: Pulses::default(),
            next: Pulses::default(),
        }
    }

    /// What is due next.
    #[must_use]
    pub fn stage(&self) -> Stage {
        match self.at.stage {
            0 => Stage::Settings,
            1 => Stage::Start,
            2 => Stage::Row,
            3 => Stage::End,
            4 => Stage::Ended,
            _ => Stage::Refused,
        }
    }

    /// How many bytes the next step is to be given; fewer only where the file ends before. 1 where
    /// the end of the file is due, 0 where nothing is.
    #[must_use]
    pub fn due(&self) -> usize {
        ffi::wall_due(&self.at)
    }

    /// The file's settings, from when they are taken until the file is over.
    #[must_use]
    pub fn settings(&self) -> Option<Settings> {
        match self.stage() {
            Stage::Start | Stage::Row | Stage::End => Settings::new(self.at.settings).ok(),
            Stage::Settings | Stage::Ended | Stage::Refused => None,
        }
    }

    /// The number and the times of the last row accepted, row 0 included, until the file is over.
    #[must_use]
    pub fn last_row(&self) -> Option<(u64, &[u64])> {
        match self.stage() {
            Stage::Row | Stage::End => Some((self.at.row, &self.row.times)),
            _ => None,
        }
    }

    /// The letters of the last row accepted, until the file is over. Row 0 has none.
    #[must_use]
    pub fn last_letters(&self) -> Option<&[Letter]> {
        let (number, _) = self.last_row()?;
        (number > 0).then_some(&self.row.letters)
    }

    /// Takes the part of the file that is due, and answers the row that is then known: row L where
    /// row L + 1 is accepted, and the last where the file has ended. A file that has ended takes
    /// nothing more; one that is turned away answers the same [`Refused`] again.
    ///
    /// # Panics
    ///
    /// Where the part is longer than [`Wall::due`] and the file is not turned away.
    ///
    /// ```
    /// use polzaintu::wall::{Stage, Wall};
    ///
    /// let mut wall = Wall::new();
    /// assert_eq!(wall.due(), 27);
    /// wall.step(b"\x01\0\x18\0\x06\0\x01\0\0\0\x64\0\0\0\x0a\0\0\x01\x90\0\0\0\0\0\0\0\x0c")?;
    /// assert_eq!((wall.stage(), wall.due()), (Stage::Start, 3 + 8 * 6));
    ///
    /// let refused = wall.step(b"\x02").unwrap_err();
    /// assert_eq!((refused.refusal.number(), refused.offset), (43, 27));
    /// assert_eq!(wall.stage(), Stage::Refused);
    /// assert_eq!(wall.step(&[]).unwrap_err(), refused);
    /// # Ok::<(), polzaintu::wall::Refused>(())
    /// ```
    pub fn step(&mut self, part: &[u8]) -> Result<Option<Row>, Refused> {
        Ok(self.known(part)?.filter(|row| row.number() > 0))
    }

    /// The same, row 0 included.
    fn known(&mut self, part: &[u8]) -> Result<Option<Row>, Refused> {
        let (stage, number, settings) = (self.stage(), self.at.row, self.settings());
        let mut offset = 0;
        let answer = ffi::wall_step(
            &mut self.at,
            part,
            &self.row.times,
            &mut self.next.times,
            &mut self.next.letters,
            &mut offset,
        );
        // Both rows and the letters are W long, and steps alone write the wall.
        assert_ne!(answer, ffi::UNFIT, "the part is longer than is due");
        Refusal::check(answer).map_err(|refusal| Refused { refusal, offset })?;
        match stage {
            Stage::Settings => {
                let width = ffi::wall_width(&self.at);
                self.row = Pulses::room(width);
                self.next = Pulses::room(width);
            }
            Stage::Start | Stage::Row => mem::swap(&mut self.row, &mut self.next),
            Stage::End | Stage::Ended | Stage::Refused => {}
        }
        let marks = self.row.times.len().div_ceil(8);
        Ok(match (stage, settings) {
            // The row before is in `next` now, and its marks follow the three bytes of tag 3.
            (Stage::Row, Some(settings)) => {
                Some(Row::new(settings, number, &self.next, &part[3..3 + marks]))
            }
            (Stage::End, Some(settings)) => {
                Some(Row::new(settings, number, &self.row, &[0; 32][..marks]))
            }
            _ => None,
        })
    }
}

impl Default for Wall {
    fn default() -> Wall {
        Wall::new()
    }
}
