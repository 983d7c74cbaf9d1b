//! A row as it is shown: its times and letters, which of its tiles are faulty, and its seams.

use super::Pulses;
use crate::seam::{self, RowSeam, Wide};
use crate::{row, Letter, Settings};

/// Why no seam of a file's row is turned away.
const TIMES: &str = "a file's times stay below 2^41";

/// A row of an accepted part of a wall file, 1 to R.
#[derive(Clone, Debug, PartialEq, Eq)]
pub struct Row {
    settings: Settings,
    number: u64,
    pulses: Pulses,
    marks: Vec<u8>,
}

impl Row {
    /// The lengths are those of the settings.
    pub(super) fn new(settings: Settings, number: u64, pulses: &Pulses, marks: &[u8]) -> Row {
        Row {
            settings,
            number,
            pulses: pulses.clone(),
            marks: marks.to_vec(),
        }
    }

    /// The wall's settings.
    #[must_use]
    pub fn settings(&self) -> &Settings {
        &self.settings
    }

    /// The row's number, 1 to R.
    #[must_use]
    pub fn number(&self) -> u64 {
        self.number
    }

    /// The W times that were worked out, a faulty tile's too.
    #[must_use]
    pub fn times(&self) -> &[u64] {
        &self.pulses.times
    }

    /// The W letters, a faulty tile's too: which rule fixed each of the times.
    #[must_use]
    pub fn letters(&self) -> &[Letter] {
        &self.pulses.letters
    }

    /// The fault marks, as [`row::Lent`] has them. The last row has none set.
    #[must_use]
    pub fn marks(&self) -> &[u8] {
        &self.marks
    }

    /// The time of a correct tile; `None` where the tile is faulty.
    ///
    /// # Panics
    ///
    /// Where the row has no such column.
    #[must_use]
    pub fn pulse(&self, column: usize) -> Option<u64> {
        let time = self.times()[column];
        (!self.faulty(column)).then_some(time)
    }

    /// The letter of a correct tile, as `wallrun` prints it; `None` where the tile is faulty.
    ///
    /// # Panics
    ///
    /// Where the row has no such column.
    #[must_use]
    pub fn letter(&self, column: usize) -> Option<Letter> {
        let letter = self.letters()[column];
        (!self.faulty(column)).then_some(letter)
    }

    /// The first faulty tile's column.
    pub(super) fn first_faulty(&self) -> Option<usize> {
        (0..self.times().len()).find(|&column| self.faulty(column))
    }

    fn faulty(&self, column: usize) -> bool {
        let marked = row::marked(&self.settings, &self.marks, column);
        marked.ok().flatten().expect("a column of the row")
    }

    /// The row's W + 1 seams, in the order of `wallrun`'s lines.
    pub fn seams(&self) -> impl Iterator<Item = RowSeam> + '_ {
        (0..=self.times().len()).map(|place| {
            let seam = seam::row_seam(&self.settings, self.times(), &self.marks, place);
            let seam = seam.expect(TIMES);
            seam.expect("a row has W + 1 seams")
        })
    }

    /// The first of these seams that is closed and whose half gap, its sign dropped, is more half
    /// ticks than the limit. `None` where the row has none.
    #[must_use]
    pub fn first_wide(&self, limit: u64) -> Option<Wide> {
        let wide = seam::first_wide(&self.settings, self.times(), &self.marks, limit);
        wide.expect(TIMES)
    }
}
