//! How far one broken tile reaches, and so what a search has to cover: §12.3, §15.1 to §15.3.

use crate::{ffi, Refusal, Settings};
use std::ops::RangeInclusive;

/// The part of a later row that a broken tile can reach. The pulses with and without the fault, all
/// else equal, differ in no other column, and by no more ticks.
#[derive(Clone, Debug, PartialEq, Eq)]
pub struct Reach {
    /// 2B + 8h + (rows - 1).
    pub ticks: u64,
    /// Those within as many steps from neighbour to neighbour as there are rows between.
    pub columns: RangeInclusive<usize>,
}

/// A broken tile, and how many rows below it a search looks.
#[derive(Clone, Copy, Debug, PartialEq, Eq)]
pub struct Broken {
    /// B of the tile's row, up to 2^41 - 1: see [`widest_gap`].
    pub gap: u64,
    /// How many rows below: 1 to R.
    pub rows: u64,
    /// The tile's column.
    pub column: usize,
}

/// A broken tile by its row, and a later row in which a search looks.
#[derive(Clone, Copy, Debug, PartialEq, Eq)]
pub struct BrokenInRow {
    /// B of the tile's row, up to 2^41 - 1: see [`widest_gap`].
    pub gap: u64,
    /// The tile's row.
    pub row: u64,
    /// A row after it, up to R.
    pub later: u64,
    /// The tile's column.
    pub column: usize,
}

/// B of a row's W times, which is how far apart two neighbours pulse at most; or number 21.
pub fn widest_gap(settings: &Settings, row: &[u64]) -> Result<u64, Refusal> {
    let mut gap = 0;
    Refusal::check(ffi::widest_gap(settings.limits(), row, &mut gap))?;
    Ok(gap)
}

/// The reach of a broken tile so many rows below it. `None` where a number of [`Broken`] is outside
/// its range.
///
/// ```
/// use polzaintu::reach::{reach, widest_gap, Broken, Reach};
/// # use polzaintu::{Limits, Settings};
/// # let settings = Settings::new(Limits {
/// #     width: 9, rows: 4, delay: 100, uncertainty: 10, hold: 400, drift: 0, unit: 12,
/// # })?;
///
/// // Columns 0 and 2 are neighbours.
/// let gap = widest_gap(&settings, &[40, 20, 0, 10, 0, 0, 0, 0, 0])?;
/// assert_eq!(gap, 40);
/// let broken = Broken { gap, rows: 2, column: 4 };
/// assert_eq!(reach(&settings, broken), Some(Reach { ticks: 80 + 96 + 1, columns: 2..=6 }));
/// assert_eq!(reach(&settings, Broken { rows: 5, ..broken }), None);
/// # Ok::<(), polzaintu::Refusal>(())
/// ```
#[must_use]
pub fn reach(settings: &Settings, broken: Broken) -> Option<Reach> {
    let lent = ffi::Broken {
        gap: broken.gap,
        rows: broken.rows,
        column: broken.column as u64,
    };
    let mut range = ffi::Range::default();
    within(ffi::reach(settings.limits(), &lent, &mut range), range)
}

/// The same in a later row of the wall.
///
/// ```
/// use polzaintu::reach::{reach, reach_in_row, Broken, BrokenInRow};
/// # use polzaintu::{Limits, Settings};
/// # let settings = Settings::new(Limits {
/// #     width: 9, rows: 4, delay: 100, uncertainty: 10, hold: 400, drift: 0, unit: 12,
/// # })?;
///
/// let later = reach_in_row(&settings, BrokenInRow { gap: 40, row: 2, later: 4, column: 4 });
/// assert_eq!(later, reach(&settings, Broken { gap: 40, rows: 2, column: 4 }));
/// # Ok::<(), polzaintu::Refusal>(())
/// ```
#[must_use]
pub fn reach_in_row(settings: &Settings, broken: BrokenInRow) -> Option<Reach> {
    let lent = ffi::BrokenInRow {
        gap: broken.gap,
        row: broken.row,
        later: broken.later,
        column: broken.column as u64,
    };
    let mut range = ffi::Range::default();
    within(
        ffi::reach_in_row(settings.limits(), &lent, &mut range),
        range,
    )
}

/// The settings are checked, so an answer other than 0 is that nothing fits.
fn within(answer: u32, range: ffi::Range) -> Option<Reach> {
    (answer == 0).then_some(Reach {
        ticks: range.ticks,
        columns: range.first as usize..=range.last as usize,
    })
}

/// The search range of a wall without faults, row by row from row 0 to the last but one.
/// [`wall::Reader::search_range`](crate::wall::Reader::search_range) finds that of a wall file.
///
/// ```
/// use polzaintu::reach::Survey;
/// # use polzaintu::{Limits, Settings};
/// # let settings = Settings::new(Limits {
/// #     width: 6, rows: 1, delay: 100, uncertainty: 10, hold: 400, drift: 0, unit: 12,
/// # })?;
///
/// let mut survey = Survey::new(&settings);
/// assert_eq!(survey.largest(), None);
/// assert_eq!(survey.row(&[1000, 1000, 1000, 1080, 1000, 1000])?, Some(80));
/// assert_eq!(survey.largest(), Some(256));
/// # Ok::<(), polzaintu::Refusal>(())
/// ```
#[derive(Clone, Debug)]
pub struct Survey {
    settings: Settings,
    at: ffi::Survey,
}

impl Survey {
    /// A survey to which row 0 is due.
    #[must_use]
    pub fn new(settings: &Settings) -> Survey {
        Survey {
            settings: *settings,
            at: ffi::Survey::default(),
        }
    }

    /// The row that is due: R once all are surveyed.
    #[must_use]
    pub fn due(&self) -> u64 {
        self.at.row
    }

    /// Surveys the row that is due, and answers its B; or number 21. `None`, and nothing has
    /// changed, where all rows are surveyed or B is over 2^41 - 1.
    pub fn row(&mut self, times: &[u64]) -> Result<Option<u64>, Refusal> {
        match ffi::survey_row(self.settings.limits(), times, &mut self.at) {
            ffi::UNFIT => Ok(None),
            answer => Refusal::check(answer).map(|()| Some(self.at.gap)),
        }
    }

    /// The largest reach, in ticks, once rows 0 to R - 1 are surveyed: no pulse of the wall differs
    /// by more, whichever one tile of it breaks.
    #[must_use]
    pub fn largest(&self) -> Option<u64> {
        (self.at.row == self.settings.limits().rows).then_some(self.at.largest)
    }
}
