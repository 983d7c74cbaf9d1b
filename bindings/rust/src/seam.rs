//! Seams, two neighbouring tiles of one row: §8.1 to §8.4. The first that is too wide: §E7.1, §E7.2,
//! §E7.6.

use crate::{ffi, Refusal, Settings};

/// A seam, closed where neither of its tiles is faulty.
#[derive(Clone, Copy, Debug, PartialEq)]
pub enum Seam {
    /// Both numbers are exact.
    Closed {
        /// Half the sum of the two times.
        midpoint: f64,
        /// Half of right time minus left time; a gap of 0 is plus zero.
        half_gap: f64,
    },
    /// A tile is faulty.
    Open(Side),
}

/// The faulty side of an open seam.
#[derive(Clone, Copy, Debug, PartialEq, Eq, Hash)]
pub enum Side {
    /// The left tile is faulty.
    Left,
    /// The right tile is faulty.
    Right,
    /// Both tiles are faulty.
    Both,
}

/// The seam of two tiles, each given by its time, or `None` where it is faulty; or number 31.
///
/// ```
/// use polzaintu::seam::{join, Seam, Side};
///
/// assert_eq!(join(Some(1501), Some(1500))?, Seam::Closed { midpoint: 1500.5, half_gap: -0.5 });
/// assert_eq!(join(None, Some(1500))?, Seam::Open(Side::Left));
/// # Ok::<(), polzaintu::Refusal>(())
/// ```
pub fn join(left: Option<u64>, right: Option<u64>) -> Result<Seam, Refusal> {
    called(left, right, ffi::seam)
}

/// The seam that a call answers. It is given both tiles, each by its time and whether it is faulty,
/// and what it writes: the side and the halves.
pub(crate) fn called(
    left: Option<u64>,
    right: Option<u64>,
    call: impl FnOnce(u64, bool, u64, bool, &mut u32, &mut ffi::Halves) -> u32,
) -> Result<Seam, Refusal> {
    let mut side = 0;
    let mut halves = ffi::Halves::default();
    // A faulty tile's time is not read.
    Refusal::check(call(
        left.unwrap_or(0),
        left.is_none(),
        right.unwrap_or(0),
        right.is_none(),
        &mut side,
        &mut halves,
    ))?;
    Ok(Seam::read(side, halves))
}

impl Seam {
    fn read(side: u32, halves: ffi::Halves) -> Seam {
        let ffi::Halves { midpoint, half_gap } = halves;
        match side {
            0 => Seam::Closed { midpoint, half_gap },
            1 => Seam::Open(Side::Left),
            2 => Seam::Open(Side::Right),
            _ => Seam::Open(Side::Both),
        }
    }
}

/// A seam and the columns of its two tiles.
#[derive(Clone, Copy, Debug, PartialEq)]
pub struct RowSeam {
    /// The column of the left tile.
    pub left: usize,
    /// The column of the right tile.
    pub right: usize,
    /// What the seam holds.
    pub seam: Seam,
}

/// The left and right columns of a row's seam by its place, 0 to W, in the order of `wallrun`'s
/// lines. `None` where the row has no such seam.
#[must_use]
pub fn columns(settings: &Settings, seam: usize) -> Option<(usize, usize)> {
    let mut pair = ffi::Pair::default();
    // The settings are checked, so an answer other than 0 is that there is no such seam.
    let answer = ffi::seam_columns(settings.limits(), seam as u64, &mut pair);
    (answer == 0).then_some((pair.left as usize, pair.right as usize))
}

/// The columns of all W + 1 seams of a row, in that order.
///
/// ```
/// # use polzaintu::{Limits, Settings};
/// # let settings = Settings::new(Limits {
/// #     width: 6, rows: 1, delay: 100, uncertainty: 10, hold: 400, drift: 0, unit: 12,
/// # })?;
/// let pairs: Vec<_> = polzaintu::seam::pairs(&settings).collect();
/// assert_eq!(pairs, [(0, 1), (0, 2), (1, 2), (2, 3), (3, 4), (3, 5), (4, 5)]);
/// # Ok::<(), polzaintu::Refusal>(())
/// ```
pub fn pairs(settings: &Settings) -> impl Iterator<Item = (usize, usize)> {
    let settings = *settings;
    (0..=settings.width()).map_while(move |seam| columns(&settings, seam))
}

/// A row's seam by its place, from the row's W times and its marks; or number 21 or 31. `None`
/// where the row has no such seam.
///
/// ```
/// use polzaintu::seam::{row_seam, RowSeam, Seam, Side};
/// # use polzaintu::{Limits, Settings};
/// # let settings = Settings::new(Limits {
/// #     width: 6, rows: 1, delay: 100, uncertainty: 10, hold: 400, drift: 0, unit: 12,
/// # })?;
///
/// let times = [1500, 1500, 1500, 1536, 1500, 1500];
/// let seam = Seam::Closed { midpoint: 1518.0, half_gap: 18.0 };
/// assert_eq!(row_seam(&settings, &times, &[0], 3)?, Some(RowSeam { left: 2, right: 3, seam }));
/// let seam = Seam::Open(Side::Right);
/// assert_eq!(row_seam(&settings, &times, &[8], 3)?, Some(RowSeam { left: 2, right: 3, seam }));
/// # Ok::<(), polzaintu::Refusal>(())
/// ```
pub fn row_seam(
    settings: &Settings,
    times: &[u64],
    marks: &[u8],
    seam: usize,
) -> Result<Option<RowSeam>, Refusal> {
    let mut pair = ffi::Pair::default();
    let mut side = 0;
    let mut halves = ffi::Halves::default();
    let answer = ffi::row_seam(
        settings.limits(),
        times,
        marks,
        seam as u64,
        &mut pair,
        &mut side,
        &mut halves,
    );
    if answer == ffi::UNFIT {
        return Ok(None);
    }
    Refusal::check(answer)?;
    Ok(Some(RowSeam {
        left: pair.left as usize,
        right: pair.right as usize,
        seam: Seam::read(side, halves),
    }))
}

/// A seam whose half gap is over a limit.
#[derive(Clone, Copy, Debug, PartialEq, Eq, Hash)]
pub struct Wide {
    /// The column of the left tile.
    pub left: usize,
    /// The column of the right tile.
    pub right: usize,
    /// The half gap in half ticks, its sign dropped: as many as the two times are ticks apart.
    pub half_ticks: u64,
}

/// The first seam of a row, in the order of [`pairs`], that is closed and whose half gap, its sign
/// dropped, is more half ticks than the limit, from the row's W times and its marks; or number 21,
/// or 31 where a seam before every such one is turned away. `None` where the row has none. Marks
/// past the last column are not read.
///
/// ```
/// use polzaintu::seam::{first_wide, Wide};
/// # use polzaintu::{Limits, Settings};
/// # let settings = Settings::new(Limits {
/// #     width: 6, rows: 1, delay: 100, uncertainty: 10, hold: 400, drift: 0, unit: 12,
/// # })?;
///
/// // A half gap of 18 ticks is 36 half ticks.
/// let times = [1500, 1500, 1500, 1536, 1500, 1500];
/// let wide = Wide { left: 2, right: 3, half_ticks: 36 };
/// assert_eq!(first_wide(&settings, &times, &[0], 35)?, Some(wide));
/// assert_eq!(first_wide(&settings, &times, &[0], 36)?, None);
/// # Ok::<(), polzaintu::Refusal>(())
/// ```
pub fn first_wide(
    settings: &Settings,
    times: &[u64],
    marks: &[u8],
    limit: u64,
) -> Result<Option<Wide>, Refusal> {
    let mut found = false;
    let mut wide = ffi::Wide::default();
    Refusal::check(ffi::first_wide(
        settings.limits(),
        times,
        marks,
        limit,
        &mut found,
        &mut wide,
    ))?;
    Ok(found.then_some(Wide {
        left: wide.left as usize,
        right: wide.right as usize,
        half_ticks: wide.half_ticks,
    }))
}
