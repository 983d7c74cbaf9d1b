//! One row of pulses, worked out from the row before it: §7.1 to §7.6, §E3.4, §E4.2.

use crate::{ffi, Letter, Refusal, Settings};

/// The link value of a faulty sender that is silent.
pub const SILENT: u64 = ffi::SILENT;

/// What a row is worked out from.
#[derive(Clone, Copy, Debug)]
pub struct Lent<'a> {
    /// The W times of the row before, each up to 2^40 - 1. A faulty tile's is not read.
    pub before: &'a [u64],
    /// Its fault marks, in [`Settings::mark_bytes`]: byte c / 8 has the mark of column c at bit
    /// c % 8, the lowest being bit 0. [`marked`] reads them.
    pub marks: &'a [u8],
    /// The W drifts of the row's tiles, 0 to r.
    pub drifts: &'a [u32],
    /// The W phases of the row's tiles, 0 to 999,999: how far into a reading each clock starts, in
    /// millionths. At tick t a clock of drift p and phase q reads (t × (1,000,000 + p) + q) /
    /// 1,000,000, rounded down.
    pub phases: &'a [u32],
    /// The [`Settings::link_values`], tile after tile and, of each tile, sender after sender as
    /// their columns rise; [`link_place`] finds one. That of a correct sender is the delay, d - u
    /// to d; that of a faulty one is the tick at which its pulse arrives, up to 2^40 - 1, or
    /// [`SILENT`].
    ///
    /// A tile's senders are the tiles of the row before in its own column and that column's
    /// neighbours. Columns c and c + 1 are neighbours; so are columns 0 and 2, and columns W - 3
    /// and W - 1.
    pub links: &'a [u64],
}

/// The earliest and the latest time of a row, over all W tiles.
#[derive(Clone, Copy, Debug, PartialEq, Eq)]
pub struct Ends {
    /// The least of the times.
    pub earliest: u64,
    /// The largest of the times.
    pub latest: u64,
}

/// Writes the W times of the row and the letter of each, which says what rule fixed it, or answers
/// number 21 to 26 or 53, which comes after 25 and before 26, and leaves times and letters as they
/// were. A tile that the row after marks faulty has a letter too.
///
/// ```
/// use polzaintu::row::{self, Ends, Lent, SILENT};
/// use polzaintu::Letter;
/// # use polzaintu::{Limits, Settings};
/// # let settings = Settings::new(Limits {
/// #     width: 6, rows: 1, delay: 100, uncertainty: 10, hold: 400, drift: 0, unit: 12,
/// # })?;
///
/// // Column 5 is faulty, and the three tiles that it sends to hear nothing of it.
/// let mut links = [100; 20];
/// for place in (0..6).filter_map(|tile| row::link_place(&settings, tile, 5)) {
///     links[place] = SILENT;
/// }
/// let lent = Lent {
///     before: &[1000; 6], marks: &[1 << 5], drifts: &[0; 6], phases: &[0; 6], links: &links,
/// };
/// let (mut times, mut letters) = ([0; 6], [Letter::Kept; 6]);
/// let ends = row::plan(&settings, lent, &mut times, &mut letters)?;
/// assert_eq!(ends, Ends { earliest: 1500, latest: 1536 });
/// assert_eq!(times, [1500, 1500, 1500, 1500, 1500, 1536]);
/// assert_eq!((letters[4], letters[5]), (Letter::Kept, Letter::Late));
/// # Ok::<(), polzaintu::Refusal>(())
/// ```
pub fn plan(
    settings: &Settings,
    lent: Lent,
    times: &mut [u64],
    letters: &mut [Letter],
) -> Result<Ends, Refusal> {
    let mut ends = ffi::Ends::default();
    Refusal::check(ffi::row(
        settings.limits(),
        &lent,
        times,
        letters,
        &mut ends,
    ))?;
    Ok(Ends {
        earliest: ends.earliest,
        latest: ends.latest,
    })
}

/// Whether a column of a row is marked faulty, by the row's marks; or number 21. `None` where the
/// row has no such column. Bits past the last column are not read.
///
/// ```
/// use polzaintu::row::marked;
/// # use polzaintu::{Limits, Settings};
/// # let settings = Settings::new(Limits {
/// #     width: 6, rows: 1, delay: 100, uncertainty: 10, hold: 400, drift: 0, unit: 12,
/// # })?;
///
/// assert_eq!(marked(&settings, &[1 << 5], 5)?, Some(true));
/// assert_eq!(marked(&settings, &[1 << 5], 6)?, None);
/// # Ok::<(), polzaintu::Refusal>(())
/// ```
pub fn marked(settings: &Settings, marks: &[u8], column: usize) -> Result<Option<bool>, Refusal> {
    let mut faulty = false;
    match ffi::mark(settings.limits(), marks, column as u64, &mut faulty) {
        ffi::UNFIT => Ok(None),
        answer => Refusal::check(answer).map(|()| Some(faulty)),
    }
}

/// The place, among the link values of a row, of the link from the sender's column to the tile's.
/// `None` where the row has no such tile, or the tile no such sender.
///
/// ```
/// use polzaintu::row::link_place;
/// # use polzaintu::{Limits, Settings};
/// # let settings = Settings::new(Limits {
/// #     width: 6, rows: 1, delay: 100, uncertainty: 10, hold: 400, drift: 0, unit: 12,
/// # })?;
///
/// assert_eq!(link_place(&settings, 2, 3), Some(9));
/// assert_eq!(link_place(&settings, 2, 4), None);
/// # Ok::<(), polzaintu::Refusal>(())
/// ```
#[must_use]
pub fn link_place(settings: &Settings, tile: usize, sender: usize) -> Option<usize> {
    let mut place = 0;
    // The settings are checked, so an answer other than 0 is that there is no such link.
    let answer = ffi::link_place(settings.limits(), tile as u64, sender as u64, &mut place);
    (answer == 0).then_some(place as usize)
}
