//! The pulse planner for detector walls. The planner is written and proved in Rattle; this crate
//! links its static library and gives each operation a safe call.
//!
//! A call or a file that is turned away answers a [`Refusal`], the lowest number that applies, where
//! 53 stands between 25 and 26, and then every lent row holds what it held. Times, delays, stamps and
//! gaps are in ticks. W, R, d, u, A, r and h are the settings ([`Limits`]). §4.2 is a clause of
//! `docs/REQUIREMENTS.md`.
//!
//! - [`Settings`]: checked settings of a wall.
//! - [`tile::forward`]: what one tile forwards.
//! - [`row::plan`]: a row's pulse times, from the row before.
//! - [`Letter`]: which rule fixed a pulse; tiles, rows and wall files have one for each.
//! - [`seam::join`]: the midpoint and half gap of two neighbouring tiles.
//! - [`seam::row_seam`], [`row::marked`], [`row::link_place`]: where the seams, marks and links of a
//!   row stand.
//! - [`seam::first_wide`]: the first seam of a row that is wider than a limit.
//! - [`waves::Waves`]: the last waves of a seam, and the largest and smallest half gap among them.
//! - [`board::Board`]: a tile as it runs, event by event on its own clock.
//! - [`reach`]: how far one broken tile reaches.
//! - [`wall::Reader`]: the rows, the seams, the first wide seam and the search range of a wall file;
//!   [`wall::Wall`] takes one step by step.
//!
//! ```
//! use polzaintu::row::{self, Lent};
//! use polzaintu::seam::{self, Seam};
//! use polzaintu::{Letter, Limits, Settings};
//!
//! let settings = Settings::new(Limits {
//!     width: 6, rows: 1, delay: 100, uncertainty: 10, hold: 400, drift: 0, unit: 12,
//! })?;
//! let mut times = [0; 6];
//! let mut letters = [Letter::Kept; 6];
//! let ends = row::plan(&settings, Lent {
//!     before: &[1000, 1000, 1000, 1080, 1000, 1000],
//!     marks: &[0],
//!     drifts: &[0; 6],
//!     phases: &[0; 6],
//!     links: &[100; 20],
//! }, &mut times, &mut letters)?;
//! assert_eq!(times, [1500, 1500, 1500, 1536, 1500, 1500]);
//! assert_eq!((letters[2], letters[3]), (Letter::Kept, Letter::Late));
//! assert_eq!((ends.earliest, ends.latest), (1500, 1536));
//! let seam = seam::join(Some(times[2]), Some(times[3]))?;
//! assert_eq!(seam, Seam::Closed { midpoint: 1518.0, half_gap: 18.0 });
//! # Ok::<(), polzaintu::Refusal>(())
//! ```

pub mod board;
mod ffi;
mod letter;
pub mod reach;
mod refusal;
pub mod row;
pub mod seam;
mod settings;
pub mod tile;
pub mod wall;
pub mod waves;
mod words;

pub use letter::Letter;
pub use refusal::Refusal;
pub use settings::{Limits, Settings};

/// The version of the static library that is linked, as one number: (major × 1000 + minor) × 1000 +
/// patch. It is that of this crate where both come from one tree.
#[must_use]
pub fn version() -> u32 {
    ffi::version()
}
