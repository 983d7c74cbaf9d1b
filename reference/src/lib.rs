//! A plain reference for the requirements (docs/REQUIREMENTS.md) of the pulse planner for detector walls.
//!
//! Each module renders one section of them: settings, clocks, the forwarding rule, the tile, the wall's
//! shape, the row, the seam, the wall file and its printing, how far a faulty tile reaches, the words of a call,
//! the last waves of a seam, the tile as it runs, and seams that are too wide.
//! All sums are made in 128-bit signed numbers, far from any overflow. `generate` and `cases` are no part of
//! the reference: they make wall files to compare programs on.

pub mod arguments;
pub mod board;
pub mod cases;
pub mod clock;
pub mod file;
pub mod generate;
pub mod print;
pub mod reach;
pub mod row;
pub mod rule;
pub mod seam;
pub mod settings;
pub mod shape;
pub mod tile;
pub mod waves;
pub mod wide;

use std::fmt;

/// A time, a stamp, a reading or a difference of such, in ticks.
pub type Tick = i128;

/// The value 2^64 - 1, by which a link or a stamp says that it is silent.
pub const SILENT: u64 = u64::MAX;

/// The largest phase of a clock, in millionths of a reading.
pub const LARGEST_PHASE: u32 = 999_999;

/// The latest row 0 time, 2^39 - 1.
pub const LATEST_START: u64 = (1 << 39) - 1;

/// The latest time of a row before and the latest faulty arrival, 2^40 - 1.
pub const LATEST_ARRIVAL: u64 = (1 << 40) - 1;

/// The latest stamp and the latest time in a seam, 2^41 - 1.
pub const LATEST_STAMP: u64 = (1 << 41) - 1;

/// An operation was turned away, with this number of the requirements.
#[derive(Clone, Copy, Debug, PartialEq, Eq, PartialOrd, Ord)]
pub struct Refused(pub u8);

impl fmt::Display for Refused {
    fn fmt(&self, f: &mut fmt::Formatter<'_>) -> fmt::Result {
        write!(f, "refused {}", self.0)
    }
}

impl std::error::Error for Refused {}

/// Turns away with `number` where `applies`.
fn refuse_if(applies: bool, number: u8) -> Result<(), Refused> {
    if applies {
        Err(Refused(number))
    } else {
        Ok(())
    }
}

/// `a / b` rounded up, for `a` at least 0 and `b` above 0.
fn divide_up(a: Tick, b: Tick) -> Tick {
    debug_assert!(a >= 0 && b > 0);
    (a + b - 1) / b
}
