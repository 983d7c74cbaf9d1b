//! The last waves of one seam, and the largest and smallest half gap among them: §E1.1 to §E1.7.

use crate::seam::{self, Seam};
use crate::{ffi, Refusal};

/// The last n waves of one seam. A copy goes on by itself.
///
/// ```
/// use polzaintu::waves::{HalfGap, Waves};
///
/// let mut waves = Waves::start(2)?;
/// assert_eq!(waves.ask().unwrap_err().number(), 52);
/// waves.hand_in(Some(1500), Some(1536))?;
/// waves.hand_in(Some(1501), Some(1500))?;
/// let ends = waves.ask()?;
/// assert_eq!(ends.largest, HalfGap { half_ticks: 36, ticks: 18.0 });
/// assert_eq!(ends.smallest, HalfGap { half_ticks: -1, ticks: -0.5 });
///
/// // An open wave takes the place of the oldest.
/// waves.hand_in(None, Some(1500))?;
/// assert_eq!(waves.ask()?.largest.ticks, -0.5);
/// # Ok::<(), polzaintu::Refusal>(())
/// ```
#[derive(Clone, Copy, Debug, PartialEq, Eq)]
pub struct Waves(ffi::Waves);

/// The half gaps at both ends, over the closed waves held.
#[derive(Clone, Copy, Debug, PartialEq)]
pub struct Extremes {
    /// The largest of them.
    pub largest: HalfGap,
    /// The smallest of them.
    pub smallest: HalfGap,
}

/// A signed half gap, half of right time minus left time. Both numbers are exact.
#[derive(Clone, Copy, Debug, PartialEq)]
pub struct HalfGap {
    /// In half ticks.
    pub half_ticks: i64,
    /// In ticks, as [`Seam::Closed`] has it; a gap of 0 is plus zero.
    pub ticks: f64,
}

impl Waves {
    /// The most waves that can be held.
    pub const MOST: u64 = 64;

    /// No wave so far, and at most n of them to be held; or number 51.
    pub fn start(n: u64) -> Result<Waves, Refusal> {
        let mut waves = ffi::Waves {
            gaps: [0; Waves::MOST as usize],
            n: 0,
            next: 0,
        };
        Refusal::check(ffi::waves_start(n, &mut waves))?;
        Ok(Waves(waves))
    }

    /// Hands in the next wave and answers its seam, as [`seam::join`] does; or
    /// number 31, and then the waves held are as they were. An open wave takes a place too; once n
    /// are held, each takes that of the oldest.
    pub fn hand_in(&mut self, left: Option<u64>, right: Option<u64>) -> Result<Seam, Refusal> {
        // A start wrote the waves, so they fit.
        seam::called(left, right, |l, l_faulty, r, r_faulty, side, halves| {
            ffi::waves_hand_in(&mut self.0, l, l_faulty, r, r_faulty, side, halves)
        })
    }

    /// The largest and smallest half gap of the closed waves held; or number 52, where none is.
    pub fn ask(&self) -> Result<Extremes, Refusal> {
        let mut half_ticks = ffi::HalfTicks::default();
        let mut half_gaps = ffi::HalfGaps::default();
        // They fit, as above.
        Refusal::check(ffi::waves_ask(&self.0, &mut half_ticks, &mut half_gaps))?;
        Ok(Extremes {
            largest: HalfGap {
                half_ticks: half_ticks.largest,
                ticks: half_gaps.largest,
            },
            smallest: HalfGap {
                half_ticks: half_ticks.smallest,
                ticks: half_gaps.smallest,
            },
        })
    }
}
