//! The last waves of one seam (§E1.1 to §E1.5): the largest and smallest half gap, and refusals 51 and 52.

use std::ops::RangeInclusive;

use crate::seam::{seam, Pulse, Seam};
use crate::{refuse_if, Refused, Tick};

/// How many of the last waves may count.
pub const COUNTS: RangeInclusive<u64> = 1..=64;

/// The waves of one seam, of which the last n count.
#[derive(Clone, Debug, PartialEq, Eq)]
pub struct Waves {
    n: usize,
    /// Left and right of every wave that was not turned away, from the first on.
    all: Vec<(Pulse, Pulse)>,
}

/// A signed half gap, right less left.
#[derive(Clone, Copy, Debug, PartialEq)]
pub struct HalfGap {
    /// In half ticks.
    pub half_ticks: Tick,
    /// In ticks; +0 where there is no gap.
    pub ticks: f64,
}

/// The half gaps at both ends.
#[derive(Clone, Copy, Debug, PartialEq)]
pub struct Extremes {
    /// The largest.
    pub largest: HalfGap,
    /// The smallest.
    pub smallest: HalfGap,
}

impl Waves {
    /// The start, with no wave.
    pub fn start(n: u64) -> Result<Waves, Refused> {
        refuse_if(!COUNTS.contains(&n), 51)?;
        Ok(Waves {
            n: n as usize,
            all: Vec::new(),
        })
    }

    /// Takes a wave unless the seam operation turns it away, and answers what that operation does.
    pub fn hand_in(&mut self, left: Pulse, right: Pulse) -> Result<Seam, Refused> {
        let answer = seam(left, right)?;
        self.all.push((left, right));
        Ok(answer)
    }

    /// The question: both ends of the half gaps of the closed ones among the last n.
    pub fn ask(&self) -> Result<Extremes, Refused> {
        let last = self.all.iter().rev().take(self.n);
        let closed = last.filter(|(left, right)| !left.faulty && !right.faulty);
        let gaps: Vec<Tick> = closed
            .map(|(left, right)| Tick::from(right.time) - Tick::from(left.time))
            .collect();
        refuse_if(gaps.is_empty(), 52)?;
        Ok(Extremes {
            largest: half_gap(*gaps.iter().max().expect("a gap")),
            smallest: half_gap(*gaps.iter().min().expect("a gap")),
        })
    }
}

/// Half of a gap in ticks, which is as many half ticks as the gap has ticks. A gap is below 2^41 either
/// way, so the float is exact.
fn half_gap(gap: Tick) -> HalfGap {
    HalfGap {
        half_ticks: gap,
        ticks: gap as f64 / 2.0,
    }
}

#[cfg(test)]
mod tests {
    use super::*;
    use crate::seam::Side;
    use crate::LATEST_STAMP;

    const LATE: u64 = LATEST_STAMP + 1;

    fn correct(time: u64) -> Pulse {
        Pulse {
            time,
            faulty: false,
        }
    }

    fn faulty(time: u64) -> Pulse {
        Pulse { time, faulty: true }
    }

    fn started(n: u64) -> Waves {
        Waves::start(n).unwrap()
    }

    /// Hands in a closed wave with this gap.
    fn close(waves: &mut Waves, gap: i64) {
        let right = 1_000_000u64.checked_add_signed(gap).unwrap();
        let seam = waves.hand_in(correct(1_000_000), correct(right));
        assert!(matches!(seam, Ok(Seam::Closed(_))));
    }

    /// Hands in an open wave.
    fn open(waves: &mut Waves) {
        let seam = waves.hand_in(faulty(7), correct(1_000_000));
        assert_eq!(seam, Ok(Seam::Open(Side::Left)));
    }

    /// The largest and the smallest in half ticks, or the number.
    fn ends(waves: &Waves) -> Result<(Tick, Tick), u8> {
        let Extremes { largest, smallest } = waves.ask().map_err(|refused| refused.0)?;
        for end in [largest, smallest] {
            // Doubled back, the float is the whole number again, and 0 has no sign.
            assert_eq!((end.ticks * 2.0) as Tick, end.half_ticks);
            assert_eq!(end.ticks.is_sign_negative(), end.half_ticks < 0);
        }
        Ok((largest.half_ticks, smallest.half_ticks))
    }

    #[test]
    fn refusal_51() {
        for n in [0, 65, 66, 1 << 32, u64::MAX] {
            assert_eq!(Waves::start(n), Err(Refused(51)));
        }
        for n in COUNTS {
            assert_eq!(ends(&started(n)), Err(52), "none so far");
        }
    }

    #[test]
    fn exactly_the_last_n_count() {
        for n in [1, 2, 3, 63, 64] {
            let mut waves = started(n);
            close(&mut waves, 1_000);
            for gap in 1..n as i64 {
                close(&mut waves, gap);
            }
            // The first is the n-th from the end, and one more wave leaves it out.
            let smallest = if n == 1 { 1_000 } else { 1 };
            assert_eq!(ends(&waves), Ok((1_000, smallest)));
            close(&mut waves, 500);
            let smallest = if n == 1 { 500 } else { 1 };
            assert_eq!(ends(&waves), Ok((500, smallest)), "n {n}");
        }
    }

    #[test]
    fn the_largest_and_the_smallest_leave() {
        let mut waves = started(2);
        for (gap, largest, smallest) in [
            (90, 90, 90),
            (-5, 90, -5),
            (30, 30, -5),
            (20, 30, 20),
            (20, 20, 20),
            (-70, 20, -70),
        ] {
            close(&mut waves, gap);
            assert_eq!(ends(&waves), Ok((largest, smallest)));
            assert_eq!(ends(&waves), Ok((largest, smallest)), "asked again");
        }
    }

    #[test]
    fn open_waves_hold_a_place_without_a_number() {
        for n in [1, 2, 64] {
            let mut waves = started(n);
            open(&mut waves);
            assert_eq!(ends(&waves), Err(52));
            close(&mut waves, 8);
            for _ in 1..n {
                open(&mut waves);
                assert_eq!(ends(&waves), Ok((8, 8)));
            }
            open(&mut waves);
            assert_eq!(ends(&waves), Err(52), "n {n}, all open");
            close(&mut waves, -8);
            assert_eq!(ends(&waves), Ok((-8, -8)));
        }
    }

    #[test]
    fn refusal_31_takes_no_place() {
        let mut waves = started(2);
        close(&mut waves, 40);
        close(&mut waves, 10);
        let held = waves.clone();
        for (left, right) in [
            (correct(LATE), correct(5)),
            (correct(5), correct(LATE)),
            (correct(LATE), faulty(5)),
            (faulty(5), correct(u64::MAX)),
        ] {
            assert_eq!(waves.hand_in(left, right), Err(Refused(31)));
            assert_eq!(waves, held);
            assert_eq!(ends(&waves), Ok((40, 10)));
        }
        close(&mut waves, 20);
        assert_eq!(ends(&waves), Ok((20, 10)));
    }

    #[test]
    fn gaps_at_both_ends() {
        let most = Tick::from(LATEST_STAMP);
        let mut waves = started(64);
        let seam = waves.hand_in(correct(0), correct(LATEST_STAMP));
        assert!(matches!(seam, Ok(Seam::Closed(both)) if both.half_gap == 1_099_511_627_775.5));
        assert_eq!(ends(&waves), Ok((most, most)));
        waves.hand_in(correct(LATEST_STAMP), correct(0)).unwrap();
        assert_eq!(ends(&waves), Ok((most, -most)));
    }

    #[test]
    fn gaps_around_none() {
        let mut waves = started(3);
        for (gap, bits) in [
            (0, 0),
            (1, 0.5f64.to_bits()),
            (-1, (-0.5f64).to_bits()),
            (0, 0),
        ] {
            close(&mut waves, gap);
            let alone = half_gap(Tick::from(gap));
            assert_eq!(alone.ticks.to_bits(), bits);
        }
        // The first 0 has left: 1, -1 and 0 count.
        assert_eq!(ends(&waves), Ok((1, -1)));
        close(&mut waves, 0);
        assert_eq!(ends(&waves), Ok((0, -1)));
        close(&mut waves, 0);
        assert_eq!(ends(&waves), Ok((0, 0)));
    }

    #[test]
    fn the_time_of_a_faulty_tile_is_not_read() {
        let mut waves = started(2);
        close(&mut waves, 3);
        for time in [0, LATE, u64::MAX] {
            let unread = faulty(time);
            for (left, right, side) in [
                (unread, correct(5), Side::Left),
                (correct(5), unread, Side::Right),
                (unread, unread, Side::Both),
            ] {
                close(&mut waves, 3);
                assert_eq!(waves.hand_in(left, right), Ok(Seam::Open(side)));
                assert_eq!(ends(&waves), Ok((3, 3)));
            }
        }
    }
}
