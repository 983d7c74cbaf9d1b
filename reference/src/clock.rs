//! Clocks (§3.1, §3.4, §E4.1): a tile's reading at a true tick, and the first tick of a reading.

use crate::settings::MILLION;
use crate::Tick;

/// A tile's clock.
#[derive(Clone, Copy, Debug)]
pub struct Clock {
    /// p: by how many parts per million it runs fast.
    pub drift: Tick,
    /// q: how far into a reading it starts, in millionths.
    pub phase: Tick,
}

impl Clock {
    /// What it reads at true tick `t`: (t × (1,000,000 + p) + q) / 1,000,000, rounded down.
    pub fn reading(&self, t: Tick) -> Tick {
        (t * (MILLION + self.drift) + self.phase).div_euclid(MILLION)
    }

    /// The smallest true tick at which it reads at least `goal`.
    ///
    /// The ticks are tried one by one. Those below (goal - 1) × 1,000,000 / (1,000,000 + p) are left out: no phase
    /// is as much as one reading.
    pub fn first_tick(&self, goal: Tick) -> Tick {
        let from = ((goal - 1) * MILLION).div_euclid(MILLION + self.drift);
        let mut ticks = from.max(0)..;
        ticks
            .find(|&t| self.reading(t) >= goal)
            .expect("a clock goes on")
    }
}

#[cfg(test)]
mod tests {
    use super::*;
    use crate::generate::rng::Rng;

    fn clock(drift: Tick, phase: Tick) -> Clock {
        Clock { drift, phase }
    }

    /// A clock of any drift and phase, the least and the most phase often.
    fn any_clock(rng: &mut Rng) -> Clock {
        let drift = rng.range(0, 10_000);
        let random = rng.range(0, 999_999);
        let phase = rng.pick(&[0, random, random, 999_999]);
        clock(drift.into(), phase.into())
    }

    #[test]
    fn the_drift_cases_of_the_requirements() {
        let clock = clock(10_000, 0);
        assert_eq!(clock.reading(1100), 1111);
        assert_eq!(clock.first_tick(1511), 1497);
        assert_eq!(clock.reading(1496), 1510);
        assert_eq!(clock.reading(1497), 1511);
    }

    #[test]
    fn without_drift_the_clock_reads_true_whatever_its_phase() {
        for t in [0, 1, 999_999, 1_000_000, (1 << 41) - 1] {
            for phase in [0, 1, 500_000, 999_999] {
                assert_eq!(clock(0, phase).reading(t), t);
                assert_eq!(clock(0, phase).first_tick(t), t);
            }
        }
    }

    /// At drift 10,000 tick 1100 is 1,111.000000 readings after the start, 1099 is 1,109.990000.
    #[test]
    fn a_phase_adds_to_the_reading_before_it_is_rounded() {
        for (t, phase, reading) in [
            (0, 999_999, 0),
            (1, 989_999, 1),
            (1, 990_000, 2),
            (1100, 0, 1111),
            (1100, 999_999, 1111),
            (1099, 0, 1109),
            (1099, 9_999, 1109),
            (1099, 10_000, 1110),
            (1099, 999_999, 1110),
            (1496, 39_999, 1510),
            (1496, 40_000, 1511),
        ] {
            assert_eq!(
                clock(10_000, phase).reading(t),
                reading,
                "{t} phase {phase}"
            );
        }
    }

    /// 1496 is 40 thousandths of a reading short of 1511, and 1495 more than a whole one.
    #[test]
    fn the_tick_of_the_drift_case_changes_at_phase_40_000() {
        for (phase, tick) in [(0, 1497), (39_999, 1497), (40_000, 1496), (999_999, 1496)] {
            assert_eq!(clock(10_000, phase).first_tick(1511), tick, "phase {phase}");
        }
        let ticks: Vec<Tick> = (0..=999_999)
            .map(|phase| clock(10_000, phase).first_tick(1511))
            .collect();
        assert!(ticks[..40_000].iter().all(|&t| t == 1497));
        assert!(ticks[40_000..].iter().all(|&t| t == 1496));
    }

    #[test]
    fn first_tick_is_the_smallest_by_plain_search() {
        let mut rng = Rng::new(1);
        for _ in 0..3_000 {
            let clock = any_clock(&mut rng);
            let goal = rng.range(0, 3_000) as Tick;
            let searched = (0..).find(|&t| clock.reading(t) >= goal).unwrap();
            assert_eq!(clock.first_tick(goal), searched, "goal {goal} {clock:?}");
        }
    }

    #[test]
    fn first_tick_is_the_smallest_at_large_readings() {
        let mut rng = Rng::new(2);
        for _ in 0..100_000 {
            let clock = any_clock(&mut rng);
            let goal = rng.range(1, 1 << 41) as Tick;
            let t = clock.first_tick(goal);
            assert!(clock.reading(t) >= goal && clock.reading(t - 1) < goal);
        }
    }
}
