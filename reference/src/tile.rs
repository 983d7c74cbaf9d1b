//! One tile (§6.1 to §6.3, §E3.3): its stamps, refusals 11 to 13, and the rule's answer for them.

use crate::rule::{forward, Answer};
use crate::settings::Settings;
use crate::{refuse_if, Refused, Tick, LATEST_STAMP};

/// A tile's stamps: own's, its neighbours' in three places, and how many of these are in use. `None` is silent.
#[derive(Clone, Copy, Debug, PartialEq, Eq)]
pub struct Stamps {
    /// The stamp of own.
    pub own: Option<Tick>,
    /// The neighbours' stamps; a place behind the count is never read.
    pub neighbours: [Option<Tick>; 3],
    /// How many neighbours there are, 2 or 3.
    pub count: usize,
}

/// The tile operation: what the rule gives, or the lowest number that applies.
pub fn tile(settings: &Settings, stamps: &Stamps) -> Result<Answer, Refused> {
    settings.check()?;
    refuse_if(!(2..=3).contains(&stamps.count), 11)?;
    let neighbours = &stamps.neighbours[..stamps.count];
    let all = || std::iter::once(&stamps.own).chain(neighbours);
    let admitted = 0..=Tick::from(LATEST_STAMP);
    refuse_if(all().flatten().any(|stamp| !admitted.contains(stamp)), 12)?;
    refuse_if(all().filter(|stamp| stamp.is_none()).count() >= 2, 13)?;
    Ok(forward(stamps.own, neighbours, settings.h(), settings.j()))
}

#[cfg(test)]
mod tests {
    use super::*;
    use crate::cases::build::{DRIFTING, PRINTED};
    use crate::rule::Letter;
    use crate::settings::Numbers;

    fn settings() -> Settings {
        Settings::new(PRINTED).unwrap()
    }

    fn two(own: Option<Tick>, first: Option<Tick>, second: Option<Tick>) -> Stamps {
        Stamps {
            own,
            neighbours: [first, second, Some(-7)],
            count: 2,
        }
    }

    /// The tile's answer is P, own - P where own is heard, and the letter.
    fn answers(settings: &Settings, stamps: Stamps, p: Tick, letter: Letter) {
        let due = Answer {
            p,
            correction: stamps.own.map(|own| own - p),
            letter,
        };
        assert_eq!(tile(settings, &stamps), Ok(due), "{stamps:?}");
    }

    fn heard(own: Tick, first: Tick, second: Tick) -> Stamps {
        two(Some(own), Some(first), Some(second))
    }

    #[test]
    fn the_tile_cases_with_neighbours_100_and_100() {
        for (own, p, letter) in [
            (100, 100, Letter::Kept),
            (120, 112, Letter::Middle),
            (112, 112, Letter::Middle),
            (136, 112, Letter::Middle),
            (137, 113, Letter::Back),
            (160, 136, Letter::Back),
            (200, 136, Letter::Late),
            (64, 64, Letter::Kept),
            (63, 64, Letter::Early),
            (0, 64, Letter::Early),
        ] {
            answers(&settings(), heard(own, 100, 100), p, letter);
        }
        let correction = |own| tile(&settings(), &heard(own, 100, 100)).unwrap().correction;
        assert_eq!((correction(200), correction(63)), (Some(64), Some(-1)));
    }

    #[test]
    fn the_tile_cases_with_a_gap() {
        answers(&settings(), heard(220, 100, 300), 208, Letter::Middle);
        answers(&settings(), heard(220, 300, 100), 208, Letter::Middle);
        answers(&settings(), heard(110, 0, 100), 86, Letter::Back);
        answers(&settings(), heard(110, 100, 0), 86, Letter::Back);
    }

    #[test]
    fn the_silent_cases() {
        let own_silent = two(None, Some(100), Some(130));
        answers(&settings(), own_silent, 166, Letter::Late);
        for (own, p, letter) in [(90, 90, Letter::Kept), (50, 64, Letter::Early)] {
            for stamps in [
                two(Some(own), None, Some(100)),
                two(Some(own), Some(100), None),
            ] {
                answers(&settings(), stamps, p, letter);
            }
        }
    }

    #[test]
    fn the_case_with_drift_limit_10_000() {
        let fast = Settings::new(DRIFTING).unwrap();
        assert_eq!((fast.h(), fast.j()), (12, 25));
        answers(&fast, heard(137, 100, 100), 112, Letter::Middle);
        answers(&settings(), heard(137, 100, 100), 113, Letter::Back);
    }

    #[test]
    fn refusals_11_to_13_in_order() {
        let latest = Tick::from(LATEST_STAMP);
        let good = two(Some(100), Some(100), Some(100));
        let number = |stamps: Stamps| tile(&settings(), &stamps).map_err(|refused| refused.0);
        for count in [0, 1, 4, usize::MAX] {
            let stamps = Stamps {
                own: Some(-1),
                count,
                ..good
            };
            assert_eq!(number(stamps), Err(11));
        }
        for bad in [-1, latest + 1, Tick::from(u64::MAX) - 1] {
            assert_eq!(number(two(Some(bad), None, None)), Err(12));
            assert_eq!(number(two(None, None, Some(bad))), Err(12));
            assert_eq!(number(two(Some(100), Some(bad), Some(100))), Err(12));
            let third = Stamps {
                neighbours: [Some(1), Some(1), Some(bad)],
                ..good
            };
            assert!(number(third).is_ok());
            assert_eq!(number(Stamps { count: 3, ..third }), Err(12));
        }
        assert_eq!(number(two(None, None, Some(1))), Err(13));
        assert_eq!(number(two(None, Some(1), None)), Err(13));
        assert_eq!(number(two(Some(1), None, None)), Err(13));
        let past = Stamps {
            neighbours: [Some(100), None, None],
            ..good
        };
        assert!(number(past).is_ok(), "the third place is not read");
        assert_eq!(number(Stamps { count: 3, ..past }), Err(13));
        assert!(number(two(Some(0), Some(0), Some(latest))).is_ok());
        assert!(number(two(Some(latest), Some(latest), Some(latest))).is_ok());
    }

    #[test]
    fn the_settings_are_checked_first() {
        let bad = Settings::unchecked(Numbers {
            unit: 11,
            ..PRINTED
        });
        let stamps = Stamps {
            count: 0,
            ..two(None, None, None)
        };
        assert_eq!(tile(&bad, &stamps), Err(Refused(8)));
    }
}
