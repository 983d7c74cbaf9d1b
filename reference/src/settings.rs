//! Settings (§2.1 to §2.6): the seven numbers of a wall, their ranges and refusals 1 to 9.

use crate::{divide_up, refuse_if, Refused, Tick};

/// Parts per million: the drift's whole.
pub const MILLION: Tick = 1_000_000;

/// The seven numbers of a wall as given, not yet checked.
#[derive(Clone, Copy, Debug, PartialEq, Eq)]
pub struct Numbers {
    /// W, the number of columns.
    pub columns: u32,
    /// R, the number of the last row.
    pub rows: u32,
    /// d, the longest delay.
    pub delay: u32,
    /// u, the delay's uncertainty.
    pub uncertainty: u32,
    /// A, the hold.
    pub hold: u32,
    /// r, the drift limit in parts per million.
    pub drift_limit: u32,
    /// h, the unit.
    pub unit: u32,
}

impl Numbers {
    /// c: r × A / (1,000,000 + r), rounded up.
    pub fn c(&self) -> Tick {
        let (r, a) = (Tick::from(self.drift_limit), Tick::from(self.hold));
        divide_up(r * a, MILLION + r)
    }

    /// Refusals 1 to 9, the lowest that applies; 8 and 9 are judged of numbers within their ranges.
    pub fn check(&self) -> Result<(), Refused> {
        refuse_if(!(6..=256).contains(&self.columns), 1)?;
        refuse_if(!(1..=1_024).contains(&self.rows), 2)?;
        refuse_if(!(1..=1_000_000).contains(&self.delay), 3)?;
        refuse_if(!(0..=self.delay).contains(&self.uncertainty), 4)?;
        refuse_if(!(1..=1_000_000).contains(&self.hold), 5)?;
        refuse_if(!(0..=10_000).contains(&self.drift_limit), 6)?;
        refuse_if(!(1..=62_500).contains(&self.unit), 7)?;
        let h = Tick::from(self.unit);
        refuse_if(h < Tick::from(self.uncertainty) + self.c() + 2, 8)?;
        refuse_if(Tick::from(self.hold) < 16 * h, 9)
    }
}

/// Settings that pass, as a record.
#[derive(Clone, Copy, Debug, PartialEq, Eq)]
pub struct Settings {
    numbers: Numbers,
}

impl Settings {
    /// The record of these numbers, or the number that turns them away.
    pub fn new(numbers: Numbers) -> Result<Settings, Refused> {
        numbers.check()?;
        Ok(Settings { numbers })
    }

    /// A record that no check has seen, to test that each operation checks again.
    #[cfg(test)]
    pub(crate) fn unchecked(numbers: Numbers) -> Settings {
        Settings { numbers }
    }

    /// The checks once more, with which each operation that is handed a record begins.
    pub fn check(&self) -> Result<(), Refused> {
        self.numbers.check()
    }

    /// The numbers of this record.
    pub fn numbers(&self) -> Numbers {
        self.numbers
    }

    /// W, the number of columns.
    pub fn columns(&self) -> usize {
        self.numbers.columns as usize
    }

    /// R, the number of the last row.
    pub fn rows(&self) -> usize {
        self.numbers.rows as usize
    }

    /// d, the longest delay.
    pub fn d(&self) -> Tick {
        self.numbers.delay.into()
    }

    /// u, the delay's uncertainty.
    pub fn u(&self) -> Tick {
        self.numbers.uncertainty.into()
    }

    /// A, the hold.
    pub fn a(&self) -> Tick {
        self.numbers.hold.into()
    }

    /// r, the drift limit.
    pub fn r(&self) -> Tick {
        self.numbers.drift_limit.into()
    }

    /// h, the unit.
    pub fn h(&self) -> Tick {
        self.numbers.unit.into()
    }

    /// J, the step: 2h + (2h × r / 1,000,000 rounded up).
    pub fn j(&self) -> Tick {
        2 * self.h() + divide_up(2 * self.h() * self.r(), MILLION)
    }
}

#[cfg(test)]
mod tests {
    use super::*;
    use crate::cases::build::{DRIFTING, PRINTED};

    fn number(numbers: Numbers) -> u8 {
        Settings::new(numbers).map_or_else(|refused| refused.0, |_| 0)
    }

    #[test]
    fn the_settings_cases_of_the_requirements() {
        let fast = Numbers {
            drift_limit: 10_000,
            ..PRINTED
        };
        assert_eq!(number(Numbers { unit: 15, ..fast }), 8);
        assert_eq!(number(Numbers { unit: 16, ..fast }), 0);
        assert_eq!(
            number(Numbers {
                hold: 191,
                ..PRINTED
            }),
            9
        );
        assert_eq!(
            number(Numbers {
                hold: 192,
                ..PRINTED
            }),
            0
        );
    }

    #[test]
    fn c_and_j_are_rounded_up() {
        let fast = Numbers {
            drift_limit: 10_000,
            unit: 16,
            ..PRINTED
        };
        assert_eq!(fast.c(), 4); // 3.96...
        assert_eq!(Settings::new(fast).unwrap().j(), 33); // 32 + 0.32
        assert_eq!(Settings::new(PRINTED).unwrap().j(), 24);
        assert_eq!(DRIFTING.c(), 2); // 1.90...
        assert_eq!(Settings::new(DRIFTING).unwrap().j(), 25);
        // A quotient without remainder isn't rounded: 10,000 × 202 / 1,010,000 is 2.
        assert_eq!(
            Numbers {
                hold: 202,
                ..DRIFTING
            }
            .c(),
            2
        );
        assert_eq!(
            Numbers {
                hold: 203,
                ..DRIFTING
            }
            .c(),
            3
        );
    }

    #[test]
    fn each_range_at_and_past_its_limits() {
        let wide = Numbers {
            columns: 256,
            rows: 1_024,
            delay: 1_000_000,
            uncertainty: 52_597,
            hold: 1_000_000,
            drift_limit: 10_000,
            unit: 62_500,
        };
        let narrow = Numbers {
            columns: 6,
            rows: 1,
            delay: 1,
            uncertainty: 0,
            hold: 32,
            drift_limit: 0,
            unit: 2,
        };
        assert_eq!((number(wide), number(narrow)), (0, 0));
        let all_of_it = Numbers {
            uncertainty: 1,
            hold: 48,
            unit: 3,
            ..narrow
        };
        assert_eq!(number(all_of_it), 0);
        assert_eq!(
            number(Numbers {
                uncertainty: 52_598,
                ..wide
            }),
            8
        );
        for (numbers, due) in [
            (
                Numbers {
                    columns: 5,
                    ..narrow
                },
                1,
            ),
            (
                Numbers {
                    columns: 257,
                    ..wide
                },
                1,
            ),
            (Numbers { rows: 0, ..narrow }, 2),
            (
                Numbers {
                    rows: 1_025,
                    ..wide
                },
                2,
            ),
            (Numbers { delay: 0, ..narrow }, 3),
            (
                Numbers {
                    delay: 1_000_001,
                    ..wide
                },
                3,
            ),
            (
                Numbers {
                    uncertainty: 2,
                    ..all_of_it
                },
                4,
            ),
            (
                Numbers {
                    uncertainty: u32::MAX,
                    ..wide
                },
                4,
            ),
            (Numbers { hold: 0, ..narrow }, 5),
            (
                Numbers {
                    hold: 1_000_001,
                    ..wide
                },
                5,
            ),
            (
                Numbers {
                    drift_limit: 10_001,
                    ..wide
                },
                6,
            ),
            (Numbers { unit: 0, ..narrow }, 7),
            (
                Numbers {
                    unit: 62_501,
                    ..wide
                },
                7,
            ),
            (Numbers { unit: 1, ..narrow }, 8),
            (Numbers { hold: 31, ..narrow }, 9),
            (
                Numbers {
                    hold: 999_999,
                    ..wide
                },
                9,
            ),
        ] {
            assert_eq!(number(numbers), due, "{numbers:?}");
        }
    }

    #[test]
    fn the_lowest_number_wins() {
        let worst = Numbers {
            columns: 0,
            rows: 0,
            delay: 0,
            uncertainty: 1,
            hold: 0,
            drift_limit: 10_001,
            unit: 0,
        };
        assert_eq!(number(worst), 1);
        let worst = Numbers {
            columns: 6,
            ..worst
        };
        assert_eq!(number(worst), 2);
        let worst = Numbers { rows: 1, ..worst };
        assert_eq!(number(worst), 3);
        let worst = Numbers {
            delay: 1,
            uncertainty: 2,
            ..worst
        };
        assert_eq!(number(worst), 4);
        let worst = Numbers {
            uncertainty: 1,
            ..worst
        };
        assert_eq!(number(worst), 5);
        let worst = Numbers { hold: 1, ..worst };
        assert_eq!(number(worst), 6);
        let worst = Numbers {
            drift_limit: 0,
            ..worst
        };
        assert_eq!(number(worst), 7);
        let worst = Numbers { unit: 2, ..worst };
        assert_eq!(number(worst), 8); // 9 applies too
        let worst = Numbers {
            uncertainty: 0,
            ..worst
        };
        assert_eq!(number(worst), 9);
        let worst = Numbers { hold: 32, ..worst };
        assert_eq!(number(worst), 0);
    }
}
