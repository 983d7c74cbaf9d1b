//! The forwarding rule and silence (§4.1 to §5.3), with the letters of §E3.1: from a tile's stamps to P, the
//! correction and which part of the rule P comes from.

use std::fmt;

use crate::Tick;

/// P, the correction own - P, which is absent where own is silent, and the letter.
#[derive(Clone, Copy, Debug, PartialEq, Eq)]
pub struct Answer {
    /// The reading P; the tile pulses A later by its clock.
    pub p: Tick,
    /// The correction, own - P: negative where the tile waits.
    pub correction: Option<Tick>,
    /// Which part of the rule P comes from.
    pub letter: Letter,
}

/// Which part of the rule P comes from (§E3.1), and so what P is (§E3.2).
#[derive(Clone, Copy, Debug, PartialEq, Eq, PartialOrd, Ord)]
pub enum Letter {
    /// `k`: own.
    Kept,
    /// `e`: min - 3h, which is after own.
    Early,
    /// `m`: the middle of the neighbours and h, whatever own is.
    Middle,
    /// `b`: own - J.
    Back,
    /// `l`: max + 3h.
    Late,
}

impl Letter {
    /// All letters.
    pub const ALL: [Letter; 5] = [
        Letter::Kept,
        Letter::Early,
        Letter::Middle,
        Letter::Back,
        Letter::Late,
    ];

    /// The letter in ASCII.
    pub fn byte(self) -> u8 {
        match self {
            Letter::Kept => b'k',
            Letter::Early => b'e',
            Letter::Middle => b'm',
            Letter::Back => b'b',
            Letter::Late => b'l',
        }
    }
}

impl fmt::Display for Letter {
    fn fmt(&self, f: &mut fmt::Formatter<'_>) -> fmt::Result {
        char::from(self.byte()).fmt(f)
    }
}

/// What one s gives: own - max + 8hs or own - min - 8hs, whichever is larger.
fn larger_at(own: Tick, min: Tick, max: Tick, h: Tick, s: Tick) -> Tick {
    (own - max + 8 * h * s).max(own - min - 8 * h * s)
}

/// D: the least of `larger_at` over whole s ≥ 0, less h. Needs min ≤ max and h > 0.
///
/// The first of the two numbers grows with s and the second falls. They meet at the fraction
/// m = (max - min) / (16h), which is not below 0. At whole s ≤ m the second is the larger and falls
/// with s; at whole s ≥ m the first is the larger and grows. So the least is at one of the two whole
/// s next to m, m rounded down and one more. One further s on each side is tried as well.
pub fn d(own: Tick, min: Tick, max: Tick, h: Tick) -> Tick {
    debug_assert!(min <= max && h > 0);
    let m = (max - min) / (16 * h);
    let least = (m - 1..=m + 2)
        .filter(|&s| s >= 0)
        .map(|s| larger_at(own, min, max, h, s))
        .min();
    least.expect("m is one of the s tried") - h
}

/// The correction where nobody is silent.
pub fn correction(own: Tick, min: Tick, max: Tick, h: Tick, j: Tick) -> Tick {
    let d = d(own, min, max, h);
    if d < 0 {
        (own - min + 3 * h).min(0)
    } else if d <= j {
        d
    } else {
        (own - max - 3 * h).max(j)
    }
}

/// The letter where nobody is silent and the rule gives `p`.
fn letter(own: Tick, min: Tick, max: Tick, h: Tick, j: Tick, p: Tick) -> Letter {
    let d = d(own, min, max, h);
    if (0..=j).contains(&d) {
        Letter::Middle
    } else if d < 0 {
        kept_or_early(own, p)
    } else if own - j <= max + 3 * h {
        Letter::Back
    } else {
        Letter::Late
    }
}

/// The letter where D < 0, and where a neighbour is silent.
fn kept_or_early(own: Tick, p: Tick) -> Letter {
    if p == own {
        Letter::Kept
    } else {
        Letter::Early
    }
}

/// The rule for a tile of unit `h` and step `j`; `None` is silent.
///
/// At most one of own and the two or three neighbours is silent.
pub fn forward(own: Option<Tick>, neighbours: &[Option<Tick>], h: Tick, j: Tick) -> Answer {
    let heard = || neighbours.iter().flatten().copied();
    let min = heard().min().expect("a neighbour is heard");
    let max = heard().max().expect("a neighbour is heard");
    let Some(own) = own else {
        return Answer {
            p: max + 3 * h,
            correction: None,
            letter: Letter::Late,
        };
    };
    let (p, letter) = if heard().count() < neighbours.len() {
        let p = own.max(min - 3 * h);
        (p, kept_or_early(own, p))
    } else {
        let p = own - correction(own, min, max, h, j);
        (p, letter(own, min, max, h, j, p))
    };
    Answer {
        p,
        correction: Some(own - p),
        letter,
    }
}

#[cfg(test)]
mod tests {
    use super::*;
    use crate::generate::rng::Rng;
    use std::collections::BTreeMap;

    /// D by trying every s from 0 until the first number is the larger: from there on it grows.
    fn d_by_search(own: Tick, min: Tick, max: Tick, h: Tick) -> Tick {
        let mut least = larger_at(own, min, max, h, 0);
        let mut s = 0;
        while own - max + 8 * h * s < own - min - 8 * h * s {
            s += 1;
            least = least.min(larger_at(own, min, max, h, s));
        }
        least - h
    }

    #[test]
    fn d_is_the_least_of_a_full_search() {
        let mut rng = Rng::new(3);
        for _ in 0..200_000 {
            let h = rng.range(1, 40) as Tick;
            let min = rng.range(0, 3_000) as Tick;
            let gap = match rng.below(3) {
                0 => rng.range(0, 20),
                1 => rng.range(0, 5_000),
                _ => (rng.range(0, 40) * 8 * h as u64 + rng.range(0, 2)).saturating_sub(1),
            };
            let own = rng.range(0, 8_000) as Tick;
            let max = min + gap as Tick;
            let searched = d_by_search(own, min, max, h);
            assert_eq!(d(own, min, max, h), searched, "{own} {min} {max} {h}");
        }
    }

    #[test]
    fn the_search_may_stop_where_it_stops() {
        let mut rng = Rng::new(4);
        for _ in 0..2_000 {
            let h = rng.range(1, 9) as Tick;
            let min = rng.range(0, 500) as Tick;
            let max = min + rng.range(0, 1_500) as Tick;
            let own = rng.range(0, 2_000) as Tick;
            let all = (0..400).map(|s| larger_at(own, min, max, h, s)).min();
            assert_eq!(d_by_search(own, min, max, h), all.unwrap() - h);
        }
    }

    #[test]
    fn d_for_all_small_gaps() {
        for h in 1..=4 {
            for gap in 0..=40 * h {
                for own in [0, gap / 2, gap, gap + 3 * h] {
                    assert_eq!(d(own, 0, gap, h), d_by_search(own, 0, gap, h));
                }
            }
        }
    }

    #[test]
    fn a_gap_near_the_limit_takes_no_search() {
        let latest = (1 << 41) - 1;
        for h in [2, 12, 62_500] {
            let least = d(latest, 0, latest, h) + h;
            // The middle misses the best s by at most half a step of 8h.
            assert!(2 * least >= latest && 2 * least <= latest + 8 * h);
        }
    }

    #[test]
    fn three_neighbours_count_by_earliest_and_latest() {
        let stamps = |a, b, c| [Some(a), Some(b), Some(c)];
        for order in [stamps(100, 200, 300), stamps(300, 100, 200)] {
            assert_eq!(forward(Some(220), &order, 12, 24).p, 208);
        }
        // Own silent: the latest of all three. One silent: the earliest of the other two.
        assert_eq!(forward(None, &stamps(130, 100, 90), 12, 24).p, 166);
        let one_silent = [Some(300), None, Some(100)];
        assert_eq!(forward(Some(50), &one_silent, 12, 24).p, 64);
    }

    /// P and the letter for h 12 and J 24.
    fn told(own: Option<Tick>, neighbours: &[Option<Tick>]) -> (Tick, char) {
        let Answer { p, letter, .. } = forward(own, neighbours, 12, 24);
        (p, letter.byte().into())
    }

    /// Both neighbours stamp 100, or all three, so D is own - 112.
    #[test]
    fn letters_at_each_tie_and_on_both_sides() {
        for (own, p, letter) in [
            // Own is min - 3h.
            (63, 64, 'e'),
            (64, 64, 'k'),
            (65, 65, 'k'),
            // D is 0: P is own, and own is not what decides.
            (111, 111, 'k'),
            (112, 112, 'm'),
            (113, 112, 'm'),
            // D is J.
            (135, 112, 'm'),
            (136, 112, 'm'),
            (137, 113, 'b'),
            // Own - J is max + 3h.
            (159, 135, 'b'),
            (160, 136, 'b'),
            (161, 136, 'l'),
        ] {
            for count in 2..=3 {
                let neighbours = vec![Some(100); count];
                assert_eq!(told(Some(own), &neighbours), (p, letter), "own {own}");
            }
        }
    }

    /// Neighbours 100 and 300: s = 1 decides, the middle is 196 and D is own - 208. Own - J is max + 3h at 360.
    #[test]
    fn letters_beside_a_middle_that_no_neighbour_has() {
        for (own, p, letter) in [
            (63, 64, 'e'),
            (64, 64, 'k'),
            (207, 207, 'k'),
            (208, 208, 'm'),
            (232, 208, 'm'),
            (233, 209, 'b'),
            (360, 336, 'b'),
            (361, 336, 'l'),
        ] {
            assert_eq!(told(Some(own), &[Some(100), Some(300)]), (p, letter));
            let three = [Some(300), Some(100), Some(170)];
            assert_eq!(told(Some(own), &three), (p, letter), "own {own}");
        }
    }

    #[test]
    fn letters_with_own_silent() {
        assert_eq!(told(None, &[Some(100), Some(130)]), (166, 'l'));
        assert_eq!(told(None, &[Some(130), Some(100), Some(90)]), (166, 'l'));
    }

    /// D is not looked at: own is kept however late it is.
    #[test]
    fn letters_with_a_neighbour_silent() {
        let two = [[None, Some(100)], [Some(100), None]];
        let three = [[None, Some(100), Some(150)], [Some(150), None, Some(100)]];
        for (own, p, letter) in [
            (0, 64, 'e'),
            (63, 64, 'e'),
            (64, 64, 'k'),
            (90, 90, 'k'),
            (112, 112, 'k'),
            (137, 137, 'k'),
            (1_000, 1_000, 'k'),
        ] {
            for neighbours in two {
                assert_eq!(told(Some(own), &neighbours), (p, letter), "own {own}");
            }
            for neighbours in three {
                assert_eq!(told(Some(own), &neighbours), (p, letter), "own {own}");
            }
        }
    }

    /// The middle of the neighbours: the largest, over all s, of the smaller of min + 8hs and max - 8hs. Every s is
    /// tried until the second is the smaller: from there on it falls.
    fn middle_by_search(min: Tick, max: Tick, h: Tick) -> Tick {
        let smaller_at = |s: Tick| (min + 8 * h * s).min(max - 8 * h * s);
        let mut s = 0;
        let mut largest = smaller_at(s);
        while min + 8 * h * s < max - 8 * h * s {
            s += 1;
            largest = largest.max(smaller_at(s));
        }
        largest
    }

    /// P by what a letter says (§E3.2); `None` where it can't be said of these stamps.
    fn said(
        letter: Letter,
        own: Option<Tick>,
        neighbours: &[Option<Tick>],
        h: Tick,
        j: Tick,
    ) -> Option<Tick> {
        let heard = || neighbours.iter().flatten().copied();
        let (min, max) = (heard().min()?, heard().max()?);
        match letter {
            Letter::Kept => own,
            Letter::Early => Some(min - 3 * h).filter(|&p| own.is_some_and(|own| own < p)),
            Letter::Middle => Some(middle_by_search(min, max, h) + h),
            Letter::Back => own.map(|own| own - j),
            Letter::Late => Some(max + 3 * h),
        }
    }

    #[test]
    fn the_letter_and_the_stamps_give_p() {
        let mut rng = Rng::new(5);
        let mut met: BTreeMap<Letter, u32> = BTreeMap::new();
        for _ in 0..200_000 {
            let h = rng.range(1, 40) as Tick;
            let j = 2 * h + rng.range(0, 1) as Tick;
            let count = rng.range(2, 3) as usize;
            let spread = rng.pick(&[0, 20, 1_000, 5_000]);
            let stamps: Vec<Tick> = (0..count)
                .map(|_| rng.range(3_000, 3_000 + spread) as Tick)
                .collect();
            let (min, max) = (*stamps.iter().min().unwrap(), *stamps.iter().max().unwrap());
            // Own around the middle, where the letters meet, or anywhere.
            let ticks = (rng.range(0, 16) as Tick - 8) * h + rng.range(0, 4) as Tick - 2;
            let near = middle_by_search(min, max, h) + ticks;
            let far = rng.range(0, 10_000) as Tick;
            let mut own = Some(rng.pick(&[near, near, far]));
            let mut neighbours: Vec<Option<Tick>> = stamps.into_iter().map(Some).collect();
            match rng.below(6) {
                0 => own = None,
                1 => neighbours[rng.index(count)] = None,
                _ => {}
            }
            let Answer { p, letter, .. } = forward(own, &neighbours, h, j);
            let given = said(letter, own, &neighbours, h, j);
            assert_eq!(given, Some(p), "{letter} {own:?} {neighbours:?} {h} {j}");
            *met.entry(letter).or_default() += 1;
        }
        assert_eq!(met.len(), Letter::ALL.len());
        assert!(met.values().all(|&count| count > 5_000), "{met:?}");
    }
}
