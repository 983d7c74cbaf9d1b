//! Lists of rows in which the first wide seam is looked for: each row is the one before with
//! something changed, and some are spoiled.

mod names;

pub use names::ANSWERS;

use crate::{limits, Difference, Tally};
use polzaintu::seam::{first_wide, Wide};
use polzaintu::Settings;
use wall_reference::generate::rng::Rng;
use wall_reference::generate::{numbers, spoil};
use wall_reference::settings::Numbers;
use wall_reference::shape::{are_neighbours, is_marked};
use wall_reference::{wide, Refused, LATEST_STAMP};

/// All that a call is lent.
#[derive(Clone, Debug)]
struct Call {
    settings: Numbers,
    times: Vec<u64>,
    marks: Vec<u8>,
    limit: u64,
}

/// The seam, or that there is none, or the number.
#[derive(Debug, PartialEq, Eq)]
struct Answered(Result<Option<Wide>, u32>);

/// Runs the list of a seed through both.
pub fn run(seed: u64, tally: &mut Tally) -> Result<(), Difference> {
    let rng = &mut Rng::new(seed);
    let habits = Habits::some(rng);
    let mut row = habits.row(rng);
    let mut calls = Vec::new();
    for _ in 0..rng.range(1, 20) {
        habits.change(rng, &mut row);
        let call = if rng.chance(20) {
            row.spoiled(rng)
        } else {
            row.clone()
        };
        let (due, given) = (by_reference(&call), by_library(&call));
        calls.push(call);
        tally.compare(&calls, &due, &given)?;
    }
    Ok(())
}

fn by_reference(call: &Call) -> Answered {
    let found = wide::first_in_row(&call.settings, &call.times, &call.marks, call.limit);
    let seam = |seam: wide::Wide| Wide {
        left: seam.left,
        right: seam.right,
        half_ticks: seam.half_ticks,
    };
    let number = |refused: Refused| u32::from(refused.0);
    Answered(found.map(|found| found.map(seam)).map_err(number))
}

fn by_library(call: &Call) -> Answered {
    let settings = Settings::new(limits(&call.settings));
    let first = |s: Settings| first_wide(&s, &call.times, &call.marks, call.limit);
    Answered(settings.and_then(first).map_err(|refusal| refusal.number()))
}

/// The seams of a row, in their order.
fn seams(width: usize) -> Vec<(usize, usize)> {
    let near = (0..width).flat_map(|left| (left + 1..width.min(left + 3)).map(move |r| (left, r)));
    near.filter(|&(l, r)| are_neighbours(width, l, r)).collect()
}

/// What the rows of one list have in common.
struct Habits {
    settings: Numbers,
    seams: Vec<(usize, usize)>,
    /// Most times are from the first of these to the last.
    near: (u64, u64),
    /// In how many of 100 a tile has another time than the first of these, is faulty, is late.
    uneven: u64,
    faulty: u64,
    late: u64,
}

impl Habits {
    fn some(rng: &mut Rng) -> Habits {
        let columns = match rng.below(100) {
            0..=59 => rng.range(6, 12),
            60..=94 => rng.range(13, 40),
            95..=97 => rng.range(41, 254),
            _ => rng.range(255, 256),
        };
        let span = rng.pick(&[1, 2, 40, 1000, 1 << 20, LATEST_STAMP]);
        let last = LATEST_STAMP - span;
        let random = rng.range(0, last);
        let first = rng.pick(&[0, last, random]);
        Habits {
            settings: Numbers {
                columns: columns as u32,
                ..numbers::sound(rng)
            },
            seams: seams(columns as usize),
            near: (first, first + span),
            uneven: rng.pick(&[5, 30, 100]),
            faulty: rng.pick(&[0, 2, 10, 30, 90]),
            late: rng.pick(&[0, 0, 1, 10]),
        }
    }

    fn row(&self, rng: &mut Rng) -> Call {
        let columns = self.settings.columns as usize;
        let mut row = Call {
            settings: self.settings,
            times: vec![0; columns],
            marks: vec![0; columns.div_ceil(8)],
            limit: 0,
        };
        for column in 0..columns {
            row.times[column] = self.time(rng);
            self.mark(rng, &mut row, column);
        }
        row
    }

    /// Another limit, and a few other tiles or none; at times another row. Marks past the last
    /// column are all set, or none is.
    fn change(&self, rng: &mut Rng, row: &mut Call) {
        if rng.chance(10) {
            *row = self.row(rng);
        }
        for _ in 0..rng.below(3) {
            let column = rng.index(row.times.len());
            row.times[column] = self.time(rng);
            self.mark(rng, row, column);
        }
        let past = (0xff << ((row.times.len() - 1) % 8 + 1)) as u8;
        let last = row.marks.last_mut().expect("a row has marks");
        *last = *last & !past | rng.pick(&[0, past]);
        row.limit = self.limit(rng, row);
    }

    fn time(&self, rng: &mut Rng) -> u64 {
        if rng.chance(self.late) {
            rng.pick(&[LATEST_STAMP + 1, 1 << 63, u64::MAX])
        } else if rng.chance(self.uneven) {
            rng.range(self.near.0, self.near.1)
        } else {
            self.near.0
        }
    }

    fn mark(&self, rng: &mut Rng, row: &mut Call, column: usize) {
        let bit = 1 << (column % 8);
        row.marks[column / 8] &= !bit;
        if rng.chance(self.faulty) {
            row.marks[column / 8] |= bit;
        }
    }

    /// At a gap of the row or next to it, most often the widest of its closed seams; or any.
    fn limit(&self, rng: &mut Rng, row: &Call) -> u64 {
        let gap = match rng.below(10) {
            0..=4 => row.widest(&self.seams),
            5..=6 => {
                let (left, right) = rng.pick(&self.seams);
                row.gap(left, right)
            }
            7 => return rng.pick(&[0, LATEST_STAMP, LATEST_STAMP + 1, 1 << 42, u64::MAX]),
            _ => return rng.spread(0, LATEST_STAMP),
        };
        let under = gap.saturating_sub(1);
        rng.pick(&[under, under, under, gap, gap.saturating_add(1)])
    }
}

impl Call {
    fn is_faulty(&self, column: usize) -> bool {
        is_marked(&self.marks, column)
    }

    /// How far apart two times are, be they read or not.
    fn gap(&self, left: usize, right: usize) -> u64 {
        self.times[left].abs_diff(self.times[right])
    }

    /// The widest gap of the closed seams that are not turned away; 0 where there is none.
    fn widest(&self, seams: &[(usize, usize)]) -> u64 {
        let sound = |column| !self.is_faulty(column) && self.times[column] <= LATEST_STAMP;
        let closed = seams.iter().filter(|&&(l, r)| sound(l) && sound(r));
        closed.map(|&(l, r)| self.gap(l, r)).max().unwrap_or(0)
    }

    /// With settings that do not pass, something of another length, a late time, or a few of these.
    fn spoiled(&self, rng: &mut Rng) -> Call {
        let mut call = self.clone();
        let late = rng.index(call.times.len());
        match rng.below(3) {
            0 => spoil::settings(rng, &mut call.settings),
            1 => call.wrong_length(rng),
            _ => call.times[late] = LATEST_STAMP + 1,
        }
        if rng.chance(20) {
            call.wrong_length(rng);
        }
        call
    }

    /// One too short, one too long, or empty.
    fn wrong_length(&mut self, rng: &mut Rng) {
        fn resize<T: Copy>(rng: &mut Rng, lent: &mut Vec<T>, more: T) {
            match rng.below(5) {
                0..=1 => lent.push(more),
                2..=3 => drop(lent.pop()),
                _ => lent.clear(),
            }
        }
        if rng.chance(50) {
            resize(rng, &mut self.times, 0);
        } else {
            resize(rng, &mut self.marks, 0);
        }
    }
}
