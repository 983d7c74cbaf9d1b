//! Lists of row calls: the rows of a wall, each from what the newest accepted call wrote, with
//! spoiled ones between them.

mod names;

pub use names::ANSWERS;

use crate::{limits, Difference, Tally};
use polzaintu::{row, Letter, Settings};
use wall_reference::generate::describe::Description;
use wall_reference::generate::rng::Rng;
use wall_reference::generate::{numbers, rows, spoil};
use wall_reference::row::{Lent, Wall};
use wall_reference::settings::{self, Numbers};
use wall_reference::shape::is_marked;
use wall_reference::{Refused, LATEST_ARRIVAL};

/// All that a call is lent; `times` and `letters` are the rows to write, with what they hold before
/// the call.
#[derive(Debug)]
struct Call {
    settings: Numbers,
    before: Vec<u64>,
    marks: Vec<u8>,
    drifts: Vec<u32>,
    phases: Vec<u32>,
    links: Vec<u64>,
    times: Vec<u64>,
    letters: Vec<Letter>,
}

/// The answer, with the rows to write as they are after the call, the letters as text.
#[derive(Debug, PartialEq, Eq)]
struct Answered {
    ends: Result<Ends, u32>,
    times: Vec<u64>,
    letters: String,
}

#[derive(Debug, PartialEq, Eq)]
struct Ends {
    earliest: u64,
    latest: u64,
}

/// Runs the list of a seed through both.
pub fn run(seed: u64, tally: &mut Tally) -> Result<(), Difference> {
    let rng = &mut Rng::new(seed);
    let described = described(rng);
    let wall = wall_of(described.numbers);
    let mut before = described.start.clone();
    let mut calls = Vec::new();
    for index in 0..described.rows.len() {
        let spoiled = rng.below(3);
        for turn in 0..=spoiled {
            let call = if turn < spoiled {
                Call::spoiled(rng, &described, index, &before)
            } else {
                Call::new(rng, &described, index, &before)
            };
            let due = by_reference(&wall, &call, &call.phases);
            let given = by_library(&call);
            calls.push(call);
            tally.compare(&calls, &due, &given)?;
            if given.ends.is_ok() {
                before = given.times;
            }
        }
    }
    Ok(())
}

fn wall_of(numbers: Numbers) -> Wall {
    let settings = settings::Settings::new(numbers);
    settings.and_then(Wall::new).expect("sound settings")
}

/// What the reference answers where the clocks have these phases.
fn by_reference(wall: &Wall, call: &Call, phases: &[u32]) -> Answered {
    // Drifts have 16 bits there, the largest of which is over any r.
    let drift = |&drift: &u32| u16::try_from(drift).unwrap_or(u16::MAX);
    let drifts: Vec<u16> = call.drifts.iter().map(drift).collect();
    let lent = Lent {
        before: &call.before,
        marks: &call.marks,
        drifts: &drifts,
        phases,
        links: &call.links,
    };
    let mut times = call.times.clone();
    let mut letters: Vec<u8> = call.letters.iter().map(|letter| letter.byte()).collect();
    let ends = wall.row(&lent, &mut times, &mut letters);
    let ends = ends.map(|ends| Ends {
        earliest: ends.earliest,
        latest: ends.latest,
    });
    Answered {
        ends: ends.map_err(|Refused(number)| number.into()),
        times,
        letters: letters.into_iter().map(char::from).collect(),
    }
}

fn by_library(call: &Call) -> Answered {
    let settings = Settings::new(limits(&call.settings));
    let lent = row::Lent {
        before: &call.before,
        marks: &call.marks,
        drifts: &call.drifts,
        phases: &call.phases,
        links: &call.links,
    };
    let (mut times, mut letters) = (call.times.clone(), call.letters.clone());
    let plan = |settings: Settings| row::plan(&settings, lent, &mut times, &mut letters);
    let ends = settings.and_then(plan);
    let ends = ends.map(|ends| Ends {
        earliest: ends.earliest,
        latest: ends.latest,
    });
    Answered {
        ends: ends.map_err(|refusal| refusal.number()),
        times,
        letters: letters.into_iter().map(Letter::as_char).collect(),
    }
}

/// A wall of up to four rows, narrow, or wide enough for eight plain tiles, which is from W 19 on.
fn described(rng: &mut Rng) -> Description {
    let (columns, most_rows) = match rng.below(100) {
        0..=49 => (rng.range(6, 12), 4),
        50..=94 => (rng.range(16, 40), 4),
        95..=97 => (rng.range(41, 254), 2),
        _ => (rng.range(255, 256), 2),
    };
    let numbers = Numbers {
        columns: columns as u32,
        rows: rng.range(1, most_rows) as u32,
        ..numbers::sound(rng)
    };
    rows::sound_rows(rng, numbers)
}

impl Call {
    /// A row of the wall, with any times for faulty tiles of the row before, and any times and letters
    /// in the rows to write.
    fn new(rng: &mut Rng, wall: &Description, index: usize, before: &[u64]) -> Call {
        let row = &wall.rows[index];
        let mut before = before.to_vec();
        for column in (0..before.len()).filter(|&column| is_marked(&row.marks, column)) {
            before[column] = rng.pick(&[before[column], 0, LATEST_ARRIVAL + 1, u64::MAX]);
        }
        let held = before.iter().map(|_| {
            let random = rng.next_u64();
            rng.pick(&[0, u64::MAX, random])
        });
        let times = held.collect();
        let letters = before.iter().map(|_| rng.pick(&Letter::ALL)).collect();
        Call {
            settings: wall.numbers,
            times,
            letters,
            before,
            marks: row.marks.clone(),
            drifts: row.drifts.iter().map(|&drift| drift.into()).collect(),
            phases: row.phases.clone(),
            links: row.flat_links(),
        }
    }

    /// A row of the wall with something spoiled, or a few things; some are accepted all the same.
    fn spoiled(rng: &mut Rng, wall: &Description, index: usize, before: &[u64]) -> Call {
        let mut wall = wall.clone();
        for _ in 0..rng.pick(&[0, 0, 1, 1, 1, 2]) {
            spoil::row(rng, &mut wall, index);
        }
        let mut call = Call::new(rng, &wall, index, before);
        if rng.chance(30) {
            call.late_time(rng);
        }
        if rng.chance(10) {
            call.long_drift(rng);
        }
        if rng.chance(30) {
            call.wrong_length(rng);
        }
        call
    }

    /// 23: a time at its limit or past it.
    fn late_time(&mut self, rng: &mut Rng) {
        let past = LATEST_ARRIVAL + 1;
        *end_or_any(rng, &mut self.before) = rng.pick(&[past - 1, past, past, 1 << 63, u64::MAX]);
    }

    /// 25: a drift of more than 16 bits, the lowest of which are one that may be accepted.
    fn long_drift(&mut self, rng: &mut Rng) {
        let drift = end_or_any(rng, &mut self.drifts);
        *drift = rng.pick(&[1 << 16 | *drift, 1 << 31 | *drift, u32::MAX]);
    }

    /// 21: something that is lent one too short or one too long.
    fn wrong_length(&mut self, rng: &mut Rng) {
        fn resize<T: Copy>(lent: &mut Vec<T>, longer: bool) {
            if longer {
                lent.extend_from_within(..1);
            } else {
                lent.pop();
            }
        }
        let longer = rng.chance(50);
        match rng.below(7) {
            0 => resize(&mut self.before, longer),
            1 => resize(&mut self.marks, longer),
            2 => resize(&mut self.drifts, longer),
            3 => resize(&mut self.phases, longer),
            4 => resize(&mut self.links, longer),
            5 => resize(&mut self.times, longer),
            _ => resize(&mut self.letters, longer),
        }
    }
}

/// The first, the last or any.
fn end_or_any<'a, T>(rng: &mut Rng, row: &'a mut [T]) -> &'a mut T {
    let any = rng.index(row.len());
    &mut row[rng.pick(&[0, row.len() - 1, any])]
}
