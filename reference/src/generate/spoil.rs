//! Contents past their limits in a file whose fields are framed rightly: refusals 1 to 9, 22, 24 to
//! 26, 45 and 53.

use super::describe::{Description, RowDescription};
use super::rng::Rng;
use crate::settings::Numbers;
use crate::shape::{is_marked, Shape};
use crate::{LARGEST_PHASE, LATEST_ARRIVAL, LATEST_START, SILENT};

/// Spoils one of the seven numbers, or a few, most often just past a limit.
pub fn settings(rng: &mut Rng, numbers: &mut Numbers) {
    for _ in 0..rng.pick(&[1, 1, 1, 1, 2, 3]) {
        let large = rng.spread(1_000_001, u64::from(u32::MAX)) as u32;
        match rng.range(1, 10) {
            1 => numbers.columns = rng.pick(&[0, 5, 257, 65_535]),
            2 => numbers.rows = rng.pick(&[0, 1_025, 65_535]),
            3 => numbers.delay = rng.pick(&[0, 1_000_001, u32::MAX, large]),
            4 => {
                let past = numbers.delay.saturating_add(1);
                numbers.uncertainty = rng.pick(&[past, past, u32::MAX, large]);
            }
            5 => numbers.hold = rng.pick(&[0, 1_000_001, u32::MAX, large]),
            6 => numbers.drift_limit = rng.pick(&[10_001, u32::MAX, large]),
            7 => numbers.unit = rng.pick(&[0, 62_501, u32::MAX, large]),
            8 => unit_too_small(rng, numbers),
            9 => hold_too_small(rng, numbers),
            _ => {
                unit_too_small(rng, numbers);
                hold_too_small(rng, numbers);
            }
        }
    }
}

/// h one or more below u + c + 2, but not below 1.
fn unit_too_small(rng: &mut Rng, numbers: &mut Numbers) {
    let least = i128::from(numbers.uncertainty) + numbers.c() + 2;
    let past = (least - 1).clamp(1, 62_500) as u32;
    numbers.unit = rng.pick(&[past, past, past, 1]);
}

/// A one or more below 16h, but not below 1.
fn hold_too_small(rng: &mut Rng, numbers: &mut Numbers) {
    let past = numbers.unit.saturating_mul(16).saturating_sub(1).max(1);
    numbers.hold = rng.pick(&[past, past, past, past / 2 + 1, 1]);
}

/// Puts row 0 times over 2^39 - 1, sometimes those of columns that the first row marks faulty.
pub fn start(rng: &mut Rng, wall: &mut Description) {
    let w = wall.start.len();
    let marks = &wall.rows[0].marks;
    let faulty: Vec<usize> = (0..w).filter(|&column| is_marked(marks, column)).collect();
    let last = [0, w - 1];
    for _ in 0..rng.pick(&[1, 1, 1, 3]) {
        let column = match rng.below(3) {
            0 if !faulty.is_empty() => rng.pick(&faulty),
            1 => rng.pick(&last),
            _ => rng.index(w),
        };
        let random = rng.range(LATEST_START + 1, u64::MAX - 1);
        let past = LATEST_START + 1;
        wall.start[column] = rng.pick(&[past, past, past + 1, 1 << 40, 1 << 63, SILENT, random]);
    }
}

/// Spoils one thing of a row: a stray mark, two faulty predecessors, a drift, a phase or a link value.
pub fn row(rng: &mut Rng, wall: &mut Description, index: usize) {
    let numbers = wall.numbers;
    let row = &mut wall.rows[index];
    match rng.below(11) {
        0..=1 if !numbers.columns.is_multiple_of(8) => stray_mark(rng, &numbers, row),
        0..=3 => faulty_neighbours(rng, &numbers, row),
        4..=5 => drift(rng, &numbers, row),
        6..=7 => phase(rng, row),
        8 => unmark(row),
        _ => link(rng, &numbers, row),
    }
}

/// 22: a mark past column W - 1.
fn stray_mark(rng: &mut Rng, numbers: &Numbers, row: &mut RowDescription) {
    let past = row.marks.len() * 8 - 1;
    row.mark(rng.range(numbers.columns.into(), past as u64) as usize);
}

/// 24: two or more predecessors of one tile marked.
fn faulty_neighbours(rng: &mut Rng, numbers: &Numbers, row: &mut RowDescription) {
    let w = numbers.columns as usize;
    if rng.chance(25) {
        // A pair that one tile alone has among its predecessors, the third from an end.
        let (a, b) = rng.pick(&[(0, 3), (w - 4, w - 1)]);
        row.marks.fill(0);
        row.mark(a);
        row.mark(b);
        return;
    }
    let random = rng.index(w);
    let tile = rng.pick(&[0, 2, w - 3, w - 1, random, random, random, random]);
    let shape = Shape::new(w);
    let mut senders = shape.predecessors(tile).to_vec();
    rng.shuffle(&mut senders);
    for &sender in &senders[..rng.pick(&[2, 2, 2, 3])] {
        row.mark(sender);
    }
}

/// 25: a drift over r.
fn drift(rng: &mut Rng, numbers: &Numbers, row: &mut RowDescription) {
    let w = row.drifts.len();
    let random = rng.index(w);
    let column = rng.pick(&[0, w - 1, random]);
    let past = numbers.drift_limit as u16 + 1;
    row.drifts[column] = rng.pick(&[past, past, past, u16::MAX]);
}

/// 53: a phase over 999,999.
fn phase(rng: &mut Rng, row: &mut RowDescription) {
    let w = row.phases.len();
    let random = rng.index(w);
    let column = rng.pick(&[0, w - 1, random]);
    let past = LARGEST_PHASE + 1;
    let any = rng.range(past.into(), u32::MAX.into()) as u32;
    row.phases[column] = rng.pick(&[past, past, past, any, u32::MAX]);
}

/// The arrivals of the faulty tiles stay and their marks go, so that they are read as delays.
fn unmark(row: &mut RowDescription) {
    row.marks.fill(0);
}

/// 26: a delay that is not from d - u to d, or an arrival from a faulty tile past 2^40 - 1.
fn link(rng: &mut Rng, numbers: &Numbers, row: &mut RowDescription) {
    let w = row.drifts.len();
    let shape = Shape::new(w);
    let links: Vec<(usize, usize, usize)> = (0..w)
        .flat_map(|tile| {
            (0..)
                .zip(shape.predecessors(tile))
                .map(move |(at, &s)| (tile, at, s))
        })
        .collect();
    let from_faulty: Vec<(usize, usize, usize)> = links
        .iter()
        .filter(|(_, _, sender)| is_marked(&row.marks, *sender))
        .copied()
        .collect();
    let (tile, at, sender) = match rng.below(4) {
        0 => links[0],
        1 => links[links.len() - 1],
        2 if !from_faulty.is_empty() => rng.pick(&from_faulty),
        _ => rng.pick(&links),
    };
    let past = LATEST_ARRIVAL + 1;
    row.links[tile][at] = if is_marked(&row.marks, sender) {
        rng.pick(&[past, past, past + 1, 2 * past, 1 << 63, SILENT - 1])
    } else {
        let (delay, least) = (numbers.delay, numbers.delay - numbers.uncertainty);
        let (over, under) = (u64::from(delay) + 1, u64::from(least).wrapping_sub(1));
        rng.pick(&[
            over,
            over,
            under,
            under,
            0,
            past,
            SILENT,
            SILENT,
            SILENT - 1,
        ])
    };
}
