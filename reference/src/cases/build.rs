//! Walls that the cases start from.

use crate::generate::describe::{Description, RowDescription};
use crate::settings::Numbers;
use crate::shape::{is_marked, Shape};
use crate::LARGEST_PHASE;

/// The settings of the wall that is printed whole (§14.4).
pub const PRINTED: Numbers = Numbers {
    columns: 6,
    rows: 1,
    delay: 100,
    uncertainty: 10,
    hold: 400,
    drift_limit: 0,
    unit: 12,
};

/// The settings of the tile case whose clocks drift (§14.1).
pub const DRIFTING: Numbers = Numbers {
    drift_limit: 10_000,
    uncertainty: 8,
    hold: 192,
    ..PRINTED
};

/// The wall that is printed whole, with so many rows.
pub fn printed(rows: u32) -> Description {
    let mut wall = quiet(Numbers { rows, ..PRINTED });
    wall.start[3] = 1_080;
    wall
}

/// A wall without faults: row 0 at 1,000, drifts and phases 0, all delays the longest.
pub fn quiet(numbers: Numbers) -> Description {
    Description {
        numbers,
        start: vec![1_000; numbers.columns as usize],
        rows: vec![quiet_row(&numbers); numbers.rows as usize],
    }
}

fn quiet_row(numbers: &Numbers) -> RowDescription {
    let shape = Shape::new(numbers.columns as usize);
    let senders = |tile: usize| shape.predecessors(tile).len();
    RowDescription {
        marks: vec![0; shape.mark_bytes()],
        drifts: vec![0; shape.columns()],
        phases: vec![0; shape.columns()],
        links: (0..shape.columns())
            .map(|tile| vec![numbers.delay.into(); senders(tile)])
            .collect(),
    }
}

/// Marks a column in a row's marks and has it send what `value` says to each receiver.
pub fn fault(row: &mut RowDescription, column: usize, value: impl Fn(usize) -> u64) {
    row.mark(column);
    let shape = Shape::new(row.drifts.len());
    for tile in 0..shape.columns() {
        for (place, &sender) in shape.predecessors(tile).iter().enumerate() {
            if sender == column {
                row.links[tile][place] = value(tile);
            }
        }
    }
}

/// Gives each tile a drift, and each link from a correct tile a delay, that differ from one to the next: the least and
/// the most, and those between.
pub fn vary(numbers: &Numbers, row: &mut RowDescription, turn: u64) {
    let shape = Shape::new(row.drifts.len());
    let (u, r) = (
        u64::from(numbers.uncertainty),
        u64::from(numbers.drift_limit),
    );
    let least = u64::from(numbers.delay) - u;
    for tile in 0..shape.columns() {
        row.drifts[tile] = spread(3 * tile as u64 + turn, r) as u16;
        for (place, &sender) in shape.predecessors(tile).iter().enumerate() {
            if !is_marked(&row.marks, sender) {
                let at = 5 * tile as u64 + place as u64 + 2 * turn;
                row.links[tile][place] = least + spread(at, u);
            }
        }
    }
}

/// Gives each tile a phase that differs from one to the next: the least and the most, and those between.
pub fn vary_phases(row: &mut RowDescription, turn: u64) {
    for (tile, phase) in (0..).zip(&mut row.phases) {
        *phase = spread(7 * tile + 3 * turn, LARGEST_PHASE.into()) as u32;
    }
}

/// A number from 0 to `most`, the ends often.
fn spread(at: u64, most: u64) -> u64 {
    match at % 4 {
        0 => 0,
        1 => most,
        _ => at * 7_919 % (most + 1),
    }
}
