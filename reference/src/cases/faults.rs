//! Faults at every edge, for several widths, and walls as long and as wide as can be, some with phases.

use super::build::{fault, quiet, vary, vary_phases, PRINTED};
use super::Case;
use crate::generate::describe::Description;
use crate::settings::Numbers;
use crate::{LATEST_ARRIVAL, SILENT};

pub fn cases() -> Vec<Case> {
    let mut cases = Vec::new();
    for columns in [6, 7, 8, 9, 16, 17] {
        let wall = edges(columns);
        cases.push(Case::new(format!("w-{columns}-edges"), wall.encode().bytes));
    }
    cases.push(Case::new("w-256", widest().encode().bytes));
    cases.push(Case::new("w-6-r-1024", longest().encode().bytes));
    for columns in [6, 9] {
        let wall = phased(edges(columns));
        let name = format!("w-{columns}-edges-phases");
        cases.push(Case::new(name, wall.encode().bytes));
    }
    cases.push(Case::new("w-256-phases", phased(widest()).encode().bytes));
    cases
}

/// Drifts and delays that round.
const USUAL: Numbers = Numbers {
    delay: 1_000,
    uncertainty: 10,
    hold: 4_000,
    drift_limit: 100,
    unit: 13,
    ..PRINTED
};

/// What a faulty tile sends to a receiver.
#[derive(Clone, Copy)]
enum Sends {
    Early,
    Late,
    Silence,
    /// Near the pulses of the row, and other to each receiver.
    Near,
}

impl Sends {
    const ALL: [Sends; 4] = [Sends::Early, Sends::Late, Sends::Silence, Sends::Near];

    /// An arrival from a tile of the row that pulses around `time`.
    fn value(self, time: u64, tile: usize) -> u64 {
        match self {
            Sends::Early => 0,
            Sends::Late => LATEST_ARRIVAL,
            Sends::Silence => SILENT,
            Sends::Near => time + 1_000 + 29 * (tile as u64 % 7) - 87,
        }
    }
}

/// When row `l` pulses, about.
fn about(l: usize) -> u64 {
    1_000 + 5_000 * l as u64
}

/// A row for each of the six columns at the edges and each way to fail, and one without faults.
fn edges(columns: u32) -> Description {
    let last = columns as usize - 1;
    let at = [0, 1, 2, last - 2, last - 1, last];
    let rows = (at.len() * Sends::ALL.len()) as u32 + 1;
    let mut wall = quiet(Numbers {
        columns,
        rows,
        ..USUAL
    });
    let faults = at
        .iter()
        .flat_map(|&column| Sends::ALL.map(|sends| (column, sends)));
    for (l, (column, sends)) in faults.enumerate() {
        fault(&mut wall.rows[l], column, |tile| {
            sends.value(about(l), tile)
        });
    }
    varied(wall)
}

/// 256 columns: both ends at once, and as many faults as a row can have.
fn widest() -> Description {
    let mut wall = quiet(Numbers {
        columns: 256,
        rows: 4,
        ..USUAL
    });
    for (l, inset) in [0, 1, 2].into_iter().enumerate() {
        fault(&mut wall.rows[l], inset, |tile| {
            Sends::ALL[l].value(about(l), tile)
        });
        fault(&mut wall.rows[l], 255 - inset, |tile| {
            Sends::ALL[l + 1].value(about(l), tile)
        });
    }
    for column in (3..253).step_by(3) {
        let sends = Sends::ALL[column % 4];
        fault(&mut wall.rows[3], column, |tile| {
            sends.value(about(3), tile)
        });
    }
    varied(wall)
}

/// 1,024 rows, with a faulty tile at each end of all but the last.
fn longest() -> Description {
    let mut wall = quiet(Numbers {
        rows: 1_024,
        ..USUAL
    });
    for l in 0..1_023 {
        fault(&mut wall.rows[l], 0, |tile| {
            Sends::ALL[l % 4].value(about(l), tile)
        });
        fault(&mut wall.rows[l], 5, |tile| {
            Sends::ALL[l / 4 % 4].value(about(l), tile)
        });
    }
    varied(wall)
}

fn varied(mut wall: Description) -> Description {
    let numbers = wall.numbers;
    for (turn, row) in wall.rows.iter_mut().enumerate() {
        vary(&numbers, row, turn as u64);
    }
    wall
}

fn phased(mut wall: Description) -> Description {
    for (turn, row) in wall.rows.iter_mut().enumerate() {
        vary_phases(row, turn as u64);
    }
    wall
}
