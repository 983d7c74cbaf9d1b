//! Row 0 times, marks, drifts, phases and link values at and past their limits, and the order of the numbers.

use super::build::{fault, printed, quiet, PRINTED};
use super::Case;
use crate::generate::describe::{Description, RowDescription};
use crate::settings::Numbers;
use crate::{LARGEST_PHASE, LATEST_ARRIVAL, LATEST_START, SILENT};

pub fn cases() -> Vec<Case> {
    let mut cases = starts();
    cases.extend(stray_marks());
    cases.extend(crowded());
    cases.extend(drifts());
    cases.extend(phases());
    cases.extend(links());
    cases.extend(order());
    cases.extend(later_rows());
    cases
}

fn made(
    name: impl Into<String>,
    mut wall: Description,
    change: impl FnOnce(&mut Description),
) -> Case {
    change(&mut wall);
    Case::new(name, wall.encode().bytes)
}

fn first_row(name: impl Into<String>, change: impl FnOnce(&mut RowDescription)) -> Case {
    made(name, printed(1), |wall| change(&mut wall.rows[0]))
}

/// 45: over 2^39 - 1, also of a tile that is marked faulty later.
fn starts() -> Vec<Case> {
    let set = |name: &str, column: usize, time: u64| {
        made(name, printed(1), |wall| wall.start[column] = time)
    };
    vec![
        set("start-2-39-first", 0, LATEST_START + 1),
        set("start-2-39-last", 5, LATEST_START + 1),
        set("start-silent", 3, SILENT),
        made("start-2-39-of-a-faulty-tile", printed(1), |wall| {
            wall.start[5] = LATEST_START + 1;
            fault(&mut wall.rows[0], 5, |_| 1_100);
        }),
        made("start-all-latest", printed(2), |wall| {
            wall.start.fill(LATEST_START)
        }),
        made("start-all-0", printed(2), |wall| wall.start.fill(0)),
        made("start-0-and-latest", printed(3), |wall| {
            for (column, time) in wall.start.iter_mut().enumerate() {
                *time = LATEST_START * (column as u64 % 2);
            }
        }),
    ]
}

/// 22: every bit past the last column.
fn stray_marks() -> Vec<Case> {
    let mut cases = Vec::new();
    for columns in [6, 7, 9, 17] {
        let numbers = Numbers { columns, ..PRINTED };
        for bit in columns..columns.next_multiple_of(8) {
            let name = format!("w-{columns}-mark-{bit}");
            cases.push(made(name, quiet(numbers), |wall| {
                wall.rows[0].mark(bit as usize)
            }));
        }
    }
    cases
}

/// 24: every pair of columns of a wall of 9; those with no tile in common are accepted.
fn crowded() -> Vec<Case> {
    let numbers = Numbers {
        columns: 9,
        ..PRINTED
    };
    let mut cases = Vec::new();
    for a in 0..9 {
        for b in a + 1..9 {
            cases.push(made(
                format!("w-9-faulty-{a}-{b}"),
                quiet(numbers),
                |wall| {
                    fault(&mut wall.rows[0], a, |_| SILENT);
                    fault(&mut wall.rows[0], b, |_| 1_100);
                },
            ));
        }
    }
    cases
}

/// 25: over r, here 40.
fn drifts() -> Vec<Case> {
    let numbers = Numbers {
        drift_limit: 40,
        unit: 13,
        rows: 2,
        ..PRINTED
    };
    let wall = |name: &str, row: usize, column: usize, drift: u16| {
        made(name, quiet(numbers), |wall| {
            wall.rows[row].drifts[column] = drift
        })
    };
    let all = |name: &str, drift_limit: u32, unit: u32, at: fn(usize, u16) -> u16| {
        let numbers = Numbers {
            drift_limit,
            unit,
            ..numbers
        };
        made(name, quiet(numbers), |wall| {
            for (column, drift) in wall
                .rows
                .iter_mut()
                .flat_map(|row| row.drifts.iter_mut().enumerate())
            {
                *drift = at(column, drift_limit as u16);
            }
        })
    };
    vec![
        wall("drift-over-first", 0, 0, 41),
        wall("drift-over-last", 0, 5, 41),
        wall("drift-over-second-row", 1, 2, 41),
        wall("drift-65535", 0, 3, u16::MAX),
        wall("drift-at-limit", 0, 3, 40),
        all("drift-all-at-limit", 40, 13, |_, r| r),
        all("drift-all-10000", 10_000, 16, |_, r| r),
        all("drift-10000-and-0", 10_000, 16, |column, r| {
            r * (column as u16 % 2)
        }),
    ]
}

/// 53: over 999,999. After pulses at 1,000, a tile of drift 10,000 pulses at 1497, and at 1496 from phase 40,000 on;
/// one of drift 40 pulses at 1500, and at 1499 with phases from 940,040 to 955,999.
fn phases() -> Vec<Case> {
    let drifting = |drift_limit: u32, unit: u32| {
        let mut wall = quiet(Numbers {
            drift_limit,
            unit,
            rows: 2,
            ..PRINTED
        });
        for row in &mut wall.rows {
            row.drifts.fill(drift_limit as u16);
        }
        wall
    };
    let wall = |name: &str, row: usize, column: usize, phase: u32| {
        made(name, drifting(10_000, 16), |wall| {
            wall.rows[row].phases[column] = phase
        })
    };
    let all = |name: &str, wall: Description, at: fn(usize) -> u32| {
        made(name, wall, |wall| {
            for row in &mut wall.rows {
                row.phases = (0..row.phases.len()).map(at).collect();
            }
        })
    };
    vec![
        wall("phase-over-first", 0, 0, LARGEST_PHASE + 1),
        wall("phase-over-last", 0, 5, LARGEST_PHASE + 1),
        wall("phase-over-second-row", 1, 2, LARGEST_PHASE + 1),
        wall("phase-4294967295", 0, 3, u32::MAX),
        wall("phase-at-limit", 0, 3, LARGEST_PHASE),
        all("phase-all-at-limit", drifting(10_000, 16), |_| {
            LARGEST_PHASE
        }),
        all("phase-all-at-limit-drift-0", printed(2), |_| LARGEST_PHASE),
        all("phase-tick-apart", drifting(10_000, 16), |column| {
            39_999 + column as u32 % 2
        }),
        all("phase-by-column", drifting(40, 13), |column| {
            [0, 940_039, 940_040, 955_999, 956_000, LARGEST_PHASE][column]
        }),
    ]
}

/// 26: a delay that is not from d - u to d, silence from a correct tile, an arrival from a faulty one past 2^40 - 1.
fn links() -> Vec<Case> {
    let set = |name: &str, tile: usize, place: usize, value: u64| {
        first_row(name, |row| row.links[tile][place] = value)
    };
    let arrival = |name: &str, column: usize, value: u64| {
        first_row(name, |row| fault(row, column, |_| value))
    };
    vec![
        set("delay-over-first", 0, 0, 101),
        set("delay-over-last", 5, 2, 101),
        set("delay-under-first", 0, 0, 89),
        set("delay-under-last", 5, 2, 89),
        set("delay-under-third", 2, 0, 89),
        set("delay-over-third", 2, 3, 101),
        set("delay-0", 3, 1, 0),
        set("delay-silent", 2, 0, SILENT),
        set("delay-2-63", 3, 3, 1 << 63),
        set("delay-shortest", 2, 1, 90),
        arrival("arrival-2-40", 0, LATEST_ARRIVAL + 1),
        arrival("arrival-2-40-last", 5, LATEST_ARRIVAL + 1),
        arrival("arrival-near-silence", 2, SILENT - 1),
        arrival("arrival-latest", 2, LATEST_ARRIVAL),
        arrival("arrival-0", 3, 0),
        arrival("arrival-silent", 3, SILENT),
        first_row("unmarked-arrival", |row| {
            fault(row, 3, |_| 1_100);
            row.marks[0] = 0;
        }),
    ]
}

/// The first number of a row, 53 being after 25 and before 26, wherever in the row it arises.
fn order() -> Vec<Case> {
    let spoiled = |name: &str, marks: u8, drift: u16| {
        first_row(name, |row| {
            row.links[0][0] = 101;
            row.drifts[5] = drift;
            row.marks[0] = marks;
        })
    };
    // Columns of a drift over r, of a phase over 999,999 and of a delay over d.
    let in_columns = |name: &str, drift: Option<usize>, phase: usize, delay: Option<usize>| {
        first_row(name, |row| {
            row.phases[phase] = LARGEST_PHASE + 1;
            if let Some(column) = drift {
                row.drifts[column] = 1;
            }
            if let Some(column) = delay {
                row.links[column][0] = 101;
            }
        })
    };
    vec![
        spoiled("order-26", 0, 0),
        spoiled("order-25-26", 0, 1),
        spoiled("order-24-25-26", 0b001_001, 1),
        spoiled("order-22-24-25-26", 0b1000_0011, 1),
        in_columns("order-53-26", None, 0, Some(5)),
        in_columns("order-53-last-26-first", None, 5, Some(0)),
        in_columns("order-25-53", Some(0), 5, None),
        in_columns("order-25-last-53-first", Some(5), 0, None),
        in_columns("order-25-53-26", Some(5), 3, Some(0)),
        made("order-45-24", printed(1), |wall| {
            wall.start[0] = LATEST_START + 1;
            wall.rows[0].marks[0] = 0b11;
        }),
    ]
}

/// A refusal of row L + 1 leaves row L unprinted, and the rows before it printed.
fn later_rows() -> Vec<Case> {
    let mut cases = Vec::new();
    for row in 0..4 {
        let name = format!("refused-row-{}-of-4", row + 1);
        cases.push(made(name, printed(4), |wall| {
            wall.rows[row].marks[0] = 0b11
        }));
    }
    cases
}
