//! Tiles of every letter (§E3.1), at each border between two letters and a tick to both sides.

use super::build::{fault, quiet, PRINTED};
use super::Case;
use crate::generate::describe::Description;
use crate::settings::{Numbers, Settings};
use crate::SILENT;

pub fn cases() -> Vec<Case> {
    let drifting = Numbers {
        drift_limit: 10_000,
        unit: 16,
        ..PRINTED
    };
    vec![
        Case::new("letters-ties", ties(PRINTED).encode().bytes),
        Case::new("letters-ties-j-33", ties(drifting).encode().bytes),
        Case::new(
            "letters-ties-faulty",
            heard_alike(ties(PRINTED)).encode().bytes,
        ),
        Case::new("letters-silence", silence().encode().bytes),
        Case::new("letters-by-phase", by_phase(drifting).encode().bytes),
    ]
}

/// h and J.
fn unit_and_step(numbers: Numbers) -> (i64, i64) {
    let settings = Settings::new(numbers).expect("sound settings");
    (settings.h() as i64, settings.j() as i64)
}

/// Moves the row 0 time of a column.
fn offset(wall: &mut Description, column: usize, ticks: i64) {
    let time = &mut wall.start[column];
    *time = time.saturating_add_signed(ticks);
}

/// Every other column from 4 to 50 stands at a border, or a tick beside it, between neighbours that pulse at 1,000:
/// own against min - 3h, D against 0 and J, own - J against max + 3h, and all once more. Columns 2 and W - 3, with
/// three neighbours, stand at two of them.
fn ties(numbers: Numbers) -> Description {
    let columns = 57;
    let (h, j) = unit_and_step(numbers);
    let mut wall = quiet(Numbers { columns, ..numbers });
    let borders = [-3 * h, h, h + j, 3 * h + j];
    let beside = borders.map(|border| [border - 1, border, border + 1]);
    let twice = [beside, beside].concat().concat();
    for (column, ticks) in (4..).step_by(2).zip(twice) {
        offset(&mut wall, column, ticks);
    }
    offset(&mut wall, 2, h + j);
    offset(&mut wall, columns as usize - 3, 3 * h + j);
    wall
}

/// A faulty tile in every eight columns, which is heard when it would be if it were correct.
fn heard_alike(mut wall: Description) -> Description {
    for column in (7..wall.start.len()).step_by(8) {
        let arrival = wall.start[column] + u64::from(wall.numbers.delay);
        fault(&mut wall.rows[0], column, |_| arrival);
    }
    wall
}

/// Every fourth column is silent. Beside these, columns with one or two neighbours that are heard stand around
/// min - 3h, or so late that without the silence their letters would be `m`, `b` and `l`.
fn silence() -> Description {
    let (h, j) = unit_and_step(PRINTED);
    let mut wall = quiet(Numbers {
        columns: 21,
        ..PRINTED
    });
    for column in (0..21).step_by(4) {
        fault(&mut wall.rows[0], column, |_| SILENT);
    }
    for (column, ticks) in [
        (1, 3 * h),
        (3, 3 * h),
        (5, -3 * h - 1),
        (7, -3 * h),
        (9, -3 * h + 1),
        (11, h),
        (13, h + j + 1),
        (15, 3 * h + j + 1),
        (17, 3 * h + 1),
        (19, 3 * h + 1),
    ] {
        offset(&mut wall, column, ticks);
    }
    wall
}

/// Columns 4 and 8 pulse 15 ticks after their neighbours and drift by 10,000, so that they lack 0.85 of a reading of
/// D = 0. One has a phase of that much, the other a phase of a millionth less.
fn by_phase(numbers: Numbers) -> Description {
    let mut wall = quiet(Numbers {
        columns: 13,
        ..numbers
    });
    for (column, phase) in [(4, 849_999), (8, 850_000)] {
        offset(&mut wall, column, 15);
        wall.rows[0].drifts[column] = 10_000;
        wall.rows[0].phases[column] = phase;
    }
    wall
}
