//! Settings that pass: small, random, and at the limits of their ranges.

use super::rng::Rng;
use crate::settings::{Numbers, Settings};

/// Settings that pass, of a random size.
pub fn sound(rng: &mut Rng) -> Numbers {
    let (columns, rows) = size(rng);
    let numbers = match rng.below(10) {
        0..=1 => printed(columns, rows),
        2..=4 => {
            let hold = rng.range(32, 2_000);
            fitting(rng, columns, rows, hold)
        }
        5..=7 => {
            let hold = rng.spread(32, 1_000_000);
            fitting(rng, columns, rows, hold)
        }
        _ => {
            let hold = rng.pick(&[32, 33, 48, 64, 999_999, 1_000_000]);
            fitting(rng, columns, rows, hold)
        }
    };
    assert!(Settings::new(numbers).is_ok(), "{numbers:?}");
    numbers
}

/// The settings of the wall that is printed whole (§14.4), of another size.
fn printed(columns: u32, rows: u32) -> Numbers {
    Numbers {
        columns,
        rows,
        delay: 100,
        uncertainty: 10,
        hold: 400,
        drift_limit: 0,
        unit: 12,
    }
}

/// Settings as a wall in use might have them.
pub fn realistic(columns: u32, rows: u32) -> Numbers {
    Numbers {
        columns,
        rows,
        delay: 1_000,
        uncertainty: 20,
        hold: 20_000,
        drift_limit: 100,
        unit: 24,
    }
}

/// W and R: mostly small, each limit now and then.
fn size(rng: &mut Rng) -> (u32, u32) {
    let columns = match rng.below(100) {
        0..=59 => rng.pick(&[6, 7, 8, 9, 10, 15, 16, 17]),
        60..=74 => rng.pick(&[24, 25, 64]),
        75..=79 => rng.pick(&[255, 256]),
        80..=97 => rng.range(6, 40),
        _ => rng.range(41, 256),
    };
    let rows = match (columns, rng.below(200)) {
        (256, 0..=19) => 1_024,
        (100.., _) => rng.range(1, 3),
        (_, 0..=89) => 1,
        (_, 90..=189) => rng.range(2, 6),
        (6..=10, 199) => rng.range(1_023, 1_024),
        _ => rng.range(7, 40),
    };
    (columns as u32, rows as u32)
}

/// Settings around a hold of 32 or more: the other numbers are chosen one by one, each where the
/// checks leave room.
fn fitting(rng: &mut Rng, columns: u32, rows: u32, hold: u64) -> Numbers {
    let most_unit = (hold / 16).min(62_500);
    let drift_limit = match rng.below(4) {
        0 => 0,
        1 => 10_000,
        2 => 1,
        _ => rng.spread(0, 10_000),
    };
    let mut numbers = Numbers {
        columns,
        rows,
        delay: 0,
        uncertainty: 0,
        hold: hold as u32,
        drift_limit: drift_limit as u32,
        unit: 0,
    };
    if numbers.c() as u64 + 2 > most_unit {
        numbers.drift_limit = 0;
    }
    let c = numbers.c() as u64;
    let room = most_unit - c - 2;
    let delay = match rng.below(5) {
        0 => 1,
        1 => 1_000_000,
        2 => room.max(1),
        _ => rng.spread(1, 1_000_000),
    };
    let most = room.min(delay);
    let random = rng.range(0, most);
    let uncertainty = rng.pick(&[0, most, random, random]);
    let least_unit = uncertainty + c + 2;
    let random = rng.range(least_unit, most_unit);
    let unit = rng.pick(&[least_unit, least_unit, most_unit, random]);
    if rng.chance(20) {
        numbers.hold = 16 * unit as u32;
    }
    numbers.delay = delay as u32;
    numbers.uncertainty = uncertainty as u32;
    numbers.unit = unit as u32;
    numbers
}
