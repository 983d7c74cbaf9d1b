//! Settings at and past each limit.

use super::build::{printed, quiet, PRINTED};
use super::Case;
use crate::settings::Numbers;

pub fn cases() -> Vec<Case> {
    let mut cases = Vec::new();
    for (name, numbers) in refused() {
        let mut wall = printed(1);
        wall.numbers = numbers;
        cases.push(Case::new(format!("settings-{name}"), wall.encode().bytes));
    }
    for (name, numbers) in accepted() {
        let mut wall = quiet(numbers);
        wall.start[2] += 5 * u64::from(numbers.unit);
        wall.start[4] += 40 * u64::from(numbers.unit);
        cases.push(Case::new(format!("settings-{name}"), wall.encode().bytes));
    }
    cases
}

/// 1 to 9, each below and above its range where there is such a side, and the lowest of several.
fn refused() -> Vec<(&'static str, Numbers)> {
    let p = PRINTED;
    vec![
        ("w-0", Numbers { columns: 0, ..p }),
        ("w-5", Numbers { columns: 5, ..p }),
        ("w-257", Numbers { columns: 257, ..p }),
        (
            "w-65535",
            Numbers {
                columns: 65_535,
                ..p
            },
        ),
        ("r-0", Numbers { rows: 0, ..p }),
        ("r-1025", Numbers { rows: 1_025, ..p }),
        ("d-0", Numbers { delay: 0, ..p }),
        (
            "d-1000001",
            Numbers {
                delay: 1_000_001,
                ..p
            },
        ),
        (
            "u-over-d",
            Numbers {
                uncertainty: 101,
                ..p
            },
        ),
        (
            "u-4294967295",
            Numbers {
                uncertainty: u32::MAX,
                ..p
            },
        ),
        ("a-0", Numbers { hold: 0, ..p }),
        (
            "a-1000001",
            Numbers {
                hold: 1_000_001,
                ..p
            },
        ),
        (
            "drift-10001",
            Numbers {
                drift_limit: 10_001,
                ..p
            },
        ),
        ("h-0", Numbers { unit: 0, ..p }),
        ("h-62501", Numbers { unit: 62_501, ..p }),
        ("h-below-u-and-2", Numbers { unit: 11, ..p }),
        (
            "h-below-u-and-c-and-2",
            Numbers {
                drift_limit: 10_000,
                unit: 15,
                ..p
            },
        ),
        ("a-below-16h", Numbers { hold: 191, ..p }),
        (
            "8-before-9",
            Numbers {
                unit: 11,
                hold: 175,
                ..p
            },
        ),
        (
            "7-before-8",
            Numbers {
                unit: 0,
                hold: 1,
                ..p
            },
        ),
        (
            "1-before-2",
            Numbers {
                columns: 300,
                rows: 2_000,
                delay: 0,
                ..p
            },
        ),
        (
            "all-4294967295",
            Numbers {
                columns: 65_535,
                rows: 65_535,
                delay: u32::MAX,
                uncertainty: u32::MAX,
                hold: u32::MAX,
                drift_limit: u32::MAX,
                unit: u32::MAX,
            },
        ),
    ]
}

/// At the limits, and accepted.
fn accepted() -> Vec<(&'static str, Numbers)> {
    let p = Numbers { rows: 2, ..PRINTED };
    vec![
        (
            "d-1",
            Numbers {
                delay: 1,
                uncertainty: 1,
                ..p
            },
        ),
        (
            "d-1000000",
            Numbers {
                delay: 1_000_000,
                uncertainty: 0,
                ..p
            },
        ),
        (
            "u-0",
            Numbers {
                uncertainty: 0,
                unit: 2,
                ..p
            },
        ),
        (
            "u-is-d",
            Numbers {
                uncertainty: 100,
                unit: 102,
                hold: 1_632,
                ..p
            },
        ),
        (
            "a-32",
            Numbers {
                uncertainty: 0,
                hold: 32,
                unit: 2,
                ..p
            },
        ),
        ("a-is-16h", Numbers { hold: 192, ..p }),
        (
            "a-1000000",
            Numbers {
                hold: 1_000_000,
                unit: 62_500,
                ..p
            },
        ),
        (
            "drift-10000",
            Numbers {
                drift_limit: 10_000,
                unit: 16,
                ..p
            },
        ),
        (
            "largest",
            Numbers {
                delay: 1_000_000,
                uncertainty: 52_597,
                hold: 1_000_000,
                drift_limit: 10_000,
                unit: 62_500,
                ..p
            },
        ),
    ]
}
