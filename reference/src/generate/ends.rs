//! The ends of the settings' ranges, as far as settings that pass can reach them.

use crate::settings::Numbers;

/// An end: its name, and whether a wall stands at it.
pub type End = (&'static str, fn(&Numbers) -> bool);

/// Both ends of each setting, the two borders between the settings, and the largest wall. Since h is
/// at least c + 2 and A at least 16h, no wall has an h below 2 or an A below 32.
pub const ENDS: [End; 17] = [
    ("W 6", |n| n.columns == 6),
    ("W 256", |n| n.columns == 256),
    ("R 1", |n| n.rows == 1),
    ("R 1,024", |n| n.rows == 1_024),
    ("W 256, R 1,024", |n| n.columns == 256 && n.rows == 1_024),
    ("d 1", |n| n.delay == 1),
    ("d 1,000,000", |n| n.delay == 1_000_000),
    ("u 0", |n| n.uncertainty == 0),
    ("u = d", |n| n.uncertainty == n.delay),
    ("A 32", |n| n.hold == 32),
    ("A 1,000,000", |n| n.hold == 1_000_000),
    ("r 0", |n| n.drift_limit == 0),
    ("r 10,000", |n| n.drift_limit == 10_000),
    ("h 2", |n| n.unit == 2),
    ("h 62,500", |n| n.unit == 62_500),
    ("h = u + c + 2", |n| {
        i128::from(n.unit) == i128::from(n.uncertainty) + n.c() + 2
    }),
    ("A = 16h", |n| n.hold == 16 * n.unit),
];
