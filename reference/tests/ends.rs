//! That the generated walls go to the ends: of every setting and value on both sides of its limit, of the
//! row with faults of every kind, and of the file cut or wrong at every field.

use std::collections::{BTreeMap, BTreeSet};

use wall_reference::file::{walk, FileRefused, ShownRow, Stop};
use wall_reference::generate::describe::Description;
use wall_reference::generate::ends::ENDS;
use wall_reference::generate::kind::{kind, Kind};
use wall_reference::generate::{self, rng::Rng};
use wall_reference::settings::Numbers;
use wall_reference::shape::{is_marked, Shape};
use wall_reference::{LARGEST_PHASE, LATEST_ARRIVAL, LATEST_START, SILENT};

const SEEDS: u64 = 4_000;

/// Shows the rows of the file; answers its refusal, if any.
fn walked(file: &[u8], mut show: impl FnMut(ShownRow)) -> Option<FileRefused> {
    let shown = |row: ShownRow| {
        show(row);
        Ok::<(), ()>(())
    };
    match walk(file, shown) {
        Ok(()) => None,
        Err(Stop::Refused(refused)) => Some(refused),
        Err(Stop::Shown(())) => unreachable!("showing does not fail"),
    }
}

#[test]
fn accepted_walls_stand_at_every_end_of_the_settings() {
    let mut met: BTreeMap<&str, u32> = BTreeMap::new();
    for seed in 0..SEEDS {
        walked(&generate::file(seed), |row| {
            let settings = row.wall.settings();
            if row.number == settings.rows() {
                for (name, stands_at) in ENDS {
                    *met.entry(name).or_default() += u32::from(stands_at(&settings.numbers()));
                }
            }
        });
    }
    assert_eq!(met.len(), ENDS.len());
    assert!(met.values().all(|&count| count >= 3), "{met:#?}");
}

/// The settings of a file, as they stand in tag 1.
fn numbers(file: &[u8]) -> Numbers {
    let two = |at: usize| u16::from_be_bytes([file[at], file[at + 1]]).into();
    let four = |at: usize| u32::from_be_bytes(file[at..at + 4].try_into().unwrap());
    Numbers {
        columns: two(3),
        rows: two(5),
        delay: four(7),
        uncertainty: four(11),
        hold: four(15),
        drift_limit: four(19),
        unit: four(23),
    }
}

#[test]
fn settings_are_refused_just_past_every_limit() {
    let mut met: BTreeSet<(u8, i128)> = BTreeSet::new();
    for seed in 0..SEEDS {
        let file = generate::file(seed);
        let Some(FileRefused { number, .. }) = walked(&file, |_| ()) else {
            continue;
        };
        if !(1..=9).contains(&number) {
            continue;
        }
        let n = numbers(&file);
        let value = match number {
            1 => n.columns.into(),
            2 => n.rows.into(),
            3 => n.delay.into(),
            4 => i128::from(n.uncertainty) - i128::from(n.delay),
            5 => n.hold.into(),
            6 => n.drift_limit.into(),
            7 => n.unit.into(),
            8 => i128::from(n.unit) - (i128::from(n.uncertainty) + n.c() + 2),
            _ => i128::from(n.hold) - 16 * i128::from(n.unit),
        };
        met.insert((number, value));
    }
    for past in [
        (1, 5),
        (1, 257),
        (2, 0),
        (2, 1_025),
        (3, 0),
        (3, 1_000_001),
        (4, 1),
        (5, 0),
        (5, 1_000_001),
        (6, 10_001),
        (7, 0),
        (7, 62_501),
        (8, -1),
        (9, -1),
    ] {
        assert!(met.contains(&past), "number and value {past:?}");
    }
}

/// The phases of the tag 4 at an offset, in a file of W columns.
fn phases(file: &[u8], at: usize, w: usize) -> Vec<u32> {
    let shape = Shape::new(w);
    let mut body = &file[at + 3..];
    let mut phases = Vec::new();
    for tile in 0..w {
        phases.push(u32::from_be_bytes(body[2..6].try_into().unwrap()));
        body = &body[6 + 8 * shape.predecessors(tile).len()..];
    }
    phases
}

#[test]
fn phases_are_refused_just_past_the_limit_and_far_from_it_in_every_place() {
    let mut met = BTreeSet::new();
    for seed in 0..SEEDS {
        let file = generate::file(seed);
        if let Some(FileRefused { number: 53, at }) = walked(&file, |_| ()) {
            let w = numbers(&file).columns as usize;
            for (column, phase) in phases(&file, at, w).into_iter().enumerate() {
                let place = match column {
                    0 => "first",
                    _ if column == w - 1 => "last",
                    _ => "between",
                };
                let size = match phase {
                    0..=LARGEST_PHASE => continue,
                    1_000_000 => "just past",
                    u32::MAX => "the most",
                    _ => "far past",
                };
                met.insert((place, size));
            }
        }
    }
    assert_eq!(met.len(), 9, "{met:?}");
}

/// Names each limit at which a value of an accepted wall stands.
fn values_at_limits(wall: &Description, met: &mut BTreeMap<&str, u32>) {
    let (n, w) = (wall.numbers, wall.start.len());
    let (delay, least) = (n.delay.into(), (n.delay - n.uncertainty).into());
    let shape = Shape::new(w);
    let mut note = |name, holds: bool| *met.entry(name).or_default() += u32::from(holds);
    for &time in &wall.start {
        note("row 0 time 0", time == 0);
        note("row 0 time 2^39 - 1", time == LATEST_START);
    }
    for row in &wall.rows {
        for tile in 0..w {
            let (drift, limit) = (u32::from(row.drifts[tile]), n.drift_limit);
            note("drift 0 below r", drift == 0 && limit > 0);
            note("drift r above 0", drift == limit && limit > 0);
            note("phase 0", row.phases[tile] == 0);
            note("phase 999,999", row.phases[tile] == LARGEST_PHASE);
            for (&sender, &value) in shape.predecessors(tile).iter().zip(&row.links[tile]) {
                let faulty = is_marked(&row.marks, sender);
                let uncertain = !faulty && n.uncertainty > 0;
                note("delay d - u below d", uncertain && value == least);
                note("delay d above d - u", uncertain && value == delay);
                note("arrival 0", faulty && value == 0);
                note("arrival 2^40 - 1", faulty && value == LATEST_ARRIVAL);
                note("silence", faulty && value == SILENT);
            }
        }
    }
}

#[test]
fn accepted_walls_hold_every_value_at_its_limits() {
    let mut met = BTreeMap::new();
    for seed in 0..1_000 {
        values_at_limits(&generate::sound_wall(&mut Rng::new(seed)), &mut met);
    }
    assert_eq!(met.len(), 11);
    assert!(met.values().all(|&count| count >= 100), "{met:#?}");
}

#[test]
fn tiles_at_each_edge_fail_in_every_way_in_first_middle_and_last_rows() {
    let mut met: BTreeMap<(&str, usize, Kind), u32> = BTreeMap::new();
    for seed in 0..SEEDS {
        walked(&generate::file(seed), |row| {
            let (w, rows) = (row.wall.shape().columns(), row.wall.settings().rows());
            let place = match row.number {
                0 => "row 0",
                l if l + 1 < rows => "between",
                _ => "the row before the last",
            };
            for (edge, column) in [0, 1, 2, w - 3, w - 2, w - 1].into_iter().enumerate() {
                if is_marked(row.marks, column) {
                    let met = met.entry((place, edge, kind(&row, column)));
                    *met.or_default() += 1;
                }
            }
        });
    }
    assert_eq!(met.len(), 3 * 6 * Kind::ALL.len(), "{met:#?}");
    assert!(met.values().all(|&count| count >= 3), "{met:#?}");
}

/// The tag due at an offset that a file of W columns is refused at.
fn tag_due(w: usize, at: usize) -> u8 {
    let (start, marks) = (27, w.div_ceil(8));
    let row_1 = start + 3 + 8 * w;
    match at {
        0 => 1,
        _ if at == start => 2,
        _ if (at - row_1).is_multiple_of(3 + marks + 3 + 30 * w + 16) => 3,
        _ => 4,
    }
}

#[test]
fn files_are_cut_or_wrong_at_every_field() {
    let mut met: BTreeMap<(u8, u8, usize), u32> = BTreeMap::new();
    for seed in 0..SEEDS {
        let file = generate::file(seed);
        let Some(FileRefused { number, at }) = walked(&file, |_| ()) else {
            continue;
        };
        if (41..=43).contains(&number) {
            let w = if at == 0 { 6 } else { numbers(&file).columns };
            // 43 with no byte, one or two left, or with the body cut.
            let left = if number == 43 {
                (file.len() - at).min(3)
            } else {
                0
            };
            let met = met.entry((number, tag_due(w as usize, at), left));
            *met.or_default() += 1;
        }
    }
    for tag in 1..=4 {
        for (number, left) in [(41, 0), (42, 0), (43, 0), (43, 1), (43, 2), (43, 3)] {
            let count = met.get(&(number, tag, left)).copied().unwrap_or(0);
            assert!(count >= 3, "{number} at tag {tag}, {left} left: {count}");
        }
    }
    assert_eq!(met.len(), 24, "{met:?}");
}
