//! The reach of a broken tile: B of rows by hand, and ranges held against counted hops.

use crate::common::{neighbours, settings, PRINTED};
use polzaintu::reach::{reach, reach_in_row, widest_gap, Broken, BrokenInRow, Reach, Survey};
use polzaintu::Limits;

const GAP_MOST: u64 = (1 << 41) - 1;

fn broken(gap: u64, rows: u64, column: usize) -> Broken {
    Broken { gap, rows, column }
}

#[test]
fn gaps_by_hand() {
    let settings = settings(PRINTED);
    for (row, gap) in [
        ([10, 20, 50, 40, 45, 50], 40),
        ([50, 45, 40, 10, 20, 50], 40),
        ([10, 20, 20, 51, 40, 45], 31),
        ([0, 30, 10, 20, 10, 0], 30),
        ([7; 6], 0),
        ([0, 1, 2, 2, 2, u64::MAX], u64::MAX - 2),
    ] {
        assert_eq!(widest_gap(&settings, &row), Ok(gap), "{row:?}");
    }
    for length in [0, 5, 7] {
        let refusal = widest_gap(&settings, &vec![7; length]).unwrap_err();
        assert_eq!(refusal.number(), 21);
    }
}

/// The fewest steps from neighbour to neighbour, to each column.
fn hops(width: usize, from: usize) -> Vec<u64> {
    let mut hops = vec![u64::MAX; width];
    hops[from] = 0;
    for n in 0..width as u64 {
        for a in (0..width).filter(|&a| hops[a] == n).collect::<Vec<_>>() {
            for b in (0..width).filter(|&b| b != a && neighbours(width, a, b)) {
                hops[b] = hops[b].min(n + 1);
            }
        }
    }
    hops
}

#[test]
fn ranges_are_the_columns_within_hops() {
    for width in [6, 7, 9, 16] {
        let settings = settings(Limits {
            width,
            rows: width,
            ..PRINTED
        });
        let width = width as usize;
        for column in 0..width {
            let hops = hops(width, column);
            for rows in 1..=width as u64 {
                let Reach { ticks, columns } =
                    reach(&settings, broken(1000, rows, column)).unwrap();
                assert_eq!(ticks, 2000 + 96 + (rows - 1));
                for (c, &n) in hops.iter().enumerate() {
                    assert_eq!(
                        columns.contains(&c),
                        n <= rows,
                        "{width} {column} {rows} {c}"
                    );
                }
            }
        }
    }
}

#[test]
fn ranges_by_hand() {
    let settings = settings(Limits {
        width: 9,
        rows: 1024,
        ..PRINTED
    });
    let is = |gap, rows, column, ticks, columns| {
        assert_eq!(
            reach(&settings, broken(gap, rows, column)),
            Some(Reach { ticks, columns })
        );
    };
    is(60, 1, 4, 216, 3..=5);
    is(60, 2, 4, 217, 2..=6);
    is(60, 3, 4, 218, 0..=8);
    is(60, 1, 0, 216, 0..=2);
    is(60, 1, 2, 216, 0..=3);
    is(60, 1, 6, 216, 5..=8);
    is(60, 2, 8, 217, 5..=8);
    is(0, 1024, 8, 96 + 1023, 0..=8);
    is(GAP_MOST, 1, 0, 2 * GAP_MOST + 96, 0..=2);
}

#[test]
fn outside_the_wall() {
    let settings = settings(PRINTED);
    assert!(reach(&settings, broken(GAP_MOST, 1, 5)).is_some());
    for (gap, rows, column) in [
        (0, 0, 0),
        (0, 2, 0),
        (0, u64::MAX, 0),
        (0, 1, 6),
        (0, 1, usize::MAX),
        (GAP_MOST + 1, 1, 0),
        (u64::MAX, 1, 0),
    ] {
        assert_eq!(
            reach(&settings, broken(gap, rows, column)),
            None,
            "{gap} {rows} {column}"
        );
    }
}

/// In a later row the reach is that of as many rows below; a row up to the tile's own, or past R,
/// has none.
#[test]
fn ranges_by_rows() {
    let settings = settings(Limits { rows: 4, ..PRINTED });
    for row in 0..6 {
        for later in 0..6 {
            let there = reach_in_row(
                &settings,
                BrokenInRow {
                    gap: 60,
                    row,
                    later,
                    column: 3,
                },
            );
            let expected = match later.checked_sub(row) {
                Some(rows) if later <= 4 => reach(&settings, broken(60, rows, 3)),
                _ => None,
            };
            assert_eq!(there, expected, "{row} {later}");
        }
    }
    let outside = |gap, column| BrokenInRow {
        gap,
        row: 0,
        later: 1,
        column,
    };
    assert!(reach_in_row(&settings, outside(GAP_MOST, 5)).is_some());
    assert_eq!(reach_in_row(&settings, outside(GAP_MOST + 1, 5)), None);
    assert_eq!(reach_in_row(&settings, outside(0, 6)), None);
}

#[test]
fn surveys() {
    let settings = settings(Limits { rows: 2, ..PRINTED });
    let mut survey = Survey::new(&settings);
    assert_eq!(survey.row(&[0; 5]).unwrap_err().number(), 21);
    assert_eq!(survey.row(&[0, 0, 0, 0, 0, GAP_MOST + 1]), Ok(None));
    assert_eq!((survey.due(), survey.largest()), (0, None));
    assert_eq!(survey.row(&[0, 0, 0, 80, 0, 0]), Ok(Some(80)));
    assert_eq!((survey.due(), survey.largest()), (1, None));
    assert_eq!(survey.row(&[0, 0, 0, 36, 0, 0]), Ok(Some(36)));
    // 2 * 80 + 8 * 12 + 1, two rows below row 0.
    assert_eq!((survey.due(), survey.largest()), (2, Some(257)));
    assert_eq!(survey.row(&[0; 6]), Ok(None));
    assert_eq!((survey.due(), survey.largest()), (2, Some(257)));
}
