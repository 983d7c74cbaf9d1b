//! The first wide seam of a row: limits, open seams, the order of the seams, and numbers 21 and 31.

use crate::common::{neighbours, settings, PRINTED};
use polzaintu::seam::{first_wide, Wide};
use polzaintu::{Limits, Settings};

const LATEST: u64 = (1 << 41) - 1;
const LATE: [u64; 3] = [LATEST + 1, 1 << 63, u64::MAX];

fn of_width(width: usize) -> Settings {
    settings(Limits {
        width: width as u64,
        ..PRINTED
    })
}

/// The seam, or the number, of a row of six tiles.
fn narrow(times: [u64; 6], marks: u8, limit: u64) -> Result<Option<Wide>, u32> {
    let found = first_wide(&of_width(6), &times, &[marks], limit);
    found.map_err(|refusal| refusal.number())
}

fn wide(left: usize, right: usize, half_ticks: u64) -> Result<Option<Wide>, u32> {
    Ok(Some(Wide {
        left,
        right,
        half_ticks,
    }))
}

/// The row of the printed wall: its half gap of 18 ticks is 36 half ticks.
#[test]
fn printed_row() {
    let times = [1500, 1500, 1500, 1536, 1500, 1500];
    for (marks, limit, found) in [
        (0, 0, wide(2, 3, 36)),
        (0, 35, wide(2, 3, 36)),
        (0, 36, Ok(None)),
        // Open seams are passed over.
        (1 << 2, 35, wide(3, 4, 36)),
        (1 << 2 | 1 << 4, 35, wide(3, 5, 36)),
        (1 << 3, 0, Ok(None)),
        (1 << 2 | 1 << 3, 0, Ok(None)),
        (0x3f, 0, Ok(None)),
        // Marks past the last column are not read.
        (0xc0, 35, wide(2, 3, 36)),
        (0xc0 | 1 << 3, 0, Ok(None)),
    ] {
        assert_eq!(narrow(times, marks, limit), found, "{marks:#x} {limit}");
    }
}

#[test]
fn gaps_at_their_ends() {
    assert_eq!(narrow([1500; 6], 0, 0), Ok(None));
    // An odd gap is not halved, and has no sign.
    for last in [1499, 1501] {
        let times = [1500, 1500, 1500, 1500, 1500, last];
        assert_eq!(narrow(times, 0, 0), wide(3, 5, 1));
        assert_eq!(narrow(times, 0, 1), Ok(None));
    }
    for times in [[0, 0, LATEST, 0, 0, 0], [LATEST, LATEST, 0, 0, 0, 0]] {
        for limit in [0, LATEST - 1] {
            assert_eq!(narrow(times, 0, limit), wide(0, 2, LATEST));
        }
        for limit in [LATEST, LATEST + 1, 1 << 42, 1 << 63, u64::MAX] {
            assert_eq!(narrow(times, 0, limit), Ok(None));
        }
    }
}

/// Two correct tiles among faulty ones, whose times are not read, are found where they are
/// neighbours, whichever is later.
#[test]
fn two_correct_tiles() {
    for width in [6, 7, 8, 9, 17, 256] {
        let settings = of_width(width);
        for left in 0..width {
            for right in left + 1..width.min(left + 5) {
                for (l, r) in [(100, 137), (137, 100)] {
                    let mut times = vec![u64::MAX; width];
                    (times[left], times[right]) = (l, r);
                    let mut marks = vec![0xff; width.div_ceil(8)];
                    marks[left / 8] ^= 1 << (left % 8);
                    marks[right / 8] ^= 1 << (right % 8);
                    let found = |limit| first_wide(&settings, &times, &marks, limit).unwrap();
                    let half_ticks = 37;
                    let seam = neighbours(width, left, right).then_some(Wide {
                        left,
                        right,
                        half_ticks,
                    });
                    assert_eq!(found(36), seam, "{width} {left} {right}");
                    assert_eq!(found(0), seam);
                    assert_eq!(found(37), None);
                }
            }
        }
    }
}

/// A late time is 31 in a seam before the first wide one, and in none after it.
#[test]
fn late_times() {
    for late in LATE {
        for column in 2..6 {
            let mut times = [1500, 1505, 1500, 1500, 1500, 1500];
            times[column] = late;
            assert_eq!(narrow(times, 0, 4), wide(0, 1, 5));
            assert_eq!(narrow(times, 0, 5), Err(31));
            assert_eq!(narrow(times, 1 << column, 5), Ok(None));
        }
        // Before the wide seam 4-5, and in it; columns 2 and 3 are faulty.
        for column in 0..6 {
            let mut times = [1500, 1500, 1500, 1500, 1500, 1505];
            times[column] = late;
            let found = match column {
                2 | 3 => wide(4, 5, 5),
                _ => Err(31),
            };
            assert_eq!(narrow(times, 1 << 2 | 1 << 3, 4), found, "{column}");
        }
        // An open seam is turned away for its correct tile, whatever the limit.
        let times = [0, late, 0, 0, 0, 0];
        for limit in [0, u64::MAX] {
            assert_eq!(narrow(times, 0x3f ^ 1 << 1, limit), Err(31));
            assert_eq!(narrow(times, 0x3f, limit), Ok(None));
        }
    }
    assert_eq!(narrow([0, 0, 0, 0, 0, LATEST], 0, 9), wide(3, 5, LATEST));
}

/// 21 comes before 31.
#[test]
fn lengths() {
    for width in [6, 8, 9, 256] {
        let number = |times: usize, marks: usize| {
            let times = vec![u64::MAX; times];
            let found = first_wide(&of_width(width), &times, &vec![0; marks], 0);
            found.unwrap_err().number()
        };
        let bytes = width.div_ceil(8);
        assert_eq!(number(width, bytes), 31);
        for times in [0, width - 1, width + 1] {
            assert_eq!(number(times, bytes), 21);
        }
        for marks in [0, bytes - 1, bytes + 1] {
            assert_eq!(number(width, marks), 21);
        }
    }
}

/// What a reading of two neighbours after the other gives.
fn read(times: [u64; 6], marks: u8, limit: u64) -> Result<Option<Wide>, u32> {
    let pulse = |column: usize| (marks >> column & 1 == 0).then_some(times[column]);
    let all = (0..6).flat_map(|left| (left + 1..6).map(move |right| (left, right)));
    for (left, right) in all.filter(|&(left, right)| neighbours(6, left, right)) {
        let both = [pulse(left), pulse(right)];
        if both.into_iter().flatten().any(|time| time > LATEST) {
            return Err(31);
        }
        if let [Some(l), Some(r)] = both {
            if l.abs_diff(r) > limit {
                return wide(left, right, l.abs_diff(r));
            }
        }
    }
    Ok(None)
}

/// Every row of six tiles that has these times.
#[test]
fn beside_a_reading() {
    let choices = [7, 8, LATEST + 1];
    for row in 0..choices.len().pow(6) {
        let mut rest = row;
        let times = [(); 6].map(|()| {
            let time = choices[rest % choices.len()];
            rest /= choices.len();
            time
        });
        for marks in 0..1 << 6 {
            for limit in 0..2 {
                let found = narrow(times, marks, limit);
                let due = read(times, marks, limit);
                assert_eq!(found, due, "{times:?} {marks:#x} {limit}");
            }
        }
    }
}
