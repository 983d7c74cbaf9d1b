//! Seams that are too wide (§E7.1 to §E7.4): the first of a row, and what the program `wallwide` answers of a wall file.

use std::fmt;
use std::ops::RangeInclusive;

use crate::file::{walk, FileRefused, ShownRow, Stop};
use crate::seam::{seam, Pulse, Seam};
use crate::settings::Numbers;
use crate::shape::{is_marked, Shape};
use crate::{refuse_if, Refused};

/// The limits that a program may be given, in half ticks.
pub const LIMITS: RangeInclusive<u64> = 0..=1 << 42;

/// A closed seam whose half gap is over the limit.
#[derive(Clone, Copy, Debug, PartialEq, Eq)]
pub struct Wide {
    /// The left column.
    pub left: usize,
    /// The right column.
    pub right: usize,
    /// The half gap in half ticks, without its sign.
    pub half_ticks: u64,
}

/// The row operation: the first seam of the row, in the printed order, that is over the limit. 1 to 9, 21 for another
/// length, then 31 where the seam operation turns away a seam before it. Marks past the last column are not looked at.
pub fn first_in_row(
    settings: &Numbers,
    times: &[u64],
    marks: &[u8],
    limit: u64,
) -> Result<Option<Wide>, Refused> {
    settings.check()?;
    let shape = Shape::new(settings.columns as usize);
    let right_lengths = times.len() == shape.columns() && marks.len() == shape.mark_bytes();
    refuse_if(!right_lengths, 21)?;
    first(&shape, times, marks, limit)
}

/// The same, for a row of the right lengths.
fn first(shape: &Shape, times: &[u64], marks: &[u8], limit: u64) -> Result<Option<Wide>, Refused> {
    let pulse = |column: usize| Pulse {
        time: times[column],
        faulty: is_marked(marks, column),
    };
    for &(left, right) in shape.seams() {
        match half_ticks(pulse(left), pulse(right))? {
            Some(half_ticks) if half_ticks > limit => {
                return Ok(Some(Wide {
                    left,
                    right,
                    half_ticks,
                }))
            }
            _ => {}
        }
    }
    Ok(None)
}

/// The half gap of a closed seam without its sign, in half ticks: as many as the gap has ticks. An open seam has
/// none. 31 as for the seam operation.
fn half_ticks(left: Pulse, right: Pulse) -> Result<Option<u64>, Refused> {
    Ok(match seam(left, right)? {
        Seam::Closed(_) => Some(left.time.abs_diff(right.time)),
        Seam::Open(_) => None,
    })
}

/// The answer for a wall file; its text is the line that is printed.
#[derive(Clone, Copy, Debug, PartialEq, Eq)]
pub enum Answer {
    /// This seam of this row is over the limit, and no printed one before it.
    Wide {
        /// The row.
        row: usize,
        /// The seam.
        seam: Wide,
    },
    /// The file is turned away, and no seam printed before is over the limit.
    Refused(FileRefused),
    /// The file ended rightly, and no seam is over the limit.
    No,
}

impl fmt::Display for Answer {
    fn fmt(&self, f: &mut fmt::Formatter<'_>) -> fmt::Result {
        match self {
            Answer::Wide { row, seam } => {
                let (left, right, half_ticks) = (seam.left, seam.right, seam.half_ticks);
                write!(f, "wide {row} {left} {right} {half_ticks}")
            }
            Answer::Refused(refused) => write!(f, "{refused}"),
            Answer::No => write!(f, "no"),
        }
    }
}

/// Goes through what `wallrun` prints of `file` up to the first seam over the limit or the refusal. Row 0 is not
/// printed.
pub fn wallwide(file: &[u8], limit: u64) -> Answer {
    let look = |row: ShownRow| {
        if row.number == 0 {
            return Ok(());
        }
        // A time that an accepted row wrote is far below 2^41, so 31 can't arise here.
        let first = first(row.wall.shape(), row.times, row.marks, limit);
        match first.expect("a written time is in range") {
            Some(seam) => Err((row.number, seam)),
            None => Ok(()),
        }
    };
    match walk(file, look) {
        Ok(()) => Answer::No,
        Err(Stop::Refused(refused)) => Answer::Refused(refused),
        Err(Stop::Shown((row, seam))) => Answer::Wide { row, seam },
    }
}

#[cfg(test)]
mod tests {
    use super::*;
    use crate::cases::build::{fault, printed, quiet, PRINTED};
    use crate::generate::describe::Description;
    use crate::{LATEST_STAMP, SILENT};

    const LATE: u64 = LATEST_STAMP + 1;

    fn wide(left: usize, right: usize, half_ticks: u64) -> Option<Wide> {
        Some(Wide {
            left,
            right,
            half_ticks,
        })
    }

    /// The row operation for a row of six columns with these marked, or its number.
    fn row(times: [u64; 6], marked: &[usize], limit: u64) -> Result<Option<Wide>, u8> {
        let marks = marked.iter().fold(0, |byte, column| byte | 1 << column);
        first_in_row(&PRINTED, &times, &[marks], limit).map_err(|refused| refused.0)
    }

    fn text(wall: &Description, limit: u64) -> String {
        wallwide(&wall.encode().bytes, limit).to_string()
    }

    #[test]
    fn over_is_strictly_over() {
        let times = [1500, 1500, 1500, 1536, 1500, 1500];
        for limit in [0, 1, 18, 35] {
            assert_eq!(row(times, &[], limit), Ok(wide(2, 3, 36)));
        }
        for limit in [36, 37, 72, 1 << 42, u64::MAX] {
            assert_eq!(row(times, &[], limit), Ok(None));
        }
        // A gap of 1 is half a tick, of 0 none.
        assert_eq!(row([7, 7, 7, 7, 8, 8], &[], 0), Ok(wide(3, 4, 1)));
        assert_eq!(row([7, 7, 7, 7, 8, 8], &[], 1), Ok(None));
        assert_eq!(row([7; 6], &[], 0), Ok(None));
    }

    #[test]
    fn the_sign_is_dropped() {
        let falling = [9, 9, 9, 5, 5, 5];
        assert_eq!(row(falling, &[], 3), Ok(wide(2, 3, 4)));
        assert_eq!(row(falling, &[], 4), Ok(None));
        // A fall of 4 comes before a rise of 5.
        let both = [9, 9, 9, 5, 10, 10];
        assert_eq!(row(both, &[], 3), Ok(wide(2, 3, 4)));
        assert_eq!(row(both, &[], 4), Ok(wide(3, 4, 5)));
    }

    #[test]
    fn the_largest_gap() {
        let most = LATEST_STAMP;
        for (times, left, right) in [([most, 0, 0, 0, 0, 0], 0, 1), ([0, 0, 0, 0, 0, most], 3, 5)] {
            assert_eq!(row(times, &[], most - 1), Ok(wide(left, right, most)));
            assert_eq!(row(times, &[], most), Ok(None));
        }
    }

    #[test]
    fn seams_come_by_left_and_then_right() {
        // The gaps are 10, 21, 11, 12, 13, 27 and 14.
        let times = [0, 10, 21, 33, 46, 60];
        for (limit, due) in [
            (9, wide(0, 1, 10)),
            (10, wide(0, 2, 21)),
            (20, wide(0, 2, 21)),
            (21, wide(3, 5, 27)),
            (26, wide(3, 5, 27)),
            (27, None),
        ] {
            assert_eq!(row(times, &[], limit), Ok(due), "{limit}");
        }
        assert_eq!(row([0, 5, 5, 5, 5, 5], &[], 4), Ok(wide(0, 1, 5)));
        assert_eq!(row([0, 0, 5, 5, 5, 5], &[], 4), Ok(wide(0, 2, 5)));
        assert_eq!(row([5, 5, 5, 5, 0, 0], &[], 4), Ok(wide(3, 4, 5)));
        assert_eq!(row([5, 5, 5, 5, 5, 0], &[], 4), Ok(wide(3, 5, 5)));
    }

    #[test]
    fn the_pairs_of_the_ends_are_seams() {
        for w in [6usize, 7, 9, 256] {
            let settings = Numbers {
                columns: w as u32,
                ..PRINTED
            };
            let marks = vec![0; w.div_ceil(8)];
            let first = |times: &[u64]| first_in_row(&settings, times, &marks, 5);
            let mut times = vec![10; w];
            (times[0], times[1]) = (0, 5);
            assert_eq!(first(&times), Ok(wide(0, 2, 10)));
            times.reverse();
            assert_eq!(first(&times), Ok(wide(w - 3, w - 1, 10)));
            // No other two columns that are two apart are neighbours.
            let slope: Vec<u64> = (0..w as u64).map(|column| 3 * column).collect();
            assert_eq!(first(&slope), Ok(wide(0, 2, 6)));
            let mut between = slope;
            between[0] = between[1];
            assert_eq!(first(&between), Ok(wide(w - 3, w - 1, 6)));
            between[w - 1] = between[w - 2];
            assert_eq!(first(&between), Ok(None));
        }
    }

    #[test]
    fn open_seams_never_count() {
        let times = [1500, 1500, 1500, 1536, 1500, 1500];
        assert_eq!(row(times, &[3], 0), Ok(None));
        // Left, right and both open; the first closed one counts.
        let times = [0, 1 << 40, 1 << 30, 500, 507, 520];
        assert_eq!(row(times, &[1, 2], 0), Ok(wide(3, 4, 7)));
        assert_eq!(row(times, &[1, 2], 7), Ok(wide(3, 5, 20)));
        assert_eq!(row(times, &[1, 2, 5], 7), Ok(None));
        assert_eq!(row(times, &[0, 1, 2, 3, 4, 5], 0), Ok(None));
    }

    #[test]
    fn the_time_of_a_faulty_tile_is_not_read() {
        for time in [0, LATE, u64::MAX] {
            assert_eq!(row([4, 4, time, 4, 4, 4], &[2], 0), Ok(None));
            assert_eq!(row([time; 6], &[0, 1, 2, 3, 4, 5], 0), Ok(None));
        }
    }

    #[test]
    fn refusal_31_comes_in_the_order_of_the_seams() {
        // Column 4 meets its first seam, 3-4, after 2-3, which is wide where the limit lets it be.
        let times = [0, 0, 0, 8, LATE, 8];
        assert_eq!(row(times, &[], 7), Ok(wide(2, 3, 8)));
        assert_eq!(row(times, &[], 8), Err(31));
        assert_eq!(row(times, &[], u64::MAX), Err(31));
        // On an open seam too: 3-4 and 4-5 are met with the late tile correct.
        assert_eq!(row(times, &[3], 0), Err(31));
        assert_eq!(row(times, &[3, 5], 0), Err(31));
        assert_eq!(row(times, &[4], 8), Ok(None));
        // In columns 0 and 1 it is met at once, in the last column at 3-5.
        assert_eq!(row([LATE, 0, 9, 9, 9, 9], &[], 0), Err(31));
        assert_eq!(row([0, u64::MAX, 9, 9, 9, 9], &[], 0), Err(31));
        assert_eq!(row([0, 0, 0, 0, 9, LATE], &[], 8), Ok(wide(3, 4, 9)));
        assert_eq!(row([0, 0, 0, 0, 9, LATE], &[], 9), Err(31));
        assert_eq!(row([LATE - 1; 6], &[], 0), Ok(None));
    }

    #[test]
    fn refusal_21() {
        let first = |times: usize, marks: usize| {
            let times: Vec<u64> = (0..times as u64).map(|column| LATE + column).collect();
            first_in_row(&PRINTED, &times, &vec![0; marks], 0)
        };
        for (times, marks) in [(5, 1), (7, 1), (0, 1), (6, 0), (6, 2), (7, 2), (0, 0)] {
            assert_eq!(first(times, marks), Err(Refused(21)));
        }
        assert_eq!(first(6, 1), Err(Refused(31)));
        // Eight columns have one byte of marks, nine have two.
        for (columns, marks) in [(8, 1), (9, 2), (16, 2), (17, 3), (256, 32)] {
            let settings = Numbers { columns, ..PRINTED };
            for given in [marks - 1, marks, marks + 1] {
                let times = vec![0; columns as usize];
                let answer = first_in_row(&settings, &times, &vec![0; given], 0);
                let due = refuse_if(given != marks, 21).map(|()| None);
                assert_eq!(answer, due, "{columns} columns");
            }
        }
    }

    #[test]
    fn refusals_1_to_9_come_first() {
        let wrong = |number: u8| match number {
            1 => Numbers {
                columns: 5,
                ..PRINTED
            },
            2 => Numbers { rows: 0, ..PRINTED },
            3 => Numbers {
                delay: 0,
                ..PRINTED
            },
            4 => Numbers {
                uncertainty: 101,
                ..PRINTED
            },
            5 => Numbers { hold: 0, ..PRINTED },
            6 => Numbers {
                drift_limit: 10_001,
                ..PRINTED
            },
            7 => Numbers { unit: 0, ..PRINTED },
            8 => Numbers {
                unit: 11,
                ..PRINTED
            },
            _ => Numbers {
                hold: 191,
                ..PRINTED
            },
        };
        for number in 1..=9 {
            for times in [&[][..], &[0; 5], &[0, 9, LATE, 0, 0, 0]] {
                let answer = first_in_row(&wrong(number), times, &[0], 0);
                assert_eq!(answer, Err(Refused(number)));
            }
        }
        // Too many columns for any table.
        let most = Numbers {
            columns: u32::MAX,
            ..PRINTED
        };
        assert_eq!(first_in_row(&most, &[], &[], 0), Err(Refused(1)));
    }

    #[test]
    fn marks_past_the_last_column_are_not_looked_at() {
        let times = [1500, 1500, 1500, 1536, 1500, 1500];
        let stray = first_in_row(&PRINTED, &times, &[0b1100_0000], 0);
        assert_eq!(stray, Ok(wide(2, 3, 36)));
    }

    /// The printed wall has 36 between columns 2 and 3 of row 1, and 80 in row 0, which is not printed.
    #[test]
    fn the_printed_wall() {
        for (limit, due) in [
            (0, "wide 1 2 3 36"),
            (35, "wide 1 2 3 36"),
            (36, "no"),
            (79, "no"),
            (1 << 42, "no"),
        ] {
            assert_eq!(text(&printed(1), limit), due, "{limit}");
            // Row 2 has 12 there.
            assert_eq!(text(&printed(2), limit), due, "{limit}");
        }
        let mut wall = printed(1);
        wall.start.swap(0, 3);
        assert_eq!(text(&wall, 35), "wide 1 0 1 36", "right before left");
        assert_eq!(text(&wall, 36), "no");
    }

    /// An even wall of so many rows, but that column 3 of the last hears all ten ticks earlier and pulses so.
    fn dented(rows: u32) -> Description {
        let mut wall = quiet(Numbers { rows, ..PRINTED });
        wall.rows[rows as usize - 1].links[3].fill(90);
        wall
    }

    #[test]
    fn a_later_row_is_named() {
        for rows in 1..=3 {
            let due = format!("wide {rows} 2 3 10");
            assert_eq!(text(&dented(rows), 9), due);
            assert_eq!(text(&dented(rows), 10), "no");
        }
        // Row 1 has 36, row 2 has 12: the limit decides which row comes first.
        let mut wall = printed(3);
        wall.rows[2].links[0].fill(90);
        assert_eq!(text(&wall, 8), "wide 1 2 3 36");
        // Column 3 of row 1 is marked by row 2 and sends what the others do, so that row 2 is even.
        fault(&mut wall.rows[1], 3, |_| 1_600);
        assert_eq!(text(&wall, 9), "wide 3 0 1 10", "open seams pass");
        assert_eq!(text(&wall, 10), "no");
    }

    #[test]
    fn the_marks_are_those_that_came_with_the_next_row() {
        // Row 2 marks column 3 of row 1. The marks that came with row 1 are those of row 0.
        let mut wall = printed(2);
        fault(&mut wall.rows[1], 3, |_| 1_600);
        assert_eq!(text(&wall, 0), "no");
        let mut wall = printed(2);
        fault(&mut wall.rows[0], 0, |_| 1_100);
        assert_eq!(text(&wall, 0), "wide 1 2 3 36");
        // Row 1 is the last, where all are correct. Column 3 of row 0 is silent, so that of row 1 pulses 3h late.
        let mut wall = printed(1);
        fault(&mut wall.rows[0], 3, |_| SILENT);
        assert_eq!(text(&wall, 0), "wide 1 2 3 36");
    }

    #[test]
    fn a_refusal_of_the_next_row_comes_before_a_rows_seams() {
        let mut wall = printed(3);
        wall.rows[1].drifts[5] = 1;
        let encoded = wall.encode();
        // Tags 1 and 2, then two a row: tag 4 of row 2 is the sixth.
        assert_eq!(text(&wall, 0), format!("refused 25 at {}", encoded.tags[5]));
        for (kept, at) in [(0, encoded.tags[4]), (5, encoded.tags[5])] {
            let cut = &printed(3).encode().bytes[..encoded.tags[4] + kept];
            let answer = wallwide(cut, 0);
            assert_eq!(answer, Answer::Refused(FileRefused { number: 43, at }));
        }
        // Where row 3 is refused, row 1 is printed and row 2 is not.
        let mut wall = printed(3);
        wall.rows[2].drifts[0] = 1;
        let refused = format!("refused 25 at {}", wall.encode().tags[7]);
        assert_eq!(text(&wall, 35), "wide 1 2 3 36");
        for limit in [36, 1 << 42] {
            assert_eq!(text(&wall, limit), refused);
        }
        let mut wall = dented(2);
        wall.numbers.rows = 3;
        let end = wall.encode().bytes.len();
        assert_eq!(text(&wall, 0), format!("refused 43 at {end}"));
    }

    #[test]
    fn refusal_44_comes_before_the_last_rows_seams() {
        for (rows, limit, due) in [
            (1, 0, "refused 44 at 281"),
            (2, 35, "wide 1 2 3 36"),
            (2, 36, "refused 44 at 484"),
        ] {
            let mut bytes = printed(rows).encode().bytes;
            bytes.push(0);
            assert_eq!(wallwide(&bytes, limit).to_string(), due);
        }
        let mut bytes = dented(2).encode().bytes;
        assert_eq!(wallwide(&bytes, 0).to_string(), "wide 2 2 3 10");
        bytes.extend([1, 2, 3]);
        assert_eq!(wallwide(&bytes, 0).to_string(), "refused 44 at 484");
    }

    #[test]
    fn nothing_after_the_answer_is_judged() {
        let encoded = printed(3).encode();
        let whole = wallwide(&encoded.bytes, 0);
        assert_eq!(whole.to_string(), "wide 1 2 3 36");
        // Row 1 is printed once row 2 is accepted; whatever follows row 2 is not looked at.
        let row_3 = encoded.tags[6];
        assert_eq!(wallwide(&encoded.bytes[..row_3], 0), whole);
        let mut other = encoded.bytes;
        other[row_3..].fill(255);
        assert_eq!(wallwide(&other, 0), whole);
        other[row_3 - 1] = 255;
        assert_eq!(wallwide(&other, 0).to_string(), "refused 26 at 285");
    }

    #[test]
    fn refusals_before_any_row() {
        assert_eq!(wallwide(&[], 0).to_string(), "refused 43 at 0");
        let mut wall = printed(1);
        wall.start[0] = 1 << 39;
        assert_eq!(text(&wall, 0), "refused 45 at 27");
        wall.numbers.columns = 5;
        assert_eq!(text(&wall, 0), "refused 1 at 0");
    }
}
