//! Runs side by side (§11.6, §12.3): how far one faulty tile can reach, and what the program
//! `wallreach` prints of a wall without faults.

use std::io::{self, Write};
use std::ops::RangeInclusive;

use crate::file::{walk, FileRefused, ShownRow, Stop};
use crate::shape::{is_marked, Shape};
use crate::Tick;

/// B: the largest difference between neighbouring pulses of a row.
pub fn largest_difference(shape: &Shape, times: &[u64]) -> Tick {
    let seams = shape.seams().iter();
    let differences = seams.map(|&(left, right)| times[left].abs_diff(times[right]));
    differences.max().expect("a row has seams").into()
}

/// The most by which a pulse of row `l` differs between the two runs, where the faulty tile is in row
/// `f` below `l`: 2B + 8h + (L - f - 1).
pub fn ticks(b: Tick, h: Tick, f: usize, l: usize) -> Tick {
    2 * b + 8 * h + (l as Tick - f as Tick - 1)
}

/// The most hops from the faulty column at which a pulse of row `l` can differ: L - f.
pub fn hops(f: usize, l: usize) -> usize {
    l - f
}

/// How many rows may be asked for.
pub const MOST_ASKED: usize = 16;

/// The rows that may be asked for.
pub const ROWS: RangeInclusive<u64> = 1..=1_024;

/// What came of a wall file.
#[derive(Clone, Copy, Debug, PartialEq, Eq)]
pub enum Outcome {
    /// Accepted, without a faulty tile.
    Whole,
    /// A row was accepted that marks a tile of the row before.
    Faulty,
    /// Turned away before that.
    Refused(FileRefused),
}

/// Why a row ends the walk.
enum End {
    /// This tile, the lowest of its row, is faulty.
    Faulty { row: usize, column: usize },
    /// A line could not be written.
    Unwritten(io::Error),
}

impl From<io::Error> for End {
    fn from(error: io::Error) -> End {
        End::Unwritten(error)
    }
}

/// Runs the wall of `file` and prints B of each row f below R and, for each row asked for that is above
/// f in the wall, the ticks and hops within which one faulty tile of row f can reach it; then the
/// largest ticks of all. The error is one of `out`.
pub fn wallreach(file: &[u8], asked: &[u64], out: &mut impl Write) -> io::Result<Outcome> {
    let mut largest = 0;
    match walk(file, |row| show(&row, asked, &mut largest, out)) {
        Ok(()) => {
            writeln!(out, "largest {largest} ticks")?;
            Ok(Outcome::Whole)
        }
        Err(Stop::Refused(refused)) => {
            writeln!(out, "{refused}")?;
            Ok(Outcome::Refused(refused))
        }
        Err(Stop::Shown(End::Faulty { row, column })) => {
            writeln!(out, "faulty {row} {column}")?;
            Ok(Outcome::Faulty)
        }
        Err(Stop::Shown(End::Unwritten(error))) => Err(error),
    }
}

/// Prints the lines of row f, which ends the walk where a tile of it is faulty. No row is above row R.
fn show(
    row: &ShownRow,
    asked: &[u64],
    largest: &mut Tick,
    out: &mut impl Write,
) -> Result<(), End> {
    let (shape, settings) = (row.wall.shape(), row.wall.settings());
    let (f, last) = (row.number, settings.rows());
    if f == last {
        return Ok(());
    }
    if let Some(column) = (0..shape.columns()).find(|&column| is_marked(row.marks, column)) {
        return Err(End::Faulty { row: f, column });
    }
    let b = largest_difference(shape, row.times);
    writeln!(out, "b {f} {b}")?;
    let later = f + 1..=last;
    let asked = asked.iter().filter_map(|&l| usize::try_from(l).ok());
    for l in asked.filter(|l| later.contains(l)) {
        let (ticks, hops) = (ticks(b, settings.h(), f, l), hops(f, l));
        writeln!(out, "r {f} {l} {ticks} {hops}")?;
    }
    for l in later {
        *largest = (*largest).max(ticks(b, settings.h(), f, l));
    }
    Ok(())
}

#[cfg(test)]
mod tests {
    use super::*;
    use crate::cases::build::{fault, printed};
    use crate::generate::describe::Description;
    use crate::SILENT;

    fn print(file: &[u8], asked: &[u64]) -> (String, Outcome) {
        let mut out = Vec::new();
        let outcome = wallreach(file, asked, &mut out).unwrap();
        (String::from_utf8(out).unwrap(), outcome)
    }

    fn text(wall: &Description, asked: &[u64]) -> String {
        print(&wall.encode().bytes, asked).0
    }

    #[test]
    fn every_pair_of_neighbours_counts_for_b() {
        for w in [6, 7, 9, 256] {
            let shape = Shape::new(w);
            for column in 0..w {
                let mut times = vec![1_000; w];
                assert_eq!(largest_difference(&shape, &times), 0);
                times[column] = 993;
                assert_eq!(largest_difference(&shape, &times), 7);
                times[column] = 1_008;
                assert_eq!(largest_difference(&shape, &times), 8);
            }
            // Columns 0 and 2 are neighbours, 0 and 3 are not; so at the other end.
            let mut slope: Vec<u64> = (0..w as u64).collect();
            assert_eq!(largest_difference(&shape, &slope), 2);
            slope[0] = 1;
            slope[w - 1] = w as u64 - 2;
            assert_eq!(largest_difference(&shape, &slope), 1);
        }
    }

    #[test]
    fn the_bound_of_demand_3() {
        assert_eq!(ticks(80, 12, 0, 1), 2 * 80 + 8 * 12);
        assert_eq!(ticks(80, 12, 3, 10), 2 * 80 + 8 * 12 + 6);
        assert_eq!(ticks(0, 1, 1_023, 1_024), 8);
        assert_eq!((hops(0, 1), hops(3, 10)), (1, 7));
        // The largest times that a row can have.
        let b = Tick::from(crate::LATEST_STAMP);
        assert_eq!(ticks(b, 62_500, 0, 1_024), (1 << 42) - 2 + 500_000 + 1_023);
    }

    /// The printed wall: B is 80 in row 0, and 36 in row 1, where column 3 pulses at 1536.
    #[test]
    fn the_lines_of_the_printed_wall() {
        assert_eq!(text(&printed(1), &[]), "b 0 80\nlargest 256 ticks\n");
        assert_eq!(
            text(&printed(1), &[1]),
            "b 0 80\nr 0 1 256 1\nlargest 256 ticks\n"
        );
        // Column 3 is later than max + h, so it is forwarded at max + h: 12 in row 2.
        assert_eq!(
            text(&printed(3), &[3, 1024, 1, 2, 1]),
            "b 0 80\nr 0 3 258 3\nr 0 1 256 1\nr 0 2 257 2\nr 0 1 256 1\n\
             b 1 36\nr 1 3 169 2\nr 1 2 168 1\n\
             b 2 12\nr 2 3 120 1\n\
             largest 258 ticks\n"
        );
    }

    #[test]
    fn largest_is_taken_over_all_rows() {
        // Row 0 is even; column 3 of row 1 hears all ten ticks earlier and pulses so.
        let mut wall = printed(2);
        wall.start.fill(1_000);
        wall.rows[0].links[3] = vec![90; 4];
        let (text, outcome) = print(&wall.encode().bytes, &[2]);
        let due = "b 0 0\nr 0 2 97 2\nb 1 10\nr 1 2 116 1\nlargest 116 ticks\n";
        assert_eq!((text.as_str(), outcome), (due, Outcome::Whole));
    }

    #[test]
    fn a_refusal_comes_after_the_rows_before_it() {
        let mut wall = printed(3);
        wall.rows[1].drifts[0] = 1;
        let encoded = wall.encode();
        let at = encoded.tags[5];
        let due = format!("b 0 80\nr 0 3 258 3\nrefused 25 at {at}\n");
        let (text, outcome) = print(&encoded.bytes, &[3]);
        assert_eq!(text, due);
        assert_eq!(outcome, Outcome::Refused(FileRefused { number: 25, at }));
        assert_eq!(print(&[], &[1]).0, "refused 43 at 0\n");
    }

    #[test]
    fn bytes_after_the_last_leave_no_largest() {
        let mut bytes = printed(1).encode().bytes;
        let end = bytes.len();
        bytes.push(0);
        let (text, _) = print(&bytes, &[1]);
        assert_eq!(text, format!("b 0 80\nr 0 1 256 1\nrefused 44 at {end}\n"));
    }

    #[test]
    fn a_faulty_tile_ends_it_in_place_of_its_rows_lines() {
        for f in 0..3 {
            for column in [0, 2, 5] {
                let mut wall = printed(3);
                fault(&mut wall.rows[f], column, |_| SILENT);
                let (text, outcome) = print(&wall.encode().bytes, &[]);
                let lines: Vec<&str> = text.lines().collect();
                assert_eq!(outcome, Outcome::Faulty);
                assert_eq!(lines[..f], ["b 0 80", "b 1 36", "b 2 12"][..f]);
                assert_eq!(lines[f..], [format!("faulty {f} {column}")]);
            }
        }
    }

    #[test]
    fn the_lowest_faulty_column_is_named() {
        let mut wall = printed(1);
        fault(&mut wall.rows[0], 5, |_| SILENT);
        fault(&mut wall.rows[0], 1, |_| 0);
        assert_eq!(text(&wall, &[1]), "faulty 0 1\n");
    }

    #[test]
    fn a_refusal_of_the_row_comes_before_its_marks_and_after_those_before() {
        let mut wall = printed(2);
        fault(&mut wall.rows[1], 0, |_| SILENT);
        wall.rows[1].drifts[5] = 1;
        let encoded = wall.encode();
        let due = format!("b 0 80\nrefused 25 at {}\n", encoded.tags[5]);
        assert_eq!(text(&wall, &[]), due);
        fault(&mut wall.rows[0], 0, |_| SILENT);
        assert_eq!(text(&wall, &[]), "faulty 0 0\n");
    }
}
