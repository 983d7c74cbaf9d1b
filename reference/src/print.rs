//! What is printed of a wall file (§10.1 to §10.4, §E3.5): `t` and `s` lines of each row, and a refusal's line.

use std::io::{self, Write};

use crate::file::{walk, FileRefused, ShownRow, Stop};
use crate::seam::{seam, Pulse, Seam, Side};
use crate::shape::is_marked;

/// Runs the wall of `file` and prints what `wallrun` prints, also a refusal, which is answered as well.
/// The error is one of `out`.
pub fn wallrun(file: &[u8], out: &mut impl Write) -> io::Result<Option<FileRefused>> {
    match walk(file, |row| print_row(&row, out)) {
        Ok(()) => Ok(None),
        Err(Stop::Shown(error)) => Err(error),
        Err(Stop::Refused(refused)) => {
            writeln!(out, "{refused}")?;
            Ok(Some(refused))
        }
    }
}

/// The `t` lines of a row by column, then its `s` lines by left and then right. Row 0 has none.
fn print_row(row: &ShownRow, out: &mut impl Write) -> io::Result<()> {
    let number = row.number;
    if number == 0 {
        return Ok(());
    }
    for (column, (time, &letter)) in row.times.iter().zip(row.letters).enumerate() {
        if is_marked(row.marks, column) {
            writeln!(out, "t {number} {column} -")?;
        } else {
            writeln!(out, "t {number} {column} {time} {}", char::from(letter))?;
        }
    }
    let pulse = |column: usize| Pulse {
        time: row.times[column],
        faulty: is_marked(row.marks, column),
    };
    for &(left, right) in row.wall.shape().seams() {
        write!(out, "s {number} {left} {right} ")?;
        // A time that an accepted row wrote is far below 2^41, so 31 can't arise here.
        match seam(pulse(left), pulse(right)).expect("a written time is in range") {
            Seam::Closed(both) => {
                let (midpoint, half_gap) = (both.midpoint.to_bits(), both.half_gap.to_bits());
                writeln!(out, "{midpoint:016x} {half_gap:016x}")?;
            }
            Seam::Open(Side::Left) => writeln!(out, "open left")?,
            Seam::Open(Side::Right) => writeln!(out, "open right")?,
            Seam::Open(Side::Both) => writeln!(out, "open both")?,
        }
    }
    Ok(())
}
