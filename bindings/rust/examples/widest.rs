//! Prints the widest seam of the wall file on standard input: of the closed seams of rows 1 to R
//! the one whose half gap, sign dropped, is largest, and of several the first in the order of
//! `wallrun`.
//!
//! The line is `widest ROW LEFT RIGHT HALF_GAP`, `no closed seam` or `refused NUMBER at OFFSET`.

use polzaintu::seam::Seam;
use polzaintu::wall::{Error, Reader};
use std::io::{self, Read, Write};
use std::process::ExitCode;

struct Widest {
    row: u64,
    left: usize,
    right: usize,
    half_gap: f64,
}

fn widest(input: impl Read) -> Result<Option<Widest>, Error> {
    let mut widest: Option<Widest> = None;
    for row in Reader::new(input) {
        let row = row?;
        for found in row.seams() {
            let Seam::Closed { half_gap, .. } = found.seam else {
                continue;
            };
            let wider = |w: &Widest| w.half_gap.abs() < half_gap.abs();
            if widest.as_ref().map_or(true, wider) {
                widest = Some(Widest {
                    row: row.number(),
                    left: found.left,
                    right: found.right,
                    half_gap,
                });
            }
        }
    }
    Ok(widest)
}

fn main() -> ExitCode {
    let line = match widest(io::stdin().lock()) {
        Ok(Some(w)) => format!("widest {} {} {} {:.1}", w.row, w.left, w.right, w.half_gap),
        Ok(None) => "no closed seam".to_string(),
        Err(Error::Refused(refused)) => {
            format!("refused {} at {}", refused.refusal.number(), refused.offset)
        }
        Err(Error::Read(error)) => {
            eprintln!("widest: standard input: {error}");
            return ExitCode::FAILURE;
        }
    };
    match writeln!(io::stdout(), "{line}") {
        Ok(()) => ExitCode::SUCCESS,
        Err(error) => {
            eprintln!("widest: standard output: {error}");
            ExitCode::FAILURE
        }
    }
}
