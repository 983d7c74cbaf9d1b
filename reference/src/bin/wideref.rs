//! `wideref LIMIT [FILE]` reads a wall file, from standard input where none is named, and prints what `wallwide` prints: the first
//! seam that is wider than the limit, the refusal that comes before any, or that there is none.

use std::io::Write;
use std::process::ExitCode;

use wall_reference::arguments::{answer, Program};
use wall_reference::wide::{wallwide, LIMITS};

fn main() -> ExitCode {
    let program = Program {
        name: "wideref",
        usage: "usage: wideref LIMIT [FILE], with a limit from 0 to 4398046511104 half ticks",
        counts: 1..=1,
        range: LIMITS,
        number: "a limit",
    };
    answer(&program, |limit, file, out| {
        writeln!(out, "{}", wallwide(file, limit[0]))
    })
}
