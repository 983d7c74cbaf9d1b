//! `reachref [ROW]... [FILE]` reads a wall file, from standard input where none is named, and prints what `wallreach` prints: how
//! far one faulty tile of each row can reach, in the later rows asked for.

use std::process::ExitCode;

use wall_reference::arguments::{answer, Program};
use wall_reference::reach::{wallreach, MOST_ASKED, ROWS};

fn main() -> ExitCode {
    let program = Program {
        name: "reachref",
        usage: "usage: reachref [ROW]... [FILE], with at most 16 rows from 1 to 1024",
        counts: 0..=MOST_ASKED,
        range: ROWS,
        number: "a row",
    };
    answer(&program, |asked, file, out| {
        wallreach(file, asked, out).map(drop)
    })
}
