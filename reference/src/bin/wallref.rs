//! `wallref [FILE]`: reads a wall file, from standard input where none is named, and prints what `wallrun` prints.

use std::process::ExitCode;

use wall_reference::arguments::{answer, Program};
use wall_reference::print::wallrun;

fn main() -> ExitCode {
    let program = Program {
        name: "wallref",
        usage: "usage: wallref [FILE]",
        counts: 0..=0,
        range: 0..=0,
        number: "a number",
    };
    answer(&program, |_, file, out| wallrun(file, out).map(drop))
}
