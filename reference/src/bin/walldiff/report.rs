//! Where two runs differ, for a reader.

use crate::run::Ended;

/// Prints what differs between what was due and what was given, and the first line that does.
pub fn difference(seed: u64, words: &[String], due: &Ended, given: &Ended) {
    println!("seed {seed}: the program differs");
    if !words.is_empty() {
        println!("arguments {words:?}");
    }
    if due.well != given.well {
        println!("the program ended by a signal or with a status that says a failure");
    }
    if due.complained != given.complained {
        println!("standard error");
        two(said(due), said(given));
    }
    let mut lines = due.printed.split_inclusive(|&byte| byte == b'\n');
    let mut others = given.printed.split_inclusive(|&byte| byte == b'\n');
    for number in 1.. {
        let (line, other) = (lines.next(), others.next());
        if line != other {
            println!("line {number}");
            two(&shown(line), &shown(other));
            return;
        }
        if line.is_none() {
            return;
        }
    }
}

fn two(due: &str, given: &str) {
    println!("  reference: {due}");
    println!("  program:   {given}");
}

fn said(ended: &Ended) -> &'static str {
    if ended.complained {
        "(something)"
    } else {
        "(none)"
    }
}

/// A line with its end and odd bytes made visible, cut where it is very long.
fn shown(line: Option<&[u8]>) -> String {
    const LONGEST: usize = 300;
    let Some(line) = line else {
        return "(none)".into();
    };
    let text = line[..line.len().min(LONGEST)].escape_ascii().to_string();
    if line.len() > LONGEST {
        format!("{text}... ({} bytes)", line.len())
    } else {
        text
    }
}
