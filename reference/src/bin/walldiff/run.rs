//! One run of a program: what goes in and what comes out.

use std::io::{self, Write};
use std::process::{Command, Stdio};
use std::thread;

/// What a program printed and how it ended. What it says on standard error is its own affair; that it
/// says something is compared.
#[derive(Debug, PartialEq, Eq)]
pub struct Ended {
    /// Standard output.
    pub printed: Vec<u8>,
    /// Whether anything came on standard error.
    pub complained: bool,
    /// Whether no signal ended it, and the status was 0 unless it complained: some programs have no other.
    pub well: bool,
}

impl Ended {
    /// Turned the call away, with nothing on standard output.
    pub fn turned_away() -> Ended {
        Ended {
            printed: Vec::new(),
            complained: true,
            well: true,
        }
    }

    /// Ended well, with this on standard output.
    pub fn well(printed: Vec<u8>) -> Ended {
        Ended {
            printed,
            complained: false,
            well: true,
        }
    }
}

/// Runs a program on a wall file. The input is written by a thread of its own; a program may end before
/// it has read all.
pub fn run(program: &str, words: &[String], file: &[u8]) -> io::Result<Ended> {
    let mut child = Command::new(program)
        .args(words)
        .stdin(Stdio::piped())
        .stdout(Stdio::piped())
        .stderr(Stdio::piped())
        .spawn()?;
    let mut input = child.stdin.take().expect("stdin is piped");
    let output = thread::scope(|scope| {
        let writer = scope.spawn(move || input.write_all(file));
        let output = child.wait_with_output();
        match writer.join().expect("the writer ends") {
            Err(error) if error.kind() != io::ErrorKind::BrokenPipe => Err(error),
            _ => output,
        }
    })?;
    let complained = !output.stderr.is_empty();
    Ok(Ended {
        printed: output.stdout,
        complained,
        well: output
            .status
            .code()
            .is_some_and(|code| code == 0 || complained),
    })
}
