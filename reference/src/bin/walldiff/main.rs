//! `walldiff PROGRAM COUNT FIRST_SEED` runs PROGRAM on the wall files of COUNT seeds and compares
//! every byte of its standard output, how it ended and whether it complained with the reference. Some
//! of the walls are handed over as a named file, some calls have a bad word. It stops at the first
//! difference. `walldiff --reach PROGRAM COUNT FIRST_SEED` does so for `wallreach`, and with `--wide` for `wallwide`, which is
//! called several times on a wall.

mod counts;
mod reach;
mod report;
mod run;
mod seams;
mod wall;
mod wide;

use std::io;
use std::process::ExitCode;

use run::{run, Ended};
use wall_reference::generate;
use wall_reference::generate::rng::Rng;

/// From so many walls on, all that the seeds are made to reach must have been reached.
const MANY: u64 = 10_000;

/// Whether a file that is named can be read; where none is, there is standard input.
fn there_is(name: Option<&str>) -> bool {
    name.is_none_or(|name| std::path::Path::new(name).is_file())
}

/// Where the wall file of a difference is saved.
const SAVED: &str = "differs.wall";

/// A program of the reference that another is held against. It counts what is compared.
trait Reference {
    /// The calls that are made on the wall file of a seed, by their words, its name aside.
    fn calls(&mut self, seed: u64, file: &[u8]) -> Vec<Vec<String>>;

    /// What a program should do for these words, which end with the file's name where it has one; counted.
    fn due(&mut self, words: &[String], file: &[u8]) -> io::Result<Ended>;

    /// Prints what was compared.
    fn print(&self);

    /// What was never met, of all that the seeds are made to reach.
    fn missing(&self) -> Vec<String>;
}

fn main() -> ExitCode {
    let arguments: Vec<String> = std::env::args().skip(1).collect();
    let arguments: Vec<&str> = arguments.iter().map(String::as_str).collect();
    match *arguments.as_slice() {
        ["--reach", program, count, first] => {
            held_against(reach::Wallreach::default(), program, count, first)
        }
        ["--wide", program, count, first] => {
            held_against(wide::Wallwide::default(), program, count, first)
        }
        [program, count, first] => held_against(wall::Wallrun::default(), program, count, first),
        _ => usage(),
    }
}

fn usage() -> ExitCode {
    eprintln!("usage: walldiff [--reach | --wide] PROGRAM COUNT FIRST_SEED");
    ExitCode::from(2)
}

fn held_against(reference: impl Reference, program: &str, count: &str, first: &str) -> ExitCode {
    let (Ok(count), Ok(first)) = (count.parse(), first.parse()) else {
        return usage();
    };
    match compare_all(reference, program, count, first) {
        Ok(true) => ExitCode::SUCCESS,
        Ok(false) => ExitCode::FAILURE,
        Err(error) => {
            eprintln!("walldiff: {program}: {error}");
            ExitCode::from(2)
        }
    }
}

/// The file by which some walls are handed over; it is removed at the end.
struct Named(String);

impl Named {
    fn new() -> Named {
        let path = std::env::temp_dir().join(format!("walldiff-{}.wall", std::process::id()));
        Named(path.to_string_lossy().into_owned())
    }

    /// Its name, with a wall in it.
    fn holding(&self, file: &[u8]) -> io::Result<String> {
        std::fs::write(&self.0, file)?;
        Ok(self.0.clone())
    }
}

impl Drop for Named {
    fn drop(&mut self) {
        // Where no wall was handed over so, there is none.
        let _ = std::fs::remove_file(&self.0);
    }
}

/// Compares all seeds and prints the counts; true where all is well.
fn compare_all(
    mut reference: impl Reference,
    program: &str,
    count: u64,
    first: u64,
) -> io::Result<bool> {
    let named = Named::new();
    for seed in (0..count).map(|i| first.wrapping_add(i)) {
        let file = generate::file(seed);
        let by_name = Rng::new(seed).chance(25);
        let name = by_name.then(|| named.holding(&file)).transpose()?;
        for mut words in reference.calls(seed, &file) {
            words.extend(name.clone());
            let due = reference.due(&words, &file)?;
            let given = run(program, &words, if by_name { &[] } else { &file })?;
            if given != due {
                report::difference(seed, &words, &due, &given);
                std::fs::write(SAVED, &file)?;
                println!("the wall file is saved as {SAVED}");
                return Ok(false);
            }
        }
    }
    reference.print();
    let missing = reference.missing();
    if count >= MANY && !missing.is_empty() {
        println!("never met: {}", missing.join("; "));
        return Ok(false);
    }
    println!("no difference in {count} walls, seeds from {first}");
    Ok(true)
}
