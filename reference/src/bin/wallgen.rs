//! `wallgen SEED` writes the wall file of a seed to standard output.
//! `wallgen --wall W R PERCENT SEED` writes an accepted wall of W x R with about PERCENT % faulty
//! tiles.

use std::io::{self, Write};
use std::process::ExitCode;

use wall_reference::generate;

const USAGE: &str = "usage: wallgen SEED | wallgen --wall W R PERCENT SEED";

fn main() -> ExitCode {
    let arguments: Vec<String> = std::env::args().skip(1).collect();
    let arguments: Vec<&str> = arguments.iter().map(String::as_str).collect();
    let Some(file) = file(&arguments) else {
        eprintln!("{USAGE}");
        return ExitCode::from(2);
    };
    match io::stdout().lock().write_all(&file) {
        Ok(()) => ExitCode::SUCCESS,
        Err(error) => {
            eprintln!("wallgen: writing: {error}");
            ExitCode::FAILURE
        }
    }
}

/// The file asked for, or nothing where the arguments are wrong.
fn file(arguments: &[&str]) -> Option<Vec<u8>> {
    match *arguments {
        [seed] => Some(generate::file(seed.parse().ok()?)),
        ["--wall", columns, rows, percent, seed] => {
            let columns = columns.parse().ok().filter(|w| (6..=256).contains(w))?;
            let rows = rows.parse().ok().filter(|r| (1..=1_024).contains(r))?;
            let percent: f64 = percent.parse().ok()?;
            if !(0.0..=100.0).contains(&percent) {
                return None;
            }
            let wall = generate::benchmark_wall(columns, rows, percent, seed.parse().ok()?);
            Some(wall.encode().bytes)
        }
        _ => None,
    }
}
