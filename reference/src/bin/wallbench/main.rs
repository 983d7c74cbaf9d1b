//! `wallbench WALLRUN WALLREF FOLDER` runs both programs on the same generated wall files, which it
//! puts into FOLDER, and prints in Markdown what each run costs. It ends with status 1 where the two
//! print different bytes for a file. Nothing is judged by time.

mod measure;
mod table;

use std::fs::{self, File};
use std::io;
use std::path::Path;
use std::process::{Command, ExitCode};

use measure::{Measured, Program};
use table::{Column, Table};
use wall_reference::generate::benchmark_wall;

/// The seed of all walls measured.
const SEED: u64 = 7;

/// A wall to measure: W x R with about so many of 100 tiles faulty.
#[derive(Clone, Copy)]
struct Size {
    columns: u32,
    rows: u32,
    percent: u32,
}

/// What both programs cost on one wall.
struct Pair {
    size: Size,
    wallrun: Measured,
    wallref: Measured,
}

fn main() -> ExitCode {
    let arguments: Vec<String> = std::env::args().skip(1).collect();
    let [wallrun, wallref, folder] = arguments.as_slice() else {
        eprintln!("usage: wallbench WALLRUN WALLREF FOLDER");
        return ExitCode::from(2);
    };
    let programs = [Program::new(wallrun), Program::new(wallref)];
    match measure_all(&programs, Path::new(folder)) {
        Ok(()) => ExitCode::SUCCESS,
        Err(error) => {
            eprintln!("wallbench: {error}");
            ExitCode::FAILURE
        }
    }
}

/// Measures all walls, a small one first, and prints the tables.
fn measure_all(programs: &[Program; 2], folder: &Path) -> io::Result<()> {
    let pairs = |sizes: &[Size]| -> io::Result<Vec<Pair>> {
        sizes.iter().map(|&s| pair(programs, folder, s)).collect()
    };
    let of = |columns, rows, percent| Size {
        columns,
        rows,
        percent,
    };
    let small = pairs(&[of(256, 32, 2)])?;
    let widths = pairs(&[16, 32, 64, 128, 256].map(|w| of(w, 1_024, 2)))?;
    let lengths = pairs(&[64, 128, 256, 512].map(|r| of(256, r, 2)))?;
    let whole = pairs(&[of(256, 1_024, 0)])?;
    let largest = widths.last().expect("there are widths");

    println!("## 256 x 1,024\n");
    compared(whole.iter().chain([largest])).print();
    println!("\n## By width, 1,024 rows, 2 % faulty\n");
    growth(widths.iter()).print();
    println!("\n## By rows, 256 columns, 2 % faulty\n");
    growth(lengths.iter().chain([largest])).print();
    println!("\n## A short wall\n");
    growth(small.iter()).print();
    Ok(())
}

/// Makes the wall's file, has both programs print it the same, and measures them.
fn pair(programs: &[Program; 2], folder: &Path, size: Size) -> io::Result<Pair> {
    let Size {
        columns,
        rows,
        percent,
    } = size;
    let path = folder.join(format!("{columns}x{rows}-{percent}.wall"));
    let wall = benchmark_wall(columns, rows, percent.into(), SEED);
    fs::write(&path, wall.encode().bytes)?;
    if printed(&programs[0], &path)? != printed(&programs[1], &path)? {
        return Err(io::Error::other(format!(
            "{}: the programs print different bytes",
            path.display()
        )));
    }
    let [wallrun, wallref] = measure::both(programs, &path)?;
    fs::remove_file(&path)?;
    Ok(Pair {
        size,
        wallrun,
        wallref,
    })
}

fn printed(program: &Program, file: &Path) -> io::Result<Vec<u8>> {
    let mut command = Command::new(program.path());
    let output = command.stdin(File::open(file)?).output()?;
    Ok(output.stdout)
}

impl Pair {
    fn tiles(&self) -> f64 {
        f64::from(self.size.columns) * f64::from(self.size.rows)
    }
}

/// Both programs on one wall, and the ratio of the second to the first.
fn compared<'a>(pairs: impl Iterator<Item = &'a Pair>) -> Table {
    let mut table = Table::new(&["faulty", "cost", "wallrun", "wallref", "wallref / wallrun"]);
    for pair in pairs {
        let faulty = format!("{} %", pair.size.percent);
        let (run, reference) = (&pair.wallrun, &pair.wallref);
        for (what, one, other, digits) in [
            ("ms", run.milliseconds, reference.milliseconds, 1),
            ("instructions", run.instructions, reference.instructions, 0),
            ("peak KiB", run.peak, reference.peak, 0),
            ("system calls", run.calls, reference.calls, 0),
        ] {
            let ratio = other.zip(one).map(|(other, one)| other / one);
            table.row(vec![
                faulty.clone(),
                what.into(),
                table::number(one, digits),
                table::number(other, digits),
                table::number(ratio, 1),
            ]);
        }
    }
    table
}

/// What each program costs, whole and for a tile, from wall to wall.
fn growth<'a>(pairs: impl Iterator<Item = &'a Pair>) -> Table {
    let columns: [Column<Measured>; 6] = [
        ("ms", |m, _| table::number(m.milliseconds, 2)),
        ("ns / tile", |m, tiles| {
            table::number(m.milliseconds.map(|ms| ms * 1e6 / tiles), 1)
        }),
        ("instructions", |m, _| table::number(m.instructions, 0)),
        ("/ tile", |m, tiles| {
            table::number(m.instructions.map(|count| count / tiles), 1)
        }),
        ("peak KiB", |m, _| table::number(m.peak, 0)),
        ("system calls", |m, _| table::number(m.calls, 0)),
    ];
    let mut names = vec!["W", "R", "program"];
    names.extend(columns.iter().map(|(name, _)| *name));
    let mut table = Table::new(&names);
    for pair in pairs {
        for (program, measured) in [("wallrun", &pair.wallrun), ("wallref", &pair.wallref)] {
            let size = pair.size;
            let mut row = vec![
                size.columns.to_string(),
                table::number(Some(size.rows.into()), 0),
                program.into(),
            ];
            row.extend(columns.iter().map(|(_, cell)| cell(measured, pair.tiles())));
            table.row(row);
        }
    }
    table
}
