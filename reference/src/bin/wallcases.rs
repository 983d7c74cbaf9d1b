//! `wallcases FOLDER` writes the named wall files to FOLDER/data, their names to FOLDER/args, and each name with what
//! `wallrun` prints for its file to FOLDER/stdout.

use std::fs;
use std::io::{self, Write};
use std::path::Path;
use std::process::ExitCode;

use wall_reference::cases;
use wall_reference::print::wallrun;

fn main() -> ExitCode {
    let arguments: Vec<String> = std::env::args().skip(1).collect();
    let [folder] = arguments.as_slice() else {
        eprintln!("usage: wallcases FOLDER");
        return ExitCode::from(2);
    };
    match write_all(Path::new(folder)) {
        Ok(()) => ExitCode::SUCCESS,
        Err(error) => {
            eprintln!("wallcases: {folder}: {error}");
            ExitCode::FAILURE
        }
    }
}

/// Writes the files; those of an earlier run go first.
fn write_all(folder: &Path) -> io::Result<()> {
    let data = folder.join("data");
    if data.exists() {
        fs::remove_dir_all(&data)?;
    }
    fs::create_dir_all(&data)?;
    let (mut names, mut printed) = (Vec::new(), Vec::new());
    for case in cases::all() {
        fs::write(data.join(&case.name), &case.file)?;
        writeln!(names, "{}", case.name)?;
        writeln!(printed, "{}", case.name)?;
        wallrun(&case.file, &mut printed)?;
    }
    fs::write(folder.join("args"), names)?;
    fs::write(folder.join("stdout"), printed)
}
