//! The words of a call, as all programs take them: numbers in front, then the name of a file; and what is done of a call.

use std::fs::File;
use std::io::{self, BufWriter, Read, StdoutLock, Write};
use std::ops::RangeInclusive;
use std::process::ExitCode;

/// What a call asks for.
#[derive(Clone, Debug, PartialEq, Eq)]
pub enum Call {
    /// A wall file, standard input where none is named.
    Run {
        /// The numbers in front.
        numbers: Vec<u64>,
        /// The file.
        name: Option<String>,
    },
    /// The use.
    Help,
    /// The version.
    Version,
    /// The words end where a number is due.
    Missing,
    /// This word is none that is known, or does not belong where it stands.
    Wrong(String),
}

/// Reads the words of a call that takes so many numbers, each in a range.
pub fn read(words: &[String], counts: RangeInclusive<usize>, range: RangeInclusive<u64>) -> Call {
    match words.first().map(String::as_str) {
        Some("--help") => return Call::Help,
        Some("--version") => return Call::Version,
        _ => {}
    }
    let mut numbers = Vec::new();
    for (i, word) in words.iter().enumerate() {
        let wrong = Call::Wrong(word.clone());
        if word.is_empty() || word.starts_with('-') {
            return wrong;
        }
        if word.bytes().any(|byte| !byte.is_ascii_digit()) {
            if numbers.len() < *counts.start() {
                return wrong;
            }
            return match words.get(i + 1) {
                None => Call::Run {
                    numbers,
                    name: Some(word.clone()),
                },
                Some(next) => Call::Wrong(next.clone()),
            };
        }
        match word.parse() {
            Ok(number) if range.contains(&number) && numbers.len() < *counts.end() => {
                numbers.push(number)
            }
            _ => return wrong,
        }
    }
    if numbers.len() < *counts.start() {
        return Call::Missing;
    }
    Call::Run {
        numbers,
        name: None,
    }
}

/// A program and what it takes.
pub struct Program {
    /// Its name, in front of what it says on standard error.
    pub name: &'static str,
    /// The line that tells its use.
    pub usage: &'static str,
    /// How many numbers stand in front.
    pub counts: RangeInclusive<usize>,
    /// Where each of them lies.
    pub range: RangeInclusive<u64>,
    /// What each of them is, as it is said where one is missing.
    pub number: &'static str,
}

/// Answers a program's call: `print` is handed the numbers in front, the bytes of the wall file and standard output. What can't
/// be done is said on standard error, with another status than 0.
pub fn answer(
    program: &Program,
    print: impl FnOnce(&[u64], &[u8], &mut BufWriter<StdoutLock>) -> io::Result<()>,
) -> ExitCode {
    let Program { name, usage, .. } = program;
    let words: Vec<String> = std::env::args().skip(1).collect();
    let wrong = |said: &str| {
        eprintln!("{name}: {said}\n{usage}");
        ExitCode::from(2)
    };
    let (numbers, file) = match read(&words, program.counts.clone(), program.range.clone()) {
        Call::Run { numbers, name } => (numbers, name),
        Call::Help => {
            println!("{usage}");
            return ExitCode::SUCCESS;
        }
        Call::Version => {
            println!("{name} {}", env!("CARGO_PKG_VERSION"));
            return ExitCode::SUCCESS;
        }
        Call::Missing => return wrong(&format!("{} is missing", program.number)),
        Call::Wrong(word) => return wrong(&format!("unexpected argument: {word}")),
    };
    let failed = |doing, error| {
        eprintln!("{name}: {doing}: {error}");
        ExitCode::FAILURE
    };
    let file = match contents(file.as_deref()) {
        Ok(file) => file,
        Err(error) => return failed("reading", error),
    };
    let mut out = BufWriter::with_capacity(1 << 16, io::stdout().lock());
    match print(&numbers, &file, &mut out).and_then(|()| out.flush()) {
        Ok(()) => ExitCode::SUCCESS,
        Err(error) => failed("writing", error),
    }
}

/// All of a file, or of standard input.
fn contents(name: Option<&str>) -> io::Result<Vec<u8>> {
    let mut file = Vec::new();
    match name {
        Some(name) => File::open(name)?.read_to_end(&mut file)?,
        None => io::stdin().lock().read_to_end(&mut file)?,
    };
    Ok(file)
}

#[cfg(test)]
mod tests {
    use super::*;

    fn rows(words: &[&str]) -> Call {
        called(words, 0..=16, 1..=1_024)
    }

    fn limit(words: &[&str]) -> Call {
        called(words, 1..=1, 0..=1 << 42)
    }

    fn called(words: &[&str], counts: RangeInclusive<usize>, range: RangeInclusive<u64>) -> Call {
        let words: Vec<String> = words.iter().map(|word| word.to_string()).collect();
        read(&words, counts, range)
    }

    fn run(numbers: &[u64], name: Option<&str>) -> Call {
        Call::Run {
            numbers: numbers.to_vec(),
            name: name.map(String::from),
        }
    }

    fn wrong(word: &str) -> Call {
        Call::Wrong(word.into())
    }

    #[test]
    fn numbers_stand_in_front() {
        assert_eq!(rows(&[]), run(&[], None));
        assert_eq!(
            rows(&["1024", "1", "007", "7"]),
            run(&[1_024, 1, 7, 7], None)
        );
        assert_eq!(rows(&["2"; 16]), run(&[2; 16], None));
        assert_eq!(rows(&["2"; 17]), wrong("2"));
        let long = format!("1{}", "0".repeat(30));
        for bad in ["", "0", "1025", "-1", "-", "--helpx", &long] {
            assert_eq!(rows(&[bad]), wrong(bad), "{bad}");
            assert_eq!(rows(&["1", bad, "2"]), wrong(bad), "{bad}");
        }
        assert_eq!(called(&["12"], 0..=0, 0..=0), wrong("12"));
    }

    #[test]
    fn a_name_is_the_last_word() {
        for name in ["some.wall", "12a", " 1", "+1", "1.0", "./12", "./-x"] {
            assert_eq!(rows(&[name]), run(&[], Some(name)));
            assert_eq!(rows(&["3", "1", name]), run(&[3, 1], Some(name)));
            assert_eq!(rows(&["3", name, "1"]), wrong("1"));
            assert_eq!(rows(&[name, "--help"]), wrong("--help"));
        }
    }

    #[test]
    fn a_number_that_is_needed() {
        assert_eq!(limit(&[]), Call::Missing);
        for (word, number) in [("0", 0), ("0036", 36), ("4398046511104", 1 << 42)] {
            assert_eq!(limit(&[word]), run(&[number], None));
            assert_eq!(limit(&[word, "12a"]), run(&[number], Some("12a")));
            assert_eq!(limit(&[word, "12"]), wrong("12"));
            assert_eq!(limit(&[word, "--help"]), wrong("--help"));
            assert_eq!(limit(&[word, "some.wall", "12"]), wrong("12"));
            assert_eq!(limit(&["some.wall", word]), wrong("some.wall"));
        }
        for bad in ["", "-1", "some.wall", "1.5", "+1", "4398046511105"] {
            assert_eq!(limit(&[bad]), wrong(bad), "{bad}");
        }
        assert_eq!(limit(&["--help"]), Call::Help);
        assert_eq!(limit(&["--version", "x"]), Call::Version);
    }

    #[test]
    fn help_and_version_stand_in_front() {
        assert_eq!(rows(&["--help"]), Call::Help);
        assert_eq!(rows(&["--help", "0"]), Call::Help);
        assert_eq!(rows(&["--version"]), Call::Version);
        assert_eq!(rows(&["1", "--version"]), wrong("--version"));
    }
}
