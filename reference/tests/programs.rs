//! The programs as they are run.

use std::fs::File;
use std::io::{ErrorKind, Write};
use std::path::PathBuf;
use std::process::{Command, Output, Stdio};
use std::thread;

use wall_reference::generate;
use wall_reference::print::wallrun;
use wall_reference::reach::wallreach;
use wall_reference::rule::Letter;
use wall_reference::wide::wallwide;

const WALLREF: &str = env!("CARGO_BIN_EXE_wallref");
const REACHREF: &str = env!("CARGO_BIN_EXE_reachref");
const WIDEREF: &str = env!("CARGO_BIN_EXE_wideref");
const WALLGEN: &str = env!("CARGO_BIN_EXE_wallgen");
const WALLDIFF: &str = env!("CARGO_BIN_EXE_walldiff");
const WALLBENCH: &str = env!("CARGO_BIN_EXE_wallbench");

/// A folder of its own for each test.
fn folder(name: &str) -> PathBuf {
    let path = PathBuf::from(env!("CARGO_TARGET_TMPDIR")).join(name);
    std::fs::create_dir_all(&path).unwrap();
    path
}

/// Runs a program that reads all of its input, or ends without reading any.
fn run(program: &str, arguments: &[&str], file: &[u8]) -> Output {
    let mut child = Command::new(program)
        .args(arguments)
        .stdin(Stdio::piped())
        .stdout(Stdio::piped())
        .stderr(Stdio::piped())
        .spawn()
        .unwrap();
    let mut input = child.stdin.take().unwrap();
    thread::scope(|scope| {
        scope.spawn(move || {
            if let Err(error) = input.write_all(file) {
                assert_eq!(error.kind(), ErrorKind::BrokenPipe);
            }
        });
        child.wait_with_output().unwrap()
    })
}

fn wallref(file: &[u8]) -> Output {
    run(WALLREF, &[], file)
}

fn wallgen(arguments: &[&str]) -> Output {
    Command::new(WALLGEN).args(arguments).output().unwrap()
}

/// Runs walldiff in a folder of this name; a difference is saved there.
fn walldiff_with(arguments: &[&str], name: &str) -> Output {
    Command::new(WALLDIFF)
        .args(arguments)
        .current_dir(folder(name))
        .output()
        .unwrap()
}

fn walldiff(program: &str, count: &str, name: &str) -> Output {
    walldiff_with(&[program, count, "0"], name)
}

/// A program that does what wallref does, and then this line of shell.
fn wallref_and(name: &str, then: &str) -> String {
    script(name, &format!("\"{WALLREF}\" \"$@\"\n{then}"))
}

/// A program that does what wideref does with another limit, this sum of shell over `limit`.
fn wideref_with(name: &str, limit: &str) -> String {
    let lines = format!("limit=$1\nshift\nexec \"{WIDEREF}\" $(({limit})) \"$@\"");
    script(name, &lines)
}

/// A program of these lines of shell.
fn script(name: &str, lines: &str) -> String {
    let path = folder(name).join("program").to_str().unwrap().to_string();
    let text = format!("#!/bin/sh\n{lines}");
    // A process of its own writes it: a file that this one still has open can't be run.
    let write = r#"printf '%s\n' "$1" > "$0" && chmod +x "$0""#;
    let status = Command::new("sh")
        .args(["-c", write, &path, &text])
        .status();
    assert!(status.unwrap().success());
    path
}

#[test]
fn wallref_prints_what_the_library_prints() {
    for seed in 0..50 {
        let file = generate::file(seed);
        let mut due = Vec::new();
        wallrun(&file, &mut due).unwrap();
        let output = wallref(&file);
        assert!(output.status.success());
        assert_eq!(output.stdout, due);
        assert!(output.stderr.is_empty());
    }
}

#[test]
fn reachref_prints_what_the_library_prints() {
    for seed in 0..50 {
        let file = generate::file(seed);
        let mut due = Vec::new();
        wallreach(&file, &[3, 1, 1_024], &mut due).unwrap();
        let output = run(REACHREF, &["3", "1", "1024"], &file);
        assert!(output.status.success());
        assert_eq!(output.stdout, due);
        assert!(output.stderr.is_empty());
    }
}

#[test]
fn reachref_tells_a_bad_argument_and_prints_nothing() {
    let file = generate::file(0);
    let many = ["1"; 17];
    for arguments in [&["0"][..], &["1025"], &["2", "x", "3"], &[""], &many] {
        let output = run(REACHREF, arguments, &file);
        assert_eq!(output.status.code(), Some(2), "{arguments:?}");
        assert!(output.stdout.is_empty());
        assert!(!output.stderr.is_empty());
    }
    assert!(run(REACHREF, &many[..16], &file).status.success());
}

#[test]
fn wideref_prints_what_the_library_prints() {
    for seed in 0..50 {
        let file = generate::file(seed);
        for limit in [0, 30, 1 << 42] {
            let output = run(WIDEREF, &[&limit.to_string()], &file);
            assert!(output.status.success());
            let due = format!("{}\n", wallwide(&file, limit));
            assert_eq!(String::from_utf8(output.stdout).unwrap(), due);
            assert!(output.stderr.is_empty());
        }
    }
}

#[test]
fn wideref_needs_a_limit_and_takes_no_second() {
    let file = generate::file(0);
    for (arguments, said) in [
        (&[][..], "a limit is missing"),
        (&["some.wall"], "unexpected argument: some.wall"),
        (&["some.wall", "36"], "unexpected argument: some.wall"),
        (&["-1"], "unexpected argument: -1"),
        (&[""], "unexpected argument: "),
        (&["4398046511105"], "unexpected argument: 4398046511105"),
        (&["36", "37"], "unexpected argument: 37"),
        (&["36", "37", "some.wall"], "unexpected argument: 37"),
        (&["36", "some.wall", "37"], "unexpected argument: 37"),
        (&["36", "--help"], "unexpected argument: --help"),
    ] {
        let output = run(WIDEREF, arguments, &file);
        assert_eq!(output.status.code(), Some(2), "{arguments:?}");
        assert!(output.stdout.is_empty());
        let text = String::from_utf8(output.stderr).unwrap();
        let due = format!("wideref: {said}\nusage: wideref LIMIT [FILE], ");
        assert!(text.starts_with(&due), "{text}");
    }
    for limit in ["0", "4398046511104"] {
        assert!(run(WIDEREF, &[limit], &file).status.success());
    }
}

/// Each program, and the numbers that it needs in front.
const PROGRAMS: [(&str, &[&str]); 3] = [(WALLREF, &[]), (REACHREF, &[]), (WIDEREF, &["36"])];

#[test]
fn all_read_a_named_file() {
    let path = folder("named").join("some.wall");
    let file = generate::file(1);
    std::fs::write(&path, &file).unwrap();
    for (program, numbers) in PROGRAMS {
        let with = |name| [numbers, &[name]].concat();
        let named = run(program, &with(path.to_str().unwrap()), &[]);
        assert!(named.status.success());
        assert_eq!(named.stdout, run(program, numbers, &file).stdout);
        let missing = run(program, &with("no-such.wall"), &file);
        assert_eq!(missing.status.code(), Some(1));
        assert!(missing.stdout.is_empty());
        assert!(!missing.stderr.is_empty());
        for option in ["--help", "--version"] {
            let told = run(program, &[option], &file);
            assert!(told.status.success() && !told.stdout.is_empty());
        }
        assert_eq!(run(program, &["-x"], &file).status.code(), Some(2));
    }
}

#[test]
fn a_failed_read_is_no_end_of_file() {
    for (program, numbers) in PROGRAMS {
        // A folder opens as a file and fails when read.
        let unreadable = File::open(folder("unreadable")).unwrap();
        let mut command = Command::new(program);
        let output = command.args(numbers).stdin(unreadable).output().unwrap();
        assert!(!output.status.success());
        assert!(output.stdout.is_empty());
        assert!(!output.stderr.is_empty());
    }
}

#[test]
fn a_failed_write_is_told() {
    for (program, numbers) in PROGRAMS {
        let Ok(full) = File::create("/dev/full") else {
            return;
        };
        let mut child = Command::new(program)
            .args(numbers)
            .stdin(Stdio::piped())
            .stdout(full)
            .stderr(Stdio::piped())
            .spawn()
            .unwrap();
        drop(child.stdin.take());
        let output = child.wait_with_output().unwrap();
        assert!(!output.status.success());
        assert!(!output.stderr.is_empty());
    }
}

#[test]
fn wallgen_is_fixed_by_its_seed() {
    for seed in ["0", "1", "18446744073709551615"] {
        let file = wallgen(&[seed]).stdout;
        assert_eq!(file, wallgen(&[seed]).stdout);
        assert_eq!(file, generate::file(seed.parse().unwrap()));
    }
    assert_eq!(wallgen(&[]).status.code(), Some(2));
    assert_eq!(wallgen(&["x"]).status.code(), Some(2));
    assert_eq!(
        wallgen(&["--wall", "5", "1", "0", "1"]).status.code(),
        Some(2)
    );
}

#[test]
fn wallgen_makes_walls_of_a_size() {
    for (columns, rows, percent) in [(6, 1, 0), (17, 9, 10), (64, 20, 5), (256, 4, 100)] {
        let arguments = [columns, rows, percent, 3].map(|n: usize| n.to_string());
        let [w, r, p, seed] = &arguments;
        let file = wallgen(&["--wall", w, r, p, seed]).stdout;
        let text = String::from_utf8(wallref(&file).stdout).unwrap();
        assert!(!text.contains("refused"));
        let tiles = text.lines().filter(|line| line.starts_with('t')).count();
        assert_eq!(tiles, columns * rows);
        let faulty = text.lines().filter(|line| line.ends_with(" -")).count();
        assert_eq!(faulty == 0, percent == 0 || rows == 1);
    }
}

#[test]
fn walldiff_finds_no_difference_with_itself() {
    for (arguments, name, first) in [
        (&[WALLREF, "200", "0"][..], "same", "walls "),
        (&["--reach", REACHREF, "200", "0"], "same-reach", "walls "),
        (&["--wide", WIDEREF, "200", "0"], "same-wide", "answers "),
    ] {
        let output = walldiff_with(arguments, name);
        let text = String::from_utf8(output.stdout).unwrap();
        assert!(output.status.success(), "{text}");
        assert!(text.starts_with(first), "{text}");
        assert!(text.contains("\n  43 "), "{text}");
        assert!(text.ends_with("no difference in 200 walls, seeds from 0\n"));
    }
}

#[test]
fn walldiff_counts_tiles_by_letter_and_phase() {
    let text = String::from_utf8(walldiff(WALLREF, "200", "letters").stdout).unwrap();
    for letter in Letter::ALL {
        assert!(text.contains(&format!("\n  {letter} ")), "{text}");
    }
    for phase in ["0", "999,999", "between"] {
        assert!(text.contains(&format!("\n  phase {phase} ")), "{text}");
    }
}

#[test]
fn walldiff_tells_a_difference_and_saves_the_wall() {
    // Both end without reading and print nothing.
    for program in ["true", "false"] {
        let output = walldiff(program, "10", program);
        let text = String::from_utf8(output.stdout).unwrap();
        assert_eq!(output.status.code(), Some(1));
        assert!(text.contains("seed 0: "), "{text}");
        assert!(text.contains("(none)"), "{text}");
        let saved = std::fs::read(folder(program).join("differs.wall")).unwrap();
        assert_eq!(saved, generate::file(0));
    }
}

#[test]
fn walldiff_tells_what_is_wrong_beside_the_printed_bytes() {
    for (name, then, told) in [
        ("status", "exit 3", "the program ended by a signal or"),
        ("signal", "kill -9 $$", "the program ended by a signal or"),
        (
            "words",
            "echo well >&2",
            "standard error\n  reference: (none)\n",
        ),
        ("longer", "echo", "  program:   \\n\n"),
    ] {
        let output = walldiff(&wallref_and(name, then), "3", name);
        let text = String::from_utf8(output.stdout).unwrap();
        assert_eq!(output.status.code(), Some(1), "{text}");
        assert!(text.contains(told), "{text}");
    }
    let output = walldiff(&wallref_and("well", "exit 0"), "3", "well");
    assert!(output.status.success());
}

#[test]
fn walldiff_holds_wallreach_against_its_own_reference() {
    // wallref takes no rows and prints other lines.
    let output = walldiff_with(&["--reach", WALLREF, "50", "0"], "other");
    let text = String::from_utf8(output.stdout).unwrap();
    assert_eq!(output.status.code(), Some(1));
    assert!(text.contains("the program differs\narguments ["), "{text}");
}

#[test]
fn walldiff_meets_answers_of_every_kind() {
    let output = walldiff_with(&["--wide", WIDEREF, "500", "0"], "kinds");
    let text = String::from_utf8(output.stdout).unwrap();
    let (counts, _) = text.split_once("refusals by number").unwrap();
    assert_eq!(counts.lines().count(), 20, "{text}");
    for line in counts.lines() {
        let count: u64 = line.rsplit(' ').next().unwrap().parse().unwrap();
        assert!(count > 0, "{line}");
    }
}

#[test]
fn walldiff_tells_limits_that_are_taken_otherwise() {
    // No gap comes near the largest limits, which stay as they are.
    for (name, limit) in [
        ("at-the-limit", "limit > 0 ? limit - 1 : 0"),
        ("two-over-it", "limit < 1 << 41 ? limit + 1 : limit"),
        ("halved-again", "limit < 1 << 41 ? limit * 2 + 1 : limit"),
        ("doubled", "limit / 2"),
    ] {
        let program = wideref_with(name, limit);
        let output = walldiff_with(&["--wide", &program, "20", "0"], name);
        let text = String::from_utf8(output.stdout).unwrap();
        assert_eq!(output.status.code(), Some(1), "{name}: {text}");
        assert!(text.contains("\nline 1\n  reference: "), "{name}: {text}");
        assert!(!text.contains("standard error"), "{name}: {text}");
    }
}

#[test]
fn walldiff_tells_a_program_that_cannot_be_run() {
    let output = walldiff("./no-such-program", "10", "none");
    assert_eq!(output.status.code(), Some(2));
}

#[test]
fn wallbench_measures_nothing_where_the_programs_differ() {
    let path = folder("bench");
    let output = Command::new(WALLBENCH)
        .args(["true", WALLREF, path.to_str().unwrap()])
        .output()
        .unwrap();
    assert_eq!(output.status.code(), Some(1));
    assert!(output.stdout.is_empty());
    let said = String::from_utf8(output.stderr).unwrap();
    assert!(said.contains("different bytes"), "{said}");
}
