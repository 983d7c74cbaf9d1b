//! The named wall files: what they reach, and what `wallcases` writes.

use std::collections::{BTreeMap, BTreeSet};
use std::fs;
use std::path::PathBuf;
use std::process::Command;

use wall_reference::cases::{self, Case};
use wall_reference::print::wallrun;

/// The numbers that a file can be turned away with, and 0 for none.
const NUMBERS: [u8; 20] = [
    0, 1, 2, 3, 4, 5, 6, 7, 8, 9, 22, 24, 25, 26, 41, 42, 43, 44, 45, 53,
];

fn text(file: &[u8]) -> String {
    let mut out = Vec::new();
    wallrun(file, &mut out).unwrap();
    String::from_utf8(out).unwrap()
}

/// The number and the offset that a file is refused with, (0, 0) for none.
fn outcome(file: &[u8]) -> (u8, usize) {
    let refused = wallrun(file, &mut Vec::new()).unwrap();
    refused.map_or((0, 0), |refused| (refused.number, refused.at))
}

fn named(name: &str) -> Case {
    let mut all = cases::all().into_iter();
    all.find(|case| case.name == format!("{name}.wall"))
        .unwrap_or_else(|| panic!("no case {name}"))
}

#[test]
fn names_are_plain_and_different() {
    let names: BTreeSet<String> = cases::all().into_iter().map(|case| case.name).collect();
    assert_eq!(names.len(), cases::all().len());
    for name in names {
        let plain = |c: char| c.is_ascii_lowercase() || c.is_ascii_digit() || "-.".contains(c);
        assert!(name.chars().all(plain), "{name}");
    }
}

#[test]
fn every_number_is_reached() {
    let reached: BTreeSet<u8> = cases::all()
        .iter()
        .map(|case| outcome(&case.file).0)
        .collect();
    assert_eq!(reached.into_iter().collect::<Vec<_>>(), NUMBERS);
}

#[test]
fn cases_come_out_as_their_names_say() {
    for (name, number, at) in [
        ("empty", 43, 0),
        ("tag-1-cut-one-short", 43, 0),
        ("tag-2-cut-before", 43, 27),
        ("tag-3-cut-after-2-bytes", 43, 78),
        ("tag-4-cut-in-body", 43, 82),
        ("last-tag-3-cut-after-3-bytes", 43, 281),
        ("last-tag-4-cut-one-short", 43, 285),
        ("tag-2-wrong-tag-cut-after-2", 43, 27),
        ("tag-2-wrong-tag-no-body", 41, 27),
        ("tag-4-wrong-length-no-body", 42, 82),
        ("last-tag-4-wrong-tag-and-length", 41, 285),
        ("stray-mark", 22, 82),
        ("stray-mark-no-tag-4", 43, 82),
        ("stray-mark-tag-4-wrong", 41, 82),
        ("stray-mark-tag-4-length-wrong", 42, 82),
        ("old-form", 42, 82),
        ("old-form-second-row", 42, 285),
        ("1-byte-more", 44, 484),
        ("last-row-refused-and-a-byte-more", 24, 285),
        ("settings-8-before-9", 8, 0),
        ("order-24-25-26", 24, 82),
        ("order-53-26", 53, 82),
        ("order-53-last-26-first", 53, 82),
        ("order-25-53", 25, 82),
        ("order-25-last-53-first", 25, 82),
        ("order-25-53-26", 25, 82),
        ("order-45-24", 45, 27),
        ("drift-at-limit", 0, 0),
        ("phase-over-first", 53, 82),
        ("phase-over-last", 53, 82),
        ("phase-over-second-row", 53, 285),
        ("phase-4294967295", 53, 82),
        ("phase-at-limit", 0, 0),
        ("arrival-latest", 0, 0),
        ("start-all-latest", 0, 0),
        ("w-256", 0, 0),
    ] {
        assert_eq!(outcome(&named(name).file), (number, at), "{name}");
    }
}

#[test]
fn each_edge_is_faulty_in_a_row_that_is_printed() {
    for columns in [6, 7, 8, 9, 16, 17] {
        let text = text(&named(&format!("w-{columns}-edges")).file);
        let last = columns - 1;
        let mut faulty: BTreeMap<usize, usize> = BTreeMap::new();
        for line in text.lines().filter(|line| line.ends_with(" -")) {
            let column = line.split(' ').nth(2).unwrap();
            *faulty.entry(column.parse().unwrap()).or_default() += 1;
        }
        let columns: Vec<usize> = faulty.keys().copied().collect();
        assert_eq!(columns, [0, 1, 2, last - 2, last - 1, last]);
        assert!(!text.contains("refused"));
    }
}

/// The letters of row 1, by column.
fn letters(name: &str) -> String {
    let text = text(&named(name).file);
    let tiles = text.lines().filter(|line| line.starts_with("t 1 "));
    tiles.map(|line| &line[line.len() - 1..]).collect()
}

#[test]
fn letters_at_their_borders() {
    for name in ["letters-ties", "letters-ties-j-33", "letters-ties-faulty"] {
        let letters = letters(name);
        let apart: String = letters.chars().skip(4).step_by(2).take(24).collect();
        assert_eq!(apart, "ekkkmmmmbbbl".repeat(2));
        // With three neighbours: D is J, and own - J is max + 3h.
        assert_eq!((&letters[2..3], &letters[54..55]), ("m", "b"));
    }
    assert_eq!(letters("letters-silence"), "lkkklebklkmklkeklkekl");
    // A phase decides whether D is 0.
    assert_eq!(letters("letters-by-phase"), "kkkkkkkkmkkkk");
}

/// The times of row 1, by column.
fn times(name: &str) -> Vec<u64> {
    let text = text(&named(name).file);
    let tiles = text.lines().filter(|line| line.starts_with("t 1 "));
    tiles
        .map(|line| line.split(' ').nth(3).unwrap().parse().unwrap())
        .collect()
}

#[test]
fn phases_move_pulses() {
    for (name, due) in [
        ("phase-at-limit", [1497, 1497, 1497, 1496, 1497, 1497]),
        ("phase-all-at-limit", [1496; 6]),
        (
            "phase-all-at-limit-drift-0",
            [1500, 1500, 1500, 1536, 1500, 1500],
        ),
        ("phase-tick-apart", [1497, 1496, 1497, 1496, 1497, 1496]),
        ("phase-by-column", [1500, 1500, 1499, 1499, 1500, 1500]),
    ] {
        assert_eq!(times(name), due, "{name}");
    }
    for name in ["w-6-edges", "w-9-edges", "w-256"] {
        let phased = text(&named(&format!("{name}-phases")).file);
        assert!(!phased.contains("refused"));
        assert_ne!(phased, text(&named(name).file));
    }
}

#[test]
fn the_longest_wall_is_printed_whole() {
    let text = text(&named("w-6-r-1024").file);
    assert_eq!(text.lines().count(), 13 * 1_024);
    assert!(text.lines().last().unwrap().starts_with("s 1024 4 5 "));
}

#[test]
fn wallcases_writes_them_all() {
    let folder = PathBuf::from(env!("CARGO_TARGET_TMPDIR")).join("cases");
    for _ in 0..2 {
        let status = Command::new(env!("CARGO_BIN_EXE_wallcases"))
            .arg(&folder)
            .status();
        assert!(status.unwrap().success());
    }
    let mut printed = String::new();
    let mut names = String::new();
    let mut size = 0;
    for case in cases::all() {
        let file = fs::read(folder.join("data").join(&case.name)).unwrap();
        size += file.len();
        names += &format!("{}\n", case.name);
        printed += &format!("{}\n{}", case.name, text(&file));
        assert_eq!(file, case.file);
    }
    assert_eq!(fs::read_to_string(folder.join("args")).unwrap(), names);
    assert_eq!(fs::read_to_string(folder.join("stdout")).unwrap(), printed);
    assert!(size < 450_000, "{size} bytes of wall files");
    let files = fs::read_dir(folder.join("data")).unwrap().count();
    assert_eq!(files, cases::all().len());
}
