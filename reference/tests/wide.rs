//! That `wallwide` answers the first of the lines that `wallrun` prints which says so, on stored and generated walls, and that the
//! rows one by one give the same answer.

use std::collections::BTreeSet;

use wall_reference::cases;
use wall_reference::file::{walk, ShownRow, Stop};
use wall_reference::generate;
use wall_reference::print::wallrun;
use wall_reference::wide::{first_in_row, wallwide, LIMITS};

fn text(file: &[u8]) -> String {
    let mut out = Vec::new();
    wallrun(file, &mut out).unwrap();
    String::from_utf8(out).unwrap()
}

/// The half ticks of a half gap in ticks, from its printed bits. Both doublings are exact.
fn half_ticks(bits: &str) -> u64 {
    let half_gap = f64::from_bits(u64::from_str_radix(bits, 16).unwrap());
    (half_gap.abs() * 2.0) as u64
}

/// The answer as it is read off what is printed.
fn first_printed(printed: &str, limit: u64) -> String {
    for line in printed.lines() {
        let words: Vec<&str> = line.split(' ').collect();
        match words[..] {
            ["refused", ..] => return line.into(),
            ["s", _, _, _, "open", _] => {}
            ["s", row, left, right, _, half_gap] if half_ticks(half_gap) > limit => {
                return format!("wide {row} {left} {right} {}", half_ticks(half_gap));
            }
            _ => {}
        }
    }
    "no".into()
}

/// The answer by the row operation on each printed row.
fn first_of_rows(file: &[u8], limit: u64) -> String {
    let look = |row: ShownRow| {
        let numbers = row.wall.settings().numbers();
        let answer = first_in_row(&numbers, row.times, row.marks, limit).unwrap();
        match answer.filter(|_| row.number > 0) {
            None => Ok(()),
            Some(seam) => Err(format!(
                "wide {} {} {} {}",
                row.number, seam.left, seam.right, seam.half_ticks
            )),
        }
    };
    match walk(file, look) {
        Ok(()) => "no".into(),
        Err(Stop::Refused(refused)) => refused.to_string(),
        Err(Stop::Shown(wide)) => wide,
    }
}

/// Limits that matter for a wall: both ends, and some half ticks that are printed, with one less and one more.
fn limits(printed: &str) -> BTreeSet<u64> {
    let closed = printed
        .lines()
        .filter(|line| line.starts_with("s ") && !line.contains("open"));
    let gaps: BTreeSet<u64> = closed
        .map(|line| half_ticks(&line[line.len() - 16..]))
        .collect();
    let some = gaps.iter().step_by(gaps.len() / 4 + 1).chain(gaps.last());
    let near = some.flat_map(|&gap| [gap.saturating_sub(1), gap, gap + 1]);
    near.chain([*LIMITS.start(), *LIMITS.end()]).collect()
}

fn try_all(name: &str, file: &[u8]) {
    let printed = text(file);
    for limit in limits(&printed) {
        let answer = wallwide(file, limit).to_string();
        assert_eq!(answer, first_printed(&printed, limit), "{name}, {limit}");
        assert_eq!(answer, first_of_rows(file, limit), "{name}, {limit}");
    }
}

#[test]
fn the_answer_is_read_off_what_is_printed() {
    let printed = text(&cases::all()[0].file);
    assert_eq!(first_printed(&printed, 35), "wide 1 2 3 36");
    assert_eq!(first_printed(&printed, 36), "no");
    assert_eq!(half_ticks("c032000000000000"), 36);
    assert_eq!(half_ticks("bfe0000000000000"), 1);
    assert_eq!(half_ticks("0000000000000000"), 0);
}

#[test]
fn on_every_stored_wall() {
    for case in cases::all() {
        try_all(&case.name, &case.file);
    }
}

#[test]
fn on_generated_walls() {
    for seed in 0..600 {
        try_all(&format!("seed {seed}"), &generate::file(seed));
    }
}
