//! Every stored wall file: what the reader yields is, line for line, what `wallrun` is expected to
//! print.

use polzaintu::seam::{Seam, Side};
use polzaintu::wall::{Error, Reader, Row, RowSeam, Tile, WideSeam};
use std::path::{Path, PathBuf};
use std::{fs, iter};

fn repository() -> PathBuf {
    Path::new(env!("CARGO_MANIFEST_DIR")).join("../..")
}

fn row_lines(row: &Row) -> Vec<String> {
    let number = row.number();
    let tile = |column| match (row.pulse(column), row.letter(column)) {
        (Some(time), Some(letter)) => format!("t {number} {column} {time} {letter}"),
        _ => format!("t {number} {column} -"),
    };
    let seam = |RowSeam { left, right, seam }| match seam {
        Seam::Closed { midpoint, half_gap } => {
            let (midpoint, half_gap) = (midpoint.to_bits(), half_gap.to_bits());
            format!("s {number} {left} {right} {midpoint:016x} {half_gap:016x}")
        }
        Seam::Open(Side::Left) => format!("s {number} {left} {right} open left"),
        Seam::Open(Side::Right) => format!("s {number} {left} {right} open right"),
        Seam::Open(Side::Both) => format!("s {number} {left} {right} open both"),
    };
    (0..row.times().len())
        .map(tile)
        .chain(row.seams().map(seam))
        .collect()
}

/// The lines of a file.
fn lines(path: &Path) -> Vec<String> {
    let bytes = fs::read(path).unwrap_or_else(|error| panic!("{}: {error}", path.display()));
    let line = |row| match row {
        Ok(row) => row_lines(&row),
        Err(Error::Refused(refused)) => {
            vec![format!(
                "refused {} at {}",
                refused.refusal.number(),
                refused.offset
            )]
        }
        Err(Error::Read(error)) => panic!("{}: {error}", path.display()),
    };
    Reader::new(&bytes[..]).flat_map(line).collect()
}

fn read(path: PathBuf) -> String {
    fs::read_to_string(&path).unwrap_or_else(|error| panic!("{}: {error}", path.display()))
}

#[test]
fn stored_cases() {
    let cases = repository().join("crates/wall_cases");
    let (args, stdout) = (read(cases.join("args")), read(cases.join("stdout")));
    let mut expected = stdout.lines().peekable();
    for name in args.lines() {
        assert_eq!(expected.next(), Some(name));
        for line in lines(&cases.join("data").join(name)) {
            assert_eq!(expected.next(), Some(&line[..]), "{name}");
        }
    }
    assert_eq!(expected.next(), None);
    assert!(args.lines().count() > 200);
}

#[test]
fn example_wall() {
    let example = repository().join("crates/wallrun");
    let printed = read(example.join("stdout"));
    assert_eq!(
        lines(&example.join("stdin")),
        printed.lines().collect::<Vec<_>>()
    );
}

/// What the lines of a file show first: a closed seam whose half gap is over the limit, or a
/// refusal.
fn first_shown(lines: &[&str], limit: u64) -> Option<String> {
    let shown = |line: &&str| match line.split(' ').collect::<Vec<_>>()[..] {
        ["refused", ..] => Some(line.to_string()),
        ["s", _, _, _, "open", _] => None,
        ["s", row, left, right, _, bits] => {
            let half_ticks = half_ticks(bits);
            (half_ticks > limit).then(|| format!("wide {row} {left} {right} {half_ticks}"))
        }
        _ => None,
    };
    lines.iter().find_map(shown)
}

/// A half gap in half ticks, its sign dropped, from its bits in a line.
fn half_ticks(bits: &str) -> u64 {
    let bits = u64::from_str_radix(bits, 16).unwrap();
    (2.0 * f64::from_bits(bits).abs()) as u64
}

/// The same by the reader.
fn first_wide(file: &[u8], limit: u64) -> Option<String> {
    match Reader::new(file).first_wide(limit) {
        Ok(found) => found.map(|WideSeam { row, seam }| {
            let (left, right, half_ticks) = (seam.left, seam.right, seam.half_ticks);
            format!("wide {row} {left} {right} {half_ticks}")
        }),
        Err(Error::Refused(refused)) => {
            let (number, offset) = (refused.refusal.number(), refused.offset);
            Some(format!("refused {number} at {offset}"))
        }
        Err(Error::Read(error)) => panic!("{error}"),
    }
}

/// The first wide seam of every stored file, for each limit at which it is another.
#[test]
fn first_wide_seams() {
    let cases = repository().join("crates/wall_cases");
    let (args, stdout) = (read(cases.join("args")), read(cases.join("stdout")));
    let mut expected = stdout.lines().peekable();
    for name in args.lines() {
        assert_eq!(expected.next(), Some(name));
        // A name is one word, and a line more.
        let lines = iter::from_fn(|| expected.next_if(|line| line.contains(' ')));
        let lines: Vec<_> = lines.collect();
        let file = fs::read(cases.join("data").join(name)).unwrap();
        let mut limit = 0;
        loop {
            let shown = first_shown(&lines, limit);
            assert_eq!(first_wide(&file, limit), shown, "{name} {limit}");
            // From this gap on another is the first.
            match shown.as_deref().and_then(|line| line.strip_prefix("wide ")) {
                Some(seam) => limit = seam.rsplit(' ').next().unwrap().parse().unwrap(),
                None => break,
            }
            assert_eq!(first_wide(&file, limit - 1), shown, "{name} {limit} - 1");
        }
        assert_eq!(first_wide(&file, u64::MAX), first_shown(&lines, u64::MAX));
    }
    assert_eq!(expected.next(), None);
}

/// Each line that `wallreach` is expected to print of its wall.
#[test]
fn search_range() {
    let program = repository().join("crates/wallreach");
    let file = fs::read(program.join("stdin")).unwrap();
    let range = Reader::new(&file[..]).search_range().unwrap();
    let printed = read(program.join("stdout"));
    let mut gaps = Vec::new();
    for line in printed.lines() {
        let words: Vec<_> = line.split(' ').collect();
        let number = |place: usize| words[place].parse::<u64>().unwrap();
        match words[0] {
            "b" => gaps.push(number(2)),
            "r" => {
                let broken = Tile {
                    row: number(1),
                    column: 0,
                };
                let reach = range.reach(broken, number(2)).unwrap();
                assert_eq!(reach.ticks, number(3), "{line}");
            }
            "largest" => assert_eq!((range.largest(), words[2]), (number(1), "ticks")),
            _ => panic!("{line}"),
        }
    }
    assert_eq!(range.gaps(), gaps);
}
