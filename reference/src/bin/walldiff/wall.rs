//! `wallrun`: what it should print for a wall file, and counts of what the compared walls held.

use std::collections::BTreeMap;
use std::io;

use crate::counts::{line, Refusals};
use crate::run::Ended;
use crate::{there_is, Reference};
use wall_reference::arguments::{read, Call};
use wall_reference::file::{walk, ShownRow};
use wall_reference::generate::ends::ENDS;
use wall_reference::generate::kind::{kind, Kind};
use wall_reference::generate::rng::Rng;
use wall_reference::print::wallrun;
use wall_reference::rule::Letter;
use wall_reference::shape::is_marked;
use wall_reference::LARGEST_PHASE;

#[derive(Default)]
pub struct Wallrun {
    walls: u64,
    accepted: u64,
    /// Accepted walls at each of `ENDS`.
    at_ends: [u64; ENDS.len()],
    /// Tiles printed.
    tiles: u64,
    /// Those that are correct, by letter.
    lettered: BTreeMap<Letter, u64>,
    /// Tiles by `PHASES`, faulty ones among them.
    phased: [u64; PHASES.len()],
    /// Faulty tiles by what they send, those of row 0 among them, which is not printed.
    faulty: BTreeMap<Kind, u64>,
    closed: u64,
    open: u64,
    bytes: u64,
    bad_arguments: u64,
    refusals: Refusals,
}

/// A part of the range of phases: its name, and whether a phase is in it.
type Part = (&'static str, fn(u32) -> bool);

const PHASES: [Part; 3] = [
    ("phase 0", |phase| phase == 0),
    ("phase 999,999", |phase| phase == LARGEST_PHASE),
    ("phase between", |phase| (1..LARGEST_PHASE).contains(&phase)),
];

/// Words that are not the name of a file that there is.
const BAD: [&str; 6] = ["", "0", "12", "-x", "--helpx", "no-such.wall"];

impl Reference for Wallrun {
    /// One call without words, but now and then with a bad one.
    fn calls(&mut self, seed: u64, _: &[u8]) -> Vec<Vec<String>> {
        let mut rng = Rng::new(!seed);
        vec![match rng.below(50) {
            0 => vec![rng.pick(&BAD).to_string()],
            _ => Vec::new(),
        }]
    }

    fn due(&mut self, words: &[String], file: &[u8]) -> io::Result<Ended> {
        match read(words, 0..=0, 0..=0) {
            Call::Run { name, .. } if there_is(name.as_deref()) => {}
            _ => {
                self.bad_arguments += 1;
                return Ok(Ended::turned_away());
            }
        }
        let mut printed = Vec::new();
        let refused = wallrun(file, &mut printed)?;
        self.walls += 1;
        self.bytes += printed.len() as u64;
        match refused {
            None => self.accepted += 1,
            Some(refused) => self.refusals.add(refused),
        }
        self.add_rows(file);
        self.add_lines(&printed);
        Ok(Ended::well(printed))
    }

    fn print(&self) {
        line("walls", self.walls);
        line("  accepted", self.accepted);
        for ((name, _), count) in ENDS.iter().zip(self.at_ends) {
            line(&format!("    {name}"), count);
        }
        line("bad arguments", self.bad_arguments);
        line("tiles", self.tiles);
        for (letter, count) in &self.lettered {
            line(&format!("  {letter}"), *count);
        }
        for ((name, _), count) in PHASES.iter().zip(self.phased) {
            line(&format!("  {name}"), count);
        }
        line("faulty tiles", self.faulty.values().sum());
        for (kind, count) in &self.faulty {
            line(&format!("  {}", name(*kind)), *count);
        }
        line("seams closed", self.closed);
        line("seams open", self.open);
        line("bytes compared", self.bytes);
        self.refusals.print();
    }

    fn missing(&self) -> Vec<String> {
        let mut missing = self.refusals.missing();
        let ends = ENDS.iter().zip(self.at_ends);
        missing.extend(ends.filter(|(_, n)| *n == 0).map(|(end, _)| end.0.into()));
        let kinds = Kind::ALL.into_iter();
        let never = kinds.filter(|kind| !self.faulty.contains_key(kind));
        missing.extend(never.map(|kind| name(kind).into()));
        let letters = Letter::ALL.into_iter();
        let never = letters.filter(|letter| !self.lettered.contains_key(letter));
        missing.extend(never.map(|letter| format!("letter {letter}")));
        let phases = PHASES.iter().zip(self.phased);
        missing.extend(phases.filter(|(_, n)| *n == 0).map(|(at, _)| at.0.into()));
        missing
    }
}

impl Wallrun {
    /// Counts the phases, the faulty tiles and, at row R of an accepted wall, the ends at which its settings stand.
    fn add_rows(&mut self, file: &[u8]) {
        let add = |row: ShownRow| {
            let numbers = row.wall.settings().numbers();
            if row.number == row.wall.settings().rows() {
                for ((_, stands_at), count) in ENDS.iter().zip(&mut self.at_ends) {
                    *count += u64::from(stands_at(&numbers));
                }
            }
            for &phase in row.phases {
                for ((_, stands_at), count) in PHASES.iter().zip(&mut self.phased) {
                    *count += u64::from(stands_at(phase));
                }
            }
            let columns = 0..row.wall.shape().columns();
            for column in columns.filter(|&column| is_marked(row.marks, column)) {
                *self.faulty.entry(kind(&row, column)).or_default() += 1;
            }
            Ok::<(), ()>(())
        };
        // That the file is refused was counted already.
        let _ = walk(file, add);
    }

    fn add_lines(&mut self, printed: &[u8]) {
        for line in printed.split(|&byte| byte == b'\n') {
            match line.first() {
                Some(b't') => self.add_tile(line),
                Some(b's') if line.windows(5).any(|part| part == b" open") => self.open += 1,
                Some(b's') => self.closed += 1,
                _ => {}
            }
        }
    }

    /// Counts a tile by the letter at the end of its line; a faulty one has none.
    fn add_tile(&mut self, line: &[u8]) {
        self.tiles += 1;
        let mut letters = Letter::ALL.into_iter();
        if let Some(letter) = letters.find(|letter| line.ends_with(&[letter.byte()])) {
            *self.lettered.entry(letter).or_default() += 1;
        }
    }
}

fn name(kind: Kind) -> &'static str {
    match kind {
        Kind::Silent => "silent",
        Kind::Early => "early",
        Kind::Late => "late",
        Kind::Other => "near or mixed",
    }
}
