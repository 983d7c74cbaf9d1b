//! `wallwide`: the limits it is given, what it should print, and counts of what was compared.

use std::io;

use crate::counts::{line, Refusals};
use crate::run::Ended;
use crate::seams::{hides_wide, printed, size, Printed};
use crate::{there_is, Reference};
use wall_reference::arguments::{read, Call};
use wall_reference::file::FileRefused;
use wall_reference::generate::rng::Rng;
use wall_reference::wide::{wallwide, Answer, LIMITS};

#[derive(Default)]
pub struct Wallwide {
    /// The seams that are printed of the wall that calls are made on.
    seams: Vec<Printed>,
    answers: u64,
    wide: u64,
    /// Those by `KINDS`.
    kinds: [u64; KINDS.len()],
    no: u64,
    /// Refusals before any row is printed.
    refused_at_once: u64,
    /// Those after a row.
    refused_later: u64,
    /// Those that come before a seam over the limit, in the row that they leave unprinted.
    hiding: u64,
    /// The same with 44, which leaves the last row unprinted.
    hiding_last: u64,
    /// Answers that pass a closed seam just at the limit.
    past_limit: u64,
    /// Answers that pass an open seam, with two times further apart than the limit.
    past_open: u64,
    bad_arguments: u64,
    bytes: u64,
    refusals: Refusals,
}

/// A seam that is answered, and where.
struct Found {
    seam: Printed,
    columns: usize,
    rows: usize,
    limit: u64,
}

impl Found {
    fn is_between(&self, left: usize, right: usize) -> bool {
        (self.seam.left, self.seam.right) == (left, right)
    }
}

/// A kind of such: its name, and whether one is of it.
type Kind = (&'static str, fn(&Found) -> bool);

const KINDS: [Kind; 9] = [
    ("in row 1", |found| found.seam.row == 1),
    ("in a later row", |found| found.seam.row > 1),
    ("in the last row", |found| found.seam.row == found.rows),
    ("in the last, not 1", |found| {
        found.seam.row == found.rows && found.rows > 1
    }),
    ("at 0 and 2", |found| found.is_between(0, 2)),
    ("at W - 3 and W - 1", |found| {
        found.is_between(found.columns - 3, found.columns - 1)
    }),
    ("with a gap above 0", |found| found.seam.gap > 0),
    ("with a gap below 0", |found| found.seam.gap < 0),
    ("one over the limit", |found| {
        found.seam.half_ticks() == found.limit + 1
    }),
];

/// Words that are no limit, nor the name of a file that there is.
const BAD: [&str; 10] = [
    "",
    "-1",
    "-",
    "--helpx",
    "1.5",
    "0x24",
    "no-such.wall",
    "4398046511105",
    "18446744073709551616",
    "18446744073709551652",
];

impl Reference for Wallwide {
    /// A call for each of a few limits; now and then one of them has a bad word, a number too many or no word at all.
    fn calls(&mut self, seed: u64, file: &[u8]) -> Vec<Vec<String>> {
        let rng = &mut Rng::new(!seed);
        self.seams = printed(file);
        let limits = limits(rng, &self.seams);
        let mut calls: Vec<Vec<String>> = limits.iter().map(|&n| vec![word(rng, n)]).collect();
        let index = rng.index(calls.len());
        let call = &mut calls[index];
        match rng.below(60) {
            0 => *call = vec![rng.pick(&BAD).into()],
            1 => call.insert(rng.index(2), rng.pick(&BAD).into()),
            2 => call.push(limits[0].to_string()),
            3 => call.clear(),
            _ => {}
        }
        calls
    }

    fn due(&mut self, words: &[String], file: &[u8]) -> io::Result<Ended> {
        let limit = match read(words, 1..=1, LIMITS) {
            Call::Run { numbers, name } if there_is(name.as_deref()) => numbers[0],
            _ => {
                self.bad_arguments += 1;
                return Ok(Ended::turned_away());
            }
        };
        let answer = wallwide(file, limit);
        let text = format!("{answer}\n").into_bytes();
        self.answers += 1;
        self.bytes += text.len() as u64;
        self.add(answer, limit, file);
        Ok(Ended::well(text))
    }

    fn print(&self) {
        line("answers", self.answers);
        line("  wide", self.wide);
        for ((name, _), count) in KINDS.iter().zip(self.kinds) {
            line(&format!("    {name}"), count);
        }
        line("  no", self.no);
        line("  refused at once", self.refused_at_once);
        line("  refused after rows", self.refused_later);
        line("  refused before wide", self.hiding);
        line("    with 44", self.hiding_last);
        line("past a seam at limit", self.past_limit);
        line("past an open seam", self.past_open);
        line("bad arguments", self.bad_arguments);
        line("bytes compared", self.bytes);
        self.refusals.print();
    }

    fn missing(&self) -> Vec<String> {
        let mut missing = self.refusals.missing();
        let kinds = KINDS.iter().zip(self.kinds);
        let never = kinds.filter(|(_, count)| *count == 0);
        missing.extend(never.map(|((name, _), _)| format!("a wide seam {name}")));
        for (count, name) in [
            (self.no, "no"),
            (self.refused_at_once, "a refusal at once"),
            (self.refused_later, "a refusal after rows"),
            (self.hiding, "a refusal before a wide seam"),
            (self.hiding_last, "44 before a wide seam"),
            (self.past_limit, "an answer past a seam at the limit"),
            (self.past_open, "an answer past an open seam"),
            (self.bad_arguments, "a bad argument"),
        ] {
            if count == 0 {
                missing.push(name.into());
            }
        }
        missing
    }
}

impl Wallwide {
    fn add(&mut self, answer: Answer, limit: u64, file: &[u8]) {
        let answered = |s: &Printed| match answer {
            Answer::Wide { row, seam } => (s.row, s.left, s.right) == (row, seam.left, seam.right),
            Answer::Refused(_) | Answer::No => false,
        };
        let passed = self.seams.iter().take_while(|seam| !answered(seam));
        let at_limit = |seam: &Printed| !seam.open && seam.half_ticks() == limit;
        let open_over = |seam: &Printed| seam.open && seam.half_ticks() > limit;
        self.past_limit += u64::from(passed.clone().any(at_limit));
        self.past_open += u64::from(passed.clone().any(open_over));
        match answer {
            Answer::Wide { .. } => self.add_wide(self.seams[passed.count()], limit, file),
            Answer::Refused(refused) => self.add_refused(refused, limit, file),
            Answer::No => self.no += 1,
        }
    }

    fn add_refused(&mut self, refused: FileRefused, limit: u64, file: &[u8]) {
        self.refusals.add(refused);
        self.refused_at_once += u64::from(self.seams.is_empty());
        self.refused_later += u64::from(!self.seams.is_empty());
        let hides = hides_wide(file, refused, limit);
        self.hiding += u64::from(hides);
        self.hiding_last += u64::from(hides && refused.number == 44);
    }

    fn add_wide(&mut self, seam: Printed, limit: u64, file: &[u8]) {
        let (columns, rows) = size(file);
        let found = Found {
            seam,
            columns,
            rows,
            limit,
        };
        self.wide += 1;
        for ((_, is), count) in KINDS.iter().zip(&mut self.kinds) {
            *count += u64::from(is(&found));
        }
    }
}

/// At most four limits. Where seams are printed, one is chosen of those that are wider than all before them: its half ticks are
/// a limit, and so is one less, by which it is the answer.
fn limits(rng: &mut Rng, seams: &[Printed]) -> Vec<u64> {
    let mut widest: Vec<u64> = Vec::new();
    for seam in seams.iter().filter(|seam| !seam.open) {
        if seam.half_ticks() > widest.last().copied().unwrap_or(0) {
            widest.push(seam.half_ticks());
        }
    }
    let random = rng.spread(0, *LIMITS.end());
    let mut limits = vec![0, rng.pick(&[random, *LIMITS.end()])];
    if let Some(&last) = widest.last() {
        let any = rng.pick(&widest);
        let chosen = rng.pick(&[any, any, last]);
        limits.extend([chosen - 1, chosen]);
    }
    limits.sort_unstable();
    limits.dedup();
    limits
}

/// A number as a word, now and then with zeros in front.
fn word(rng: &mut Rng, number: u64) -> String {
    if rng.chance(5) {
        format!("{number:025}")
    } else {
        number.to_string()
    }
}
