//! `wallreach`: the rows it is asked for, what it should print, and counts of what was compared.

use std::io;

use crate::counts::{line, Refusals};
use crate::run::Ended;
use crate::{there_is, Reference};
use wall_reference::arguments::{read, Call};
use wall_reference::generate::rng::Rng;
use wall_reference::reach::{wallreach, Outcome, MOST_ASKED, ROWS};

#[derive(Default)]
pub struct Wallreach {
    walls: u64,
    whole: u64,
    faulty: u64,
    bad_arguments: u64,
    b_lines: u64,
    r_lines: u64,
    bytes: u64,
    refusals: Refusals,
}

/// Words that are no row from 1 to 1,024, nor the name of a file that there is.
const BAD: [&str; 8] = [
    "",
    "0",
    "1025",
    "-1",
    "no-such.wall",
    "12no-such",
    "4294967297",
    "18446744073709551617",
];

impl Reference for Wallreach {
    /// One call for a few rows, most often small ones; now and then as many as may be asked for, one more, or a bad
    /// one among them.
    fn calls(&mut self, seed: u64, _: &[u8]) -> Vec<Vec<String>> {
        let mut rng = Rng::new(!seed);
        let count = rng.pick(&[0, 1, 2, 3, 3, 4, 5, MOST_ASKED]);
        let most = rng.pick(&[6, 6, 40, 1_024]);
        let mut words: Vec<String> = (0..count)
            .map(|_| rng.spread(1, most).to_string())
            .collect();
        match rng.below(50) {
            0 => {
                let bad = rng.pick(&BAD).to_string();
                words.insert(rng.index(count + 1), bad);
            }
            1 => words.resize(MOST_ASKED + 1, "1".into()),
            2..=4 => words.push("1024".into()),
            _ => {}
        }
        vec![words]
    }

    fn due(&mut self, words: &[String], file: &[u8]) -> io::Result<Ended> {
        let asked = match read(words, 0..=MOST_ASKED, ROWS) {
            Call::Run { numbers, name } if there_is(name.as_deref()) => numbers,
            _ => {
                self.bad_arguments += 1;
                return Ok(Ended::turned_away());
            }
        };
        let mut printed = Vec::new();
        self.walls += 1;
        match wallreach(file, &asked, &mut printed)? {
            Outcome::Whole => self.whole += 1,
            Outcome::Faulty => self.faulty += 1,
            Outcome::Refused(refused) => self.refusals.add(refused),
        }
        self.add_lines(&printed);
        Ok(Ended::well(printed))
    }

    fn print(&self) {
        line("walls", self.walls);
        line("  without faults", self.whole);
        line("  faulty", self.faulty);
        line("bad arguments", self.bad_arguments);
        line("b lines", self.b_lines);
        line("r lines", self.r_lines);
        line("bytes compared", self.bytes);
        self.refusals.print();
    }

    fn missing(&self) -> Vec<String> {
        let mut missing = self.refusals.missing();
        for (count, name) in [
            (self.whole, "a wall without faults"),
            (self.faulty, "a faulty wall"),
            (self.bad_arguments, "a bad argument"),
            (self.r_lines, "an r line"),
        ] {
            if count == 0 {
                missing.push(name.into());
            }
        }
        missing
    }
}

impl Wallreach {
    fn add_lines(&mut self, printed: &[u8]) {
        self.bytes += printed.len() as u64;
        let lines = || printed.split(|&byte| byte == b'\n');
        self.b_lines += lines().filter(|line| line.starts_with(b"b ")).count() as u64;
        self.r_lines += lines().filter(|line| line.starts_with(b"r ")).count() as u64;
    }
}
