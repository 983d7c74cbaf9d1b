//! `beside [COUNT [FIRST_SEED]]` holds the crate against the reference on lists of calls: a list of
//! each kind for each of COUNT seeds, 2000 from 0 where not said. Each call goes to both, and both
//! must answer it alike and leave alike what they were lent to write. It stops at the first
//! difference, with the seed and the calls so far.
//!
//! Words for the harness of the other tests, such as a filter, are none for this one:
//! `cargo test --test all FILTER`.

mod board;
mod rows;
mod waves;
mod wide;

use polzaintu::Limits;
use std::collections::BTreeSet;
use std::env;
use std::fmt::{self, Debug};
use std::process::ExitCode;
use wall_reference::settings::Numbers;

/// From so many seeds on, each answer that a kind names must have come up.
const MANY: u64 = 1000;

/// A kind of lists.
struct Kind {
    name: &'static str,
    /// The answers that are to come up, by name.
    answers: &'static [&'static str],
    /// Runs the list of a seed through both.
    run: fn(u64, &mut Tally) -> Result<(), Difference>,
}

const KINDS: [Kind; 4] = [
    Kind {
        name: "waves",
        answers: &waves::ANSWERS,
        run: waves::run,
    },
    Kind {
        name: "rows",
        answers: &rows::ANSWERS,
        run: rows::run,
    },
    Kind {
        name: "running tiles",
        answers: &board::ANSWERS,
        run: board::run,
    },
    Kind {
        name: "wide seams",
        answers: &wide::ANSWERS,
        run: wide::run,
    },
];

/// An answer, of the crate as of the reference, with every bit that both give or write.
trait Answer: Debug + PartialEq {
    type Call: Debug;

    /// The names of this answer to the call.
    fn names(&self, call: &Self::Call) -> Vec<&'static str>;
}

/// A floating number, compared by its bits.
#[derive(Clone, Copy, PartialEq, Eq)]
struct Bits(u64);

impl Bits {
    fn of(number: f64) -> Bits {
        Bits(number.to_bits())
    }
}

impl Debug for Bits {
    fn fmt(&self, f: &mut fmt::Formatter<'_>) -> fmt::Result {
        write!(f, "{:016x} = {:?}", self.0, f64::from_bits(self.0))
    }
}

/// The reference's settings as the crate has them.
fn limits(numbers: &Numbers) -> Limits {
    Limits {
        width: numbers.columns.into(),
        rows: numbers.rows.into(),
        delay: numbers.delay.into(),
        uncertainty: numbers.uncertainty.into(),
        hold: numbers.hold.into(),
        drift: numbers.drift_limit.into(),
        unit: numbers.unit.into(),
    }
}

/// What both have answered alike, over the lists of a kind.
#[derive(Default)]
struct Tally {
    alike: u64,
    met: BTreeSet<&'static str>,
}

impl Tally {
    /// Compares the answers to the last of the calls so far.
    fn compare<A: Answer>(
        &mut self,
        calls: &[A::Call],
        reference: &A,
        library: &A,
    ) -> Result<(), Difference> {
        if reference != library {
            return Err(Difference {
                calls: calls.iter().map(|call| format!("{call:?}")).collect(),
                reference: format!("{reference:?}"),
                library: format!("{library:?}"),
            });
        }
        self.alike += 1;
        let last = calls.last().expect("an answer has a call");
        self.met.extend(reference.names(last));
        Ok(())
    }
}

/// A call that both don't answer alike, the last of these.
struct Difference {
    calls: Vec<String>,
    reference: String,
    library: String,
}

impl Difference {
    fn tell(&self, kind: &str, seed: u64) {
        println!("beside the reference: seed {seed}, a list of {kind}, the last call differs");
        for call in &self.calls {
            println!("  {call}");
        }
        println!("reference: {}", self.reference);
        println!("library:   {}", self.library);
    }
}

impl Kind {
    /// How many answers are alike, over the lists of all seeds; `None` where one differs or never
    /// comes up, which is told.
    fn alike(&self, count: u64, first: u64) -> Option<u64> {
        let mut tally = Tally::default();
        for seed in (0..count).map(|i| first.wrapping_add(i)) {
            if let Err(difference) = (self.run)(seed, &mut tally) {
                difference.tell(self.name, seed);
                return None;
            }
        }
        let never = self.answers.iter().find(|name| !tally.met.contains(*name));
        match never {
            Some(answer) if count >= MANY => {
                println!(
                    "beside the reference: no list of {} met {answer}",
                    self.name
                );
                None
            }
            _ => Some(tally.alike),
        }
    }
}

fn main() -> ExitCode {
    let words: Option<Vec<u64>> = env::args().skip(1).map(|word| word.parse().ok()).collect();
    let (count, first) = match words.as_deref() {
        Some([]) => (2000, 0),
        Some(&[count]) => (count, 0),
        Some(&[count, first]) => (count, first),
        _ => {
            eprintln!("usage: beside [COUNT [FIRST_SEED]]");
            return ExitCode::from(2);
        }
    };
    let mut held = Vec::new();
    for kind in &KINDS {
        let Some(alike) = kind.alike(count, first) else {
            return ExitCode::FAILURE;
        };
        held.push(format!(
            "{count} lists of {} with {alike} answers alike",
            kind.name
        ));
    }
    println!("beside the reference: {}", held.join(", "));
    ExitCode::SUCCESS
}
