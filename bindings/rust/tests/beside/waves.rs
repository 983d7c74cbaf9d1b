//! Lists of calls on the last waves of a seam: a start, then hand-ins and questions.

use crate::{Answer, Bits, Difference, Tally};
use polzaintu::seam::{Seam, Side};
use polzaintu::waves::Waves;
use polzaintu::Refusal;
use wall_reference::generate::rng::Rng;
use wall_reference::seam::{self, Pulse};
use wall_reference::{waves, Refused, LATEST_STAMP};

#[derive(Clone, Copy, Debug)]
enum Call {
    Start(u64),
    HandIn { left: Pulse, right: Pulse },
    Ask,
}

#[derive(Debug, PartialEq, Eq)]
enum Answered {
    Started,
    Closed { midpoint: Bits, half_gap: Bits },
    OpenLeft,
    OpenRight,
    OpenBoth,
    Ends { largest: End, smallest: End },
    Refused(u32),
}

#[derive(Debug, PartialEq, Eq)]
struct End {
    half_ticks: i128,
    ticks: Bits,
}

/// Each answer by its name.
pub const ANSWERS: [&str; 9] = [
    "a start",
    "a closed seam",
    "open left",
    "open right",
    "open both",
    "half gaps",
    "31",
    "51",
    "52",
];

impl Answer for Answered {
    type Call = Call;

    fn names(&self, _: &Call) -> Vec<&'static str> {
        vec![match self {
            Answered::Started => "a start",
            Answered::Closed { .. } => "a closed seam",
            Answered::OpenLeft => "open left",
            Answered::OpenRight => "open right",
            Answered::OpenBoth => "open both",
            Answered::Ends { .. } => "half gaps",
            Answered::Refused(31) => "31",
            Answered::Refused(51) => "51",
            Answered::Refused(52) => "52",
            Answered::Refused(_) => "another number",
        }]
    }
}

/// Runs the list of a seed through both.
pub fn run(seed: u64, tally: &mut Tally) -> Result<(), Difference> {
    let calls = list(&mut Rng::new(seed));
    let (mut reference, mut library) = (None, None);
    for (place, &call) in calls.iter().enumerate() {
        let due = by_reference(&mut reference, call);
        let given = by_library(&mut library, call);
        tally.compare(&calls[..=place], &due, &given)?;
    }
    Ok(())
}

fn by_reference(held: &mut Option<waves::Waves>, call: Call) -> Answered {
    let refused = |Refused(number)| Answered::Refused(number.into());
    let started = "a start comes first";
    match call {
        Call::Start(n) => waves::Waves::start(n).map_or_else(refused, |waves| {
            *held = Some(waves);
            Answered::Started
        }),
        Call::HandIn { left, right } => {
            let seam = held.as_mut().expect(started).hand_in(left, right);
            seam.map_or_else(refused, |seam| match seam {
                seam::Seam::Closed(both) => Answered::Closed {
                    midpoint: Bits::of(both.midpoint),
                    half_gap: Bits::of(both.half_gap),
                },
                seam::Seam::Open(seam::Side::Left) => Answered::OpenLeft,
                seam::Seam::Open(seam::Side::Right) => Answered::OpenRight,
                seam::Seam::Open(seam::Side::Both) => Answered::OpenBoth,
            })
        }
        Call::Ask => {
            let ends = held.as_ref().expect(started).ask();
            let end = |end: waves::HalfGap| End {
                half_ticks: end.half_ticks,
                ticks: Bits::of(end.ticks),
            };
            ends.map_or_else(refused, |ends| Answered::Ends {
                largest: end(ends.largest),
                smallest: end(ends.smallest),
            })
        }
    }
}

fn by_library(held: &mut Option<Waves>, call: Call) -> Answered {
    let refused = |refusal: Refusal| Answered::Refused(refusal.number());
    let started = "a start comes first";
    match call {
        Call::Start(n) => Waves::start(n).map_or_else(refused, |waves| {
            *held = Some(waves);
            Answered::Started
        }),
        Call::HandIn { left, right } => {
            let time = |pulse: Pulse| (!pulse.faulty).then_some(pulse.time);
            let waves = held.as_mut().expect(started);
            let seam = waves.hand_in(time(left), time(right));
            seam.map_or_else(refused, |seam| match seam {
                Seam::Closed { midpoint, half_gap } => Answered::Closed {
                    midpoint: Bits::of(midpoint),
                    half_gap: Bits::of(half_gap),
                },
                Seam::Open(Side::Left) => Answered::OpenLeft,
                Seam::Open(Side::Right) => Answered::OpenRight,
                Seam::Open(Side::Both) => Answered::OpenBoth,
            })
        }
        Call::Ask => {
            let ends = held.as_ref().expect(started).ask();
            let end = |end: polzaintu::waves::HalfGap| End {
                half_ticks: end.half_ticks.into(),
                ticks: Bits::of(end.ticks),
            };
            ends.map_or_else(refused, |ends| Answered::Ends {
                largest: end(ends.largest),
                smallest: end(ends.smallest),
            })
        }
    }
}

/// A start and up to 300 calls after it; none where it is turned away.
fn list(rng: &mut Rng) -> Vec<Call> {
    let n = match rng.below(100) {
        0..=4 => rng.pick(&[0, 65, 66, u64::MAX]),
        5..=44 => rng.range(1, 4),
        45..=59 => rng.range(62, 64),
        _ => rng.range(1, 64),
    };
    let mut calls = vec![Call::Start(n)];
    if !(1..=64).contains(&n) {
        return calls;
    }
    let habits = Habits::some(rng);
    for _ in 0..rng.range(0, 300) {
        calls.push(if rng.chance(habits.asks) {
            Call::Ask
        } else {
            Call::HandIn {
                left: habits.pulse(rng),
                right: habits.pulse(rng),
            }
        });
    }
    calls
}

/// What the calls of one list have in common.
struct Habits {
    /// Most times are from the first of these to the last; where both are near, many gaps are the
    /// same.
    near: (u64, u64),
    /// In how many of 100 a call is a question, a tile faulty, a time late.
    asks: u64,
    faulty: u64,
    late: u64,
}

impl Habits {
    fn some(rng: &mut Rng) -> Habits {
        let span = rng.pick(&[0, 1, 3, 100, 1 << 20, LATEST_STAMP]);
        let last = LATEST_STAMP - span;
        let first = match rng.below(3) {
            0 => 0,
            1 => last,
            _ => rng.range(0, last),
        };
        Habits {
            near: (first, first + span),
            asks: rng.pick(&[5, 30, 60]),
            faulty: rng.pick(&[0, 2, 20, 60, 95]),
            late: rng.pick(&[0, 2, 20]),
        }
    }

    /// A tile, faulty or not; a faulty one has a time too, which the reference is not to read.
    fn pulse(&self, rng: &mut Rng) -> Pulse {
        let faulty = rng.chance(self.faulty);
        let time = if rng.chance(self.late) {
            rng.pick(&[LATEST_STAMP + 1, LATEST_STAMP + 2, 1 << 63, u64::MAX])
        } else if rng.chance(5) {
            rng.pick(&[0, 1, LATEST_STAMP - 1, LATEST_STAMP])
        } else {
            rng.range(self.near.0, self.near.1)
        };
        Pulse { time, faulty }
    }
}
