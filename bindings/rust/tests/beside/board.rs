//! Lists of calls on running tiles: starts, pulses and closes, and between them states that others
//! wrote.

mod list;
mod names;

pub use names::ANSWERS;

use crate::{limits, Difference, Tally};
use polzaintu::board::{Answer, Board, State};
use polzaintu::{Limits, Refusal, Settings};
use wall_reference::board;
use wall_reference::generate::rng::Rng;
use wall_reference::settings::{self, Numbers};
use wall_reference::{Refused, SILENT};

/// An event, with the tile's state before it; there is none before the first start.
#[derive(Debug)]
struct Call {
    before: Option<State>,
    event: Event,
}

#[derive(Clone, Copy, Debug)]
enum Event {
    Start {
        settings: Numbers,
        count: u64,
        reading: u64,
    },
    Pulse(u64),
    Close,
    CloseMany(u64),
    /// The tile goes on from this state, where it fits.
    Resume(State),
}

/// What is told, or the number, and the tile's state after the call.
#[derive(Debug, PartialEq, Eq)]
struct Answered {
    told: Result<Told, u32>,
    state: Option<State>,
}

#[derive(Clone, Copy, Debug, PartialEq, Eq)]
enum Told {
    Started,
    Heard,
    Waits,
    Pulses,
    Done,
    Resumed,
    Unfit,
}

/// The reference's tile.
#[derive(Clone, Debug)]
struct Reference {
    board: board::Board,
    /// The state from which it began, or went on.
    from: State,
}

/// Runs the list of a seed through both.
pub fn run(seed: u64, tally: &mut Tally) -> Result<(), Difference> {
    let rng = &mut Rng::new(seed);
    let mut reference: Option<Reference> = None;
    let mut library: Option<Board> = None;
    let mut calls = Vec::new();
    for _ in 0..rng.range(1, 80) {
        let event = list::event(rng, reference.as_ref());
        calls.push(Call {
            before: reference.as_ref().map(Reference::state),
            event,
        });
        let due = Answered {
            told: by_reference(&mut reference, event),
            state: reference.as_ref().map(Reference::state),
        };
        let given = Answered {
            told: by_library(&mut library, event),
            state: library.as_ref().map(|board| *board.state()),
        };
        tally.compare(&calls, &due, &given)?;
    }
    Ok(())
}

const STARTED: &str = "a start comes first";

fn by_reference(held: &mut Option<Reference>, event: Event) -> Result<Told, u32> {
    let refused = |Refused(number): Refused| u32::from(number);
    let answer = match event {
        Event::Start {
            settings,
            count,
            reading,
        } => {
            let started = Reference::start(settings, count, reading).map_err(refused)?;
            *held = Some(started);
            return Ok(Told::Started);
        }
        Event::Resume(state) => {
            let Some(resumed) = Reference::resume(state) else {
                return Ok(Told::Unfit);
            };
            *held = Some(resumed);
            return Ok(Told::Resumed);
        }
        Event::Pulse(sender) => {
            let heard = held.as_mut().expect(STARTED).board.pulse(sender);
            return heard.map_err(refused).map(|()| Told::Heard);
        }
        Event::Close => held.as_mut().expect(STARTED).board.close(),
        Event::CloseMany(n) => held.as_mut().expect(STARTED).board.close_many(n),
    };
    Ok(match answer {
        board::Answer::Waits => Told::Waits,
        board::Answer::Pulses => Told::Pulses,
        board::Answer::Done => Told::Done,
    })
}

fn by_library(held: &mut Option<Board>, event: Event) -> Result<Told, u32> {
    let refused = |refusal: Refusal| refusal.number();
    let answer = match event {
        Event::Start {
            settings,
            count,
            reading,
        } => {
            let settings = Settings::new(limits(&settings)).map_err(refused)?;
            let started = Board::start(&settings, count, reading).map_err(refused)?;
            *held = Some(started);
            return Ok(Told::Started);
        }
        Event::Resume(state) => {
            let Some(resumed) = Board::resume(state) else {
                return Ok(Told::Unfit);
            };
            *held = Some(resumed);
            return Ok(Told::Resumed);
        }
        Event::Pulse(sender) => {
            let heard = held.as_mut().expect(STARTED).pulse(sender);
            return heard.map_err(refused).map(|()| Told::Heard);
        }
        Event::Close => held.as_mut().expect(STARTED).close(),
        Event::CloseMany(n) => held.as_mut().expect(STARTED).close_many(n),
    };
    Ok(match answer {
        Answer::Waits => Told::Waits,
        Answer::Pulses => Told::Pulses,
        Answer::Done => Told::Done,
    })
}

impl Reference {
    fn start(numbers: Numbers, count: u64, reading: u64) -> Result<Reference, Refused> {
        let settings = settings::Settings::new(numbers)?;
        let board = board::Board::start(&settings, count, reading)?;
        let from = State {
            settings: limits(&numbers),
            count,
            stamps: [SILENT; 4],
            repeats: [0; 4],
            reading,
            stage: 0,
        };
        Ok(Reference { board, from })
    }

    /// The tile with a state; `None` where that does not fit, as the C header has it.
    fn resume(state: State) -> Option<Reference> {
        let settings = settings::Settings::new(numbers(&state.settings)?).ok()?;
        let is_stamp = |&stamp: &u64| stamp == SILENT || stamp <= board::LAST_READING;
        let fits = (2..=3).contains(&state.count)
            && state.stamps.iter().all(is_stamp)
            && state.reading <= board::LAST_READING;
        let stage = match state.stage {
            0 => board::Stage::Running,
            1 => board::Stage::Pulsed,
            2 => board::Stage::Ended,
            _ => return None,
        };
        fits.then(|| {
            let senders = ..=state.count as usize;
            let stamps = state.stamps[senders].iter();
            Reference {
                board: board::Board {
                    settings,
                    stamps: stamps
                        .map(|&stamp| (stamp != SILENT).then_some(stamp))
                        .collect(),
                    repeats: state.repeats[senders].to_vec(),
                    reading: state.reading,
                    stage,
                },
                from: state,
            }
        })
    }

    /// The state word for word; settings, count and a place past the count are never written.
    fn state(&self) -> State {
        let mut state = self.from;
        for (place, stamp) in state.stamps.iter_mut().zip(&self.board.stamps) {
            *place = stamp.unwrap_or(SILENT);
        }
        for (place, repeats) in state.repeats.iter_mut().zip(&self.board.repeats) {
            *place = *repeats;
        }
        state.reading = self.board.reading;
        state.stage = match self.board.stage {
            board::Stage::Running => 0,
            board::Stage::Pulsed => 1,
            board::Stage::Ended => 2,
        };
        state
    }
}

/// Settings as the reference has them; `None` where a number has more than 32 bits, and so is past
/// its limit.
fn numbers(limits: &Limits) -> Option<Numbers> {
    let number = |word: u64| u32::try_from(word).ok();
    Some(Numbers {
        columns: number(limits.width)?,
        rows: number(limits.rows)?,
        delay: number(limits.delay)?,
        uncertainty: number(limits.uncertainty)?,
        hold: number(limits.hold)?,
        drift_limit: number(limits.drift)?,
        unit: number(limits.unit)?,
    })
}
