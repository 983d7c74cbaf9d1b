//! Events as they may come: near P + A, near the last reading, and states near either or damaged.

use super::{Event, Reference};
use polzaintu::board::State;
use wall_reference::board::{Stage, LAST_READING, MOST_REPEATS};
use wall_reference::generate::rng::Rng;
use wall_reference::generate::{numbers, spoil};
use wall_reference::{LATEST_STAMP, SILENT};

/// The next event of a tile, or a start where there is none.
pub fn event(rng: &mut Rng, tile: Option<&Reference>) -> Event {
    let Some(tile) = tile else {
        return start(rng);
    };
    let over = tile.board.stage != Stage::Running;
    match rng.below(100) {
        0..=39 => Event::Pulse(sender(rng, tile)),
        40..=54 => Event::Close,
        55..=84 => Event::CloseMany(closes(rng, tile)),
        85..=89 => Event::Resume(damaged(rng, tile.state())),
        90..=92 => Event::Resume(late(rng, tile.state())),
        93 => start(rng),
        _ if over => start(rng),
        _ => Event::Pulse(sender(rng, tile)),
    }
}

fn start(rng: &mut Rng) -> Event {
    let mut settings = numbers::sound(rng);
    let random = rng.range(0, LATEST_STAMP);
    let mut count = rng.range(2, 3);
    let mut reading = rng.pick(&[0, 1_000, random, LATEST_STAMP - 100, LATEST_STAMP]);
    // One thing that is turned away, or a few.
    if rng.chance(10) {
        spoil::settings(rng, &mut settings);
    }
    if rng.chance(5) {
        count = rng.pick(&[0, 1, 4, 5, u64::MAX]);
    }
    if rng.chance(5) {
        reading = rng.pick(&[LATEST_STAMP + 1, LAST_READING, 1 << 63, u64::MAX]);
    }
    Event::Start {
        settings,
        count,
        reading,
    }
}

/// Most often a sender of the tile.
fn sender(rng: &mut Rng, tile: &Reference) -> u64 {
    let count = tile.from.count;
    if rng.chance(8) {
        rng.pick(&[count + 1, count + 2, 1 << 32, u64::MAX])
    } else {
        rng.range(0, count)
    }
}

/// How many closes: a few, some part of A, up to P + A or the last reading, or more than there are.
fn closes(rng: &mut Rng, tile: &Reference) -> u64 {
    let reading = tile.board.reading;
    let (unit, hold) = (tile.from.settings.unit, tile.from.settings.hold);
    let near = |rng: &mut Rng, closes: u64| (closes + rng.below(4)).saturating_sub(1);
    match rng.below(20) {
        0..=2 => rng.below(3),
        3..=11 => {
            let most = rng.pick(&[unit, 4 * unit, hold]);
            rng.range(0, most)
        }
        12..=16 => {
            let due = tile.board.due().map_or(reading + hold, |due| due as u64);
            near(rng, due.saturating_sub(reading))
        }
        17 => near(rng, LAST_READING - reading),
        18 => rng.pick(&[1 << 40, 1 << 42, 1 << 63, u64::MAX - 1, u64::MAX]),
        _ => rng.spread(0, LAST_READING),
    }
}

/// A state of which a word is another; the repeats are not looked at.
fn damaged(rng: &mut Rng, mut state: State) -> State {
    let random = rng.next_u64();
    let word = rng.pick(&[
        0,
        1,
        2,
        3,
        4,
        LAST_READING,
        LAST_READING + 1,
        1 << 63,
        SILENT - 1,
        SILENT,
        random,
    ]);
    let settings = &mut state.settings;
    let place = match rng.below(14) {
        0 => &mut settings.width,
        1 => &mut settings.rows,
        2 => &mut settings.delay,
        3 => &mut settings.uncertainty,
        4 => &mut settings.hold,
        5 => &mut settings.drift,
        6 => &mut settings.unit,
        7 => &mut state.count,
        8..=11 => &mut state.stamps[rng.index(4)],
        12 => &mut state.reading,
        _ => &mut state.stage,
    };
    *place = word;
    state
}

/// A running tile as it may be before the last reading, or after many repeats.
fn late(rng: &mut Rng, mut state: State) -> State {
    let hold = state.settings.hold;
    state.stage = 0;
    for repeats in &mut state.repeats {
        *repeats = MOST_REPEATS - rng.below(3);
    }
    if rng.chance(30) {
        return state;
    }
    state.reading = LAST_READING - rng.range(0, hold);
    for place in 0..=state.count as usize {
        let before = state.reading - rng.range(0, hold);
        // Due at the last reading, where it is own's and own is kept.
        let due_last = state.reading.min(LAST_READING - hold);
        state.stamps[place] = rng.pick(&[before, due_last, SILENT]);
    }
    state
}
