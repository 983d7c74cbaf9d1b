//! Row 0 times and rows that are accepted. Each row is run as it is made, so that a faulty arrival
//! can be put close to the pulses that it disturbs.

use super::describe::{Description, RowDescription};
use super::rng::Rng;
use crate::row::Wall;
use crate::settings::{Numbers, Settings, MILLION};
use crate::shape::is_marked;
use crate::{Tick, LARGEST_PHASE, LATEST_ARRIVAL, LATEST_START, SILENT};

/// How the drifts, the phases or the delays of a row are chosen between their limits.
#[derive(Clone, Copy)]
enum Between {
    Lowest,
    Highest,
    Ends,
    Random,
}

impl Between {
    const ALL: [Between; 5] = [
        Between::Lowest,
        Between::Highest,
        Between::Ends,
        Between::Random,
        Between::Random,
    ];

    fn choose(self, rng: &mut Rng, low: u64, high: u64) -> u64 {
        match self {
            Between::Lowest => low,
            Between::Highest => high,
            Between::Ends => rng.pick(&[low, high]),
            Between::Random => rng.range(low, high),
        }
    }
}

/// What a faulty tile sends.
#[derive(Clone, Copy)]
enum Sends {
    Silence,
    Early,
    Late,
    Near,
    Random,
    /// Something else on each link.
    Mixed,
}

impl Sends {
    const ALL: [Sends; 8] = [
        Sends::Silence,
        Sends::Early,
        Sends::Late,
        Sends::Near,
        Sends::Near,
        Sends::Random,
        Sends::Mixed,
        Sends::Mixed,
    ];

    /// A link value around the time `before` at which the tile would have pulsed if it were correct.
    fn choose(self, rng: &mut Rng, numbers: &Numbers, before: u64) -> u64 {
        match self {
            Sends::Silence => SILENT,
            Sends::Early => rng.pick(&[0, 0, 0, 1, 1_000]),
            Sends::Late => LATEST_ARRIVAL - rng.pick(&[0, 0, 0, 1, 1_000]),
            Sends::Near => near(rng, numbers.unit, before + u64::from(numbers.delay)),
            Sends::Random => rng.range(0, LATEST_ARRIVAL),
            Sends::Mixed => rng.pick(&Sends::ALL[..6]).choose(rng, numbers, before),
        }
    }
}

/// A few units from `time`, give or take a tick or two: this is where the rule's cases meet.
fn near(rng: &mut Rng, unit: u32, time: u64) -> u64 {
    let units = rng.range(0, 40) as i64 - 20;
    let ticks = rng.range(0, 4) as i64 - 2;
    let offset = units * i64::from(unit) + ticks;
    time.saturating_add_signed(offset).min(LATEST_ARRIVAL)
}

/// How a wall's rows are made.
struct Style {
    drifts: Between,
    phases: Between,
    /// How likely a row has phases at which stamps and pulses change, of 100.
    phases_at_steps: u64,
    delays: Between,
    /// How likely a row has faulty predecessors, of 100.
    faulty_rows: u64,
}

impl Style {
    fn new(rng: &mut Rng) -> Style {
        Style {
            drifts: rng.pick(&Between::ALL),
            phases: rng.pick(&Between::ALL),
            phases_at_steps: rng.pick(&[0, 0, 50, 100]),
            delays: rng.pick(&Between::ALL),
            faulty_rows: rng.pick(&[0, 0, 30, 60, 90, 100]),
        }
    }
}

/// A wall of these settings that is accepted.
pub fn sound_rows(rng: &mut Rng, numbers: Numbers) -> Description {
    let wall = Wall::new(Settings::new(numbers).expect("sound settings")).expect("sound settings");
    let start = start(rng, &numbers);
    let mut style = Style::new(rng);
    let changing = rng.chance(30);
    run_rows(&wall, start, |before| {
        if changing {
            style = Style::new(rng);
        }
        let faulty = if rng.chance(style.faulty_rows) {
            faulty_columns(rng, &wall)
        } else {
            Vec::new()
        };
        row(rng, &wall, &style, &faulty, before)
    })
}

/// Makes R rows, each from the times of the row before, and runs each to get the next times.
fn run_rows(
    wall: &Wall,
    start: Vec<u64>,
    mut make: impl FnMut(&[u64]) -> RowDescription,
) -> Description {
    let mut before = start.clone();
    let mut rows = Vec::new();
    for _ in 0..wall.settings().rows() {
        let row = make(&before);
        let links = row.flat_links();
        let (mut times, mut letters) = (vec![0; before.len()], vec![0; before.len()]);
        wall.row(&row.lent(&before, &links), &mut times, &mut letters)
            .expect("a sound row");
        rows.push(row);
        before = times;
    }
    Description {
        numbers: wall.settings().numbers(),
        start,
        rows,
    }
}

/// Row 0 times of many patterns, none over 2^39 - 1.
fn start(rng: &mut Rng, numbers: &Numbers) -> Vec<u64> {
    let w = numbers.columns as usize;
    let (unit, hold) = (u64::from(numbers.unit), u64::from(numbers.hold));
    let base = match rng.below(6) {
        0 => 0,
        1 => LATEST_START,
        2 => rng.range(0, LATEST_START),
        _ => rng.range(0, 100_000),
    };
    let slope = [unit, 2 * unit, 8 * unit, 8 * unit + 1, rng.range(0, hold)];
    let slope = rng.pick(&slope);
    let pattern = rng.below(11);
    let outlier = rng.index(w);
    let time = |column: usize| match pattern {
        0 => base,
        1 => base + rng.range(0, unit),
        2..=4 => near(rng, numbers.unit, base),
        5 => base + column as u64 * slope,
        6 => base + (column as u64 % 2) * slope,
        7 => base + rng.range(0, hold),
        8 if column == outlier => near(rng, numbers.unit, base),
        8 => base,
        9 => rng.range(0, LATEST_START),
        _ => rng.pick(&[0, LATEST_START, base]),
    };
    (0..w).map(time).map(|t| t.min(LATEST_START)).collect()
}

/// Faulty columns of one row: one, the edges, a few, or as many as fit.
fn faulty_columns(rng: &mut Rng, wall: &Wall) -> Vec<usize> {
    let w = wall.shape().columns();
    let edges = [0, 1, 2, w - 3, w - 2, w - 1];
    let (candidates, most) = match rng.below(6) {
        0 => (vec![rng.pick(&edges)], 1),
        1 => (vec![rng.pick(&edges[..3]), rng.pick(&edges[3..])], 2),
        2..=3 => (vec![rng.index(w)], 1),
        4 => ((0..w).collect(), rng.range(1, 3) as usize),
        _ => ((0..w).collect(), w),
    };
    fitting_columns(rng, wall, candidates, most)
}

/// Up to `most` of the candidates, in random order, that leave no tile two faulty predecessors.
fn fitting_columns(
    rng: &mut Rng,
    wall: &Wall,
    mut candidates: Vec<usize>,
    most: usize,
) -> Vec<usize> {
    rng.shuffle(&mut candidates);
    let shape = wall.shape();
    let mut has_faulty_predecessor = vec![false; shape.columns()];
    let mut chosen = Vec::new();
    for column in candidates {
        // Who receives from a column is who sends to it: neighbours are so both ways.
        let receivers = shape.predecessors(column);
        if chosen.len() < most && !receivers.iter().any(|&tile| has_faulty_predecessor[tile]) {
            chosen.push(column);
            for &tile in receivers {
                has_faulty_predecessor[tile] = true;
            }
        }
    }
    chosen
}

/// One row: drifts, phases and delays in this style, and what the faulty tiles send.
fn row(
    rng: &mut Rng,
    wall: &Wall,
    style: &Style,
    faulty: &[usize],
    before: &[u64],
) -> RowDescription {
    let numbers = wall.settings().numbers();
    let w = wall.shape().columns();
    let mut row = RowDescription {
        marks: vec![0; wall.shape().mark_bytes()],
        drifts: Vec::new(),
        phases: Vec::new(),
        links: Vec::new(),
    };
    for &column in faulty {
        row.mark(column);
    }
    let sends: Vec<Sends> = (0..w).map(|_| rng.pick(&Sends::ALL)).collect();
    let least_delay = u64::from(numbers.delay - numbers.uncertainty);
    for tile in 0..w {
        let drift = style.drifts.choose(rng, 0, u64::from(numbers.drift_limit));
        row.drifts.push(drift as u16);
        let phase = style.phases.choose(rng, 0, LARGEST_PHASE.into());
        row.phases.push(phase as u32);
        let senders = wall.shape().predecessors(tile).iter();
        let links = senders.map(|&sender| {
            if is_marked(&row.marks, sender) {
                sends[sender].choose(rng, &numbers, before[sender])
            } else {
                style
                    .delays
                    .choose(rng, least_delay, u64::from(numbers.delay))
            }
        });
        let links = links.collect();
        row.links.push(links);
    }
    if rng.chance(style.phases_at_steps) {
        put_phases_at_steps(rng, wall, &mut row, before);
    }
    row
}

/// Gives each tile the least phase with which its clock comes to a further reading at an arrival, at the tile's pulse or
/// at the tick before that; or one less.
fn put_phases_at_steps(rng: &mut Rng, wall: &Wall, row: &mut RowDescription, before: &[u64]) {
    let links = row.flat_links();
    let (mut times, mut letters) = (vec![0; before.len()], vec![0; before.len()]);
    wall.row(&row.lent(before, &links), &mut times, &mut letters)
        .expect("a sound row");
    for (tile, &time) in times.iter().enumerate() {
        let senders = wall.shape().predecessors(tile);
        let place = rng.index(senders.len());
        let (sender, value) = (senders[place], row.links[tile][place]);
        let arrival = if is_marked(&row.marks, sender) {
            value
        } else {
            before[sender] + value
        };
        let tick = Tick::from(rng.pick(&[arrival, time, time - 1]));
        let past = tick * (MILLION + Tick::from(row.drifts[tile])) % MILLION;
        let least = ((MILLION - past) % MILLION) as u32;
        row.phases[tile] = least.saturating_sub(rng.below(2) as u32);
    }
}

/// Rows as a wall in use might have them: pulses within a unit, random drifts, phases and delays,
/// and about `percent` of 100 tiles faulty.
pub fn realistic_rows(rng: &mut Rng, numbers: Numbers, percent: f64) -> Description {
    let wall = Wall::new(Settings::new(numbers).expect("sound settings")).expect("sound settings");
    let w = wall.shape().columns();
    let start = (0..w)
        .map(|_| 10_000 + rng.range(0, numbers.unit.into()))
        .collect();
    let style = Style {
        drifts: Between::Random,
        phases: Between::Random,
        phases_at_steps: 0,
        delays: Between::Random,
        faulty_rows: 0,
    };
    let wanted = w as f64 * percent / 100.0;
    let part = (wanted.fract() * 1_000_000.0) as u64;
    run_rows(&wall, start, |before| {
        let most = wanted as usize + usize::from(rng.below(1_000_000) < part);
        let faulty = fitting_columns(rng, &wall, (0..w).collect(), most);
        row(rng, &wall, &style, &faulty, before)
    })
}
