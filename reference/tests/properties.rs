//! What the requirements claim of whole runs, tried on generated walls with any phases, which are the same in both
//! runs: a wave that starts later, and the reach of one faulty tile.

use wall_reference::generate::describe::Description;
use wall_reference::generate::{self, rng::Rng};
use wall_reference::reach::{self, wallreach, Outcome};
use wall_reference::row::Wall;
use wall_reference::settings::Settings;
use wall_reference::shape::{are_neighbours, is_marked};
use wall_reference::{LARGEST_PHASE, LATEST_ARRIVAL, SILENT};

/// The times of rows 0 to R of a wall, and the letters of rows 1 to R.
struct Run {
    times: Vec<Vec<u64>>,
    letters: Vec<Vec<u8>>,
}

/// The run of a wall, or nothing where a row is refused.
fn run(wall: &Wall, description: &Description) -> Option<Run> {
    let mut run = Run {
        times: vec![description.start.clone()],
        letters: Vec::new(),
    };
    for row in &description.rows {
        let before = &run.times[run.times.len() - 1];
        let (mut times, mut letters) = (vec![0; before.len()], vec![0; before.len()]);
        let links = row.flat_links();
        let lent = row.lent(before, &links);
        wall.row(&lent, &mut times, &mut letters).ok()?;
        run.times.push(times);
        run.letters.push(letters);
    }
    Some(run)
}

fn wall_of(description: &Description) -> Wall {
    Wall::new(Settings::new(description.numbers).unwrap()).unwrap()
}

/// The wall of a seed, as it is generated or, as often, with other phases, the ends among them.
fn described(seed: u64) -> Description {
    let rng = &mut Rng::new(seed);
    let mut description = generate::sound_wall(rng);
    if rng.chance(50) {
        for phase in description.rows.iter_mut().flat_map(|row| &mut row.phases) {
            let random = rng.range(0, LARGEST_PHASE.into()) as u32;
            *phase = rng.pick(&[0, LARGEST_PHASE, random, random]);
        }
    }
    description
}

/// The description with all row 0 times and all faulty arrivals `n` ticks later.
fn later(wall: &Wall, description: &Description, n: u64) -> Description {
    let mut later = description.clone();
    later.start.iter_mut().for_each(|time| *time += n);
    for row in &mut later.rows {
        for (tile, links) in row.links.iter_mut().enumerate() {
            for (value, &sender) in links.iter_mut().zip(wall.shape().predecessors(tile)) {
                if is_marked(&row.marks, sender) && *value != SILENT {
                    *value += n;
                }
            }
        }
    }
    later
}

#[test]
fn a_wave_n_ticks_later_is_at_most_n_and_the_row_later() {
    let mut rng = Rng::new(6);
    let mut tried = 0;
    for seed in 0..1_000 {
        let description = described(seed);
        let wall = wall_of(&description);
        let first = run(&wall, &description).unwrap();
        let n = rng.spread(0, 1 << 30);
        let Some(second) = run(&wall, &later(&wall, &description, n)) else {
            continue; // a faulty arrival came over its limit
        };
        tried += 1;
        let exact = n.is_multiple_of(1_000_000) || description.numbers.drift_limit == 0;
        // Then all stamps of a tile move alike, and its letter stays.
        assert!(!exact || first.letters == second.letters, "seed {seed}");
        for (row, (a, b)) in first.times.iter().zip(&second.times).enumerate() {
            for (a, b) in a.iter().zip(b) {
                let most = if exact { n } else { n + row as u64 };
                assert!(*b >= *a && b - a <= most, "seed {seed} row {row}");
                assert!(!exact || b - a == n, "seed {seed} row {row}");
            }
        }
    }
    assert!(tried > 500, "{tried}");
}

/// How many hops each column is from `from`.
fn hops(w: usize, from: usize) -> Vec<usize> {
    let mut hops = vec![usize::MAX; w];
    hops[from] = 0;
    for distance in 0..w {
        for a in (0..w).filter(|&a| hops[a] == distance).collect::<Vec<_>>() {
            for b in (0..w).filter(|&b| are_neighbours(w, a, b)) {
                hops[b] = hops[b].min(distance + 1);
            }
        }
    }
    hops
}

/// Makes the tile of `column` in row `f` faulty, with an arrival or silence on each of its links.
fn break_tile(
    rng: &mut Rng,
    wall: &Wall,
    description: &mut Description,
    f: usize,
    column: usize,
    time: u64,
) {
    let row = &mut description.rows[f];
    row.mark(column);
    let spread = 40 * u64::from(description.numbers.unit);
    for tile in 0..wall.shape().columns() {
        let senders = wall.shape().predecessors(tile);
        if let Some(place) = senders.iter().position(|&sender| sender == column) {
            let near = (time + rng.range(0, spread)).saturating_sub(spread / 2);
            let far = rng.range(0, LATEST_ARRIVAL);
            let near = near.min(LATEST_ARRIVAL);
            row.links[tile][place] = rng.pick(&[0, LATEST_ARRIVAL, SILENT, near, near, far]);
        }
    }
}

/// The number on the last line that `wallreach` prints.
fn largest(description: &Description) -> u64 {
    let mut printed = Vec::new();
    let outcome = wallreach(&description.encode().bytes, &[], &mut printed).unwrap();
    assert_eq!(outcome, Outcome::Whole);
    let text = String::from_utf8(printed).unwrap();
    let last = text.lines().last().unwrap();
    let number = last
        .strip_prefix("largest ")
        .and_then(|rest| rest.strip_suffix(" ticks"));
    number.unwrap().parse().unwrap()
}

/// Runs the wall with one tile of row f faulty and checks each pulse of both runs against §12.3;
/// answers how many pulses it moved.
fn check_reach(
    rng: &mut Rng,
    wall: &Wall,
    description: &Description,
    first: &[Vec<u64>],
    largest: u64,
) -> u64 {
    let w = wall.shape().columns();
    let (f, column) = (rng.index(description.rows.len()), rng.index(w));
    let mut broken = description.clone();
    break_tile(rng, wall, &mut broken, f, column, first[f][column]);
    let second = run(wall, &broken).unwrap().times;
    let b = reach::largest_difference(wall.shape(), &first[f]);
    let distances = hops(w, column);
    let mut moved = 0;
    for (row, (one, other)) in first.iter().zip(&second).enumerate() {
        for c in 0..w {
            let difference = one[c].abs_diff(other[c]);
            let reached = row > f && distances[c] <= reach::hops(f, row);
            let most = if reached {
                reach::ticks(b, wall.settings().h(), f, row)
            } else {
                0
            };
            assert!(
                i128::from(difference) <= most && difference <= largest,
                "row {row} column {c}, faulty row {f} column {column}"
            );
            moved += u64::from(difference > 0);
        }
    }
    moved
}

#[test]
fn one_faulty_tile_reaches_no_farther_than_demand_3_says() {
    let mut rng = Rng::new(7);
    let (mut tried, mut moved) = (0, 0);
    for seed in 0..3_000 {
        let description = described(seed);
        let without_faults = description
            .rows
            .iter()
            .all(|row| row.marks.iter().all(|&b| b == 0));
        if !without_faults {
            continue;
        }
        let wall = wall_of(&description);
        let first = run(&wall, &description).unwrap().times;
        let largest = largest(&description);
        // Once for the largest walls, which take long; a few tiles of the others.
        let tiles = if first.len() > 100 { 1 } else { 5 };
        for _ in 0..tiles {
            moved += check_reach(&mut rng, &wall, &description, &first, largest);
            tried += 1;
        }
    }
    assert!(tried > 4_000 && moved > 10_000, "{tried} {moved}");
}
