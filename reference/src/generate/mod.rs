//! Seeded wall files for comparing programs. About half of the seeds give walls that are accepted,
//! the others reach every refusal that a file can meet.

pub mod damage;
pub mod describe;
pub mod ends;
pub mod kind;
pub mod numbers;
pub mod rng;
pub mod rows;
pub mod spoil;

use describe::Description;
use rng::Rng;

/// The wall file of a seed.
pub fn file(seed: u64) -> Vec<u8> {
    let mut rng = Rng::new(seed);
    match rng.below(100) {
        0..=49 => sound_wall(&mut rng).encode().bytes,
        50..=61 => {
            let mut wall = sound_wall(&mut rng);
            spoil::settings(&mut rng, &mut wall.numbers);
            wall.encode().bytes
        }
        62..=65 => {
            let mut wall = sound_wall(&mut rng);
            spoil::start(&mut rng, &mut wall);
            wall.encode().bytes
        }
        66..=79 => spoiled_wall(&mut rng).encode().bytes,
        _ => {
            let spoiled = rng.chance(15);
            let wall = if spoiled {
                spoiled_wall(&mut rng)
            } else {
                sound_wall(&mut rng)
            };
            damage::damaged(&mut rng, &wall)
        }
    }
}

/// A wall that is accepted, of random size, settings, times and faults.
pub fn sound_wall(rng: &mut Rng) -> Description {
    let numbers = numbers::sound(rng);
    rows::sound_rows(rng, numbers)
}

/// A wall with one to three contents of rows spoiled, most often in one and the same row.
fn spoiled_wall(rng: &mut Rng) -> Description {
    let mut wall = sound_wall(rng);
    let mut row = rng.index(wall.rows.len());
    for _ in 0..rng.pick(&[1, 1, 1, 2, 2, 3]) {
        spoil::row(rng, &mut wall, row);
        if rng.chance(30) {
            row = rng.index(wall.rows.len());
        }
    }
    wall
}

/// An accepted wall of `columns` x `rows` with realistic settings and about `percent` of 100 tiles
/// faulty, or as many as can be where no tile may have two faulty predecessors.
pub fn benchmark_wall(columns: u32, rows: u32, percent: f64, seed: u64) -> Description {
    let numbers = numbers::realistic(columns, rows);
    rows::realistic_rows(&mut Rng::new(seed), numbers, percent)
}
