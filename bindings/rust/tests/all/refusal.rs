//! What refusals say.

use crate::common::{refused_settings, settings, WallFile, PRINTED};
use polzaintu::board::Board;
use polzaintu::row::{self, Lent};
use polzaintu::seam;
use polzaintu::tile::{self, Stamps};
use polzaintu::wall::{Reader, Wall};
use polzaintu::waves::Waves;
use polzaintu::{Letter, Refusal, Settings};
use std::error::Error as _;

/// The words of a number in `bindings/numbers.tsv`.
fn words(number: u32) -> String {
    let table = include_str!("../../../numbers.tsv");
    let number = number.to_string();
    let mut rows = table.lines().map(|row| row.split('\t').collect::<Vec<_>>());
    let row = rows.find(|row| row[0] == number).expect("a number");
    row[2].to_string()
}

/// A refusal has the number, and says it with its words.
fn says(refusal: Refusal, number: u32) {
    assert_eq!(refusal.number(), number);
    assert_eq!(refusal.condition(), words(number));
    assert_eq!(
        refusal.to_string(),
        format!("refused {number}: {}", words(number))
    );
}

#[test]
fn settings_say_what_is_wrong() {
    for (limits, number) in refused_settings() {
        says(Settings::new(limits).unwrap_err(), number);
    }
}

fn tile(neighbours: &[Option<u64>]) -> Refusal {
    tile::forward(
        &settings(PRINTED),
        Stamps {
            own: Some(0),
            neighbours,
        },
    )
    .unwrap_err()
}

#[test]
fn tiles_say_what_is_wrong() {
    says(tile(&[]), 11);
    says(tile(&[Some(1 << 41), None]), 12);
    says(tile(&[None, None]), 13);
}

fn row(marks: u8, time: u64, clock: [u32; 2], link: u64, length: usize) -> Refusal {
    let [drift, phase] = clock;
    let lent = Lent {
        before: &[time; 6],
        marks: &[marks],
        drifts: &[drift; 6],
        phases: &[phase; 6],
        links: &[link; 20],
    };
    let (times, letters) = (&mut vec![0; length], &mut [Letter::Kept; 6]);
    row::plan(&settings(PRINTED), lent, times, letters).unwrap_err()
}

#[test]
fn rows_say_what_is_wrong() {
    says(row(0, 0, [0, 0], 100, 5), 21);
    says(row(0x40, 0, [0, 0], 100, 6), 22);
    says(row(0, 1 << 40, [0, 0], 100, 6), 23);
    says(row(3, 0, [0, 0], 100, 6), 24);
    says(row(0, 0, [1, 0], 100, 6), 25);
    says(row(0, 0, [0, 1_000_000], 100, 6), 53);
    says(row(0, 0, [0, 0], 89, 6), 26);
}

#[test]
fn files_say_where() {
    let refused = Wall::new().step(&[2, 0, 24]).unwrap_err();
    says(refused.refusal, 41);
    assert_eq!(
        refused.to_string(),
        format!("refused 41 at 0: {}", words(41))
    );
    assert_eq!(
        refused.source().unwrap().to_string(),
        format!("refused 41: {}", words(41))
    );

    let whole = WallFile::small();
    let is = |bytes: &[u8], number: u32, offset: usize| {
        let error = Reader::new(bytes).find_map(Result::err).unwrap();
        assert_eq!(
            error.to_string(),
            format!("refused {number} at {offset}: {}", words(number))
        );
    };
    is(&[1, 0, 23], 42, 0);
    is(&[], 43, 0);
    is(&[whole.bytes(), vec![0]].concat(), 44, 484);
    let mut phased = whole.clone();
    phased.rows[1].phases[5] = 1_000_000;
    is(&phased.bytes(), 53, 285);
    let late = WallFile {
        start: [1 << 39; 6],
        ..whole
    };
    is(&late.bytes(), 45, 27);
}

#[test]
fn seams_say_what_is_wrong() {
    says(seam::join(Some(1 << 41), None).unwrap_err(), 31);
    let first_wide = |times: &[u64]| seam::first_wide(&settings(PRINTED), times, &[0], 0);
    says(first_wide(&[0; 5]).unwrap_err(), 21);
    says(first_wide(&[1 << 41; 6]).unwrap_err(), 31);
}

#[test]
fn waves_say_what_is_wrong() {
    says(Waves::start(65).unwrap_err(), 51);
    let mut waves = Waves::start(64).unwrap();
    says(waves.ask().unwrap_err(), 52);
    says(waves.hand_in(Some(1 << 41), None).unwrap_err(), 31);
}

#[test]
fn running_tiles_say_what_is_wrong() {
    let start = |count, reading| Board::start(&settings(PRINTED), count, reading);
    says(start(4, 0).unwrap_err(), 11);
    says(start(2, 1 << 41).unwrap_err(), 12);
    says(start(2, 0).unwrap().pulse(3).unwrap_err(), 54);
}
