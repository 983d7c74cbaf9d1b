//! That the generated walls reach what they are made to reach: every number, and every case of the
//! rule with its letter and the borders between the cases, and phases at which something changes.

use std::collections::{BTreeMap, BTreeSet};

use wall_reference::file::{walk, FileRefused, ShownRow, Stop};
use wall_reference::generate::{self, rng::Rng};
use wall_reference::row::{Lent, Wall};
use wall_reference::rule::{self, Letter};
use wall_reference::settings::Settings;
use wall_reference::shape::is_marked;
use wall_reference::tile::Stamps;
use wall_reference::Tick;

fn outcome(file: &[u8]) -> Option<FileRefused> {
    let unseen = |_: ShownRow| Ok::<(), ()>(());
    match walk(file, unseen) {
        Ok(()) => None,
        Err(Stop::Refused(refused)) => Some(refused),
        Err(Stop::Shown(())) => unreachable!("nothing is shown"),
    }
}

#[test]
fn the_seeds_reach_every_number_a_file_can_meet() {
    let mut reached: BTreeMap<u8, u32> = BTreeMap::new();
    let seeds = 3_000;
    for seed in 0..seeds {
        let number = outcome(&generate::file(seed)).map_or(0, |refused| refused.number);
        *reached.entry(number).or_default() += 1;
    }
    let numbers: Vec<u8> = reached.keys().copied().collect();
    let due = [
        0, 1, 2, 3, 4, 5, 6, 7, 8, 9, 22, 24, 25, 26, 41, 42, 43, 44, 45, 53,
    ];
    assert_eq!(numbers, due, "{reached:?}");
    let accepted = reached[&0];
    assert!((1_300..1_800).contains(&accepted), "{accepted} of {seeds}");
}

/// How many names `cases` knows.
const CASES: usize = 27;

/// Names the case of the rule that a tile falls into, and the borders it stands on.
fn cases(settings: &Settings, stamps: &Stamps) -> Vec<&'static str> {
    let (h, j) = (settings.h(), settings.j());
    let neighbours = &stamps.neighbours[..stamps.count];
    let heard: Vec<Tick> = neighbours.iter().flatten().copied().collect();
    let (min, max) = (*heard.iter().min().unwrap(), *heard.iter().max().unwrap());
    let Some(own) = stamps.own else {
        return vec!["own silent"];
    };
    if heard.len() < stamps.count {
        let mut cases = vec![if own >= min - 3 * h {
            "neighbour silent, own kept"
        } else {
            "neighbour silent, own early"
        }];
        for (border, name) in [
            (-1, "neighbour silent, own is min - 3h - 1"),
            (0, "neighbour silent, own is min - 3h"),
            (1, "neighbour silent, own is min - 3h + 1"),
        ] {
            if own - min + 3 * h == border {
                cases.push(name);
            }
        }
        if heard.len() == 2 {
            cases.push("one of three neighbours silent");
        }
        return cases;
    }
    let d = rule::d(own, min, max, h);
    let mut cases = Vec::new();
    cases.push(match d {
        _ if d < 0 && own - min + 3 * h < 0 => "below: waits",
        _ if d < 0 => "below: own kept",
        _ if d <= j => "within",
        _ if own - max - 3 * h > j => "above: max + 3h",
        _ => "above: own - J",
    });
    for (border, name) in [
        (-1, "D is -1"),
        (0, "D is 0"),
        (1, "D is 1"),
        (j - 1, "D is J - 1"),
        (j, "D is J"),
        (j + 1, "D is J + 1"),
    ] {
        if d == border {
            cases.push(name);
        }
    }
    for (border, name) in [
        (-1, "own is min - 3h - 1"),
        (0, "own is min - 3h"),
        (1, "own is min - 3h + 1"),
    ] {
        if d < 0 && own - min + 3 * h == border {
            cases.push(name);
        }
    }
    for (border, name) in [
        (j - 1, "own - max - 3h is J - 1"),
        (j, "own - max - 3h is J"),
        (j + 1, "own - max - 3h is J + 1"),
    ] {
        if d > j && own - max - 3 * h == border {
            cases.push(name);
        }
    }
    if d != own - min - h {
        cases.push("s above 0 decides");
    }
    if (max - min) % (16 * h) > 8 * h && d == own - max - h + 8 * h * ((max - min) / (16 * h) + 1) {
        cases.push("the upper s decides");
    }
    if stamps.count == 3 {
        cases.push("three neighbours");
    }
    cases
}

/// The letter of a tile, by the case that `cases` names first (§E3.1).
fn letter(case: &str) -> Letter {
    match case {
        "below: own kept" | "neighbour silent, own kept" => Letter::Kept,
        "below: waits" | "neighbour silent, own early" => Letter::Early,
        "within" => Letter::Middle,
        "above: own - J" => Letter::Back,
        "above: max + 3h" | "own silent" => Letter::Late,
        _ => panic!("no letter for {case}"),
    }
}

#[test]
fn the_seeds_reach_every_case_and_border_of_the_rule() {
    let mut reached: BTreeMap<&str, u64> = BTreeMap::new();
    let mut lettered: BTreeMap<Letter, u64> = BTreeMap::new();
    let mut faulty = BTreeSet::new();
    for seed in 0..1_500 {
        let description = generate::sound_wall(&mut Rng::new(seed));
        let settings = Settings::new(description.numbers).unwrap();
        let wall = Wall::new(settings).unwrap();
        let w = settings.columns();
        let mut before = description.start.clone();
        for row in &description.rows {
            let links = row.flat_links();
            let lent = row.lent(&before, &links);
            let (mut times, mut letters) = (vec![0; w], vec![0; w]);
            wall.row(&lent, &mut times, &mut letters).unwrap();
            for (column, &written) in letters.iter().enumerate() {
                let cases = cases(&settings, &wall.stamps(&lent, column));
                let letter = letter(cases[0]);
                assert_eq!(written, letter.byte(), "seed {seed}, {cases:?}");
                *lettered.entry(letter).or_default() += 1;
                for case in cases {
                    *reached.entry(case).or_default() += 1;
                }
                if w == 6 && is_marked(&row.marks, column) {
                    faulty.insert(column);
                }
            }
            before = times;
        }
        assert_eq!(outcome(&description.encode().bytes), None);
    }
    assert_eq!(faulty.len(), 6, "every column of the smallest wall");
    assert_eq!(reached.len(), CASES, "{reached:#?}");
    assert!(reached.values().all(|&count| count >= 3), "{reached:#?}");
    assert_eq!(lettered.len(), Letter::ALL.len());
    assert!(lettered.values().all(|&n| n >= 10_000), "{lettered:?}");
}

/// Counts what changes in a row where its clocks have these phases instead.
fn note_changes(wall: &Wall, lent: &Lent, phases: &[u32], changes: &mut BTreeMap<&str, u64>) {
    let w = phases.len();
    let other = Lent { phases, ..*lent };
    let (mut times, mut letters) = (vec![0; w], vec![0; w]);
    let (mut other_times, mut other_letters) = (vec![0; w], vec![0; w]);
    wall.row(lent, &mut times, &mut letters).unwrap();
    wall.row(&other, &mut other_times, &mut other_letters)
        .unwrap();
    let mut note = |name, holds: bool| *changes.entry(name).or_default() += u64::from(holds);
    for column in 0..w {
        let stamps = [lent, &other].map(|lent| wall.stamps(lent, column));
        note("stamp", stamps[0] != stamps[1]);
        note("pulse later", times[column] < other_times[column]);
        note("pulse earlier", times[column] > other_times[column]);
        note("letter", letters[column] != other_letters[column]);
    }
}

#[test]
fn the_seeds_reach_phases_that_count_to_a_millionth() {
    let mut without: BTreeMap<&str, u64> = BTreeMap::new();
    let mut one_less: BTreeMap<&str, u64> = BTreeMap::new();
    for seed in 0..1_000 {
        let description = generate::sound_wall(&mut Rng::new(seed));
        let wall = Wall::new(Settings::new(description.numbers).unwrap()).unwrap();
        let mut before = description.start.clone();
        let w = before.len();
        for row in &description.rows {
            let links = row.flat_links();
            let lent = row.lent(&before, &links);
            let less: Vec<u32> = row.phases.iter().map(|q| q.saturating_sub(1)).collect();
            note_changes(&wall, &lent, &vec![0; w], &mut without);
            note_changes(&wall, &lent, &less, &mut one_less);
            let (mut times, mut letters) = (vec![0; w], vec![0; w]);
            wall.row(&lent, &mut times, &mut letters).unwrap();
            before = times;
        }
    }
    for changes in [without, one_less] {
        assert_eq!(changes.len(), 4);
        assert!(changes.values().all(|&count| count >= 100), "{changes:?}");
    }
}
