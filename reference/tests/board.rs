//! Runs of a tile (§E5.3): at which close it pulses, from its senders' stamps, whatever the repeats (§E6.3).

use wall_reference::board::{Answer, Board};
use wall_reference::cases::build::{DRIFTING, PRINTED};
use wall_reference::generate::rng::Rng;
use wall_reference::rule::forward;
use wall_reference::settings::{Numbers, Settings};
use wall_reference::Tick;

/// J is 24.
fn settings() -> Settings {
    Settings::new(PRINTED).unwrap()
}

/// A tile that starts at a reading and hears these stamps, at each reading in this order of the senders, up to its
/// pulse. The one that chatters pulses at every later reading too. The tile waits at every close before.
fn run(
    settings: &Settings,
    first: u64,
    stamps: &[Option<u64>],
    order: &[usize],
    chatters: Option<usize>,
) -> Board {
    let mut board = Board::start(settings, stamps.len() as u64 - 1, first).unwrap();
    for reading in first..first + 10_000 {
        assert_eq!(board.reading, reading);
        for &sender in order {
            let again = chatters == Some(sender) && stamps[sender].is_some_and(|s| s < reading);
            if again || stamps[sender] == Some(reading) {
                assert_eq!(board.pulse(sender as u64), Ok(()));
            }
        }
        match board.close() {
            Answer::Waits => {}
            Answer::Pulses => return board,
            Answer::Done => panic!("a run that is over"),
        }
    }
    panic!("no pulse for {stamps:?}");
}

/// The reading at whose close such a tile pulses, where no sender chatters.
fn pulses_at(settings: &Settings, first: u64, stamps: &[Option<u64>], order: &[usize]) -> u64 {
    run(settings, first, stamps, order, None).reading
}

/// P of all stamps, those after the tile's own pulse too, and A.
fn full_due(settings: &Settings, stamps: &[Option<u64>]) -> u64 {
    let stamps: Vec<_> = stamps.iter().map(|s| s.map(Tick::from)).collect();
    let p = forward(stamps[0], &stamps[1..], settings.h(), settings.j()).p;
    (p + settings.a()) as u64
}

/// Every order of the numbers below n.
fn orders(n: usize) -> Vec<Vec<usize>> {
    let Some(last) = n.checked_sub(1) else {
        return vec![vec![]];
    };
    let mut longer = Vec::new();
    for shorter in orders(last) {
        for place in 0..n {
            let mut order = shorter.clone();
            order.insert(place, last);
            longer.push(order);
        }
    }
    longer
}

/// A tile with these stamps pulses at P + A, in every order of the senders and of the neighbours' places.
fn pulses_a_after(settings: &Settings, own: Option<u64>, neighbours: &[Option<u64>], p: u64) {
    for places in orders(neighbours.len()) {
        let mut stamps = vec![own];
        stamps.extend(places.iter().map(|&place| neighbours[place]));
        for order in orders(stamps.len()) {
            let due = p + settings.a() as u64;
            let at = pulses_at(settings, 0, &stamps, &order);
            assert_eq!(at, due, "{stamps:?}, {order:?}");
        }
    }
}

#[test]
fn every_order_once() {
    let all = orders(4);
    assert_eq!(all.len(), 24);
    for (place, order) in all.iter().enumerate() {
        assert!(!all[..place].contains(order));
        assert_eq!(order.iter().sum::<usize>(), 6);
    }
}

#[test]
fn the_tile_cases_as_events() {
    let (printed, at) = (settings(), |stamp| Some(stamp));
    for (own, p) in [
        (100, 100),
        (120, 112),
        (112, 112),
        (136, 112),
        (137, 113),
        (160, 136),
        (200, 136),
        (64, 64),
        (63, 64),
        (0, 64),
    ] {
        pulses_a_after(&printed, at(own), &[at(100); 2], p);
        pulses_a_after(&printed, at(own), &[at(100); 3], p);
    }
    pulses_a_after(&printed, at(220), &[at(100), at(300)], 208);
    pulses_a_after(&printed, at(220), &[at(100), at(300), at(170)], 208);
    pulses_a_after(&printed, at(110), &[at(0), at(100)], 86);
    pulses_a_after(&printed, None, &[at(100), at(130)], 166);
    pulses_a_after(&printed, at(90), &[None, at(100)], 90);
    pulses_a_after(&printed, at(50), &[None, at(100)], 64);
    let fast = Settings::new(DRIFTING).unwrap();
    pulses_a_after(&fast, at(137), &[at(100); 2], 112);
}

/// Correct stamps that are A - 9h = 292 apart, and one sender that is silent or pulses when it likes, after the tile
/// too.
#[test]
fn correct_stamps_as_far_apart_as_promised() {
    let (early, late) = (1_000, 1_292);
    for correct in [
        vec![early, late],
        vec![late, early],
        vec![late, early, 1_100],
    ] {
        for faulty in 0..=correct.len() {
            for third in (700..1_800).step_by(23).map(Some).chain([None]) {
                let mut stamps: Vec<_> = correct.iter().copied().map(Some).collect();
                stamps.insert(faulty, third);
                let order: Vec<usize> = (0..stamps.len()).collect();
                let at = pulses_at(&settings(), 700, &stamps, &order);
                assert_eq!(at, full_due(&settings(), &stamps), "{stamps:?}");
            }
        }
    }
}

#[test]
fn the_promise_for_random_stamps() {
    let mut rng = Rng::new(6);
    let mut runs = 0;
    while runs < 3_000 {
        let hold = rng.range(32, 400) as u32;
        let numbers = Numbers {
            uncertainty: 0,
            hold,
            drift_limit: rng.pick(&[0, 10_000]),
            unit: rng.range(2, u64::from(hold) / 16) as u32,
            ..PRINTED
        };
        let Ok(settings) = Settings::new(numbers) else {
            continue;
        };
        let spread = u64::from(numbers.hold - 9 * numbers.unit);
        let senders = rng.range(3, 4) as usize;
        let mut stamps = Vec::new();
        for _ in 0..senders {
            let random = rng.range(0, spread);
            stamps.push(Some(1_000 + rng.pick(&[0, spread, random])));
        }
        let any = rng.range(500, 2_500);
        stamps[rng.index(senders)] = rng.pick(&[None, Some(any)]);
        let mut order: Vec<usize> = (0..senders).collect();
        rng.shuffle(&mut order);
        let at = pulses_at(&settings, 500, &stamps, &order);
        assert_eq!(at, full_due(&settings, &stamps), "{numbers:?} {stamps:?}");
        runs += 1;
    }
}

/// Own 1,000 and a neighbour at 0 make it due at 1,400. The other neighbour, at 1,390, makes it due at 1,376, which is
/// over: it pulses at once.
#[test]
fn a_pulse_that_is_due_earlier_than_now() {
    let stamps = [Some(1_000), Some(0), Some(1_390)];
    assert_eq!(full_due(&settings(), &stamps), 1_376);
    assert_eq!(pulses_at(&settings(), 0, &stamps, &[0, 1, 2]), 1_390);
    let silent = [Some(1_000), Some(0), None];
    assert_eq!(pulses_at(&settings(), 0, &silent, &[0, 1, 2]), 1_400);
    // In the reading of its pulse, before the close, a stamp still counts; after it none does.
    for (late, at) in [(1_399, 1_399), (1_400, 1_400), (1_401, 1_400)] {
        let stamps = [Some(1_000), Some(0), Some(late)];
        assert_eq!(pulses_at(&settings(), 0, &stamps, &[0, 1, 2]), at);
    }
}

/// A sender that pulses at every reading from its stamp on has its own count, and the pulse is where it is without.
#[test]
fn a_sender_that_chatters() {
    for stamps in [
        vec![Some(1_000), Some(0), Some(1_390)],
        vec![Some(1_000), Some(0), None],
        vec![Some(220), Some(100), Some(300), Some(170)],
        vec![None, Some(100), Some(130), Some(120)],
    ] {
        let order: Vec<usize> = (0..stamps.len()).collect();
        let at = pulses_at(&settings(), 0, &stamps, &order);
        for chatters in 0..stamps.len() {
            let board = run(&settings(), 0, &stamps, &order, Some(chatters));
            assert_eq!(board.reading, at, "{stamps:?}, {chatters}");
            let mut repeats = vec![0; stamps.len()];
            repeats[chatters] = stamps[chatters].map_or(0, |stamp| at - stamp);
            assert_eq!(board.repeats, repeats);
        }
    }
}
