//! Runs of a tile: at which close it pulses, from its senders' stamps, whatever the repeats, and
//! closes at once beside closes one by one.

use crate::board::{hear, resumed, started};
use crate::common::{settings, PRINTED};
use polzaintu::board::{Answer, Board, Stage, State};
use polzaintu::tile::{self, Forwarded, Stamps};
use polzaintu::Limits;

const LATEST: u64 = (1 << 41) - 1;
const LAST: u64 = (1 << 42) - 1;
const UNHEARD: u64 = u64::MAX;

/// A tile that goes on from its open reading and hears these stamps, at each reading in this order
/// of the senders, up to its pulse. The one that chatters pulses at every later reading too. The
/// tile waits at every close before.
fn run(
    mut board: Board,
    stamps: &[Option<u64>],
    order: &[usize],
    chatters: Option<usize>,
) -> Board {
    let first = board.reading();
    for reading in first..first + 10_000 {
        assert_eq!(board.reading(), reading);
        for &sender in order {
            let again = chatters == Some(sender) && stamps[sender].is_some_and(|s| s < reading);
            if again || stamps[sender] == Some(reading) {
                hear(&mut board, &[sender as u64]);
            }
        }
        match board.close() {
            Answer::Waits => {}
            Answer::Pulses => return board,
            Answer::Done => panic!("a run that is over"),
        }
    }
    panic!("no pulse for {stamps:?}");
}

/// The reading at whose close a tile pulses that starts at a reading and hears these stamps.
fn pulses_at(limits: Limits, first: u64, stamps: &[Option<u64>], order: &[usize]) -> u64 {
    let count = stamps.len() as u64 - 1;
    let board = Board::start(&settings(limits), count, first).expect("a start");
    let pulsed = run(board, stamps, order, None);
    assert_eq!(pulsed.state().repeats, [0; 4]);
    pulsed.reading()
}

/// P + A, P as the tile operation has it for all stamps, those after the tile's own pulse too.
fn full_due(limits: Limits, stamps: &[Option<u64>]) -> u64 {
    let all = Stamps {
        own: stamps[0],
        neighbours: &stamps[1..],
    };
    let (Forwarded::Corrected { p, .. } | Forwarded::Uncorrected { p, .. }) =
        tile::forward(&settings(limits), all).expect("stamps of a tile");
    p as u64 + limits.hold
}

/// Every order of the numbers below n.
fn orders(n: usize) -> Vec<Vec<usize>> {
    let Some(last) = n.checked_sub(1) else {
        return vec![vec![]];
    };
    let longer = |order: Vec<usize>| {
        (0..n).map(move |place| {
            let mut longer = order.clone();
            longer.insert(place, last);
            longer
        })
    };
    orders(last).into_iter().flat_map(longer).collect()
}

/// A tile with these stamps pulses at P + A, in every order of the senders and of the neighbours'
/// places.
fn pulses_a_after(limits: Limits, own: Option<u64>, neighbours: &[Option<u64>], p: u64) {
    for places in orders(neighbours.len()) {
        let mut stamps = vec![own];
        stamps.extend(places.iter().map(|&place| neighbours[place]));
        for order in orders(stamps.len()) {
            let at = pulses_at(limits, 0, &stamps, &order);
            assert_eq!(at, p + limits.hold, "{stamps:?}, {order:?}");
        }
    }
}

#[test]
fn the_tile_cases_as_events() {
    for (own, p) in [
        (100, 100),
        (120, 112),
        (112, 112),
        (136, 112),
        (137, 113),
        (160, 136),
        (200, 136),
        (64, 64),
        (63, 64),
        (0, 64),
    ] {
        pulses_a_after(PRINTED, Some(own), &[Some(100); 2], p);
        pulses_a_after(PRINTED, Some(own), &[Some(100); 3], p);
    }
    pulses_a_after(PRINTED, Some(220), &[Some(100), Some(300)], 208);
    pulses_a_after(PRINTED, Some(220), &[Some(100), Some(300), Some(170)], 208);
    pulses_a_after(PRINTED, Some(110), &[Some(0), Some(100)], 86);
    pulses_a_after(PRINTED, None, &[Some(100), Some(130)], 166);
    pulses_a_after(PRINTED, Some(90), &[None, Some(100)], 90);
    pulses_a_after(PRINTED, Some(50), &[None, Some(100)], 64);
    let drifting = Limits {
        uncertainty: 8,
        hold: 192,
        drift: 10_000,
        ..PRINTED
    };
    pulses_a_after(drifting, Some(137), &[Some(100); 2], 112);
}

/// Correct stamps that are A - 9h = 292 apart, and one sender that is silent or pulses when it
/// likes, after the tile too.
#[test]
fn correct_stamps_as_far_apart_as_promised() {
    let (early, late) = (1_000, 1_292);
    for correct in [&[early, late][..], &[late, early], &[late, early, 1_100]] {
        for faulty in 0..=correct.len() {
            for third in (700..1_800).step_by(23).map(Some).chain([None]) {
                let mut stamps: Vec<_> = correct.iter().copied().map(Some).collect();
                stamps.insert(faulty, third);
                let order: Vec<usize> = (0..stamps.len()).collect();
                let at = pulses_at(PRINTED, 700, &stamps, &order);
                assert_eq!(at, full_due(PRINTED, &stamps), "{stamps:?}");
            }
        }
    }
}

/// Own 1,000 and a neighbour at 0 make it due at 1,400. The other neighbour, where it comes so late,
/// makes it due at 1,376, which is over: it pulses at once. After the pulse it is ignored.
#[test]
fn due_earlier_than_now() {
    for (late, at) in [(1_376, 1_376), (1_390, 1_390), (1_400, 1_400)] {
        let stamps = [Some(1_000), Some(0), Some(late)];
        assert_eq!(full_due(PRINTED, &stamps), 1_376);
        assert_eq!(pulses_at(PRINTED, 0, &stamps, &[0, 1, 2]), at);
    }
    for late in [None, Some(1_401)] {
        let stamps = [Some(1_000), Some(0), late];
        assert_eq!(pulses_at(PRINTED, 0, &stamps, &[0, 1, 2]), 1_400);
    }
}

/// A sender that pulses at every reading from its stamp on, and counts that others wrote: the tile
/// pulses where it does without.
#[test]
fn any_repeats() {
    for (stamps, at) in [
        (vec![Some(1_000), Some(0), Some(1_390)], 1_390),
        (vec![Some(1_000), Some(0), None], 1_400),
        (vec![None, Some(130), Some(100), Some(110)], 566),
        (vec![Some(220), Some(200), Some(300), Some(100)], 608),
    ] {
        let order: Vec<usize> = (0..stamps.len()).collect();
        let board = started(stamps.len() as u64 - 1, 0);
        for chatters in 0..stamps.len() {
            let mut repeats = [0; 4];
            repeats[chatters] = stamps[chatters].map_or(0, |stamp| at - stamp);
            let pulsed = run(board, &stamps, &order, Some(chatters));
            assert_eq!((pulsed.reading(), pulsed.state().repeats), (at, repeats));
        }
        for repeats in [
            [0, 65_535, 3, 0],
            [65_535, 0, 65_534, 1],
            [65_535; 4],
            [1, 2, 3, u64::MAX],
        ] {
            let mut counted = resumed(State {
                repeats,
                ..*board.state()
            });
            let other = counted.pulse(stamps.len() as u64).unwrap_err();
            assert_eq!(other.number(), 54);
            let pulsed = run(counted, &stamps, &order, None);
            assert_eq!((pulsed.reading(), pulsed.state().repeats), (at, repeats));
        }
    }
}

/// A neighbour 364 before the last reading, with own before it: P is 36 earlier, and A is 400.
#[test]
fn the_last_reading() {
    for (before, answer, stage) in [
        (365, Answer::Pulses, Stage::Pulsed),
        (364, Answer::Pulses, Stage::Pulsed),
        (363, Answer::Done, Stage::Ended),
        (0, Answer::Done, Stage::Ended),
    ] {
        let mut board = started(2, LATEST);
        hear(&mut board, &[0]);
        assert_eq!(board.close_many(LAST - before - LATEST), Answer::Waits);
        hear(&mut board, &[1]);
        assert_eq!(board.close_many(u64::MAX), answer);
        let last = if before == 365 { LAST - 1 } else { LAST };
        assert_eq!((board.reading(), board.stage()), (last, stage));
    }
}

/// Closed one by one until the run is over, or n times.
fn one_by_one(board: &mut Board, n: u64) -> Answer {
    let mut answer = board.close_many(0);
    for _ in 0..n {
        if board.stage() == Stage::Running {
            answer = board.close();
        }
    }
    answer
}

#[test]
fn many_closes_are_closes_one_by_one() {
    let mut pulsing = started(2, 1_000);
    hear(&mut pulsing, &[0, 1]);
    let ending = resumed(State {
        stamps: [UNHEARD, LAST - 700, UNHEARD, UNHEARD],
        reading: LAST - 450,
        ..*pulsing.state()
    });
    let pulsing_last = resumed(State {
        stamps: [LAST - 400, LAST - 400, UNHEARD, UNHEARD],
        reading: LAST - 400,
        ..*pulsing.state()
    });
    for board in [pulsing, ending, pulsing_last] {
        for n in [0, 1, 2, 399, 400, 401, 449, 450, 451, 452, 1_000] {
            let (mut many, mut single) = (board, board);
            assert_eq!(many.close_many(n), one_by_one(&mut single, n), "{n}");
            assert_eq!(many, single);
        }
    }
    let mut last = pulsing_last;
    assert_eq!(last.close_many(401), Answer::Pulses);
    assert_eq!(last.reading(), LAST);
    let mut none = pulsing;
    assert_eq!(none.close_many(0), Answer::Waits);
    assert_eq!(none, pulsing);
    let mut all = pulsing;
    assert_eq!(all.close_many(u64::MAX), Answer::Pulses);
    assert_eq!(all.reading(), 1_400);
}
