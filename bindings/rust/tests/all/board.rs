//! A running tile: numbers 11, 12 and 54, what it counts, what it ignores once its run is over, and
//! what does not fit.

use crate::common::{refused_settings, settings, PRINTED};
use polzaintu::board::{Answer, Board, Stage, State};

const LATEST: u64 = (1 << 41) - 1;
const LAST: u64 = (1 << 42) - 1;
const UNHEARD: u64 = u64::MAX;
const MOST_REPEATS: u64 = 65_535;

/// A 400, h 12.
pub fn started(count: u64, reading: u64) -> Board {
    Board::start(&settings(PRINTED), count, reading).expect("a start")
}

/// Pulses from these senders, each accepted.
pub fn hear(board: &mut Board, senders: &[u64]) {
    for &sender in senders {
        assert_eq!(board.pulse(sender), Ok(()));
    }
}

/// A state that fits.
pub fn resumed(state: State) -> Board {
    Board::resume(state).expect("a state that fits")
}

#[test]
fn starts() {
    let number = |count, reading| {
        let refusal = Board::start(&settings(PRINTED), count, reading).unwrap_err();
        refusal.number()
    };
    for count in [0, 1, 4, 5, (1 << 32) + 2, u64::MAX] {
        assert_eq!(number(count, 0), 11);
        assert_eq!(number(count, LATEST + 1), 11);
    }
    for count in [2, 3] {
        for late in [LATEST + 1, LAST, LAST + 1, u64::MAX] {
            assert_eq!(number(count, late), 12);
        }
        for reading in [0, 1, LATEST] {
            let board = started(count, reading);
            let state = State {
                settings: PRINTED,
                count,
                stamps: [UNHEARD; 4],
                repeats: [0; 4],
                reading,
                stage: 0,
            };
            assert_eq!(*board.state(), state);
            assert_eq!((board.count(), board.reading()), (count, reading));
            assert_eq!(board.stage(), Stage::Running);
            assert!((0..=4).all(|sender| board.stamp(sender).is_none()));
            assert!((0..=4).all(|sender| board.repeats(sender) == 0));
        }
    }
}

/// A tile that has heard all its senders at reading 7: own once more, the first neighbour twice
/// more, and so on.
fn repeated(count: u64) -> Board {
    let mut board = started(count, 7);
    for sender in 0..=count {
        hear(&mut board, &vec![sender; sender as usize + 2]);
    }
    board
}

#[test]
fn another_sender_is_turned_away() {
    for count in [2, 3] {
        let mut board = repeated(count);
        let held = board;
        for sender in [count + 1, 4, 1 << 32, u64::MAX] {
            assert_eq!(board.pulse(sender).unwrap_err().number(), 54);
            assert_eq!(board, held);
            assert_eq!((board.stamp(sender), board.repeats(sender)), (None, 0));
        }
    }
}

#[test]
fn the_first_pulse_of_a_sender_counts() {
    let mut board = started(3, 5);
    hear(&mut board, &[2, 2]);
    assert_eq!((board.stamp(2), board.repeats(2)), (Some(5), 1));
    assert_eq!(board.close(), Answer::Waits);
    hear(&mut board, &[2, 0, 3, 3]);
    assert_eq!(board.state().stamps, [6, UNHEARD, 5, 6]);
    assert_eq!(board.state().repeats, [0, 0, 2, 1]);
    assert_eq!(board.reading(), 6);
}

/// In the first reading of a sender, and in turn in a later one.
#[test]
fn repeats_are_their_senders() {
    for count in [2, 3] {
        let third = |repeats| if count == 3 { repeats } else { 0 };
        let mut board = repeated(count);
        assert_eq!(board.state().repeats, [1, 2, 3, third(4)]);
        assert_eq!(board.close_many(9), Answer::Waits);
        for _ in 0..2 {
            hear(&mut board, &[0, 1, 2, 3][..=count as usize]);
        }
        let repeats = [3, 4, 5, third(6)];
        assert_eq!(board.state().repeats, repeats);
        assert_eq!([0, 1, 2, 3].map(|sender| board.repeats(sender)), repeats);
    }
}

#[test]
fn each_count_stays_at_65_535() {
    let mut board = started(2, 0);
    hear(&mut board, &[1]);
    for repeats in 1..=MOST_REPEATS {
        hear(&mut board, &[1]);
        assert_eq!(board.state().repeats, [0, repeats, 0, 0]);
    }
    hear(&mut board, &[1, 0, 0, 2, 2, 2]);
    assert_eq!(board.state().repeats, [1, MOST_REPEATS, 2, 0]);
    for most in 0..4 {
        let mut repeats = [0, 1, 2, 3];
        repeats[most] = MOST_REPEATS - 1;
        let mut board = resumed(State {
            repeats,
            ..*repeated(3).state()
        });
        for _ in 0..3 {
            hear(&mut board, &[0, 1, 2, 3]);
            repeats = repeats.map(|count| MOST_REPEATS.min(count + 1));
            assert_eq!(board.state().repeats, repeats);
        }
    }
}

/// With one sender, of three or of four, there is no P: the last close ends the run.
#[test]
fn no_p_no_pulse() {
    for (count, senders) in [(2, vec![]), (2, vec![0]), (2, vec![2]), (3, vec![1, 2])] {
        let mut board = started(count, 0);
        hear(&mut board, &senders);
        assert_eq!(board.close_many(LAST), Answer::Waits);
        assert_eq!((board.reading(), board.stage()), (LAST, Stage::Running));
        assert_eq!(board.close(), Answer::Done);
        assert_eq!((board.reading(), board.stage()), (LAST, Stage::Ended));
    }
}

/// A repeat before the close that ends the run counts.
#[test]
fn nothing_counts_once_it_is_over() {
    let mut pulsed = started(2, 1_000);
    hear(&mut pulsed, &[0, 1, 1]);
    assert_eq!(pulsed.close_many(400), Answer::Waits);
    hear(&mut pulsed, &[1]);
    assert_eq!(pulsed.close(), Answer::Pulses);
    assert_eq!(pulsed.state().repeats, [0, 2, 0, 0]);
    let mut ended = started(3, 1_000);
    hear(&mut ended, &[3, 3]);
    assert_eq!(ended.close_many(LAST - 1_000), Answer::Waits);
    hear(&mut ended, &[3]);
    assert_eq!(ended.close(), Answer::Done);
    assert_eq!(ended.state().repeats, [0, 0, 0, 2]);
    for mut over in [pulsed, ended] {
        let held = over;
        hear(&mut over, &[0, 0, 1, 1, 2, 2, 3, 3, 4, u64::MAX]);
        assert_eq!(over.close(), Answer::Done);
        for n in [0, 1, u64::MAX] {
            assert_eq!(over.close_many(n), Answer::Done);
        }
        assert_eq!(over, held);
    }
}

#[test]
fn states_that_fit() {
    let mut board = started(3, 1_000);
    hear(&mut board, &[0, 1, 3, 3]);
    let state = *board.state();
    assert_eq!(Board::resume(state), Some(board));
    let fits = |state: State| Board::resume(state).is_some();
    for (limits, _) in refused_settings() {
        assert!(!fits(State {
            settings: limits,
            ..state
        }));
    }
    for count in [0, 1, 2, 3, 4, u64::MAX] {
        assert_eq!(fits(State { count, ..state }), count == 2 || count == 3);
    }
    for (word, fit) in [
        (0, true),
        (LAST, true),
        (LAST + 1, false),
        (UNHEARD - 1, false),
    ] {
        for place in 0..4 {
            let mut stamps = state.stamps;
            stamps[place] = word;
            assert_eq!(fits(State { stamps, ..state }), fit);
        }
        let reading = word;
        assert_eq!(fits(State { reading, ..state }), fit);
    }
    for stage in [0, 1, 2, 3, u64::MAX] {
        assert_eq!(fits(State { stage, ..state }), stage <= 2);
    }
    let stage = |stage| resumed(State { stage, ..state }).stage();
    let stages = [Stage::Running, Stage::Pulsed, Stage::Ended];
    assert_eq!([0, 1, 2].map(stage), stages);
    // The repeats are not looked at.
    let repeats = [u64::MAX; 4];
    assert!(fits(State { repeats, ..state }));
    // Of two neighbours the third place is none.
    assert_eq!((board.stamp(3), board.repeats(3)), (Some(1_000), 1));
    let board = resumed(State { count: 2, ..state });
    assert_eq!((board.stamp(2), board.stamp(3)), (None, None));
    assert_eq!(board.repeats(3), 0);
}

#[test]
fn copies() {
    let mut first = started(2, 1_000);
    hear(&mut first, &[0]);
    let mut second = first;
    assert_eq!(first, second);
    hear(&mut first, &[1]);
    assert_eq!(first.close_many(u64::MAX), Answer::Pulses);
    assert_eq!((second.stamp(1), second.stage()), (None, Stage::Running));
    hear(&mut second, &[2, 0]);
    assert_eq!((first.repeats(0), second.repeats(0)), (0, 1));
}
