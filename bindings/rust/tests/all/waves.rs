//! The last waves of a seam: which of them count, and numbers 31, 51 and 52.

use polzaintu::seam::{join, Seam, Side};
use polzaintu::waves::{Extremes, HalfGap, Waves};
use polzaintu::Refusal;

const LATEST: u64 = (1 << 41) - 1;

fn started(n: u64) -> Waves {
    Waves::start(n).expect("1 to 64")
}

/// Hands in a wave, which is answered as its seam is. Turned away, it leaves the waves.
fn hand_in(waves: &mut Waves, left: Option<u64>, right: Option<u64>) -> Result<Seam, Refusal> {
    let held = *waves;
    let answer = waves.hand_in(left, right);
    assert_eq!(answer, join(left, right), "{left:?} {right:?}");
    assert!(answer.is_ok() || *waves == held, "{left:?} {right:?}");
    answer
}

/// Hands in a closed wave with this gap.
fn close(waves: &mut Waves, gap: i64) {
    let right = 1_000_000u64.checked_add_signed(gap).expect("a time");
    let seam = hand_in(waves, Some(1_000_000), Some(right));
    assert!(matches!(seam, Ok(Seam::Closed { .. })));
}

fn half_gap(gap: i64) -> HalfGap {
    HalfGap {
        half_ticks: gap,
        ticks: gap as f64 / 2.0,
    }
}

/// The question is answered with these, and leaves the waves.
#[track_caller]
fn ends_are(waves: &Waves, largest: i64, smallest: i64) {
    let held = *waves;
    let answer = waves.ask().expect("a closed wave");
    let expected = Extremes {
        largest: half_gap(largest),
        smallest: half_gap(smallest),
    };
    assert_eq!(answer, expected);
    for (end, expected) in [
        (answer.largest, expected.largest),
        (answer.smallest, expected.smallest),
    ] {
        // Plus zero, too.
        assert_eq!(end.ticks.to_bits(), expected.ticks.to_bits());
    }
    assert_eq!(*waves, held);
}

#[track_caller]
fn no_ends(waves: &Waves) {
    assert_eq!(waves.ask().unwrap_err().number(), 52);
}

#[test]
fn starts() {
    for n in [0, 65, 66, 1 << 32, 1 << 63, u64::MAX] {
        assert_eq!(Waves::start(n).unwrap_err().number(), 51);
    }
    for n in 1..=Waves::MOST {
        no_ends(&started(n));
    }
}

/// The n-th wave from the end counts, the one before it does not.
#[test]
fn last_waves() {
    for n in [1, 2, 3, 63, 64] {
        let mut waves = started(n);
        close(&mut waves, 1000);
        for gap in 1..n as i64 {
            close(&mut waves, gap);
        }
        ends_are(&waves, 1000, if n == 1 { 1000 } else { 1 });
        close(&mut waves, 500);
        ends_are(&waves, 500, if n == 1 { 500 } else { 1 });
        close(&mut waves, -400);
        ends_are(&waves, if n == 1 { -400 } else { 500 }, -400);
    }
}

#[test]
fn the_largest_leaves() {
    let mut waves = started(2);
    for (gap, largest, smallest) in [
        (90, 90, 90),
        (-5, 90, -5),
        (30, 30, -5),
        (20, 30, 20),
        (20, 20, 20),
    ] {
        close(&mut waves, gap);
        ends_are(&waves, largest, smallest);
        ends_are(&waves, largest, smallest);
    }
}

#[test]
fn open_waves_take_a_place() {
    let open = [
        (None, Some(1500), Side::Left),
        (Some(1500), None, Side::Right),
        (None, None, Side::Both),
    ];
    for n in [1, 2, 64] {
        for (left, right, side) in open {
            let mut waves = started(n);
            let open = Ok(Seam::Open(side));
            assert_eq!(hand_in(&mut waves, left, right), open);
            no_ends(&waves);
            close(&mut waves, 8);
            for _ in 1..n {
                assert_eq!(hand_in(&mut waves, left, right), open);
                ends_are(&waves, 8, 8);
            }
            assert_eq!(hand_in(&mut waves, left, right), open);
            no_ends(&waves);
            close(&mut waves, -8);
            ends_are(&waves, -8, -8);
        }
    }
}

#[test]
fn late_waves_take_none() {
    let mut waves = started(2);
    close(&mut waves, 40);
    close(&mut waves, 10);
    for late in [LATEST + 1, 1 << 63, u64::MAX].map(Some) {
        for (left, right) in [
            (late, Some(1500)),
            (Some(1500), late),
            (late, late),
            (late, None),
            (None, late),
        ] {
            let refusal = hand_in(&mut waves, left, right).unwrap_err();
            assert_eq!(refusal.number(), 31);
            ends_are(&waves, 40, 10);
        }
    }
    close(&mut waves, 20);
    ends_are(&waves, 20, 10);
}

#[test]
fn gaps_by_hand() {
    let most = LATEST as i64;
    let mut waves = started(64);
    hand_in(&mut waves, Some(0), Some(LATEST)).unwrap();
    ends_are(&waves, most, most);
    hand_in(&mut waves, Some(LATEST), Some(0)).unwrap();
    ends_are(&waves, most, -most);

    let mut waves = started(3);
    for (gap, largest, smallest) in [
        (0, 0, 0),
        (1, 1, 0),
        (-1, 1, -1),
        (0, 1, -1),
        (0, 0, -1),
        (0, 0, 0),
    ] {
        close(&mut waves, gap);
        ends_are(&waves, largest, smallest);
    }
}

#[test]
fn copies() {
    let mut first = started(2);
    close(&mut first, 40);
    let mut second = first;
    assert_eq!(first, second);
    close(&mut first, 10);
    close(&mut first, 20);
    close(&mut second, -6);
    ends_are(&first, 20, 10);
    ends_are(&second, 40, -6);
    assert_ne!(first, second);
}
