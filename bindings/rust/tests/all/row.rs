//! A row: times and letters worked out by hand, numbers 21 to 26 and 53, and the order between them.

use crate::common::{hears, letters, links, settings, PRINTED};
use polzaintu::row::{self, Ends, Lent, SILENT};
use polzaintu::{Letter, Limits};

const LATEST: u64 = (1 << 40) - 1;

/// All that a call is lent.
#[derive(Clone)]
struct Call {
    limits: Limits,
    before: Vec<u64>,
    marks: Vec<u8>,
    drifts: Vec<u32>,
    phases: Vec<u32>,
    links: Vec<u64>,
    times: Vec<u64>,
    letters: Vec<Letter>,
}

impl Call {
    /// No faults: all times 1000, drifts and phases 0, delays 100.
    fn quiet(width: usize) -> Call {
        Call {
            limits: Limits {
                width: width as u64,
                ..PRINTED
            },
            before: vec![1000; width],
            marks: vec![0; width.div_ceil(8)],
            drifts: vec![0; width],
            phases: vec![0; width],
            links: vec![100; 3 * width + 2],
            times: (0..width as u64).map(|c| 0xa5a5 + 31 * c).collect(),
            letters: (0..width).map(|c| Letter::ALL[c % 5]).collect(),
        }
    }

    /// The same with all clocks of drift 10,000.
    fn drifting(width: usize) -> Call {
        let mut call = Call::quiet(width);
        call.limits = Limits {
            drift: 10_000,
            unit: 16,
            ..call.limits
        };
        call.drifts.fill(10_000);
        call
    }

    fn mark(&mut self, column: usize) {
        self.marks[column / 8] |= 1 << (column % 8);
    }

    /// Marks a column, and has it send the same on each of its links.
    fn fault(&mut self, column: usize, arrival: u64) {
        self.mark(column);
        for (value, (_, sender)) in self.links.iter_mut().zip(links(self.before.len())) {
            if sender == column {
                *value = arrival;
            }
        }
    }

    fn run(&self, times: &mut [u64], letters: &mut [Letter]) -> Result<Ends, u32> {
        let lent = Lent {
            before: &self.before,
            marks: &self.marks,
            drifts: &self.drifts,
            phases: &self.phases,
            links: &self.links,
        };
        row::plan(&settings(self.limits), lent, times, letters).map_err(|refusal| refusal.number())
    }

    fn planned(&self, expected: &[u64], expected_letters: &str, earliest: u64, latest: u64) {
        let (mut times, mut written) = (self.times.clone(), self.letters.clone());
        let ends = self.run(&mut times, &mut written);
        assert_eq!(ends, Ok(Ends { earliest, latest }));
        assert_eq!(times, expected);
        assert_eq!(letters(&written), expected_letters);
    }

    /// The letters of a call that is accepted.
    fn accepted(&self) -> Vec<Letter> {
        let (mut times, mut letters) = (self.times.clone(), self.letters.clone());
        assert!(self.run(&mut times, &mut letters).is_ok());
        letters
    }

    /// The call is turned away, and the rows to be written hold what they held.
    fn refused(&self, number: u32) {
        let (mut times, mut letters) = (self.times.clone(), self.letters.clone());
        assert_eq!(self.run(&mut times, &mut letters), Err(number));
        assert_eq!(times, self.times);
        assert_eq!(letters, self.letters);
    }
}

#[test]
fn printed_wall() {
    let mut call = Call::quiet(6);
    call.before[3] = 1080;
    call.planned(&[1500, 1500, 1500, 1536, 1500, 1500], "kkklkk", 1500, 1536);
}

/// A clock of drift 10,000 reads 1111 at 1100, and first reads 1511 at 1497.
#[test]
fn drifts_round() {
    let mut call = Call::quiet(6);
    call.limits = Limits {
        drift: 10_000,
        unit: 16,
        ..PRINTED
    };
    call.drifts[1] = 10_000;
    call.drifts[5] = 10_000;
    call.planned(&[1500, 1497, 1500, 1500, 1500, 1497], "kkkkkk", 1497, 1500);
}

/// All arrivals at 1100 read 1111 at each phase; at 1496 it is 1510.96, so that from phase 40,000 on
/// 1511 is met a tick earlier.
#[test]
fn phases_move_pulses() {
    let mut call = Call::drifting(6);
    call.phases = vec![0, 39_999, 40_000, 999_999, 39_999, 40_000];
    call.planned(&[1497, 1497, 1496, 1496, 1497, 1496], "kkkkkk", 1496, 1497);
    call.phases[5] = 1_000_000;
    call.refused(53);
}

/// Arrivals at 1099 are at 1109.99: from phase 10,000 on they read 1110, and the pulse waits for 1510,
/// of which 1495 lacks 0.05.
#[test]
fn phases_move_stamps() {
    let mut call = Call::drifting(6);
    call.before.fill(999);
    call.phases = vec![0, 9_999, 10_000, 49_999, 50_000, 999_999];
    call.planned(&[1495, 1495, 1496, 1496, 1495, 1495], "kkkkkk", 1495, 1496);
}

/// In a wide row, where most tiles are worked out eight at a time: two like tiles but for the phase
/// are a tick apart.
#[test]
fn phases_of_a_wide_row() {
    let mut call = Call::drifting(256);
    call.phases = (0..256).map(|column| 39_999 + column % 2).collect();
    let due: Vec<u64> = (0..256).map(|column| 1497 - column % 2).collect();
    call.planned(&due, &"k".repeat(256), 1496, 1497);
}

/// A clock that doesn't drift reads the same at every phase.
#[test]
fn phases_without_drift() {
    let mut call = Call::quiet(6);
    call.before[3] = 1080;
    call.phases.fill(999_999);
    call.planned(&[1500, 1500, 1500, 1536, 1500, 1500], "kkklkk", 1500, 1536);
}

/// Own at 1115 is at 1126.15, the neighbours read 1111: with a phase of 0.85 own is h after them.
#[test]
fn phases_decide_letters() {
    for (phase, letter) in [(849_999, Letter::Kept), (850_000, Letter::Middle)] {
        let mut call = Call::drifting(9);
        call.before[4] = 1015;
        call.phases[4] = phase;
        assert_eq!(call.accepted()[4], letter);
    }
}

/// Column 3 is heard by tiles 2 to 5.
#[test]
fn faults() {
    let mut call = Call::quiet(6);
    call.before[3] = u64::MAX;
    for late in [SILENT, LATEST] {
        call.fault(3, late);
        call.planned(&[1500, 1500, 1500, 1536, 1500, 1500], "kkklkk", 1500, 1536);
    }
    call.fault(3, 0);
    call.planned(&[1500, 1500, 1476, 1464, 1476, 1476], "kkbebb", 1464, 1500);
}

/// One column at each border between two letters, all others at 1000: h is 12 and J is 24.
#[test]
fn letters_by_column() {
    let borders = [
        (963, Letter::Early),
        (964, Letter::Kept),
        (1011, Letter::Kept),
        (1012, Letter::Middle),
        (1036, Letter::Middle),
        (1037, Letter::Back),
        (1060, Letter::Back),
        (1061, Letter::Late),
    ];
    for width in [6, 24] {
        for (own, letter) in borders {
            for column in 0..width {
                let mut call = Call::quiet(width);
                call.before[column] = own;
                assert_eq!(call.accepted()[column], letter, "{own} in {column}");
            }
        }
    }
}

#[test]
fn wrong_lengths() {
    fn tried<T: Clone>(call: &mut Call, row: fn(&mut Call) -> &mut Vec<T>) {
        let right = row(call).clone();
        row(call).pop();
        call.refused(21);
        *row(call) = [&right[..], &right[..1]].concat();
        call.refused(21);
        row(call).clear();
        call.refused(21);
        *row(call) = right;
        call.accepted();
    }
    for width in [6, 9] {
        let call = &mut Call::quiet(width);
        tried(call, |call| &mut call.before);
        tried(call, |call| &mut call.marks);
        tried(call, |call| &mut call.drifts);
        tried(call, |call| &mut call.phases);
        tried(call, |call| &mut call.links);
        tried(call, |call| &mut call.times);
        tried(call, |call| &mut call.letters);
    }
}

#[test]
fn stray_marks() {
    for width in [6usize, 9, 15] {
        for column in width..width.next_multiple_of(8) {
            let mut call = Call::quiet(width);
            call.mark(column);
            call.refused(22);
        }
    }
}

#[test]
fn late_times() {
    for column in 0..9 {
        let mut call = Call::quiet(9);
        call.before[column] = LATEST;
        call.accepted();
        for late in [LATEST + 1, u64::MAX] {
            call.before[column] = late;
            call.refused(23);
        }
        call.fault(column, SILENT);
        call.accepted();
    }
}

/// Two faulty tiles: 24 where some tile hears both.
#[test]
fn crowded() {
    for width in [6, 9, 17] {
        for (a, b) in (0..width).flat_map(|b| (0..b).map(move |a| (a, b))) {
            let mut call = Call::quiet(width);
            call.fault(a, SILENT);
            call.fault(b, SILENT);
            if (0..width).any(|tile| hears(width, tile, a) && hears(width, tile, b)) {
                call.refused(24);
            } else {
                call.accepted();
            }
        }
    }
}

#[test]
fn fast_drifts() {
    for column in 0..9 {
        let mut call = Call::quiet(9);
        call.limits = Limits {
            drift: 100,
            unit: 13,
            ..call.limits
        };
        call.drifts[column] = 100;
        call.accepted();
        for fast in [101, u32::MAX] {
            call.drifts[column] = fast;
            call.refused(25);
        }
    }
}

#[test]
fn large_phases() {
    for column in 0..9 {
        let mut call = Call::quiet(9);
        call.phases[column] = 999_999;
        call.accepted();
        for large in [1_000_000, 1_000_001, 1 << 24, 1 << 31, u32::MAX] {
            call.phases[column] = large;
            call.refused(53);
        }
    }
}

/// A phase over its limit in one column, a drift or a delay over its own in another.
#[test]
fn phases_between_drifts_and_links() {
    for (phase, other) in (0..9).flat_map(|phase| (0..9).map(move |other| (phase, other))) {
        let mut call = Call::quiet(9);
        call.phases[phase] = 1_000_000;
        let link = links(9).into_iter().position(|link| link == (other, other));
        call.links[link.unwrap()] = 101;
        call.refused(53);
        call.drifts[other] = 1;
        call.refused(25);
    }
}

#[test]
fn bad_links() {
    for place in 0..3 * 9 + 2 {
        let mut call = Call::quiet(9);
        call.links[place] = 90;
        call.accepted();
        for bad in [89, 101, 0, SILENT, LATEST] {
            call.links[place] = bad;
            call.refused(26);
        }
    }
    for column in 0..9 {
        let mut call = Call::quiet(9);
        call.fault(column, LATEST);
        call.accepted();
        for late in [LATEST + 1, SILENT - 1] {
            call.fault(column, late);
            call.refused(26);
        }
    }
}

/// Each fault is added to those that come after it.
#[test]
fn first_applies() {
    let mut call = Call::quiet(9);
    call.links[0] = 101;
    call.refused(26);
    call.phases[8] = 1_000_000;
    call.refused(53);
    call.drifts[8] = 1;
    call.refused(25);
    call.mark(4);
    call.mark(5);
    call.refused(24);
    call.before[8] = LATEST + 1;
    call.refused(23);
    call.mark(15);
    call.refused(22);
    call.links.pop();
    call.refused(21);
}
