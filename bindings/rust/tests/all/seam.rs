//! A seam: exact halves, the faulty side, and number 31.

use crate::common::{neighbours, settings, PRINTED};
use polzaintu::seam::{columns, join, pairs, row_seam, Seam, Side};
use polzaintu::Limits;

const LATEST: u64 = (1 << 41) - 1;

fn closed(left: u64, right: u64, midpoint: u64, half_gap: u64) {
    match join(Some(left), Some(right)) {
        Ok(Seam::Closed {
            midpoint: m,
            half_gap: g,
        }) => {
            assert_eq!((m.to_bits(), g.to_bits()), (midpoint, half_gap));
        }
        other => panic!("{left} and {right}: {other:?}"),
    }
}

#[test]
fn exact_halves() {
    closed(1500, 1500, 0x4097_7000_0000_0000, 0);
    closed(1500, 1536, 0x4097_b800_0000_0000, 0x4032_0000_0000_0000);
    closed(1536, 1500, 0x4097_b800_0000_0000, 0xc032_0000_0000_0000);
    closed(1500, 1501, 1500.5f64.to_bits(), 0.5f64.to_bits());
    closed(1501, 1500, 1500.5f64.to_bits(), (-0.5f64).to_bits());
    closed(0, 0, 0, 0);
    let half = 1_099_511_627_775.5f64;
    closed(0, LATEST, half.to_bits(), half.to_bits());
    closed(LATEST, 0, half.to_bits(), (-half).to_bits());
    closed(LATEST, LATEST, (LATEST as f64).to_bits(), 0);
}

#[test]
fn faulty_sides() {
    assert_eq!(join(None, Some(LATEST)), Ok(Seam::Open(Side::Left)));
    assert_eq!(join(Some(LATEST), None), Ok(Seam::Open(Side::Right)));
    assert_eq!(join(None, None), Ok(Seam::Open(Side::Both)));
}

#[test]
fn late_times() {
    for late in [LATEST + 1, 1 << 63, u64::MAX].map(Some) {
        for (left, right) in [
            (late, Some(1500)),
            (Some(1500), late),
            (late, late),
            (late, None),
            (None, late),
        ] {
            assert_eq!(
                join(left, right).unwrap_err().number(),
                31,
                "{left:?} {right:?}"
            );
        }
    }
}

#[test]
fn pairs_are_the_neighbours() {
    for width in [6, 7, 9, 256] {
        let all = (0..width).flat_map(|left| (left + 1..width).map(move |right| (left, right)));
        let expected = all.filter(|&(l, r)| neighbours(width, l, r));
        let settings = settings(Limits {
            width: width as u64,
            ..PRINTED
        });
        assert!(pairs(&settings).eq(expected));
        assert_eq!(pairs(&settings).count(), width + 1);
        for past in [width + 1, usize::MAX] {
            assert_eq!(columns(&settings, past), None);
        }
    }
}

/// Each seam of a row, with each tile faulty or not, is that of its two tiles.
#[test]
fn row_seams() {
    let settings = settings(PRINTED);
    let times = [1500, 1501, 1499, 1536, 0, LATEST];
    for marks in 0..1u8 << 6 {
        let pulse = |column: usize| (marks >> column & 1 == 0).then_some(times[column]);
        for (place, (left, right)) in pairs(&settings).enumerate() {
            let seam = row_seam(&settings, &times, &[marks], place)
                .unwrap()
                .unwrap();
            assert_eq!((seam.left, seam.right), (left, right));
            assert_eq!(Ok(seam.seam), join(pulse(left), pulse(right)));
        }
        assert_eq!(row_seam(&settings, &times, &[marks], 7), Ok(None));
    }
}

#[test]
fn row_seam_numbers() {
    let settings = settings(PRINTED);
    let refused = |times: &[u64], marks: &[u8], seam| {
        row_seam(&settings, times, marks, seam)
            .unwrap_err()
            .number()
    };
    for length in [0, 5, 7] {
        assert_eq!(refused(&vec![0; length], &[0], 7), 21);
    }
    for length in [0, 2] {
        assert_eq!(refused(&[0; 6], &vec![0; length], 7), 21);
    }
    let late = [LATEST + 1, 0, 0, 0, 0, 0];
    assert_eq!(refused(&late, &[0], 1), 31);
    assert_eq!(
        row_seam(&settings, &late, &[1], 1).unwrap().unwrap().seam,
        Seam::Open(Side::Left)
    );
}
