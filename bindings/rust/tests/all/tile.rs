//! A tile: the cases of the forwarding rule, each with its letter, and numbers 11 to 13.

use crate::common::{settings, PRINTED};
use polzaintu::tile::{forward, Forwarded, Stamps};
use polzaintu::Letter::{Back, Early, Kept, Late, Middle};
use polzaintu::{Letter, Limits};

const LATEST: u64 = (1 << 41) - 1;

fn corrected_by(limits: Limits, own: u64, neighbours: &[Option<u64>], p: i64, letter: Letter) {
    let stamps = Stamps {
        own: Some(own),
        neighbours,
    };
    let due = Forwarded::Corrected {
        p,
        correction: own as i64 - p,
        letter,
    };
    assert_eq!(forward(&settings(limits), stamps), Ok(due), "{stamps:?}");
}

fn corrected(own: u64, neighbours: &[Option<u64>], p: i64, letter: Letter) {
    corrected_by(PRINTED, own, neighbours, p, letter);
}

fn uncorrected(neighbours: &[Option<u64>], p: i64) {
    let stamps = Stamps {
        own: None,
        neighbours,
    };
    let due = Forwarded::Uncorrected { p, letter: Late };
    assert_eq!(forward(&settings(PRINTED), stamps), Ok(due));
}

fn refused(own: Option<u64>, neighbours: &[Option<u64>], number: u32) {
    let refusal = forward(&settings(PRINTED), Stamps { own, neighbours }).unwrap_err();
    assert_eq!(refusal.number(), number, "{own:?} {neighbours:?}");
}

#[test]
fn both_neighbours_at_100() {
    let cases = [
        (100, 100, Kept),
        (120, 112, Middle),
        (112, 112, Middle),
        (136, 112, Middle),
        (137, 113, Back),
        (160, 136, Back),
        (200, 136, Late),
        (64, 64, Kept),
        (63, 64, Early),
        (0, 64, Early),
        // On the other side of each tie.
        (65, 65, Kept),
        (111, 111, Kept),
        (113, 112, Middle),
        (135, 112, Middle),
        (159, 135, Back),
        (161, 136, Late),
    ];
    for (own, p, letter) in cases {
        corrected(own, &[Some(100), Some(100)], p, letter);
        corrected(own, &[Some(100), Some(100), Some(100)], p, letter);
    }
}

#[test]
fn neighbours_apart() {
    corrected(220, &[Some(100), Some(300)], 208, Middle);
    corrected(220, &[Some(200), Some(300), Some(100)], 208, Middle);
    corrected(110, &[Some(0), Some(100)], 86, Back);
}

#[test]
fn silence() {
    uncorrected(&[Some(100), Some(130)], 166);
    uncorrected(&[Some(130), Some(100), Some(110)], 166);
    uncorrected(&[Some(LATEST), Some(LATEST)], LATEST as i64 + 36);
    corrected(90, &[None, Some(100)], 90, Kept);
    corrected(50, &[Some(100), None], 64, Early);
    corrected(50, &[Some(100), None, Some(120)], 64, Early);
    // Own is kept from min - 3h on, however late it comes.
    for own in [64, 112, 137, 1_000] {
        corrected(own, &[Some(100), None], own as i64, Kept);
        corrected(own, &[None, Some(120), Some(100)], own as i64, Kept);
    }
    // 2^64 - 1 is silence too.
    corrected(50, &[Some(100), Some(u64::MAX)], 64, Early);
}

/// Where r is 10,000, J is 25.
#[test]
fn step_rounds_up() {
    let drifting = Limits {
        uncertainty: 8,
        hold: 192,
        drift: 10_000,
        ..PRINTED
    };
    let cases = [
        (137, 112, Middle),
        (138, 113, Back),
        (161, 136, Back),
        (162, 136, Late),
    ];
    for (own, p, letter) in cases {
        corrected_by(drifting, own, &[Some(100), Some(100)], p, letter);
    }
}

#[test]
fn letters() {
    let bytes = Letter::ALL.map(Letter::byte);
    assert_eq!(&bytes, b"kembl");
    for letter in Letter::ALL {
        assert_eq!(letter.as_char(), char::from(letter.byte()));
        assert_eq!(letter.to_string(), letter.as_char().to_string());
    }
    for byte in 0..=u8::MAX {
        let letter = Letter::from_byte(byte);
        assert_eq!(letter.is_some(), bytes.contains(&byte));
        assert!(letter.map_or(true, |letter| letter.byte() == byte));
    }
}

#[test]
fn numbers() {
    for count in [0, 1, 4, 5] {
        refused(Some(100), &vec![Some(100); count], 11);
        // 12 and 13 apply too.
        refused(
            None,
            &[&[None], &vec![Some(LATEST + 1); count][..]].concat()[..count],
            11,
        );
    }
    for late in [LATEST + 1, 1 << 63, u64::MAX - 1] {
        refused(Some(late), &[Some(100), Some(100)], 12);
        refused(Some(100), &[Some(late), Some(100)], 12);
        refused(Some(100), &[Some(100), Some(late)], 12);
        refused(Some(100), &[Some(100), Some(100), Some(late)], 12);
        // 13 applies too.
        refused(None, &[None, Some(late)], 12);
    }
    refused(None, &[None, Some(100)], 13);
    refused(None, &[Some(100), None], 13);
    refused(Some(100), &[None, None], 13);
    refused(Some(100), &[Some(100), None, None], 13);
    refused(None, &[None, None, None], 13);
}
