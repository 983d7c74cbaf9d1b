//! Settings: every limit from both sides, and the order between the numbers.

use crate::common::{refused_settings, settings, PRINTED};
use polzaintu::{Limits, Settings};

fn number(limits: Limits) -> u32 {
    Settings::new(limits).map_or_else(|refusal| refusal.number(), |_| 0)
}

#[test]
fn past_each_limit() {
    for (limits, expected) in refused_settings() {
        assert_eq!(number(limits), expected, "{limits:?}");
    }
}

#[test]
fn at_each_limit() {
    let largest = Limits {
        width: 256,
        rows: 1_024,
        delay: 1_000_000,
        uncertainty: 0,
        hold: 1_000_000,
        drift: 0,
        unit: 62_500,
    };
    let least = Limits {
        delay: 1,
        uncertainty: 0,
        hold: 32,
        unit: 2,
        ..PRINTED
    };
    for limits in [
        PRINTED,
        largest,
        least,
        Limits {
            delay: 10,
            ..PRINTED
        },
        Limits {
            hold: 192,
            ..PRINTED
        },
        Limits {
            drift: 10_000,
            unit: 16,
            ..PRINTED
        },
    ] {
        assert_eq!(settings(limits).limits(), &limits);
    }
}

#[test]
fn lowest_applies() {
    let most = u64::MAX;
    let mut limits = Limits {
        width: most,
        rows: most,
        delay: most,
        uncertainty: most,
        hold: most,
        drift: most,
        unit: most,
    };
    assert_eq!(number(limits), 1);
    limits.width = 6;
    assert_eq!(number(limits), 2);
    limits.rows = 1;
    assert_eq!(number(limits), 3);
    limits.delay = 100;
    assert_eq!(number(limits), 4);
    limits.uncertainty = 10;
    assert_eq!(number(limits), 5);
    limits.hold = 100;
    assert_eq!(number(limits), 6);
    limits.drift = 0;
    assert_eq!(number(limits), 7);
    limits.unit = 11;
    assert_eq!(number(limits), 8);
    limits.unit = 12;
    assert_eq!(number(limits), 9);
    limits.hold = 192;
    assert_eq!(number(limits), 0);
}

#[test]
fn lengths_of_a_row() {
    for (width, marks, links) in [(6, 1, 20), (8, 1, 26), (9, 2, 29), (256, 32, 770)] {
        let settings = settings(Limits { width, ..PRINTED });
        assert_eq!(settings.width() as u64, width);
        assert_eq!(settings.mark_bytes(), marks);
        assert_eq!(settings.link_values(), links);
    }
}
