//! Seams (§8.1 to §8.4): two neighbouring tiles of one row, and refusal 31.

use crate::{refuse_if, Refused, LATEST_STAMP};

/// A tile of a row: its time, which is not read where it is faulty.
#[derive(Clone, Copy, Debug, PartialEq, Eq)]
pub struct Pulse {
    /// The time.
    pub time: u64,
    /// Whether the tile is faulty.
    pub faulty: bool,
}

/// A seam is closed, with its midpoint and half gap, or open, with the faulty side.
#[derive(Clone, Copy, Debug, PartialEq)]
pub enum Seam {
    /// Neither tile is faulty.
    Closed(Closing),
    /// A tile is faulty, or both are.
    Open(Side),
}

/// What a closed seam has: midpoint and half gap.
#[derive(Clone, Copy, Debug, PartialEq)]
pub struct Closing {
    /// Half the sum of both times.
    pub midpoint: f64,
    /// Half of right less left; +0 where both are the same.
    pub half_gap: f64,
}

/// Which side of an open seam is faulty.
#[derive(Clone, Copy, Debug, PartialEq, Eq)]
pub enum Side {
    /// The left tile.
    Left,
    /// The right tile.
    Right,
    /// Both tiles.
    Both,
}

/// The seam operation.
pub fn seam(left: Pulse, right: Pulse) -> Result<Seam, Refused> {
    let too_late = |pulse: Pulse| !pulse.faulty && pulse.time > LATEST_STAMP;
    refuse_if(too_late(left) || too_late(right), 31)?;
    Ok(match (left.faulty, right.faulty) {
        (false, false) => Seam::Closed(closing(left.time, right.time)),
        (true, false) => Seam::Open(Side::Left),
        (false, true) => Seam::Open(Side::Right),
        (true, true) => Seam::Open(Side::Both),
    })
}

/// Sum and difference as whole numbers below 2^42, which 64-bit floats hold exactly, each halved
/// exactly. The whole difference 0 becomes +0.
fn closing(left: u64, right: u64) -> Closing {
    let (left, right) = (left as i64, right as i64);
    Closing {
        midpoint: (left + right) as f64 * 0.5,
        half_gap: (right - left) as f64 * 0.5,
    }
}

#[cfg(test)]
mod tests {
    use super::*;
    use crate::generate::rng::Rng;

    fn pulse(time: u64, faulty: bool) -> Pulse {
        Pulse { time, faulty }
    }

    fn bits(left: u64, right: u64) -> (u64, u64) {
        match seam(pulse(left, false), pulse(right, false)) {
            Ok(Seam::Closed(both)) => (both.midpoint.to_bits(), both.half_gap.to_bits()),
            other => panic!("{other:?}"),
        }
    }

    #[test]
    fn bits_of_closed_seams() {
        assert_eq!(bits(1500, 1500), (0x4097_7000_0000_0000, 0));
        assert_eq!(
            bits(1500, 1536),
            (0x4097_b800_0000_0000, 0x4032_0000_0000_0000)
        );
        assert_eq!(
            bits(1536, 1500),
            (0x4097_b800_0000_0000, 0xc032_0000_0000_0000)
        );
        assert_eq!(bits(0, 0), (0, 0));
        assert_eq!(bits(0, 1), (0.5f64.to_bits(), 0.5f64.to_bits()));
        assert_eq!(bits(1, 0), (0.5f64.to_bits(), (-0.5f64).to_bits()));
        assert_eq!(bits(LATEST_STAMP, LATEST_STAMP).1, 0);
    }

    #[test]
    fn both_numbers_are_exact() {
        let mut rng = Rng::new(5);
        for _ in 0..100_000 {
            let (left, right) = (rng.range(0, LATEST_STAMP), rng.range(0, LATEST_STAMP));
            let both = closing(left, right);
            // Doubled back, the floats are whole numbers again: nothing was lost.
            assert_eq!((both.midpoint * 2.0) as i128, (left + right) as i128);
            let gap = right as i128 - left as i128;
            assert_eq!((both.half_gap * 2.0) as i128, gap);
            assert_eq!(both.half_gap.is_sign_negative(), gap < 0);
        }
    }

    #[test]
    fn open_seams_and_refusal_31() {
        let late = LATEST_STAMP + 1;
        let answer = |left, right| match seam(left, right) {
            Ok(Seam::Open(side)) => Ok(side),
            Ok(closed) => panic!("{closed:?}"),
            Err(Refused(number)) => Err(number),
        };
        assert_eq!(answer(pulse(late, true), pulse(5, false)), Ok(Side::Left));
        assert_eq!(answer(pulse(5, false), pulse(late, true)), Ok(Side::Right));
        let unread = pulse(u64::MAX, true);
        assert_eq!(answer(unread, unread), Ok(Side::Both));
        assert_eq!(answer(pulse(late, false), pulse(5, false)), Err(31));
        assert_eq!(answer(pulse(5, false), pulse(late, false)), Err(31));
        assert_eq!(answer(pulse(5, true), pulse(late, false)), Err(31));
        assert_eq!(answer(pulse(late, false), pulse(5, true)), Err(31));
    }
}
