//! The tile as it runs, event by event on its own clock: §E5.1 to §E5.9, §E6.1 to §E6.4.

use crate::{ffi, Limits, Refusal, Settings};

/// A running tile. A copy goes on by itself.
///
/// ```
/// use polzaintu::board::{Answer, Board, Stage};
/// # use polzaintu::{Limits, Settings};
/// # let settings = Settings::new(Limits {
/// #     width: 6, rows: 1, delay: 100, uncertainty: 10, hold: 400, drift: 0, unit: 12,
/// # })?;
///
/// // Two neighbours; the first reading is 1000.
/// let mut board = Board::start(&settings, 2, 1000)?;
/// board.pulse(0)?;
/// assert_eq!(board.close(), Answer::Waits);
/// board.pulse(2)?;
/// assert_eq!((board.stamp(0), board.stamp(1), board.stamp(2)), (Some(1000), None, Some(1001)));
///
/// // The second pulse of a sender is only counted, for that sender, and a third neighbour is none.
/// board.pulse(2)?;
/// assert_eq!((board.repeats(0), board.repeats(1), board.repeats(2)), (0, 0, 1));
/// assert_eq!(board.pulse(3).unwrap_err().number(), 54);
///
/// // P is own, 1000, and the tile pulses when its clock reads P + A.
/// assert_eq!(board.close_many(399), Answer::Waits);
/// assert_eq!((board.reading(), board.stage()), (1400, Stage::Running));
/// assert_eq!(board.close(), Answer::Pulses);
/// assert_eq!(board.close(), Answer::Done);
/// # Ok::<(), polzaintu::Refusal>(())
/// ```
#[derive(Clone, Copy, Debug, PartialEq, Eq)]
pub struct Board(State);

/// The state of a running tile, as the C interface has it. [`Board::resume`] checks it.
#[repr(C)]
#[derive(Clone, Copy, Debug, PartialEq, Eq)]
pub struct State {
    /// The settings of its wall.
    pub settings: Limits,
    /// How many neighbours there are: 2 or 3.
    pub count: u64,
    /// Of own, then of each neighbour, the reading at which it was first heard: 0 to 2^42 - 1, or
    /// 2^64 - 1. A place past the count stays 2^64 - 1.
    pub stamps: [u64; 4],
    /// Of own, then of each neighbour, the pulses after its first: 0 to 65,535, where it stays. A
    /// place past the count stays 0.
    pub repeats: [u64; 4],
    /// The open reading, or the one whose close ended the run: 0 to 2^42 - 1.
    pub reading: u64,
    /// 0 while it runs, 1 once it has pulsed, 2 once it has ended without a pulse.
    pub stage: u64,
}

/// How far a run has come.
#[derive(Clone, Copy, Debug, PartialEq, Eq, Hash)]
pub enum Stage {
    /// A reading is open.
    Running,
    /// Over: the tile has pulsed.
    Pulsed,
    /// Over: the tile has closed reading 2^42 - 1, and has not pulsed.
    Ended,
}

/// What a close answers.
#[derive(Clone, Copy, Debug, PartialEq, Eq, Hash)]
#[must_use = "the tile may have to pulse"]
pub enum Answer {
    /// The next reading is open.
    Waits,
    /// The tile pulses now.
    Pulses,
    /// The run is over, and the tile does not pulse now.
    Done,
}

impl Board {
    /// Nothing heard so far, from so many neighbours, at a first reading of 0 to 2^41 - 1; or number
    /// 11 for the count, 12 for the reading.
    pub fn start(settings: &Settings, count: u64, reading: u64) -> Result<Board, Refusal> {
        let mut state = State {
            settings: *settings.limits(),
            count,
            stamps: [ffi::SILENT; 4],
            repeats: [0; 4],
            reading,
            stage: 0,
        };
        Refusal::check(ffi::board_start(
            settings.limits(),
            count,
            reading,
            &mut state,
        ))?;
        Ok(Board(state))
    }

    /// A tile that goes on from a state; `None` where no start and calls leave such: its stage is
    /// over 2, its settings don't pass, or its count, a stamp or its reading is outside its range.
    #[must_use]
    pub fn resume(mut state: State) -> Option<Board> {
        // No close: the library looks whether the state fits, and leaves it.
        let answer = ffi::board_close_many(&mut state, 0, &mut 0);
        (answer != ffi::UNFIT).then_some(Board(state))
    }

    /// A pulse at the open reading, from own, which is 0, or from a neighbour, 1 to the count; or
    /// number 54, and then the tile is as it was. The first pulse of a sender makes its stamp, any
    /// other is a repeat and only counted as one of that sender. Once the run is over every pulse
    /// is ignored, whoever sends it.
    pub fn pulse(&mut self, sender: u64) -> Result<(), Refusal> {
        // A start wrote the state, or a check passed it, so it fits.
        Refusal::check(ffi::board_pulse(&mut self.0, sender))
    }

    /// Closes the open reading. Where at most one of own and the neighbours is unheard there is a P,
    /// as of [`tile::forward`](crate::tile::forward), the unheard one being silent. The tile pulses
    /// where the reading is P + A or more; otherwise the next reading opens. After reading 2^42 - 1
    /// none does, and the run is over. Once it is, a close is ignored.
    pub fn close(&mut self) -> Answer {
        Answer::of(|answer| ffi::board_close(&mut self.0, answer))
    }

    /// So many closes, one by one, in constant time. The tile pulses where it does at one of them;
    /// otherwise it waits, or is done where the run is over after them.
    pub fn close_many(&mut self, n: u64) -> Answer {
        Answer::of(|answer| ffi::board_close_many(&mut self.0, n, answer))
    }

    /// How many neighbours there are.
    #[must_use]
    pub fn count(&self) -> u64 {
        self.0.count
    }

    /// The reading at which a sender was first heard; `None` where it is not, or is none of the
    /// tile's.
    #[must_use]
    pub fn stamp(&self, sender: u64) -> Option<u64> {
        let stamp = self.at(&self.0.stamps, sender)?;
        (stamp != ffi::SILENT).then_some(stamp)
    }

    /// The pulses of a sender after its first, up to 65,535; 0 for one that is none of the tile's.
    #[must_use]
    pub fn repeats(&self, sender: u64) -> u64 {
        self.at(&self.0.repeats, sender).unwrap_or(0)
    }

    /// The open reading, or the one whose close ended the run.
    #[must_use]
    pub fn reading(&self) -> u64 {
        self.0.reading
    }

    /// How far the run has come.
    #[must_use]
    pub fn stage(&self) -> Stage {
        match self.0.stage {
            0 => Stage::Running,
            1 => Stage::Pulsed,
            _ => Stage::Ended,
        }
    }

    /// The whole state, from which [`Board::resume`] goes on.
    #[must_use]
    pub fn state(&self) -> &State {
        &self.0
    }

    /// The word at a sender's place; `None` where it is none of the tile's.
    fn at(&self, places: &[u64; 4], sender: u64) -> Option<u64> {
        // The count is 2 or 3.
        let places = &places[..=self.0.count as usize];
        places.get(usize::try_from(sender).ok()?).copied()
    }
}

impl Answer {
    /// What a call writes, which is given a state that fits.
    fn of(call: impl FnOnce(&mut u32) -> u32) -> Answer {
        let mut answer = 2;
        let number = call(&mut answer);
        debug_assert_eq!(number, 0);
        match answer {
            0 => Answer::Waits,
            1 => Answer::Pulses,
            _ => Answer::Done,
        }
    }
}
