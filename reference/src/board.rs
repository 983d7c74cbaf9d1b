//! The tile as it runs (§E5.1 to §E5.5, §E6.1): pulses and closed readings one by one, on the tile's own
//! clock, refusal 54, and a count of repeats for each sender.

use crate::rule::forward;
use crate::settings::Settings;
use crate::{refuse_if, Refused, Tick, LATEST_STAMP};

/// The last reading that opens, 2^42 - 1.
pub const LAST_READING: u64 = (1 << 42) - 1;

/// Where a count of repeats stays.
pub const MOST_REPEATS: u64 = 65_535;

/// A tile that runs.
#[derive(Clone, Debug, PartialEq, Eq)]
pub struct Board {
    /// The settings of its wall.
    pub settings: Settings,
    /// The reading of each sender's first pulse: own, then the neighbours. `None` is not yet heard.
    pub stamps: Vec<Option<u64>>,
    /// The pulses of each sender after its first: own, then the neighbours.
    pub repeats: Vec<u64>,
    /// The open reading, or the last one that was.
    pub reading: u64,
    /// Whether its run is over, and how it ended.
    pub stage: Stage,
}

/// Whether a run is over, and how it ended.
#[derive(Clone, Copy, Debug, PartialEq, Eq)]
pub enum Stage {
    /// A reading is open.
    Running,
    /// The tile has pulsed.
    Pulsed,
    /// The last reading was closed without a pulse.
    Ended,
}

/// What a close answers.
#[derive(Clone, Copy, Debug, PartialEq, Eq)]
pub enum Answer {
    /// The next reading is open.
    Waits,
    /// The tile pulses now.
    Pulses,
    /// The run is over, and the tile doesn't pulse now.
    Done,
}

impl Board {
    /// The start: the first reading is open, and nothing is heard.
    pub fn start(settings: &Settings, count: u64, reading: u64) -> Result<Board, Refused> {
        settings.check()?;
        refuse_if(!(2..=3).contains(&count), 11)?;
        refuse_if(reading > LATEST_STAMP, 12)?;
        let senders = 1 + count as usize;
        Ok(Board {
            settings: *settings,
            stamps: vec![None; senders],
            repeats: vec![0; senders],
            reading,
            stage: Stage::Running,
        })
    }

    /// A pulse at the open reading, from own, which is 0, or from a neighbour, 1 and up.
    pub fn pulse(&mut self, sender: u64) -> Result<(), Refused> {
        if self.stage != Stage::Running {
            return Ok(());
        }
        refuse_if(sender >= self.stamps.len() as u64, 54)?;
        let sender = sender as usize;
        if self.stamps[sender].is_none() {
            self.stamps[sender] = Some(self.reading);
        } else if self.repeats[sender] < MOST_REPEATS {
            self.repeats[sender] += 1;
        }
        Ok(())
    }

    /// A close of the open reading.
    pub fn close(&mut self) -> Answer {
        if self.stage != Stage::Running {
            return Answer::Done;
        }
        if self
            .due()
            .is_some_and(|due| Tick::from(self.reading) >= due)
        {
            self.stage = Stage::Pulsed;
            return Answer::Pulses;
        }
        if self.reading == LAST_READING {
            self.stage = Stage::Ended;
            return Answer::Done;
        }
        self.reading += 1;
        Answer::Waits
    }

    /// So many closes, one by one: the answer of the last one that was not ignored.
    pub fn close_many(&mut self, n: u64) -> Answer {
        let mut answer = match self.stage {
            Stage::Running => Answer::Waits,
            Stage::Pulsed | Stage::Ended => Answer::Done,
        };
        let mut left = n;
        while left > 0 && self.stage == Stage::Running {
            let skipped = self.idle_closes().min(left - 1);
            self.reading += skipped;
            answer = self.close();
            left -= skipped + 1;
        }
        answer
    }

    /// How many closes from here on only open the next reading. No stamp changes between them, so P + A stays
    /// what it is: they are those of the readings before P + A, and before the last reading.
    fn idle_closes(&self) -> u64 {
        let last = Tick::from(LAST_READING);
        let ends = self.due().map_or(last, |due| due.min(last));
        (ends - Tick::from(self.reading)).max(0) as u64
    }

    /// P + A, senders not yet heard being silent; `None` while two or more of them are, as there is no P then.
    pub fn due(&self) -> Option<Tick> {
        let stamps: Vec<Option<Tick>> = self.stamps.iter().map(|s| s.map(Tick::from)).collect();
        if stamps.iter().filter(|stamp| stamp.is_none()).count() >= 2 {
            return None;
        }
        let settings = &self.settings;
        let p = forward(stamps[0], &stamps[1..], settings.h(), settings.j()).p;
        Some(p + settings.a())
    }
}

#[cfg(test)]
mod tests {
    use super::*;
    use crate::cases::build::PRINTED;
    use crate::generate::rng::Rng;
    use crate::settings::Numbers;

    /// A 400, h 12, J 24.
    fn settings() -> Settings {
        Settings::new(PRINTED).unwrap()
    }

    fn started(count: u64, reading: u64) -> Board {
        Board::start(&settings(), count, reading).unwrap()
    }

    /// Pulses from these senders, each accepted.
    fn hear(board: &mut Board, senders: &[u64]) {
        for &sender in senders {
            assert_eq!(board.pulse(sender), Ok(()));
        }
    }

    #[test]
    fn refusals_of_a_start_in_order() {
        let number = |settings: &Settings, count, reading| {
            Board::start(settings, count, reading).map_err(|refused| refused.0)
        };
        let bad = Settings::unchecked(Numbers {
            unit: 11,
            ..PRINTED
        });
        assert_eq!(number(&bad, 4, u64::MAX), Err(8));
        for count in [0, 1, 4, u64::MAX] {
            assert_eq!(number(&settings(), count, u64::MAX), Err(11));
        }
        for count in [2, 3] {
            for late in [LATEST_STAMP + 1, LAST_READING, u64::MAX] {
                assert_eq!(number(&settings(), count, late), Err(12));
            }
            let board = started(count, LATEST_STAMP);
            assert_eq!(board.stamps, vec![None; 1 + count as usize]);
            assert_eq!(board.repeats, vec![0; 1 + count as usize]);
            assert_eq!((board.reading, board.stage), (LATEST_STAMP, Stage::Running));
        }
    }

    #[test]
    fn refusal_54_keeps_the_state() {
        for count in [2, 3] {
            let mut board = started(count, 7);
            hear(&mut board, &[0, 1, 1, count, count, count]);
            let held = board.clone();
            for sender in [count + 1, 4, u64::MAX] {
                assert_eq!(board.pulse(sender), Err(Refused(54)));
                assert_eq!(board, held);
            }
        }
    }

    #[test]
    fn the_first_pulse_of_a_sender_counts() {
        let mut board = started(3, 5);
        hear(&mut board, &[2, 2, 2]);
        assert_eq!(board.stamps, [None, None, Some(5), None]);
        assert_eq!(board.repeats, [0, 0, 2, 0]);
        board.close();
        hear(&mut board, &[2, 0, 3, 3]);
        assert_eq!(board.stamps, [Some(6), None, Some(5), Some(6)]);
        assert_eq!(board.repeats, [0, 0, 3, 1]);
    }

    /// All senders in turn, and one of them more often.
    #[test]
    fn repeats_are_their_senders() {
        for count in [2, 3] {
            let senders: Vec<u64> = (0..=count).collect();
            for &chatters in &senders {
                let mut board = started(count, 5);
                hear(&mut board, &senders);
                assert_eq!(board.repeats, vec![0; senders.len()]);
                hear(&mut board, &[chatters; 3]);
                board.close();
                hear(&mut board, &senders);
                hear(&mut board, &[chatters]);
                let due = senders.iter().map(|&s| if s == chatters { 5 } else { 1 });
                assert_eq!(board.repeats, due.collect::<Vec<u64>>());
            }
        }
    }

    #[test]
    fn each_count_stays_at_65_535() {
        let mut board = started(2, 0);
        hear(&mut board, &[1]);
        for repeats in 1..=MOST_REPEATS {
            hear(&mut board, &[1]);
            assert_eq!(board.repeats, [0, repeats, 0]);
        }
        hear(&mut board, &[1, 1, 0, 0, 2, 2, 2]);
        assert_eq!(board.repeats, [1, MOST_REPEATS, 2]);
        for _ in 0..MOST_REPEATS {
            hear(&mut board, &[2]);
        }
        hear(&mut board, &[0]);
        assert_eq!(board.repeats, [2, MOST_REPEATS, MOST_REPEATS]);
    }

    /// With one sender, of three or of four, there is no P: it waits however long, and the last close ends the run.
    #[test]
    fn no_p_no_pulse() {
        for count in [2, 3] {
            for senders in [&[][..], &[0], &[1], &[2]] {
                let mut board = started(count, 0);
                hear(&mut board, senders);
                assert_eq!(board.close_many(LAST_READING), Answer::Waits);
                assert_eq!(board.reading, LAST_READING);
                assert_eq!(board.close(), Answer::Done);
                assert_eq!((board.reading, board.stage), (LAST_READING, Stage::Ended));
            }
        }
    }

    /// A repeat before the close that ends the run counts.
    #[test]
    fn nothing_counts_once_it_is_over() {
        let mut pulsed = started(2, 1_000);
        hear(&mut pulsed, &[0, 1, 1]);
        assert_eq!(pulsed.close_many(400), Answer::Waits);
        hear(&mut pulsed, &[1]);
        assert_eq!(pulsed.close(), Answer::Pulses);
        assert_eq!(pulsed.repeats, [0, 2, 0]);
        let mut ended = started(3, 1_000);
        hear(&mut ended, &[3, 3]);
        assert_eq!(ended.close_many(LAST_READING - 1_000), Answer::Waits);
        hear(&mut ended, &[3]);
        assert_eq!(ended.close(), Answer::Done);
        assert_eq!(ended.repeats, [0, 0, 0, 2]);
        for mut over in [pulsed, ended] {
            let held = over.clone();
            hear(&mut over, &[0, 0, 1, 1, 2, 2, 3, 3, 4, u64::MAX]);
            assert_eq!(over.close(), Answer::Done);
            for n in [0, 1, u64::MAX] {
                assert_eq!(over.close_many(n), Answer::Done);
            }
            assert_eq!(over, held);
        }
    }

    /// The stamps of a faulty sender may pass 2^41 - 1, and P + A may be 2^42 - 1 or more.
    #[test]
    fn the_last_reading() {
        // Own at 2^41 - 1 and a neighbour 364 before the last reading: P is 36 before the neighbour, A is 400.
        for (before_last, stage, answer) in [
            (364, Stage::Pulsed, Answer::Pulses),
            (363, Stage::Ended, Answer::Done),
            (0, Stage::Ended, Answer::Done),
        ] {
            let mut board = started(2, LATEST_STAMP);
            hear(&mut board, &[0]);
            let waits = board.close_many(LAST_READING - before_last - LATEST_STAMP);
            assert_eq!(waits, Answer::Waits);
            hear(&mut board, &[1]);
            assert_eq!(board.close_many(before_last), Answer::Waits);
            assert_eq!(board.reading, LAST_READING);
            assert_eq!(board.close(), answer);
            assert_eq!((board.reading, board.stage), (LAST_READING, stage));
        }
    }

    /// From many states, with the end near.
    #[test]
    fn closes_one_by_one() {
        let mut rng = Rng::new(7);
        for _ in 0..2_000 {
            let reading = rng.pick(&[1_000, LAST_READING - 600, LAST_READING]);
            let mut board = started(rng.range(2, 3), 0);
            for stamp in &mut board.stamps {
                let heard = reading - rng.range(0, 800);
                *stamp = rng.pick(&[None, Some(heard)]);
            }
            board.reading = reading;
            let n = rng.range(0, 700);
            let mut single = board.clone();
            let mut answer = Answer::Waits;
            for _ in 0..n {
                if single.stage == Stage::Running {
                    answer = single.close();
                }
            }
            assert_eq!(board.close_many(n), answer);
            assert_eq!(board, single);
        }
    }
}
