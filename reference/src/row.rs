//! One row (§7.1 to §7.6, §E3.4, §E4.2, §E4.3) from the row before, with refusals 21 to 26 and 53.

use crate::clock::Clock;
use crate::rule::Answer;
use crate::settings::Settings;
use crate::shape::{is_marked, Shape};
use crate::tile::{tile, Stamps};
use crate::{refuse_if, Refused, Tick, LARGEST_PHASE, LATEST_ARRIVAL, SILENT};

/// What a row call is lent to read.
#[derive(Clone, Copy, Debug)]
pub struct Lent<'a> {
    /// W times of the row before; a faulty tile's is not read.
    pub before: &'a [u64],
    /// The fault marks of the row before, one bit a column.
    pub marks: &'a [u8],
    /// W drifts.
    pub drifts: &'a [u16],
    /// W phases.
    pub phases: &'a [u32],
    /// The link values of each tile, its senders ascending: the link's delay where the sender is correct,
    /// an arrival or silence where it is faulty.
    pub links: &'a [u64],
}

impl Lent<'_> {
    /// The clock of the tile in `column`.
    fn clock(&self, column: usize) -> Clock {
        Clock {
            drift: self.drifts[column].into(),
            phase: self.phases[column].into(),
        }
    }
}

/// The earliest and the latest time of a written row, over all W tiles.
#[derive(Clone, Copy, Debug, PartialEq, Eq)]
pub struct Ends {
    /// The earliest time.
    pub earliest: u64,
    /// The latest time.
    pub latest: u64,
}

/// A wall: its settings and the tables of its shape.
#[derive(Clone, Debug)]
pub struct Wall {
    settings: Settings,
    shape: Shape,
}

impl Wall {
    /// The wall of checked settings, which are checked again.
    pub fn new(settings: Settings) -> Result<Wall, Refused> {
        settings.check()?;
        let shape = Shape::new(settings.columns());
        Ok(Wall { settings, shape })
    }

    /// The wall's settings.
    pub fn settings(&self) -> &Settings {
        &self.settings
    }

    /// The wall's shape.
    pub fn shape(&self) -> &Shape {
        &self.shape
    }

    /// The row operation: writes the row's times and letters, W of each, or answers the first number that
    /// applies over the whole row and leaves both as they were.
    pub fn row(&self, lent: &Lent, times: &mut [u64], letters: &mut [u8]) -> Result<Ends, Refused> {
        self.check(lent, times.len(), letters.len())?;
        for column in 0..self.shape.columns() {
            let answer = self.answer(lent, column);
            times[column] = self.time(&answer, &lent.clock(column));
            letters[column] = answer.letter.byte();
        }
        Ok(Ends {
            earliest: *times.iter().min().expect("a row has tiles"),
            latest: *times.iter().max().expect("a row has tiles"),
        })
    }

    /// The row's refusals, each judged over the whole row before the next: 53 after 25 and before 26, the others as
    /// they rise. `times` and `letters` are the lengths of what is lent to write.
    fn check(&self, lent: &Lent, times: usize, letters: usize) -> Result<(), Refused> {
        let w = self.shape.columns();
        self.settings.check()?;
        refuse_if(!self.lengths_are_right(lent, times, letters), 21)?;

        let faulty = |column: usize| is_marked(lent.marks, column);
        let stray_mark = (w..8 * lent.marks.len()).any(faulty);
        refuse_if(stray_mark, 22)?;

        let too_late = (0..w).any(|c| !faulty(c) && lent.before[c] > LATEST_ARRIVAL);
        refuse_if(too_late, 23)?;

        let two_faulty = (0..w).any(|c| self.faulty_predecessors(lent, c) >= 2);
        refuse_if(two_faulty, 24)?;

        let over_limit = (lent.drifts.iter()).any(|&p| Tick::from(p) > self.settings.r());
        refuse_if(over_limit, 25)?;

        let a_reading_or_more = lent.phases.iter().any(|&q| q > LARGEST_PHASE);
        refuse_if(a_reading_or_more, 53)?;

        let mut links = (0..w).flat_map(|c| self.shape.links_of(c));
        let not_admitted = links.any(|(sender, at)| !self.link_is_admitted(lent, sender, at));
        refuse_if(not_admitted, 26)
    }

    fn lengths_are_right(&self, lent: &Lent, times: usize, letters: usize) -> bool {
        let w = self.shape.columns();
        lent.before.len() == w
            && lent.marks.len() == self.shape.mark_bytes()
            && lent.drifts.len() == w
            && lent.phases.len() == w
            && lent.links.len() == self.shape.links()
            && times == w
            && letters == w
    }

    /// How many predecessors of a tile are marked: their marks as bits of a byte, of which the ones are counted.
    fn faulty_predecessors(&self, lent: &Lent, column: usize) -> u32 {
        let predecessors = self.shape.predecessors(column).iter();
        let gathered = predecessors.fold(0u8, |byte, &sender| {
            byte << 1 | u8::from(is_marked(lent.marks, sender))
        });
        gathered.count_ones()
    }

    /// Number 26 for the link value at place `at`, judged by the sender's mark.
    fn link_is_admitted(&self, lent: &Lent, sender: usize, at: usize) -> bool {
        let value = lent.links[at];
        if is_marked(lent.marks, sender) {
            value <= LATEST_ARRIVAL || value == SILENT
        } else {
            let (d, u) = (self.settings.d(), self.settings.u());
            (d - u..=d).contains(&Tick::from(value))
        }
    }

    /// What the tile in `column` answers, for a lent row that is accepted.
    fn answer(&self, lent: &Lent, column: usize) -> Answer {
        let stamps = self.stamps(lent, column);
        tile(&self.settings, &stamps).expect("an accepted row admits each tile")
    }

    /// When a tile of this clock pulses: at the first tick at which it reads P + A or more.
    fn time(&self, answer: &Answer, clock: &Clock) -> u64 {
        let t = clock.first_tick(answer.p + self.settings.a());
        u64::try_from(t).expect("a time fits 64 bits")
    }

    /// The stamps of the tile in `column`, for a lent row that is accepted.
    pub fn stamps(&self, lent: &Lent, column: usize) -> Stamps {
        let mut stamps = Stamps {
            own: None,
            neighbours: [None; 3],
            count: 0,
        };
        let clock = lent.clock(column);
        for (sender, at) in self.shape.links_of(column) {
            let arrival = arrival(lent, sender, lent.links[at]);
            let stamp = arrival.map(|t| clock.reading(t));
            if sender == column {
                stamps.own = stamp;
            } else {
                stamps.neighbours[stamps.count] = stamp;
                stamps.count += 1;
            }
        }
        stamps
    }
}

/// The true tick at which the pulse on a link arrives, `None` where the link is silent.
fn arrival(lent: &Lent, sender: usize, value: u64) -> Option<Tick> {
    if !is_marked(lent.marks, sender) {
        Some(Tick::from(lent.before[sender]) + Tick::from(value))
    } else if value == SILENT {
        None
    } else {
        Some(value.into())
    }
}

#[cfg(test)]
mod tests {
    use super::*;
    use crate::cases::build::PRINTED;
    use crate::settings::Numbers;

    const W: usize = 11;

    /// A row of eleven columns, all at 1000, drifts and phases 0, links 100, nobody marked.
    struct Case {
        wall: Wall,
        before: Vec<u64>,
        marks: Vec<u8>,
        drifts: Vec<u16>,
        phases: Vec<u32>,
        links: Vec<u64>,
    }

    impl Case {
        fn new() -> Case {
            let numbers = Numbers {
                columns: W as u32,
                drift_limit: 10_000,
                unit: 16,
                ..PRINTED
            };
            let wall = Wall::new(Settings::new(numbers).unwrap()).unwrap();
            Case {
                before: vec![1000; W],
                marks: vec![0; 2],
                drifts: vec![0; W],
                phases: vec![0; W],
                links: vec![100; wall.shape().links()],
                wall,
            }
        }

        fn mark(&mut self, column: usize) {
            self.marks[column / 8] |= 1 << (column % 8);
        }

        /// Sets the link value from `sender` to `tile`.
        fn link(&mut self, tile: usize, sender: usize, value: u64) {
            let mut links = self.wall.shape().links_of(tile);
            let (_, at) = links.find(|&(s, _)| s == sender).unwrap();
            drop(links);
            self.links[at] = value;
        }

        fn lent(&self) -> Lent<'_> {
            Lent {
                before: &self.before,
                marks: &self.marks,
                drifts: &self.drifts,
                phases: &self.phases,
                links: &self.links,
            }
        }

        /// The written times and letters, or the number; a refusal must leave both lent rows as they were.
        fn both(&self) -> Result<(Vec<u64>, String), u8> {
            let (mut times, mut letters) = (vec![77; W], vec![88; W]);
            match self.wall.row(&self.lent(), &mut times, &mut letters) {
                Ok(ends) => {
                    assert_eq!(Some(&ends.earliest), times.iter().min());
                    assert_eq!(Some(&ends.latest), times.iter().max());
                    Ok((times, String::from_utf8(letters).unwrap()))
                }
                Err(Refused(number)) => {
                    assert_eq!((&times[..], &letters[..]), (&[77; W][..], &[88; W][..]));
                    Err(number)
                }
            }
        }

        /// The written times, or the number.
        fn run(&self) -> Result<Vec<u64>, u8> {
            self.both().map(|(times, _)| times)
        }

        /// The written letters.
        fn letters(&self) -> String {
            self.both().unwrap().1
        }
    }

    #[test]
    fn a_quiet_row() {
        assert_eq!(Case::new().run(), Ok(vec![1500; W]));
        assert_eq!(Case::new().letters(), "k".repeat(W));
    }

    #[test]
    fn a_drift_scales_stamps_and_hold() {
        let mut case = Case::new();
        case.drifts[5] = 10_000;
        // All arrivals at 1100 read 1111; 1511 is first met at 1497.
        assert_eq!(case.run().unwrap()[5], 1497);
        assert_eq!(case.run().unwrap()[4], 1500);
    }

    /// When a tile of drift 10,000 pulses that hears all at `arrival`; A is 400.
    fn pulse(arrival: u64, phase: u32) -> u64 {
        let mut case = Case::new();
        case.before.fill(arrival - 100);
        case.drifts[5] = 10_000;
        case.phases[5] = phase;
        case.run().unwrap()[5]
    }

    #[test]
    fn a_phase_counts_in_stamps_and_in_the_pulse() {
        // 1100 reads 1111 at every phase; 1496 lacks 0.04 of 1511.
        for (phase, time) in [(0, 1497), (39_999, 1497), (40_000, 1496), (999_999, 1496)] {
            assert_eq!(pulse(1100, phase), time, "phase {phase}");
        }
        // 1099 lacks 0.01 of 1110. From there on 1510 is waited for, in place of 1509; 1495 lacks 0.05 of it.
        for (phase, time) in [
            (0, 1495),
            (9_999, 1495),
            (10_000, 1496),
            (49_999, 1496),
            (50_000, 1495),
            (999_999, 1495),
        ] {
            assert_eq!(pulse(1099, phase), time, "phase {phase}");
        }
    }

    #[test]
    fn two_tiles_alike_but_for_the_phase_pulse_a_tick_apart() {
        let mut case = Case::new();
        case.drifts.fill(10_000);
        for column in (1..W).step_by(2) {
            case.phases[column] = 40_000;
        }
        let due: Vec<u64> = (0..W as u64).map(|column| 1497 - column % 2).collect();
        assert_eq!(case.run(), Ok(due));
    }

    #[test]
    fn without_drift_no_phase_is_felt() {
        for phase in [1, 500_000, 999_999] {
            let mut case = Case::new();
            case.before[5] = 1080;
            let due = case.both();
            case.phases.fill(phase);
            assert_eq!(case.both(), due);
        }
    }

    /// Own at 1115 lacks 0.85 of a reading of 1127, which is h after the neighbours' 1111.
    #[test]
    fn a_phase_can_decide_the_letter() {
        for (phase, letter) in [(0, 'k'), (849_999, 'k'), (850_000, 'm'), (999_999, 'm')] {
            let mut case = Case::new();
            case.before[5] = 1015;
            case.drifts[5] = 10_000;
            case.phases[5] = phase;
            assert_eq!(case.letters().chars().nth(5), Some(letter), "phase {phase}");
        }
    }

    #[test]
    fn lengths() {
        for lent in 0..5 {
            for longer in [false, true] {
                let mut case = Case::new();
                case.before[0] = u64::MAX; // 23, after 21
                fn resize<T: Clone>(row: &mut Vec<T>, fill: T, longer: bool) {
                    let length = if longer { row.len() + 1 } else { row.len() - 1 };
                    row.resize(length, fill);
                }
                match lent {
                    0 => resize(&mut case.before, 0, longer),
                    1 => resize(&mut case.marks, 0xff, longer),
                    2 => resize(&mut case.drifts, 0, longer),
                    3 => resize(&mut case.phases, 0, longer),
                    _ => resize(&mut case.links, 0, longer),
                }
                assert_eq!(case.run(), Err(21));
            }
        }
        let case = Case::new();
        for length in [0, W - 1, W + 1] {
            for (w, other) in [(length, W), (W, length)] {
                let (mut times, mut letters) = (vec![5; w], vec![6; other]);
                let refused = case.wall.row(&case.lent(), &mut times, &mut letters);
                assert_eq!(refused, Err(Refused(21)));
                assert_eq!((times, letters), (vec![5; w], vec![6; other]));
            }
        }
    }

    #[test]
    fn a_mark_past_the_last_column() {
        for column in W..16 {
            let mut case = Case::new();
            case.mark(column);
            assert_eq!(case.run(), Err(22));
        }
        let mut case = Case::new();
        case.mark(W - 1);
        assert!(case.run().is_ok());
    }

    #[test]
    fn a_correct_time_over_the_limit_and_a_faulty_time_unread() {
        let mut case = Case::new();
        case.before[4] = LATEST_ARRIVAL;
        assert!(case.run().is_ok());
        case.before[4] = LATEST_ARRIVAL + 1;
        assert_eq!(case.run(), Err(23));
        case.mark(4);
        case.link(4, 4, 1100);
        case.link(3, 4, 1100);
        case.link(5, 4, 1100);
        for unread in [0, LATEST_ARRIVAL + 1, u64::MAX] {
            case.before[4] = unread;
            assert_eq!(case.run(), Ok(vec![1500; W]));
        }
    }

    #[test]
    fn two_faulty_predecessors() {
        for a in 0..W {
            for b in a + 1..W {
                let mut case = Case::new();
                case.mark(a);
                case.mark(b);
                let near = b - a <= 2 || (a, b) == (0, 3) || (a, b) == (W - 4, W - 1);
                assert_eq!(case.run().is_err(), near, "{a} {b}");
                if near {
                    assert_eq!(case.run(), Err(24));
                }
            }
        }
    }

    #[test]
    fn a_phase_at_and_past_its_limit() {
        for column in 0..W {
            for (phase, taken) in [
                (999_999, true),
                (1_000_000, false),
                (1_000_001, false),
                (1 << 31, false),
                (u32::MAX, false),
            ] {
                let mut case = Case::new();
                case.phases[column] = phase;
                let number = case.run().err();
                assert_eq!(number, (!taken).then_some(53), "{phase} in {column}");
            }
        }
    }

    #[test]
    fn a_53_comes_after_25_and_before_26_whatever_the_columns() {
        for phase in [0, W - 1] {
            for other in [0, W - 1] {
                let mut case = Case::new();
                case.phases[phase] = 1_000_000;
                case.link(other, other, 101);
                assert_eq!(case.run(), Err(53), "{phase}, 26 in {other}");
                case.drifts[other] = 10_001;
                assert_eq!(case.run(), Err(25), "{phase}, 25 in {other}");
            }
        }
    }

    #[test]
    fn drifts_phases_and_links_over_the_whole_row() {
        let mut case = Case::new();
        case.link(0, 0, 101);
        assert_eq!(case.run(), Err(26));
        case.phases[W - 1] = 1_000_000;
        assert_eq!(case.run(), Err(53), "before the 26 in column 0");
        case.drifts[W - 1] = 10_001;
        assert_eq!(case.run(), Err(25), "before the 26 in column 0");
        case.mark(5);
        case.mark(6);
        assert_eq!(case.run(), Err(24));
        case.before[10] = LATEST_ARRIVAL + 1;
        assert_eq!(case.run(), Err(23));
        case.mark(15);
        assert_eq!(case.run(), Err(22));
        case.links.pop();
        assert_eq!(case.run(), Err(21));
    }

    #[test]
    fn a_delay_at_and_past_its_limits() {
        let places = Case::new().links.len();
        for at in 0..places {
            for (value, taken) in [
                (89, false),
                (90, true),
                (100, true),
                (101, false),
                (0, false),
                (SILENT, false),
            ] {
                let mut case = Case::new();
                case.links[at] = value;
                let number = case.run().err();
                assert_eq!(number, (!taken).then_some(26));
            }
        }
    }

    #[test]
    fn a_faulty_arrival_at_and_past_its_limit() {
        for column in [0, 1, 2, 5, W - 3, W - 2, W - 1] {
            for (value, taken) in [
                (0, true),
                (LATEST_ARRIVAL, true),
                (LATEST_ARRIVAL + 1, false),
                (SILENT - 1, false),
                (SILENT, true),
            ] {
                for tile in 0..W {
                    let mut case = Case::new();
                    if !case.wall.shape().predecessors(tile).contains(&column) {
                        continue;
                    }
                    case.mark(column);
                    case.link(tile, column, value);
                    let number = case.run().err();
                    assert_eq!(number, (!taken).then_some(26), "{column} to {tile}");
                }
            }
        }
    }

    #[test]
    fn a_faulty_arrival_is_a_true_tick_stamped_by_the_receiver() {
        let mut case = Case::new();
        case.mark(5);
        case.drifts[4] = 10_000;
        case.link(4, 5, 2_000);
        let stamps = case.wall.stamps(&case.lent(), 4);
        assert_eq!(stamps.own, Some(1111));
        assert_eq!(stamps.neighbours, [Some(1111), Some(2020), None]);
        assert_eq!(stamps.count, 2);
        case.phases[4] = 999_999;
        case.link(4, 5, 2_001);
        let stamps = case.wall.stamps(&case.lent(), 4);
        assert_eq!(stamps.own, Some(1111));
        assert_eq!(stamps.neighbours, [Some(1111), Some(2022), None]);
    }

    #[test]
    fn silence_from_a_faulty_sender() {
        let mut case = Case::new();
        case.mark(5);
        case.before[4] = 1010;
        for tile in 4..=6 {
            case.link(tile, 5, SILENT);
        }
        let (row, letters) = case.both().unwrap();
        // Own silent: the latest neighbour's stamp 1110, 3h = 48 and the hold.
        assert_eq!(row[5], 1110 + 48 + 400);
        // A silent neighbour: own, being later than the other less 3h.
        assert_eq!((row[4], row[6]), (1510, 1500));
        assert_eq!(letters, "kkkkklkkkkk");
    }

    /// h is 16 and J is 33. All others pulse at 1000, so D is the column's own time less 1016.
    #[test]
    fn letters_by_column() {
        for (own, letter) in [
            (951, 'e'),
            (952, 'k'),
            (1_015, 'k'),
            (1_016, 'm'),
            (1_049, 'm'),
            (1_050, 'b'),
            (1_081, 'b'),
            (1_082, 'l'),
        ] {
            for column in 0..W {
                let mut case = Case::new();
                case.before[column] = own;
                let letters: Vec<char> = case.letters().chars().collect();
                assert_eq!(letters[column], letter, "own {own} column {column}");
            }
        }
    }

    #[test]
    fn a_letter_is_what_the_tile_answers() {
        let mut case = Case::new();
        case.before = vec![
            1000, 1080, 1016, 940, 1000, 1050, 1000, 1000, 1090, 1049, 1000,
        ];
        case.drifts[3] = 10_000;
        case.mark(7);
        for (tile, value) in [(6, SILENT), (7, SILENT), (8, 1_200)] {
            case.link(tile, 7, value);
        }
        let lent = case.lent();
        let tiles = (0..W).map(|column| {
            let stamps = case.wall.stamps(&lent, column);
            tile(case.wall.settings(), &stamps).unwrap().letter
        });
        let tiles: String = tiles.map(|letter| letter.to_string()).collect();
        assert_eq!(tiles, "kbbebbelbme");
        assert_eq!(case.letters(), tiles);
    }

    #[test]
    fn the_settings_are_checked_again() {
        let bad = Settings::unchecked(Numbers { rows: 0, ..PRINTED });
        assert_eq!(Wall::new(bad).map(|_| ()), Err(Refused(2)));
        let mut case = Case::new();
        case.wall.settings = bad;
        case.links.pop();
        assert_eq!(case.run(), Err(2));
    }
}
