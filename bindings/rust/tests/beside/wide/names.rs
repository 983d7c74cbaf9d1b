//! Which answers for the first wide seam are to come up, by name.

use super::{seams, Answered, Call};
use crate::Answer;
use polzaintu::seam::Wide;
use wall_reference::LATEST_STAMP;

/// Each answer by its names. A seam is as wide as its times are apart, where it is open too.
pub const ANSWERS: [&str; 36] = [
    "1",
    "2",
    "3",
    "4",
    "5",
    "6",
    "7",
    "8",
    "9",
    "2 to 9 with another length",
    "21 for the times",
    "21 for the marks",
    "21 with a late time",
    "31 in a closed seam",
    "31 in an open seam",
    "31 before a wide seam",
    "none",
    "none, with a gap at the limit",
    "none, with a wide seam that is open left",
    "none, with a wide seam that is open right",
    "none, with open seams only",
    "none, with a late time that is not read",
    "none at 2^41 - 1",
    "none past 2^41 - 1",
    "wide at columns 0 and 1",
    "wide at columns 0 and 2",
    "wide at columns W - 3 and W - 1",
    "wide at columns W - 2 and W - 1",
    "wide at other columns",
    "wide and later on the right",
    "wide and later on the left",
    "wide by one half tick",
    "wide over 0",
    "wide after an open seam as wide",
    "wide before a seam that is turned away",
    "wide with a stray mark",
];

impl Answer for Answered {
    type Call = Call;

    fn names(&self, call: &Call) -> Vec<&'static str> {
        match &self.0 {
            Err(21) => call.lengths(),
            Err(31) => call.turned_away(),
            Err(number) => call.settings_name(*number),
            Ok(None) => call.none(),
            Ok(Some(wide)) => call.wide(wide),
        }
    }
}

/// What a seam is, whatever the others are.
#[derive(Clone, Copy, PartialEq, Eq)]
struct Seam {
    left_faulty: bool,
    right_faulty: bool,
    late: bool,
    gap: u64,
}

impl Seam {
    fn is_closed(self) -> bool {
        !self.left_faulty && !self.right_faulty
    }
}

impl Call {
    fn has_lengths(&self) -> bool {
        let columns = self.settings.columns as usize;
        self.times.len() == columns && self.marks.len() == columns.div_ceil(8)
    }

    fn seam(&self, left: usize, right: usize) -> Seam {
        let late = |column| !self.is_faulty(column) && self.times[column] > LATEST_STAMP;
        Seam {
            left_faulty: self.is_faulty(left),
            right_faulty: self.is_faulty(right),
            late: late(left) || late(right),
            gap: self.gap(left, right),
        }
    }

    /// All seams of a row that has its lengths, in their order.
    fn seams(&self) -> Vec<Seam> {
        let pairs = seams(self.times.len()).into_iter();
        pairs.map(|(left, right)| self.seam(left, right)).collect()
    }

    fn settings_name(&self, number: u32) -> Vec<&'static str> {
        let named = ANSWERS.iter().find(|name| **name == number.to_string());
        let mut names = vec![named.copied().unwrap_or("another number")];
        if number > 1 && !self.has_lengths() {
            names.push("2 to 9 with another length");
        }
        names
    }

    fn lengths(&self) -> Vec<&'static str> {
        let times = self.times.len() != self.settings.columns as usize;
        let mut names = vec![if times {
            "21 for the times"
        } else {
            "21 for the marks"
        }];
        if self.times.iter().any(|&time| time > LATEST_STAMP) {
            names.push("21 with a late time");
        }
        names
    }

    fn turned_away(&self) -> Vec<&'static str> {
        let seams = self.seams();
        let first = seams.iter().position(|seam| seam.late);
        let first = first.expect("31 is for a late time");
        let mut names = vec![if seams[first].is_closed() {
            "31 in a closed seam"
        } else {
            "31 in an open seam"
        }];
        let is_wide = |seam: &Seam| seam.is_closed() && !seam.late && seam.gap > self.limit;
        if seams[first..].iter().any(is_wide) {
            names.push("31 before a wide seam");
        }
        names
    }

    fn none(&self) -> Vec<&'static str> {
        let mut names = vec!["none"];
        let seams = self.seams();
        for seam in &seams {
            match (seam.left_faulty, seam.right_faulty) {
                (false, false) if seam.gap == self.limit => {
                    names.push("none, with a gap at the limit");
                }
                (true, false) if seam.gap > self.limit => {
                    names.push("none, with a wide seam that is open left");
                }
                (false, true) if seam.gap > self.limit => {
                    names.push("none, with a wide seam that is open right");
                }
                _ => {}
            }
        }
        if !seams.iter().any(|seam| seam.is_closed()) {
            names.push("none, with open seams only");
        }
        if self.times.iter().any(|&time| time > LATEST_STAMP) {
            names.push("none, with a late time that is not read");
        }
        match self.limit {
            LATEST_STAMP => names.push("none at 2^41 - 1"),
            limit if limit > LATEST_STAMP => names.push("none past 2^41 - 1"),
            _ => {}
        }
        names
    }

    fn wide(&self, wide: &Wide) -> Vec<&'static str> {
        let (left, right, width) = (wide.left, wide.right, self.times.len());
        let mut names = vec![match (left, width - right) {
            (0, _) if right == 1 => "wide at columns 0 and 1",
            (0, _) => "wide at columns 0 and 2",
            (_, 1) if right - left == 2 => "wide at columns W - 3 and W - 1",
            (_, 1) => "wide at columns W - 2 and W - 1",
            _ => "wide at other columns",
        }];
        names.push(if self.times[left] < self.times[right] {
            "wide and later on the right"
        } else {
            "wide and later on the left"
        });
        if wide.half_ticks == self.limit + 1 {
            names.push("wide by one half tick");
        }
        if self.limit == 0 {
            names.push("wide over 0");
        }
        let place = seams(width).iter().position(|&pair| pair == (left, right));
        let all = self.seams();
        let (before, after) = all.split_at(place.expect("a seam of the row"));
        if before.iter().any(|seam| seam.gap >= wide.half_ticks) {
            names.push("wide after an open seam as wide");
        }
        if after.iter().any(|seam| seam.late) {
            names.push("wide before a seam that is turned away");
        }
        if (width..8 * self.marks.len()).any(|bit| self.is_faulty(bit)) {
            names.push("wide with a stray mark");
        }
        names
    }
}
