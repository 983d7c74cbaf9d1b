//! Which answers to row calls are to come up, by name.

use super::{by_reference, wall_of, Answered, Call};
use crate::Answer;
use wall_reference::shape::{are_neighbours, is_marked};

/// Each answer by its names. Those of a written row say which letters it has, whether a tile's time is
/// another than at phase 0, and which tile has its earliest or latest time, where one tile alone has
/// it. Plain tiles are away from the ends and hear correct tiles only.
pub const ANSWERS: [&str; 36] = [
    "earliest in the first tile",
    "earliest in the last tile",
    "earliest inside",
    "earliest after a faulty tile",
    "earliest in the first of eight plain tiles",
    "earliest in the last of eight plain tiles",
    "earliest amid eight plain tiles",
    "latest in the first tile",
    "latest in the last tile",
    "latest inside",
    "latest after a faulty tile",
    "latest in the first of eight plain tiles",
    "latest in the last of eight plain tiles",
    "latest amid eight plain tiles",
    "all tiles at once",
    "letter k",
    "letter e",
    "letter m",
    "letter b",
    "letter l",
    "letter k among eight plain tiles",
    "letter e among eight plain tiles",
    "letter m among eight plain tiles",
    "letter b among eight plain tiles",
    "letter l among eight plain tiles",
    "moved by a phase",
    "moved by a phase among eight plain tiles",
    "21",
    "21 for the phases",
    "21 for the letters",
    "22",
    "23",
    "24",
    "25",
    "53",
    "26",
];

impl Answer for Answered {
    type Call = Call;

    fn names(&self, call: &Call) -> Vec<&'static str> {
        let ends = match &self.ends {
            Ok(ends) => [ends.earliest, ends.latest],
            Err(21) if call.phases.len() != call.settings.columns as usize => {
                return vec!["21", "21 for the phases"]
            }
            Err(21) if call.letters.len() != call.settings.columns as usize => {
                return vec!["21", "21 for the letters"]
            }
            Err(21) => return vec!["21"],
            Err(22) => return vec!["22"],
            Err(23) => return vec!["23"],
            Err(24) => return vec!["24"],
            Err(25) => return vec!["25"],
            Err(53) => return vec!["53"],
            Err(26) => return vec!["26"],
            Err(_) => return vec!["another number"],
        };
        let mut names = Vec::new();
        let together = call.at_phase_0();
        for (column, letter) in self.letters.chars().enumerate() {
            let mut pairs = vec![letter_names(letter)];
            if self.times[column] != together[column] {
                pairs.push([
                    "moved by a phase",
                    "moved by a phase among eight plain tiles",
                ]);
            }
            for [name, among_eight] in pairs {
                names.push(name);
                if call.is_one_of_eight(column) {
                    names.push(among_eight);
                }
            }
        }
        if ends[0] == ends[1] {
            names.push("all tiles at once");
            return names;
        }
        for (which, end) in ends.into_iter().enumerate() {
            let mut tiles = (0..self.times.len()).filter(|&c| self.times[c] == end);
            if let (Some(column), None) = (tiles.next(), tiles.next()) {
                names.extend(call.places(column).iter().map(|place| place[which]));
            }
        }
        names
    }
}

/// The names of a letter, anywhere and among eight plain tiles.
fn letter_names(letter: char) -> [&'static str; 2] {
    match letter {
        'k' => ["letter k", "letter k among eight plain tiles"],
        'e' => ["letter e", "letter e among eight plain tiles"],
        'm' => ["letter m", "letter m among eight plain tiles"],
        'b' => ["letter b", "letter b among eight plain tiles"],
        'l' => ["letter l", "letter l among eight plain tiles"],
        _ => ["no letter", "no letter among eight plain tiles"],
    }
}

impl Call {
    /// The times that an accepted call writes where all its phases are 0.
    fn at_phase_0(&self) -> Vec<u64> {
        let phases = vec![0; self.phases.len()];
        by_reference(&wall_of(self.settings), self, &phases).times
    }

    /// Where a tile stands: pairs of names, one for the earliest there and one for the latest.
    fn places(&self, column: usize) -> Vec<[&'static str; 2]> {
        let last = self.before.len() - 1;
        let mut places = vec![match column {
            0 => ["earliest in the first tile", "latest in the first tile"],
            _ if column == last => ["earliest in the last tile", "latest in the last tile"],
            _ => ["earliest inside", "latest inside"],
        }];
        if self.hears_a_faulty_tile(column) {
            places.push(["earliest after a faulty tile", "latest after a faulty tile"]);
        }
        if self.is_one_of_eight(column) {
            places.push(match column % 8 {
                0 => [
                    "earliest in the first of eight plain tiles",
                    "latest in the first of eight plain tiles",
                ],
                7 => [
                    "earliest in the last of eight plain tiles",
                    "latest in the last of eight plain tiles",
                ],
                _ => [
                    "earliest amid eight plain tiles",
                    "latest amid eight plain tiles",
                ],
            });
        }
        places
    }

    fn hears_a_faulty_tile(&self, column: usize) -> bool {
        let w = self.before.len();
        let hears = |sender| sender == column || are_neighbours(w, column, sender);
        (0..w).any(|sender| is_marked(&self.marks, sender) && hears(sender))
    }

    /// Whether the eight tiles of the column's byte of marks are plain.
    fn is_one_of_eight(&self, column: usize) -> bool {
        let first = column / 8 * 8;
        let away = first > 0 && first + 8 <= self.before.len() - 3;
        away && (first - 1..=first + 8).all(|sender| !is_marked(&self.marks, sender))
    }
}
