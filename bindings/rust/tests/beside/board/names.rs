//! Which answers to calls on running tiles are to come up, by name.

use super::{Answered, Call, Event, Reference, Told};
use crate::Answer;
use polzaintu::board::State;
use wall_reference::board::{LAST_READING, MOST_REPEATS};
use wall_reference::{LATEST_STAMP, SILENT};

/// Each answer by its names.
pub const ANSWERS: [&str; 43] = [
    "a start",
    "1",
    "2",
    "3",
    "4",
    "5",
    "6",
    "7",
    "8",
    "9",
    "11",
    "12",
    "54",
    "a first pulse",
    "a first pulse after 2^41 - 1",
    "a repeat",
    "a repeat that makes 65,535",
    "a repeat that leaves 65,535",
    "a repeat of own",
    "a repeat of the first neighbour",
    "a repeat of the second neighbour",
    "a repeat of the third neighbour",
    "a pulse once it is over",
    "another sender once it is over",
    "a close that waits without P",
    "a close that waits before P + A",
    "a close that pulses",
    "a last close that pulses",
    "a last close that ends the run",
    "a close once it is over",
    "many closes that wait",
    "many closes that pulse",
    "many closes that pulse at the last reading",
    "many closes that end the run",
    "many closes once it is over",
    "no close",
    "no close once it is over",
    "a pulse at P + A",
    "a pulse after P + A",
    "a pulse with own unheard",
    "a pulse with a neighbour unheard",
    "a state that fits",
    "a state that does not fit",
];

impl Answer for Answered {
    type Call = Call;

    fn names(&self, call: &Call) -> Vec<&'static str> {
        let told = match self.told {
            Ok(Told::Started) => return vec!["a start"],
            Ok(Told::Resumed) => return vec!["a state that fits"],
            Ok(Told::Unfit) => return vec!["a state that does not fit"],
            Ok(told) => told,
            Err(number) => return vec![number_name(number)],
        };
        let before = call.before.expect("a start comes first");
        let after = self.state.expect("a start comes first");
        match (call.event, told) {
            (Event::Pulse(sender), _) => pulse_names(&before, sender),
            (Event::CloseMany(n), _) => {
                let mut names = vec![many_name(&before, &after, n, told)];
                names.extend(pulsed_names(&after, told));
                names
            }
            _ => {
                let mut names = vec![close_name(&before, told)];
                names.extend(pulsed_names(&after, told));
                names
            }
        }
    }
}

fn number_name(number: u32) -> &'static str {
    let named = ANSWERS.iter().find(|name| **name == number.to_string());
    named.copied().unwrap_or("another number")
}

fn pulse_names(before: &State, sender: u64) -> Vec<&'static str> {
    let name = match before.stage {
        1.. if sender > before.count => "another sender once it is over",
        1.. => "a pulse once it is over",
        _ if before.stamps[sender as usize] != SILENT => return repeat_names(before, sender),
        _ if before.reading > LATEST_STAMP => "a first pulse after 2^41 - 1",
        _ => "a first pulse",
    };
    vec![name]
}

/// What it makes of its sender's count, and whose it is.
fn repeat_names(before: &State, sender: u64) -> Vec<&'static str> {
    let count = match before.repeats[sender as usize] {
        MOST_REPEATS => "a repeat that leaves 65,535",
        repeats if repeats + 1 == MOST_REPEATS => "a repeat that makes 65,535",
        _ => "a repeat",
    };
    let whose = match sender {
        0 => "a repeat of own",
        1 => "a repeat of the first neighbour",
        2 => "a repeat of the second neighbour",
        _ => "a repeat of the third neighbour",
    };
    vec![count, whose]
}

fn close_name(before: &State, told: Told) -> &'static str {
    match told {
        _ if before.stage != 0 => "a close once it is over",
        Told::Waits if due(before).is_none() => "a close that waits without P",
        Told::Waits => "a close that waits before P + A",
        Told::Pulses if before.reading == LAST_READING => "a last close that pulses",
        Told::Pulses => "a close that pulses",
        _ => "a last close that ends the run",
    }
}

fn many_name(before: &State, after: &State, n: u64, told: Told) -> &'static str {
    match told {
        _ if before.stage != 0 && n == 0 => "no close once it is over",
        _ if before.stage != 0 => "many closes once it is over",
        Told::Waits if n == 0 => "no close",
        Told::Waits => "many closes that wait",
        Told::Pulses if after.reading == LAST_READING => {
            "many closes that pulse at the last reading"
        }
        Told::Pulses => "many closes that pulse",
        _ => "many closes that end the run",
    }
}

/// Of a tile that pulses, whether it is in time, and whom it has not heard.
fn pulsed_names(after: &State, told: Told) -> Vec<&'static str> {
    if told != Told::Pulses {
        return vec![];
    }
    let in_time = due(after) == Some(after.reading.into());
    let mut names = vec![if in_time {
        "a pulse at P + A"
    } else {
        "a pulse after P + A"
    }];
    if after.stamps[0] == SILENT {
        names.push("a pulse with own unheard");
    } else if after.stamps[1..=after.count as usize].contains(&SILENT) {
        names.push("a pulse with a neighbour unheard");
    }
    names
}

/// P + A, where there is a P.
fn due(state: &State) -> Option<i128> {
    Reference::resume(*state).and_then(|tile| tile.board.due())
}
