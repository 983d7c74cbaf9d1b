//! Counts by name, in the order in which they are printed.

use std::collections::BTreeMap;

use wall_reference::file::FileRefused;

/// The numbers that a file can be turned away with.
const REACHABLE: [u8; 19] = [
    1, 2, 3, 4, 5, 6, 7, 8, 9, 22, 24, 25, 26, 41, 42, 43, 44, 45, 53,
];

/// How often each number was met.
#[derive(Default)]
pub struct Refusals(BTreeMap<u8, u64>);

impl Refusals {
    pub fn add(&mut self, refused: FileRefused) {
        *self.0.entry(refused.number).or_default() += 1;
    }

    pub fn print(&self) {
        line("refusals by number", self.0.values().sum());
        for (number, count) in &self.0 {
            line(&format!("  {number:2}"), *count);
        }
    }

    pub fn missing(&self) -> Vec<String> {
        let never = REACHABLE.into_iter().filter(|n| !self.0.contains_key(n));
        never.map(|number| format!("refusal {number}")).collect()
    }
}

/// Prints one count.
pub fn line(name: &str, count: u64) {
    println!("{name:22} {count}");
}
