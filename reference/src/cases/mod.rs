//! Named wall files, the same each time, for a program to be run on: every number that a file can be
//! refused with, each place where a file can end, the limits, faults at the edges, and every letter.

pub mod build;
mod contents;
mod faults;
mod framing;
mod letters;
mod settings;

/// A wall file and its name.
#[derive(Clone, Debug)]
pub struct Case {
    /// The file's name.
    pub name: String,
    /// Its bytes.
    pub file: Vec<u8>,
}

impl Case {
    fn new(name: impl Into<String>, file: Vec<u8>) -> Case {
        let mut name = name.into();
        name.push_str(".wall");
        Case { name, file }
    }
}

/// All cases, in their order.
pub fn all() -> Vec<Case> {
    let mut cases = vec![Case::new("printed", build::printed(1).encode().bytes)];
    cases.extend(settings::cases());
    cases.extend(framing::cases());
    cases.extend(contents::cases());
    cases.extend(faults::cases());
    cases.extend(letters::cases());
    cases
}
