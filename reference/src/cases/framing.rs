//! Files cut short before a field or within one, wrong tags and lengths, tag 4 in its old form, and bytes after the
//! last field.

use super::build::printed;
use super::Case;
use crate::generate::describe::Encoded;

/// The fields of a wall of two rows.
const FIELDS: [&str; 6] = [
    "tag-1",
    "tag-2",
    "tag-3",
    "tag-4",
    "last-tag-3",
    "last-tag-4",
];

pub fn cases() -> Vec<Case> {
    let sound = printed(2).encode();
    let mut cases = Vec::new();
    for (index, field) in FIELDS.iter().enumerate() {
        let at = sound.tags[index];
        let next = sound.tags.get(index + 1).copied();
        let end = next.unwrap_or(sound.bytes.len());
        cases.extend(cut(&sound, field, at, end));
        cases.extend(wrong(&sound, field, at));
    }
    cases.extend(after_the_last(&sound));
    cases.extend(marks_and_tiles(&sound));
    cases.extend(old_forms());
    cases
}

fn made(name: String, bytes: &[u8], change: impl FnOnce(&mut Vec<u8>)) -> Case {
    let mut bytes = bytes.to_vec();
    change(&mut bytes);
    Case::new(name, bytes)
}

/// 43, from before the tag to one byte short; two bytes or fewer are 43 whatever the tag.
fn cut(sound: &Encoded, field: &str, at: usize, end: usize) -> Vec<Case> {
    let places = [
        ("before", at),
        ("after-1-byte", at + 1),
        ("after-2-bytes", at + 2),
        ("after-3-bytes", at + 3),
        ("in-body", at + 3 + (end - at - 3) / 2),
        ("one-short", end - 1),
    ];
    let mut cases: Vec<Case> = places
        .iter()
        .map(|&(place, kept)| {
            Case::new(format!("{field}-cut-{place}"), sound.bytes[..kept].to_vec())
        })
        .collect();
    for kept in 1..=2 {
        let name = format!("{field}-wrong-tag-cut-after-{kept}");
        cases.push(made(name, &sound.bytes[..at + kept], |bytes| bytes[at] = 9));
    }
    cases
}

/// 41 before 42 before 43 of the body.
fn wrong(sound: &Encoded, field: &str, at: usize) -> Vec<Case> {
    let bytes = &sound.bytes;
    let short = &bytes[..at + 3];
    vec![
        made(format!("{field}-wrong-tag"), bytes, |b| b[at] ^= 7),
        made(format!("{field}-wrong-tag-no-body"), short, |b| b[at] = 9),
        made(format!("{field}-wrong-length"), bytes, |b| b[at + 2] ^= 1),
        made(format!("{field}-length-256-off"), bytes, |b| b[at + 1] ^= 1),
        made(format!("{field}-wrong-length-no-body"), short, |b| {
            b[at + 2] ^= 1;
        }),
        made(format!("{field}-wrong-tag-and-length"), short, |b| {
            b[at] = 0;
            b[at + 2] ^= 1;
        }),
    ]
}

/// 44, and what comes before it.
fn after_the_last(sound: &Encoded) -> Vec<Case> {
    let bytes = &sound.bytes;
    let row = sound.tags[4]..bytes.len();
    vec![
        Case::new("empty", Vec::new()),
        made("1-byte-more".into(), bytes, |b| b.push(0)),
        made("3-bytes-more".into(), bytes, |b| b.extend([3, 0, 1])),
        made("a-row-more".into(), bytes, |b| b.extend_from_within(row)),
        made("500-bytes-more".into(), bytes, |b| {
            b.resize(b.len() + 500, 255)
        }),
        made("last-row-refused-and-a-byte-more".into(), bytes, |b| {
            b[sound.tags[4] + 3] = 0b11;
            b.push(0);
        }),
    ]
}

/// The marks are judged once tag 4 is there, and at its offset: 41, 42 and 43 of tag 4 come before 22.
fn marks_and_tiles(sound: &Encoded) -> Vec<Case> {
    let (marks, tiles) = (sound.tags[2] + 3, sound.tags[3]);
    let mut stray = sound.bytes.clone();
    stray[marks] = 1 << 6;
    vec![
        Case::new("stray-mark", stray.clone()),
        Case::new("stray-mark-no-tag-4", stray[..tiles].to_vec()),
        Case::new("stray-mark-tag-4-cut", stray[..tiles + 20].to_vec()),
        made("stray-mark-tag-4-wrong".into(), &stray, |b| b[tiles] = 3),
        made("stray-mark-tag-4-length-wrong".into(), &stray, |b| {
            b[tiles + 2] ^= 1;
        }),
    ]
}

/// 42 at the first tag 4 that is as it was before there were phases.
fn old_forms() -> Vec<Case> {
    let old = |name: &str, from: usize| {
        let encoded = printed(2).encode_old_from(from);
        Case::new(name, encoded.bytes)
    };
    vec![old("old-form", 0), old("old-form-second-row", 1)]
}
