//! Damaged files: cut short, too long, wrong tags and lengths, tag 4 in its old form, and random bytes.

use super::describe::{Description, Encoded};
use super::rng::Rng;

/// A damaged file of this wall; now and then the damage leaves it sound.
pub fn damaged(rng: &mut Rng, wall: &Description) -> Vec<u8> {
    let encoded = wall.encode();
    match rng.below(23) {
        0 => Vec::new(),
        1..=2 => cut_anywhere(rng, encoded),
        3..=8 => cut_at_a_field(rng, encoded),
        9..=10 => lengthened(rng, wall, encoded),
        11..=12 => wrong_tag(rng, encoded),
        13..=14 => wrong_length(rng, encoded),
        15 => rows_against_settings(rng, wall),
        16 => field_moved(rng, encoded),
        17 => old_form(rng, wall),
        18..=20 => flipped(rng, encoded),
        21 => random_bytes(rng),
        _ => random_after_settings(rng, encoded),
    }
}

fn cut_anywhere(rng: &mut Rng, mut encoded: Encoded) -> Vec<u8> {
    let length = rng.index(encoded.bytes.len());
    encoded.bytes.truncate(length);
    encoded.bytes
}

/// The range of bytes of a field, tag included.
fn field(encoded: &Encoded, index: usize) -> std::ops::Range<usize> {
    let end = encoded.tags.get(index + 1).copied();
    encoded.tags[index]..end.unwrap_or(encoded.bytes.len())
}

/// Cut before a field, within its three bytes, or within its body; a tag left alone is sometimes
/// another than due.
fn cut_at_a_field(rng: &mut Rng, mut encoded: Encoded) -> Vec<u8> {
    let range = field(&encoded, rng.index(encoded.tags.len()));
    let inside = rng.index(range.len());
    let kept = rng.pick(&[0, 1, 2, 3, 4, range.len() - 1, inside]);
    encoded.bytes.truncate(range.start + kept);
    if kept > 0 && rng.chance(30) {
        encoded.bytes[range.start] ^= rng.pick(&[1, 7, 128]);
    }
    encoded.bytes
}

/// Bytes after the last field: random ones, or one more row.
fn lengthened(rng: &mut Rng, wall: &Description, mut encoded: Encoded) -> Vec<u8> {
    if rng.chance(30) {
        let mut longer = wall.clone();
        longer.rows.push(wall.rows[wall.rows.len() - 1].clone());
        return longer.encode().bytes;
    }
    let random = rng.index(100) + 1;
    let extra = rng.pick(&[1, 2, 3, random]);
    if rng.chance(50) {
        encoded.bytes.resize(encoded.bytes.len() + extra, 0);
    } else {
        encoded.bytes.extend(rng.bytes(extra));
    }
    encoded.bytes
}

fn wrong_tag(rng: &mut Rng, mut encoded: Encoded) -> Vec<u8> {
    let at = field(&encoded, rng.index(encoded.tags.len())).start;
    let random = rng.next_u64() as u8;
    encoded.bytes[at] = rng.pick(&[0, 1, 2, 3, 4, 5, 255, random]);
    if rng.chance(30) {
        // The length is wrong as well, or the rest is missing.
        encoded.bytes[at + 1] ^= 1;
        encoded.bytes.truncate(at + rng.pick(&[1, 2, 3, 4]));
    }
    encoded.bytes
}

fn wrong_length(rng: &mut Rng, mut encoded: Encoded) -> Vec<u8> {
    let range = field(&encoded, rng.index(encoded.tags.len()));
    let length = (range.len() - 3) as u16;
    let random = rng.next_u64() as u16;
    let wrong = [
        length + 1,
        length - 1,
        length.swap_bytes(),
        0,
        u16::MAX,
        random,
    ];
    let wrong = rng.pick(&wrong).to_be_bytes();
    encoded.bytes[range.start + 1..range.start + 3].copy_from_slice(&wrong);
    if rng.chance(30) {
        let inside = rng.index(range.len());
        encoded
            .bytes
            .truncate(range.start + rng.pick(&[3, 4, inside]));
    }
    encoded.bytes
}

/// The settings speak of fewer or more rows or columns than there are.
fn rows_against_settings(rng: &mut Rng, wall: &Description) -> Vec<u8> {
    let mut other = wall.clone();
    match rng.below(4) {
        0 => other.numbers.rows += 1,
        1 => other.numbers.rows -= 1,
        2 => other.numbers.columns += 1,
        _ => other.numbers.columns -= 1,
    }
    other.encode().bytes
}

/// A field left out, doubled, or changed with the next.
fn field_moved(rng: &mut Rng, encoded: Encoded) -> Vec<u8> {
    let mut fields: Vec<&[u8]> = (0..encoded.tags.len())
        .map(|index| &encoded.bytes[field(&encoded, index)])
        .collect();
    let index = rng.index(fields.len() - 1);
    match rng.below(3) {
        0 => drop(fields.remove(index)),
        1 => fields.insert(index, fields[index]),
        _ => fields.swap(index, index + 1),
    }
    fields.concat()
}

/// Tag 4 as it was before there were phases, in all rows or from any row on.
fn old_form(rng: &mut Rng, wall: &Description) -> Vec<u8> {
    let any = rng.index(wall.rows.len());
    wall.encode_old_from(rng.pick(&[0, any])).bytes
}

/// A few bytes, or single bits, changed anywhere.
fn flipped(rng: &mut Rng, mut encoded: Encoded) -> Vec<u8> {
    for _ in 0..rng.pick(&[1, 1, 2, 8]) {
        let at = rng.index(encoded.bytes.len());
        encoded.bytes[at] = if rng.chance(50) {
            encoded.bytes[at] ^ 1 << rng.below(8)
        } else {
            rng.next_u64() as u8
        };
    }
    encoded.bytes
}

fn random_bytes(rng: &mut Rng) -> Vec<u8> {
    let count = rng.spread(0, 2_000) as usize;
    rng.bytes(count)
}

/// Sound settings, or their three bytes alone, and random bytes after them.
fn random_after_settings(rng: &mut Rng, mut encoded: Encoded) -> Vec<u8> {
    let kept = rng.pick(&[3, 27, 30]);
    let count = rng.index(3_000);
    encoded.bytes.truncate(kept);
    encoded.bytes.extend(rng.bytes(count));
    encoded.bytes
}
