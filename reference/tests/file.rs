//! The wall file: the wall of §14.4, printed whole, which refusal comes first where, and where phases stand.

use wall_reference::file::FileRefused;
use wall_reference::print::wallrun;
use wall_reference::{LATEST_START, SILENT};

const PRINTED: &str = "\
t 1 0 1500 k
t 1 1 1500 k
t 1 2 1500 k
t 1 3 1536 l
t 1 4 1500 k
t 1 5 1500 k
s 1 0 1 4097700000000000 0000000000000000
s 1 0 2 4097700000000000 0000000000000000
s 1 1 2 4097700000000000 0000000000000000
s 1 2 3 4097b80000000000 4032000000000000
s 1 3 4 4097b80000000000 c032000000000000
s 1 3 5 4097b80000000000 c032000000000000
s 1 4 5 4097700000000000 0000000000000000
";

// Offsets of the tags in a wall of 6 columns.
const TAG_2: usize = 27;
const ROW_1: usize = TAG_2 + 3 + 48;
const ROW: usize = 4 + 3 + 196;
const TAG_4: usize = 4;

/// Tag 1 for W 6, d 100, u 10, A 400, r 0, h 12, byte by byte.
fn settings_field(rows: u8) -> Vec<u8> {
    vec![
        1, 0, 24, // tag, length
        0, 6, 0, rows, // W, R
        0, 0, 0, 100, // d
        0, 0, 0, 10, // u
        0, 0, 1, 0x90, // A
        0, 0, 0, 0, // r
        0, 0, 0, 12, // h
    ]
}

/// Tag 2 for the times 1000, 1000, 1000, 1080, 1000, 1000.
fn start_field() -> Vec<u8> {
    let mut field = vec![2, 0, 48];
    for low in [
        [3, 0xe8],
        [3, 0xe8],
        [3, 0xe8],
        [4, 0x38],
        [3, 0xe8],
        [3, 0xe8],
    ] {
        field.extend([0, 0, 0, 0, 0, 0]);
        field.extend(low);
    }
    field
}

/// Tags 3 and 4 of a row without marks, drifts and phases, all links 100.
fn row_fields() -> Vec<u8> {
    let mut fields = vec![3, 0, 1, 0];
    fields.extend([4, 0, 196]);
    for links in [3, 3, 4, 4, 3, 3] {
        fields.extend([0, 0, 0, 0, 0, 0]);
        for _ in 0..links {
            fields.extend([0, 0, 0, 0, 0, 0, 0, 100]);
        }
    }
    fields
}

fn wall(rows: u8) -> Vec<u8> {
    let mut file = settings_field(rows);
    file.extend(start_field());
    for _ in 0..rows {
        file.extend(row_fields());
    }
    file
}

fn run(file: &[u8]) -> (String, Option<FileRefused>) {
    let mut out = Vec::new();
    let refused = wallrun(file, &mut out).unwrap();
    (String::from_utf8(out).unwrap(), refused)
}

/// What is printed.
fn print(file: &[u8]) -> String {
    run(file).0
}

/// The number and the offset; nothing but the refusal is printed.
fn refused(file: &[u8]) -> (u8, usize) {
    let (text, refused) = run(file);
    let FileRefused { number, at } = refused.expect("a refusal");
    assert_eq!(text, format!("refused {number} at {at}\n"));
    (number, at)
}

/// The offset of a tile's drift within tag 4's body.
fn drift(tile: usize) -> usize {
    let before: usize = [3, 3, 4, 4, 3, 3][..tile].iter().sum();
    6 * tile + 8 * before
}

/// The offset of a tile's phase.
fn phase(tile: usize) -> usize {
    drift(tile) + 2
}

/// The offset of a link value.
fn link(tile: usize, place: usize) -> usize {
    drift(tile) + 6 + 8 * place
}

fn put(file: &mut [u8], at: usize, value: u64) {
    file[at..at + 8].copy_from_slice(&value.to_be_bytes());
}

fn put_phase(file: &mut [u8], at: usize, value: u32) {
    file[at..at + 4].copy_from_slice(&value.to_be_bytes());
}

/// The body of tag 4 of row 1.
const BODY: usize = ROW_1 + TAG_4 + 3;

#[test]
fn the_wall_printed_whole() {
    assert_eq!(wall(1).len(), ROW_1 + ROW);
    assert_eq!(print(&wall(1)), PRINTED);
    assert_eq!(run(&wall(1)).1, None);
}

#[test]
fn row_1_of_a_longer_wall_is_the_same() {
    let text = print(&wall(2));
    assert!(text.starts_with(PRINTED));
    assert_eq!(text.lines().count(), 26);
    // Tile 3's own stamp is 1636, its neighbours' are 1600, so D is J.
    let row_2 =
        "t 2 0 2000 k\nt 2 1 2000 k\nt 2 2 2000 k\nt 2 3 2012 m\nt 2 4 2000 k\nt 2 5 2000 k\n";
    assert!(text[PRINTED.len()..].starts_with(row_2), "{text}");
}

#[test]
fn the_file_ends_inside_or_before_a_field() {
    let file = wall(1);
    let due = |length: usize| match length {
        0..TAG_2 => 0,
        TAG_2..ROW_1 => TAG_2,
        _ if length < ROW_1 + TAG_4 => ROW_1,
        _ => ROW_1 + TAG_4,
    };
    for length in 0..file.len() {
        assert_eq!(refused(&file[..length]), (43, due(length)), "{length}");
    }
    assert_eq!(print(&[]), "refused 43 at 0\n");
}

#[test]
fn under_three_bytes_are_43_whatever_the_tag() {
    let file = wall(1);
    for at in [0, TAG_2, ROW_1, ROW_1 + TAG_4] {
        for left in 1..=2 {
            let mut cut = file[..at + left].to_vec();
            cut[at] = 99;
            assert_eq!(refused(&cut), (43, at));
        }
        let mut cut = file[..at + 3].to_vec();
        cut[at] = 99;
        assert_eq!(refused(&cut), (41, at), "with three bytes it is 41");
    }
}

#[test]
fn tag_then_length_then_body() {
    let file = wall(1);
    for at in [0, TAG_2, ROW_1, ROW_1 + TAG_4] {
        let mut other = file.clone();
        other[at] = 0;
        other[at + 1] ^= 1;
        assert_eq!(refused(&other), (41, at), "41 before 42");
        other[at] = file[at];
        assert_eq!(refused(&other), (42, at));
        other.truncate(at + 3);
        assert_eq!(refused(&other), (42, at), "42 before a missing body");
        other[at + 1] = file[at + 1];
        assert_eq!(refused(&other), (43, at));
    }
}

#[test]
fn a_body_is_judged_only_once_it_is_there() {
    let mut file = wall(1);
    file[4] = 5; // W
    assert_eq!(refused(&file), (1, 0));
    assert_eq!(refused(&file[..26]), (43, 0));
    assert_eq!(
        refused(&file[..27]),
        (1, 0),
        "before what follows is missed"
    );
    let mut file = wall(1);
    put(&mut file, TAG_2 + 3, LATEST_START + 1);
    assert_eq!(refused(&file), (45, TAG_2));
    assert_eq!(refused(&file[..ROW_1 - 1]), (43, TAG_2));
    assert_eq!(refused(&file[..ROW_1]), (45, TAG_2));
}

#[test]
fn settings_are_refused_at_tag_1() {
    let at = |number: usize| 3 + [0, 2, 4, 8, 12, 16, 20][number];
    // W 0, R 0, d 0, u 101, A 0, r 10,001, h 0, then h 11 and A 191.
    for (number, place, bytes) in [
        (1, 0, vec![0, 0]),
        (2, 1, vec![0, 0]),
        (3, 2, vec![0, 0, 0, 0]),
        (4, 3, vec![0, 0, 0, 101]),
        (5, 4, vec![0, 0, 0, 0]),
        (6, 5, vec![0, 0, 0x27, 0x11]),
        (7, 6, vec![0, 0, 0, 0]),
        (8, 6, vec![0, 0, 0, 11]),
        (9, 4, vec![0, 0, 0, 191]),
    ] {
        let mut file = wall(1);
        file[at(place)..at(place) + bytes.len()].copy_from_slice(&bytes);
        assert_eq!(refused(&file), (number, 0));
    }
}

#[test]
fn row_0_times_at_and_over_the_limit() {
    for (time, taken) in [
        (LATEST_START, true),
        (LATEST_START + 1, false),
        (SILENT, false),
    ] {
        for column in 0..6 {
            let mut file = wall(1);
            put(&mut file, TAG_2 + 3 + 8 * column, time);
            // Also where the first row marks the tile faulty.
            for mark in [0, 1 << column] {
                file[ROW_1 + 3] = mark;
                let number = run(&file).1.map(|refused| refused.number);
                assert_eq!(number, (!taken).then_some(45));
            }
        }
    }
}

#[test]
fn marks_are_judged_with_tag_4_and_at_its_offset() {
    let tag_4 = ROW_1 + TAG_4;
    let mut file = wall(1);
    file[ROW_1 + 3] = 1 << 6;
    assert_eq!(refused(&file), (22, tag_4));
    assert_eq!(refused(&file[..tag_4]), (43, tag_4));
    assert_eq!(refused(&file[..tag_4 + 3]), (43, tag_4));
    file[tag_4 + 2] ^= 1;
    assert_eq!(refused(&file), (42, tag_4));
    file[tag_4] = 3;
    assert_eq!(refused(&file), (41, tag_4));
}

#[test]
fn row_refusals_stand_at_tag_4_in_their_order() {
    let tag_4 = ROW_1 + TAG_4;
    let mut file = wall(1);
    put(&mut file, BODY + link(0, 0), 101);
    assert_eq!(refused(&file), (26, tag_4));
    put_phase(&mut file, BODY + phase(5), 1_000_000);
    assert_eq!(refused(&file), (53, tag_4), "before the 26 in column 0");
    file[BODY + drift(5) + 1] = 1;
    assert_eq!(refused(&file), (25, tag_4), "before the 26 in column 0");
    file[ROW_1 + 3] = 0b001_001; // columns 0 and 3, both predecessors of column 2
    assert_eq!(refused(&file), (24, tag_4));
    file[ROW_1 + 3] |= 1 << 7;
    assert_eq!(refused(&file), (22, tag_4));
}

#[test]
fn silence_from_a_correct_sender_is_26() {
    let mut file = wall(1);
    put(&mut file, BODY + link(2, 0), SILENT);
    assert_eq!(refused(&file), (26, ROW_1 + TAG_4));
    // From column 0 marked faulty it is silence, here to column 2.
    file[ROW_1 + 3] = 1;
    assert!(run(&file).1.is_none());
}

#[test]
fn bytes_after_the_last() {
    for extra in [1, 2, 3, 500] {
        let mut file = wall(1);
        let end = file.len();
        file.resize(end + extra, 3);
        assert_eq!(refused(&file), (44, end), "row 1, the last, is not printed");
    }
    // With two rows, row 1 is printed and row 2 is not.
    let mut file = wall(2);
    let end = file.len();
    file.push(0);
    assert_eq!(print(&file), format!("{PRINTED}refused 44 at {end}\n"));
    // A last row that is refused comes before what follows it.
    file[ROW_1 + 3] = 0b11;
    assert_eq!(refused(&file), (24, ROW_1 + TAG_4));
}

#[test]
fn a_refused_row_leaves_the_row_before_unprinted() {
    let row_2 = ROW_1 + ROW;
    let mut file = wall(3);
    file[row_2 + 3] = 0b11;
    assert_eq!(refused(&file), (24, row_2 + TAG_4));
    assert_eq!(refused(&file[..row_2 + 5]), (43, row_2 + TAG_4));
    let mut file = wall(3);
    file[row_2] = 7;
    assert_eq!(refused(&file), (41, row_2));
    let row_3 = row_2 + ROW;
    let file = wall(3);
    let cut = &file[..row_3 + 2];
    assert_eq!(print(cut), format!("{PRINTED}refused 43 at {row_3}\n"));
}

#[test]
fn a_row_is_printed_with_the_marks_of_the_next() {
    let mut file = wall(2);
    // Column 0 of row 0 and column 3 of row 1 are faulty and send as a correct tile would.
    file[ROW_1 + 3] = 1;
    for tile in 0..3 {
        put(&mut file, BODY + link(tile, 0), 1100);
    }
    let row_2 = ROW_1 + ROW;
    file[row_2 + 3] = 1 << 3;
    for (tile, place) in [(2, 3), (3, 1), (4, 0), (5, 0)] {
        put(&mut file, BODY + ROW + link(tile, place), 1600);
    }
    let marked = PRINTED
        .replace("t 1 3 1536 l", "t 1 3 -")
        .replace(
            "s 1 2 3 4097b80000000000 4032000000000000",
            "s 1 2 3 open right",
        )
        .replace(
            "s 1 3 4 4097b80000000000 c032000000000000",
            "s 1 3 4 open left",
        )
        .replace(
            "s 1 3 5 4097b80000000000 c032000000000000",
            "s 1 3 5 open left",
        );
    let text = print(&file);
    assert!(text.starts_with(&marked), "{text}");
    // Row 2 is the last: all are correct, and all arrivals came at 1600.
    for column in 0..6 {
        assert!(text.contains(&format!("t 2 {column} 2000 k\n")));
    }
    assert!(text.ends_with("s 2 4 5 409f400000000000 0000000000000000\n"));
}

#[test]
fn a_link_stands_at_its_senders_place() {
    // Tile 2 hears 0, 1, 2, 3 in this order, and all pulsed at 1000. Own ten ticks earlier is
    // forwarded ten ticks earlier; a neighbour ten ticks earlier is not felt.
    for (place, time) in [(0, 1500), (1, 1500), (2, 1490), (3, 1500)] {
        let mut file = wall(1);
        put(&mut file, TAG_2 + 3 + 24, 1000);
        put(&mut file, BODY + link(2, place), 90);
        let line = format!("t 1 2 {time} k\n");
        assert!(print(&file).contains(&line), "{place}");
    }
}

/// A wall whose row 0 is even; its clocks drift by 10,000 and have these phases. h is 16.
fn drifting(phases: [u32; 6]) -> Vec<u8> {
    let mut file = wall(1);
    file[21..23].copy_from_slice(&[0x27, 0x10]);
    file[26] = 16;
    put(&mut file, TAG_2 + 3 + 24, 1000);
    for (tile, &value) in phases.iter().enumerate() {
        file[BODY + drift(tile)..][..2].copy_from_slice(&[0x27, 0x10]);
        put_phase(&mut file, BODY + phase(tile), value);
    }
    file
}

#[test]
fn a_phase_stands_after_its_tiles_drift() {
    let text = print(&drifting([0, 39_999, 40_000, 999_999, 0, 40_000]));
    for (column, time) in [1497, 1497, 1496, 1496, 1497, 1496].iter().enumerate() {
        let line = format!("t 1 {column} {time} k\n");
        assert!(text.contains(&line), "{text}");
    }
}

#[test]
fn a_phase_over_the_limit_is_53_at_tag_4() {
    for column in 0..6 {
        for (value, taken) in [(999_999, true), (1_000_000, false), (u32::MAX, false)] {
            let mut phases = [0; 6];
            phases[column] = value;
            let number = run(&drifting(phases))
                .1
                .map(|refused| (refused.number, refused.at));
            assert_eq!(number, (!taken).then_some((53, ROW_1 + TAG_4)));
        }
    }
}

#[test]
fn the_form_without_phases_is_42_at_its_first_tag_4() {
    let mut file = wall(1)[..BODY].to_vec();
    file[BODY - 1] = 172;
    for links in [3, 3, 4, 4, 3, 3] {
        file.extend([0, 0]);
        file.extend([0, 0, 0, 0, 0, 0, 0, 100].repeat(links));
    }
    assert_eq!(file.len(), 257);
    assert_eq!(refused(&file), (42, ROW_1 + TAG_4));
}
