//! A wall file by steps: what each step leaves, and every number with its offset.

use crate::common::{letters, refused_settings, settings, FileRow, WallFile};
use crate::common::{END, LAST_TAG_3, LAST_TAG_4, TAG_2, TAG_3, TAG_4};
use polzaintu::row::SILENT;
use polzaintu::wall::{Row, Stage, Wall};
use polzaintu::{Letter, Limits};

const FIELDS: [usize; 6] = [0, TAG_2, TAG_3, TAG_4, LAST_TAG_3, LAST_TAG_4];

/// Takes the next step of a file of which so many bytes are taken.
fn step(wall: &mut Wall, bytes: &[u8], taken: &mut usize) -> Result<Option<Row>, (u32, usize)> {
    let part = &bytes[*taken..bytes.len().min(*taken + wall.due())];
    *taken += part.len();
    wall.step(part)
        .map_err(|refused| (refused.refusal.number(), refused.offset as usize))
}

/// The rows that a file shows, and the number and offset with which it ends, if it does.
fn run(bytes: &[u8]) -> (Vec<Row>, Option<(u32, usize)>) {
    let (mut wall, mut taken, mut shown) = (Wall::new(), 0, Vec::new());
    while wall.stage() != Stage::Ended {
        match step(&mut wall, bytes, &mut taken) {
            Ok(row) => shown.extend(row),
            Err(refused) => {
                assert_eq!((wall.stage(), wall.due()), (Stage::Refused, 0));
                assert!(wall.settings().is_none() && wall.last_row().is_none());
                assert!(wall.last_letters().is_none());
                for part in [&[], bytes] {
                    let again = wall.step(part).unwrap_err();
                    let (number, offset) = (again.refusal.number(), again.offset as usize);
                    assert_eq!((number, offset), refused);
                }
                return (shown, Some(refused));
            }
        }
    }
    (shown, None)
}

fn refused(bytes: &[u8], number: u32, offset: usize) {
    assert_eq!(run(bytes).1, Some((number, offset)));
}

fn changed(change: impl Fn(&mut WallFile)) -> Vec<u8> {
    let mut file = WallFile::small();
    change(&mut file);
    file.bytes()
}

#[test]
fn accepted_wall() {
    let file = WallFile::small();
    let bytes = file.bytes();
    assert_eq!(bytes.len(), END);
    let (mut wall, mut taken) = (Wall::new(), 0);
    assert_eq!((wall.stage(), wall.due()), (Stage::Settings, 27));
    assert!(wall.settings().is_none());

    assert_eq!(step(&mut wall, &bytes, &mut taken), Ok(None));
    assert_eq!((wall.stage(), wall.due()), (Stage::Start, 3 + 48));
    assert_eq!(wall.settings(), Some(settings(file.limits)));
    assert_eq!((wall.last_row(), wall.last_letters()), (None, None));

    assert_eq!(step(&mut wall, &bytes, &mut taken), Ok(None));
    assert_eq!((wall.stage(), wall.due()), (Stage::Row, 4 + 3 + 196));
    assert_eq!(wall.last_row(), Some((0, &file.start[..])));
    assert_eq!(wall.last_letters(), None);

    assert_eq!(step(&mut wall, &bytes, &mut taken), Ok(None));
    let row_1 = [1500, 1500, 1500, 1536, 1500, 1500];
    assert_eq!(wall.last_row(), Some((1, &row_1[..])));
    assert_eq!(wall.last_letters().map(letters).unwrap(), "kkklkk");

    let shown = step(&mut wall, &bytes, &mut taken).unwrap().unwrap();
    assert_eq!(
        (shown.number(), shown.times(), shown.marks()),
        (1, &row_1[..], &[0][..])
    );
    assert_eq!(letters(shown.letters()), "kkklkk");
    assert_eq!((wall.stage(), wall.due()), (Stage::End, 1));
    // Tile 3's own stamp is 1636, its neighbours' are 1600: D is 24, P is 1612.
    let row_2 = [2000, 2000, 2000, 2012, 2000, 2000];
    assert_eq!(wall.last_row(), Some((2, &row_2[..])));
    assert_eq!(wall.last_letters().map(letters).unwrap(), "kkkmkk");

    let shown = step(&mut wall, &bytes, &mut taken).unwrap().unwrap();
    assert_eq!(
        (shown.number(), shown.times(), shown.marks()),
        (2, &row_2[..], &[0][..])
    );
    assert_eq!(letters(shown.letters()), "kkkmkk");
    assert_eq!((wall.stage(), wall.due()), (Stage::Ended, 0));
    assert!(wall.step(&[]).unwrap().is_none());
    assert_eq!((wall.stage(), wall.due()), (Stage::Ended, 0));
}

#[test]
#[should_panic = "longer than is due"]
fn longer_part() {
    let bytes = WallFile::small().bytes();
    let _ = Wall::new().step(&bytes[..28]);
}

#[test]
#[should_panic = "longer than is due"]
fn byte_after_the_end() {
    let bytes = WallFile::small().bytes();
    let (mut wall, mut taken) = (Wall::new(), 0);
    while wall.stage() != Stage::Ended {
        step(&mut wall, &bytes, &mut taken).unwrap();
    }
    let _ = wall.step(&[0]);
}

/// A faulty tile's mark comes with the row after it.
#[test]
fn faulty_tile() {
    let (rows, refused) = run(&changed(|file| file.rows[1].fault(3, SILENT)));
    assert_eq!(refused, None);
    assert_eq!(rows[0].marks(), [1 << 3]);
    assert_eq!(rows[0].times()[3], 1536);
    assert_eq!((rows[0].pulse(2), rows[0].pulse(3)), (Some(1500), None));
    assert_eq!(letters(rows[0].letters()), "kkklkk");
    let shown = (rows[0].letter(2), rows[0].letter(3));
    assert_eq!(shown, (Some(Letter::Kept), None));
    assert_eq!(rows[1].times(), [2000, 2000, 2000, 2036, 2000, 2000]);
    assert_eq!(rows[1].marks(), [0]);
    assert_eq!(rows[1].letter(3), Some(Letter::Late));
}

/// Clocks of drift 10,000 in row 1, with phases, and an even row 0: 1511 is met a tick earlier from
/// phase 40,000 on. In row 2 nothing drifts.
#[test]
fn phases() {
    let (rows, refused) = run(&changed(|file| {
        file.limits = Limits {
            drift: 10_000,
            unit: 16,
            ..file.limits
        };
        file.start.fill(1000);
        file.rows[0].drifts.fill(10_000);
        file.rows[0].phases = [0, 39_999, 40_000, 999_999, 40_000, 39_999];
        file.rows[1].phases.fill(999_999);
    }));
    assert_eq!(refused, None);
    assert_eq!(rows[0].times(), [1497, 1497, 1496, 1496, 1496, 1497]);
    assert_eq!(rows[1].times(), [1997, 1997, 1996, 1996, 1996, 1997]);
}

/// The form of tag 4 before there were phases, of which the length alone is looked at.
#[test]
fn old_form() {
    for tag_4 in [TAG_4, LAST_TAG_4] {
        let mut bytes = WallFile::small().bytes();
        bytes[tag_4 + 2] = 172;
        refused(&bytes, 42, tag_4);
    }
}

#[test]
fn cuts() {
    let bytes = WallFile::small().bytes();
    for length in 0..END {
        let due = FIELDS.iter().rfind(|&&field| field <= length).unwrap();
        refused(&bytes[..length], 43, *due);
    }
}

#[test]
fn wrong_fields() {
    for at in FIELDS {
        let mut bytes = WallFile::small().bytes();
        bytes[at + 2] ^= 1;
        refused(&bytes, 42, at);
        refused(&bytes[..at + 3], 42, at);
        bytes[at] ^= 8;
        refused(&bytes, 41, at);
        refused(&bytes[..at + 2], 43, at);
    }
}

/// The row before the last is known all the same.
#[test]
fn bytes_after() {
    for more in 1..4 {
        let bytes = [WallFile::small().bytes(), vec![3; more]].concat();
        let (rows, refused) = run(&bytes);
        assert_eq!(rows.iter().map(Row::number).collect::<Vec<_>>(), [1]);
        assert_eq!(refused, Some((44, END)));
    }
}

#[test]
fn settings_numbers() {
    for (limits, number) in refused_settings() {
        refused(&changed(|file| file.limits = limits), number, 0);
    }
}

#[test]
fn late_starts() {
    for column in 0..6 {
        let start = |time| changed(|file| file.start[column] = time);
        assert_eq!(run(&start((1 << 39) - 1)).1, None);
        refused(&start(1 << 39), 45, TAG_2);
        refused(&start(u64::MAX), 45, TAG_2);
    }
}

/// Each fault is added to those that come after it; they are judged once tag 4 is there.
#[test]
fn row_numbers() {
    type Fault = fn(&mut FileRow);
    let faults: [(u32, Fault); 6] = [
        (26, |row| row.links[0] = 101),
        (53, |row| row.phases[5] = 1_000_000),
        (53, |row| row.phases[0] = u32::MAX),
        (25, |row| row.drifts[5] = 1),
        (24, |row| row.marks |= 3),
        (22, |row| row.marks |= 0x80),
    ];
    for (place, tag_4) in [TAG_4, LAST_TAG_4].into_iter().enumerate() {
        let mut file = WallFile::small();
        for (number, fault) in faults {
            fault(&mut file.rows[place]);
            refused(&file.bytes(), number, tag_4);
        }
        let mut bytes = file.bytes();
        refused(&bytes[..tag_4 + 3 + 195], 43, tag_4);
        bytes[tag_4 + 2] ^= 1;
        refused(&bytes, 42, tag_4);
        bytes[tag_4] = 3;
        refused(&bytes, 41, tag_4);
    }
}

#[test]
fn late_arrival() {
    let arrival = |tick| changed(|file| file.rows[0].fault(0, tick));
    assert_eq!(run(&arrival((1 << 40) - 1)).1, None);
    refused(&arrival(1 << 40), 26, TAG_4);
}

#[test]
fn most_bytes_due() {
    let bytes = changed(|file| {
        file.limits = Limits {
            width: 256,
            ..file.limits
        }
    });
    let mut wall = Wall::new();
    wall.step(&bytes[..27]).unwrap();
    let start = [&[2, 8, 0][..], &[0; 8 * 256]].concat();
    assert_eq!(wall.due(), start.len());
    wall.step(&start).unwrap();
    assert_eq!(wall.due(), Wall::DUE_MOST);
}
