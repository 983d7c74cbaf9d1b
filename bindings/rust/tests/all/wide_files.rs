//! The first wide seam of a wall file: what comes before it, and how much is read.

use crate::common::{WallFile, END, LAST_TAG_3, LAST_TAG_4, PRINTED, TAG_2};
use crate::reader::Halting;
use polzaintu::row::SILENT;
use polzaintu::wall::{Error, Reader, Wide, WideSeam};
use polzaintu::Limits;
use std::io::Read;

/// The answer with a refusal as its number and offset.
type Found = Result<Option<WideSeam>, (u32, usize)>;

fn found<R: Read>(reader: Reader<R>, limit: u64) -> Found {
    reader.first_wide(limit).map_err(|error| match error {
        Error::Refused(refused) => (refused.refusal.number(), refused.offset as usize),
        Error::Read(error) => panic!("{error}"),
    })
}

fn first(bytes: &[u8], limit: u64) -> Found {
    found(Reader::new(bytes), limit)
}

/// The seam of columns 2 and 3, which is the first that tile 3 makes wide.
fn wide(row: u64, half_ticks: u64) -> Found {
    let (left, right) = (2, 3);
    let seam = Wide {
        left,
        right,
        half_ticks,
    };
    Ok(Some(WideSeam { row, seam }))
}

/// The printed wall. Row 0, with a gap of 80, is not shown.
fn printed() -> Vec<u8> {
    let mut file = WallFile::small();
    file.limits = PRINTED;
    file.rows.pop();
    file.bytes()
}

/// The small wall with tile 3 of row 1 faulty, and silent. So row 1 has no wide seam, and row 2, in
/// which tile 3 is late, one of 36.
fn faulty() -> Vec<u8> {
    let mut file = WallFile::small();
    file.rows[1].fault(3, SILENT);
    file.bytes()
}

/// The small wall as it begins where R is 3: rows 1 and 2, and the third is missing.
fn begun() -> Vec<u8> {
    let mut file = WallFile::small();
    file.limits.rows = 3;
    file.bytes()
}

#[test]
fn limits() {
    assert_eq!(first(&printed(), 35), wide(1, 36));
    assert_eq!(first(&printed(), 36), Ok(None));
    let small = WallFile::small().bytes();
    for limit in [0, 11, 12, 35] {
        assert_eq!(first(&small, limit), wide(1, 36));
    }
    for limit in [36, 1 << 42, u64::MAX] {
        assert_eq!(first(&small, limit), Ok(None));
    }
    assert_eq!(first(&faulty(), 35), wide(2, 36));
    assert_eq!(first(&faulty(), 36), Ok(None));
}

/// A refusal comes before the seams of the row that it leaves unknown.
#[test]
fn refusals_before() {
    let number_1 = WallFile {
        limits: Limits {
            width: 5,
            ..PRINTED
        },
        ..WallFile::small()
    };
    assert_eq!(first(&number_1.bytes(), 0), Err((1, 0)));
    assert_eq!(first(&[], 0), Err((43, 0)));

    let small = WallFile::small().bytes();
    for (length, offset) in [
        (TAG_2 + 9, TAG_2),
        (LAST_TAG_3, LAST_TAG_3),
        (LAST_TAG_4, LAST_TAG_4),
        (END - 1, LAST_TAG_4),
    ] {
        assert_eq!(first(&small[..length], 0), Err((43, offset)));
    }
    let mut file = WallFile::small();
    file.rows[1].drifts[5] = 1;
    assert_eq!(first(&file.bytes(), 0), Err((25, LAST_TAG_4)));
}

/// 44 comes before the seams of the last row, and after those of any other.
#[test]
fn bytes_after_the_end() {
    for (file, limit, due) in [
        (printed(), 0, Err((44, LAST_TAG_3))),
        (faulty(), 0, Err((44, END))),
        (WallFile::small().bytes(), 35, wide(1, 36)),
        (WallFile::small().bytes(), 36, Err((44, END))),
    ] {
        assert_eq!(first(&[file, vec![0]].concat(), limit), due);
    }
}

/// Once it is found, what follows is neither judged nor read.
#[test]
fn nothing_after_the_answer() {
    let bytes = begun();
    assert_eq!(bytes.len(), END);
    let garbage = [&bytes[..], &[9; 300]].concat();
    for file in [&bytes, &garbage] {
        let mut rest = &file[..];
        assert_eq!(found(Reader::new(&mut rest), 35), wide(1, 36));
        assert_eq!(rest.len(), file.len() - END);
    }
    assert_eq!(first(&bytes, 36), Err((43, END)));
    assert_eq!(first(&garbage, 36), Err((41, END)));

    // A byte at a time, and a read after these fails.
    assert_eq!(
        found(Reader::new(Halting::new(&bytes, true)), 35),
        wide(1, 36)
    );
    let failed = Reader::new(Halting::new(&bytes, true)).first_wide(36);
    assert!(matches!(failed, Err(Error::Read(_))));
}

/// The bytes that are left unread, where a file of R 2 has more than it should.
#[test]
fn no_byte_before_it_is_due() {
    let file = [WallFile::small().bytes(), vec![0; 100]].concat();
    for (limit, taken) in [(35, END), (36, END + 1)] {
        let mut rest = &file[..];
        let _ = found(Reader::new(&mut rest), limit);
        assert_eq!(file.len() - rest.len(), taken);
    }
    let mut rest = &file[..END];
    assert_eq!(found(Reader::new(&mut rest), 36), Ok(None));
    assert!(rest.is_empty());
}

/// Settings and row 0 may be asked for before; rows that were yielded are passed over, and a file
/// that is over stays so.
#[test]
fn after_other_questions() {
    let small = WallFile::small().bytes();
    let mut reader = Reader::new(&small[..]);
    assert!(reader.settings().is_ok() && reader.start().is_ok());
    assert_eq!(found(reader, 35), wide(1, 36));

    for (read, limit, due) in [
        (1, 11, wide(2, 12)),
        (1, 12, Ok(None)),
        (2, 0, Ok(None)),
        (3, 0, Ok(None)),
    ] {
        let mut reader = Reader::new(&small[..]);
        reader.by_ref().take(read).for_each(drop);
        assert_eq!(found(reader, limit), due);
    }

    let cut = &small[..LAST_TAG_4];
    let mut reader = Reader::new(cut);
    assert!(reader.next().unwrap().is_err());
    assert_eq!(found(reader, 0), Err((43, LAST_TAG_4)));
    let mut reader = Reader::new(Halting::new(cut, true));
    assert!(reader.next().unwrap().is_err());
    assert!(matches!(reader.first_wide(0), Err(Error::Read(_))));
}

/// A row gives the first of its own seams.
#[test]
fn rows() {
    let bytes = faulty();
    let rows: Vec<_> = Reader::new(&bytes[..]).map(Result::unwrap).collect();
    let seam = |row: usize, limit| rows[row].first_wide(limit);
    assert_eq!(seam(0, 0), None);
    let wide = Wide {
        left: 2,
        right: 3,
        half_ticks: 36,
    };
    assert_eq!((seam(1, 35), seam(1, 36)), (Some(wide), None));
}
