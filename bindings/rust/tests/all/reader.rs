//! The reader: bytes that come in pieces, and a read that fails, which is no refusal.

use crate::common::{letters, settings, WallFile, LAST_TAG_4, TAG_2};
use polzaintu::reach::{widest_gap, Survey};
use polzaintu::row::SILENT;
use polzaintu::wall::{Error, Reader, Row, SearchError, Tile};
use std::io::{self, ErrorKind, Read};

/// Gives a byte at a time and is interrupted before each. Where `fails`, it ends with an error.
pub struct Halting<'a> {
    bytes: &'a [u8],
    interrupted: bool,
    fails: bool,
}

impl<'a> Halting<'a> {
    pub fn new(bytes: &'a [u8], fails: bool) -> Halting<'a> {
        Halting {
            bytes,
            interrupted: false,
            fails,
        }
    }
}

impl Read for Halting<'_> {
    fn read(&mut self, buffer: &mut [u8]) -> io::Result<usize> {
        self.interrupted = !self.interrupted;
        if self.interrupted {
            return Err(ErrorKind::Interrupted.into());
        }
        if self.bytes.is_empty() && self.fails {
            return Err(ErrorKind::BrokenPipe.into());
        }
        let count = buffer.len().min(1);
        self.bytes.read(&mut buffer[..count])
    }
}

fn rows(input: impl Read) -> Vec<Row> {
    Reader::new(input)
        .map(|row| row.expect("the file is accepted"))
        .collect()
}

#[test]
fn pieces_are_put_together() {
    let bytes = WallFile::small().bytes();
    let whole = rows(&bytes[..]);
    assert_eq!(whole.iter().map(Row::number).collect::<Vec<_>>(), [1, 2]);
    let lettered: Vec<_> = whole.iter().map(|row| letters(row.letters())).collect();
    assert_eq!(lettered, ["kkklkk", "kkkmkk"]);
    assert_eq!(rows(Halting::new(&bytes, false)), whole);
}

#[test]
fn a_failed_read_is_no_refusal() {
    let bytes = WallFile::small().bytes();
    for length in 0..=bytes.len() {
        let mut reader = Reader::new(Halting::new(&bytes[..length], true));
        let shown = reader.by_ref().take_while(Result::is_ok).count();
        // Row 1 is known with the last byte of row 2, and row 2 never, since the end is not seen.
        assert_eq!(shown, usize::from(length == bytes.len()));
        assert!(reader.next().is_none());

        let mut reader = Reader::new(Halting::new(&bytes[..length], true));
        let error = reader.find_map(Result::err).unwrap();
        assert!(matches!(&error, Error::Read(error) if error.kind() == ErrorKind::BrokenPipe));
        assert!(error
            .to_string()
            .starts_with("the wall file could not be read: "));
    }
}

#[test]
fn a_refusal_ends_the_file() {
    let bytes = WallFile::small().bytes();
    let mut reader = Reader::new(&bytes[..LAST_TAG_4]);
    match reader.next() {
        Some(Err(Error::Refused(refused))) => {
            assert_eq!(
                (refused.refusal.number(), refused.offset),
                (43, LAST_TAG_4 as u64)
            );
        }
        other => panic!("{other:?}"),
    }
    assert!(reader.next().is_none());
}

/// The settings and row 0 can be asked for before the rows, after them, and in any order.
#[test]
fn settings_and_row_0() {
    let file = WallFile::small();
    let bytes = file.bytes();
    let mut reader = Reader::new(&bytes[..]);
    assert_eq!(reader.start().unwrap(), file.start);
    assert_eq!(reader.settings().unwrap(), settings(file.limits));
    let rows: Vec<_> = reader.by_ref().map(Result::unwrap).collect();
    assert_eq!(rows.iter().map(Row::number).collect::<Vec<_>>(), [1, 2]);
    assert!(rows
        .iter()
        .all(|row| *row.settings() == settings(file.limits)));
    assert_eq!(reader.start().unwrap(), file.start);
    assert_eq!(reader.settings().unwrap(), settings(file.limits));
}

#[test]
fn settings_of_a_cut_file() {
    let bytes = WallFile::small().bytes();
    let number = |error| match error {
        Error::Refused(refused) => (refused.refusal.number(), refused.offset as usize),
        Error::Read(error) => panic!("{error}"),
    };
    let mut reader = Reader::new(&bytes[..TAG_2 + 9]);
    assert!(reader.settings().is_ok());
    for _ in 0..2 {
        assert_eq!(number(reader.start().unwrap_err()), (43, TAG_2));
        assert!(reader.settings().is_ok());
    }
    let mut reader = Reader::new(&bytes[..TAG_2 - 1]);
    for _ in 0..2 {
        assert_eq!(number(reader.settings().unwrap_err()), (43, 0));
        assert_eq!(number(reader.start().unwrap_err()), (43, 0));
    }
    assert!(reader.next().is_none());

    let mut reader = Reader::new(Halting::new(&bytes[..TAG_2 + 9], true));
    for _ in 0..2 {
        assert!(matches!(reader.start(), Err(Error::Read(_))));
        assert!(reader.settings().is_ok());
    }
    assert!(reader.next().is_none());
}

fn tile(row: u64, column: usize) -> Tile {
    Tile { row, column }
}

/// The search range is that of rows 0 to R - 1, whatever is read before it is asked for.
#[test]
fn search_ranges() {
    let file = WallFile::small();
    let bytes = file.bytes();
    let settings = settings(file.limits);
    let row_1 = Reader::new(&bytes[..]).next().unwrap().unwrap();
    let rows = [&file.start[..], row_1.times()];
    let mut survey = Survey::new(&settings);
    for row in rows {
        survey.row(row).unwrap();
    }
    for read in 0..4 {
        let mut reader = Reader::new(&bytes[..]);
        reader.by_ref().take(read).for_each(drop);
        let range = reader.search_range().unwrap();
        assert_eq!(
            range.gaps(),
            rows.map(|row| widest_gap(&settings, row).unwrap())
        );
        assert_eq!(Some(range.largest()), survey.largest());
        assert_eq!(range.reach(tile(0, 3), 2).unwrap().ticks, 2 * 80 + 96 + 1);
        assert_eq!(range.reach(tile(0, 3), 3), None);
        assert_eq!(range.reach(tile(2, 3), 3), None);
        assert_eq!(range.reach(tile(0, 6), 1), None);
    }
}

#[test]
fn search_ranges_of_other_files() {
    for (place, row) in [(0, 0), (1, 1)] {
        let mut file = WallFile::small();
        file.rows[place].fault(3, SILENT);
        let bytes = file.bytes();
        match Reader::new(&bytes[..]).search_range() {
            Err(SearchError::Faulty(found)) => assert_eq!(found, tile(row, 3)),
            other => panic!("{other:?}"),
        }
    }
    let bytes = WallFile::small().bytes();
    match Reader::new(&bytes[..LAST_TAG_4]).search_range() {
        Err(SearchError::File(Error::Refused(refused))) => {
            assert_eq!(refused.refusal.number(), 43);
        }
        other => panic!("{other:?}"),
    }
    let longer = [&bytes[..], &[0]].concat();
    match Reader::new(&longer[..]).search_range() {
        Err(error) => assert!(error.to_string().starts_with("refused 44 at 484: ")),
        other => panic!("{other:?}"),
    }
    let failed = Reader::new(Halting::new(&bytes, true)).search_range();
    assert!(matches!(failed, Err(SearchError::File(Error::Read(_)))));
}
