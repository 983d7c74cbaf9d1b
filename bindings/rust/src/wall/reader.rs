//! The rows of a wall file that is read.

use super::search::Search;
use super::{Refused, Row, SearchError, SearchRange, Stage, Wall, Wide};
use crate::Settings;
use std::io::{self, Read};
use std::iter::FusedIterator;
use std::{error, fmt};

/// Reads a wall file, and yields each row once it is known. It ends after the last row, or after
/// the error that ends it.
///
/// It reads no byte before it is due, and one past the last field, to see whether the file ends
/// there.
///
/// ```
/// use polzaintu::wall::{Error, Reader};
/// use polzaintu::Letter;
///
/// let file = std::fs::read(concat!(env!("CARGO_MANIFEST_DIR"), "/../../crates/wallrun/stdin"))?;
/// for row in Reader::new(&file[..]) {
///     let row = row?;
///     assert_eq!((row.number(), row.pulse(3)), (1, Some(1536)));
///     assert_eq!(row.letter(3), Some(Letter::Late));
///     assert_eq!(row.seams().count(), 7);
/// }
///
/// match Reader::new(&file[..200]).next() {
///     Some(Err(Error::Refused(refused))) => {
///         assert_eq!((refused.refusal.number(), refused.offset), (43, 82));
///     }
///     other => panic!("{other:?}"),
/// }
/// # Ok::<(), Error>(())
/// ```
#[derive(Debug)]
#[must_use = "nothing is read before it is asked for"]
pub struct Reader<R> {
    input: R,
    wall: Wall,
    part: Vec<u8>,
    settings: Option<Settings>,
    start: Option<Vec<u64>>,
    search: Search,
    /// Whether an error has ended the file.
    failed: bool,
}

/// What ends a file before its last row.
#[derive(Debug)]
pub enum Error {
    /// The file is turned away.
    Refused(Refused),
    /// The file could not be read.
    Read(io::Error),
}

/// A seam of a wall whose half gap is over a limit, with its row.
#[derive(Clone, Copy, Debug, PartialEq, Eq, Hash)]
pub struct WideSeam {
    /// Its row, 1 to R.
    pub row: u64,
    /// Its columns and its half gap.
    pub seam: Wide,
}

impl<R: Read> Reader<R> {
    /// A reader of a whole wall file.
    pub fn new(input: R) -> Reader<R> {
        Reader {
            input,
            wall: Wall::new(),
            part: Vec::with_capacity(Wall::DUE_MOST),
            settings: None,
            start: None,
            search: Search::default(),
            failed: false,
        }
    }

    /// The wall's settings. It reads as far as they are, where they are not read yet.
    ///
    /// ```
    /// # use polzaintu::wall::{Error, Reader};
    /// # let path = concat!(env!("CARGO_MANIFEST_DIR"), "/../../crates/wallrun/stdin");
    /// # let file = std::fs::read(path)?;
    /// let mut reader = Reader::new(&file[..]);
    /// assert_eq!(reader.settings()?.width(), 6);
    /// assert_eq!(reader.start()?, [1000, 1000, 1000, 1080, 1000, 1000]);
    /// assert_eq!(reader.next().unwrap()?.number(), 1);
    /// # Ok::<(), Error>(())
    /// ```
    pub fn settings(&mut self) -> Result<Settings, Error> {
        loop {
            if let Some(settings) = self.settings {
                return Ok(settings);
            }
            self.step()?;
        }
    }

    /// Row 0, W times. It reads as far as it is, where it is not read yet.
    pub fn start(&mut self) -> Result<&[u64], Error> {
        while self.start.is_none() {
            self.step()?;
        }
        Ok(self.start.as_deref().unwrap_or_default())
    }

    /// Reads to the end of the file, and answers how far one broken tile of the wall can reach, as
    /// `wallreach` prints it. A wall with a faulty tile has no search range.
    ///
    /// ```
    /// use polzaintu::wall::{Reader, Tile};
    /// # use polzaintu::wall::SearchError;
    /// # let path = concat!(env!("CARGO_MANIFEST_DIR"), "/../../crates/wallrun/stdin");
    /// # let file = std::fs::read(path).unwrap();
    /// let range = Reader::new(&file[..]).search_range()?;
    /// assert_eq!((range.largest(), range.gaps()), (256, &[80][..]));
    /// assert_eq!(range.reach(Tile { row: 0, column: 3 }, 1).unwrap().columns, 2..=5);
    /// # Ok::<(), SearchError>(())
    /// ```
    pub fn search_range(mut self) -> Result<SearchRange, SearchError> {
        loop {
            if let Some(faulty) = self.search.faulty() {
                return Err(faulty);
            }
            if self.wall.stage() == Stage::Ended {
                break;
            }
            self.step()?;
        }
        let settings = self.settings()?;
        let range = self.search.range(settings);
        Ok(range.expect("each row of a file that has ended is surveyed"))
    }

    /// The first wide seam of the wall, in the order of `wallrun`'s lines: closed, and with a half
    /// gap, its sign dropped, of more half ticks than the limit. `None` where the file ends rightly
    /// without one. An error that comes before it is answered in its place: the seams of a row come
    /// once the next row is accepted, those of the last once the file has ended.
    ///
    /// It reads no further than to the answer, whatever follows. Rows that were yielded before are
    /// not looked at again.
    ///
    /// ```
    /// use polzaintu::wall::{Reader, Wide, WideSeam};
    /// # use polzaintu::wall::Error;
    /// # let path = concat!(env!("CARGO_MANIFEST_DIR"), "/../../crates/wallrun/stdin");
    /// # let file = std::fs::read(path)?;
    /// let seam = Wide { left: 2, right: 3, half_ticks: 36 };
    /// assert_eq!(Reader::new(&file[..]).first_wide(35)?, Some(WideSeam { row: 1, seam }));
    /// assert_eq!(Reader::new(&file[..]).first_wide(36)?, None);
    /// # Ok::<(), Error>(())
    /// ```
    pub fn first_wide(mut self, limit: u64) -> Result<Option<WideSeam>, Error> {
        while self.wall.stage() != Stage::Ended {
            // Row 0 is not shown.
            let Some(row) = self.step()?.filter(|row| row.number() > 0) else {
                continue;
            };
            if let Some(seam) = row.first_wide(limit) {
                let row = row.number();
                return Ok(Some(WideSeam { row, seam }));
            }
        }
        Ok(None)
    }

    /// Takes one step, and answers the row that is then known, row 0 included. After a failed read
    /// no step is taken: bytes may be lost.
    fn step(&mut self) -> Result<Option<Row>, Error> {
        if self.failed && self.wall.stage() != Stage::Refused {
            return Err(io::Error::other("a read has failed before").into());
        }
        let known = self.take();
        self.failed = known.is_err();
        let known = known?;
        if let Some(row) = &known {
            self.search.row(row);
        }
        Ok(known)
    }

    fn take(&mut self) -> Result<Option<Row>, Error> {
        let due = self.wall.due() as u64;
        self.part.clear();
        self.input.by_ref().take(due).read_to_end(&mut self.part)?;
        let known = self.wall.known(&self.part)?;
        self.settings = self.settings.or_else(|| self.wall.settings());
        if let Some((0, times)) = self.wall.last_row() {
            self.start = Some(times.to_vec());
        }
        Ok(known)
    }
}

impl<R: Read> Iterator for Reader<R> {
    type Item = Result<Row, Error>;

    fn next(&mut self) -> Option<Self::Item> {
        while !self.failed && self.wall.stage() != Stage::Ended {
            match self.step() {
                Ok(Some(row)) if row.number() > 0 => return Some(Ok(row)),
                Ok(_) => {}
                Err(error) => return Some(Err(error)),
            }
        }
        None
    }
}

impl<R: Read> FusedIterator for Reader<R> {}

impl From<Refused> for Error {
    fn from(refused: Refused) -> Error {
        Error::Refused(refused)
    }
}

impl From<io::Error> for Error {
    fn from(error: io::Error) -> Error {
        Error::Read(error)
    }
}

impl fmt::Display for Error {
    fn fmt(&self, f: &mut fmt::Formatter<'_>) -> fmt::Result {
        match self {
            Error::Refused(refused) => refused.fmt(f),
            Error::Read(error) => write!(f, "the wall file could not be read: {error}"),
        }
    }
}

impl error::Error for Error {
    fn source(&self) -> Option<&(dyn error::Error + 'static)> {
        match self {
            Error::Refused(refused) => refused.source(),
            Error::Read(error) => Some(error),
        }
    }
}
