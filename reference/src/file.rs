//! The wall file (§9.1 to §9.8, §E4.4): its fields in their order, refusals 41 to 45, and the rows it describes.

use std::fmt;

use crate::row::{Lent, Wall};
use crate::settings::{Numbers, Settings};
use crate::{Refused, LATEST_START};

/// A wall file was turned away: the number, and the byte offset that is printed with it.
#[derive(Clone, Copy, Debug, PartialEq, Eq)]
pub struct FileRefused {
    /// The number.
    pub number: u8,
    /// The byte offset.
    pub at: usize,
}

impl fmt::Display for FileRefused {
    fn fmt(&self, f: &mut fmt::Formatter<'_>) -> fmt::Result {
        write!(f, "refused {} at {}", self.number, self.at)
    }
}

impl std::error::Error for FileRefused {}

/// A field of the file: where its tag stands, and its body as a part of the file.
#[derive(Clone, Copy, Debug)]
struct Field<'a> {
    at: usize,
    body: &'a [u8],
}

impl Field<'_> {
    /// The file is turned away at this field's tag.
    fn refused(&self, number: u8) -> FileRefused {
        FileRefused {
            number,
            at: self.at,
        }
    }
}

/// The file and how far it has been taken.
struct Fields<'a> {
    file: &'a [u8],
    at: usize,
}

impl<'a> Fields<'a> {
    /// Takes the field due, of this tag and length. In their order (§9.7): 43 where tag and length are
    /// cut short, 41, 42, 43 where the body is.
    fn take(&mut self, tag: u8, length: usize) -> Result<Field<'a>, FileRefused> {
        let at = self.at;
        let refused = |number| Err(FileRefused { number, at });
        let rest = &self.file[at..];
        if rest.len() < 3 {
            return refused(43);
        }
        if rest[0] != tag {
            return refused(41);
        }
        if usize::from(u16::from_be_bytes([rest[1], rest[2]])) != length {
            return refused(42);
        }
        if rest.len() < 3 + length {
            return refused(43);
        }
        self.at += 3 + length;
        let body = &rest[3..3 + length];
        Ok(Field { at, body })
    }

    /// After the last field: 44 at the first byte too many.
    fn end(&self) -> Result<(), FileRefused> {
        if self.at < self.file.len() {
            return Err(FileRefused {
                number: 44,
                at: self.at,
            });
        }
        Ok(())
    }
}

/// Big-endian numbers taken one after another from a body that is long enough.
struct Values<'a>(&'a [u8]);

impl Values<'_> {
    fn take<const N: usize>(&mut self) -> [u8; N] {
        let (first, rest) = self.0.split_first_chunk().expect("the length was checked");
        self.0 = rest;
        *first
    }

    fn u16(&mut self) -> u16 {
        u16::from_be_bytes(self.take())
    }

    fn u32(&mut self) -> u32 {
        u32::from_be_bytes(self.take())
    }

    fn u64(&mut self) -> u64 {
        u64::from_be_bytes(self.take())
    }
}

/// A row that is known whole: its number, its times and letters, and its marks, which came with the next row.
#[derive(Clone, Copy, Debug)]
pub struct ShownRow<'a> {
    /// The wall.
    pub wall: &'a Wall,
    /// L, 0 to R.
    pub number: usize,
    /// Its W times.
    pub times: &'a [u64],
    /// Its W letters; row 0 has none.
    pub letters: &'a [u8],
    /// The W phases of its clocks; row 0 has none.
    pub phases: &'a [u32],
    /// Its marks, one bit a column.
    pub marks: &'a [u8],
    /// The link values of the next row; row R has no next.
    pub links: &'a [u64],
}

/// Why a walk through a file ended early: the file's refusal, or an error of the one it is shown to.
#[derive(Debug, PartialEq, Eq)]
pub enum Stop<E> {
    /// The file was turned away.
    Refused(FileRefused),
    /// A row could not be shown.
    Shown(E),
}

impl<E> From<FileRefused> for Stop<E> {
    fn from(refused: FileRefused) -> Self {
        Stop::Refused(refused)
    }
}

/// Runs the wall of `file`. Row L, from row 0 on, is shown when row L + 1 is accepted, row R at the file's
/// proper end, with no tile of it faulty.
pub fn walk<E>(
    file: &[u8],
    mut show: impl FnMut(ShownRow) -> Result<(), E>,
) -> Result<(), Stop<E>> {
    let mut fields = Fields { file, at: 0 };
    let wall = take_settings(&mut fields)?;
    let mut times = take_start(&mut fields, &wall)?;
    let (mut letters, mut phases) = (Vec::new(), Vec::new());
    for number in 0..wall.settings().rows() {
        let row = take_row(&mut fields, &wall)?;
        let lent = Lent {
            before: &times,
            marks: row.marks,
            drifts: &row.drifts,
            phases: &row.phases,
            links: &row.links,
        };
        let (mut next, mut next_letters) = (vec![0; times.len()], vec![0; times.len()]);
        wall.row(&lent, &mut next, &mut next_letters)
            .map_err(|Refused(number)| row.tag_4.refused(number))?;
        let shown = ShownRow {
            wall: &wall,
            number,
            times: &times,
            letters: &letters,
            phases: &phases,
            marks: row.marks,
            links: &row.links,
        };
        show(shown).map_err(Stop::Shown)?;
        (times, letters, phases) = (next, next_letters, row.phases);
    }
    fields.end()?;
    let shown = ShownRow {
        wall: &wall,
        number: wall.settings().rows(),
        times: &times,
        letters: &letters,
        phases: &phases,
        marks: &vec![0; wall.shape().mark_bytes()],
        links: &[],
    };
    show(shown).map_err(Stop::Shown)
}

/// Tag 1: W and R in 2 bytes each, then d, u, A, r and h in 4.
fn take_settings(fields: &mut Fields) -> Result<Wall, FileRefused> {
    let field = fields.take(1, 24)?;
    let mut values = Values(field.body);
    let numbers = Numbers {
        columns: values.u16().into(),
        rows: values.u16().into(),
        delay: values.u32(),
        uncertainty: values.u32(),
        hold: values.u32(),
        drift_limit: values.u32(),
        unit: values.u32(),
    };
    Settings::new(numbers)
        .and_then(Wall::new)
        .map_err(|Refused(number)| field.refused(number))
}

/// Tag 2: the row 0 times, 8 bytes each, none over 2^39 - 1.
fn take_start(fields: &mut Fields, wall: &Wall) -> Result<Vec<u64>, FileRefused> {
    let w = wall.shape().columns();
    let field = fields.take(2, 8 * w)?;
    let mut values = Values(field.body);
    let times: Vec<u64> = (0..w).map(|_| values.u64()).collect();
    if times.iter().any(|&time| time > LATEST_START) {
        return Err(field.refused(45));
    }
    Ok(times)
}

/// A row's fields, framed; what they hold is judged by the row operation, at tag 4.
struct RowFields<'a> {
    tag_4: Field<'a>,
    marks: &'a [u8],
    drifts: Vec<u16>,
    phases: Vec<u32>,
    links: Vec<u64>,
}

/// Tag 3: the marks. Tag 4: tile by tile the drift in 2 bytes and the phase in 4, then its link values in 8 bytes each.
fn take_row<'a>(fields: &mut Fields<'a>, wall: &Wall) -> Result<RowFields<'a>, FileRefused> {
    let shape = wall.shape();
    let w = shape.columns();
    let tag_3 = fields.take(3, shape.mark_bytes())?;
    let tag_4 = fields.take(4, 30 * w + 16)?;
    let mut values = Values(tag_4.body);
    let (mut drifts, mut phases) = (Vec::with_capacity(w), Vec::with_capacity(w));
    let mut links = Vec::with_capacity(shape.links());
    for tile in 0..w {
        drifts.push(values.u16());
        phases.push(values.u32());
        links.extend(shape.predecessors(tile).iter().map(|_| values.u64()));
    }
    Ok(RowFields {
        tag_4,
        marks: tag_3.body,
        drifts,
        phases,
        links,
    })
}
