//! A wall's description as it stands in a file, field by field, sound or not.

use crate::row::Lent;
use crate::settings::Numbers;

/// What a wall file says.
#[derive(Clone, Debug)]
pub struct Description {
    /// Tag 1.
    pub numbers: Numbers,
    /// Tag 2.
    pub start: Vec<u64>,
    /// Tags 3 and 4 of each row.
    pub rows: Vec<RowDescription>,
}

/// What the two fields of a row say.
#[derive(Clone, Debug)]
pub struct RowDescription {
    /// Tag 3: the marks of the row before.
    pub marks: Vec<u8>,
    /// Tag 4: a drift for each tile.
    pub drifts: Vec<u16>,
    /// Tag 4: a phase for each tile.
    pub phases: Vec<u32>,
    /// Tag 4: the link values, tile by tile.
    pub links: Vec<Vec<u64>>,
}

impl RowDescription {
    /// Marks a column as faulty.
    pub fn mark(&mut self, column: usize) {
        self.marks[column / 8] |= 1 << (column % 8);
    }

    /// The link values in one row, as the row operation takes them.
    pub fn flat_links(&self) -> Vec<u64> {
        self.links.concat()
    }

    /// The description as lent to the row operation.
    pub fn lent<'a>(&'a self, before: &'a [u64], flat_links: &'a [u64]) -> Lent<'a> {
        Lent {
            before,
            marks: &self.marks,
            drifts: &self.drifts,
            phases: &self.phases,
            links: flat_links,
        }
    }
}

/// A wall file, with the offsets of its tags.
#[derive(Clone, Debug, Default)]
pub struct Encoded {
    /// The bytes of the file.
    pub bytes: Vec<u8>,
    /// Where each field's tag stands.
    pub tags: Vec<usize>,
}

impl Encoded {
    fn field(&mut self, tag: u8, body: &[u8]) {
        let length = u16::try_from(body.len()).expect("a body's length fits two bytes");
        self.tags.push(self.bytes.len());
        self.bytes.push(tag);
        self.bytes.extend(length.to_be_bytes());
        self.bytes.extend(body);
    }
}

impl Description {
    /// The wall file.
    pub fn encode(&self) -> Encoded {
        self.encode_old_from(self.rows.len())
    }

    /// The wall file, but that tag 4 is as it was before there were phases from row `old` of the description on: the
    /// drift and the links of each tile alone, 26W + 16 bytes.
    pub fn encode_old_from(&self, old: usize) -> Encoded {
        let mut encoded = Encoded::default();
        encoded.field(1, &settings_body(&self.numbers));
        let start: Vec<u8> = self.start.iter().flat_map(|t| t.to_be_bytes()).collect();
        encoded.field(2, &start);
        for (index, row) in self.rows.iter().enumerate() {
            encoded.field(3, &row.marks);
            let mut body = Vec::new();
            for (tile, links) in row.links.iter().enumerate() {
                body.extend(row.drifts[tile].to_be_bytes());
                if index < old {
                    body.extend(row.phases[tile].to_be_bytes());
                }
                body.extend(links.iter().flat_map(|value| value.to_be_bytes()));
            }
            encoded.field(4, &body);
        }
        encoded
    }
}

/// W and R in two bytes each, of which only the low ones fit, and five numbers in four bytes.
fn settings_body(numbers: &Numbers) -> Vec<u8> {
    let mut body = Vec::new();
    body.extend((numbers.columns as u16).to_be_bytes());
    body.extend((numbers.rows as u16).to_be_bytes());
    for number in [
        numbers.delay,
        numbers.uncertainty,
        numbers.hold,
        numbers.drift_limit,
        numbers.unit,
    ] {
        body.extend(number.to_be_bytes());
    }
    body
}
