//! What the tests share: settings to start from, the shape of a row, and a small wall file.

use polzaintu::{Letter, Limits, Settings};

/// The settings of the printed wall.
pub const PRINTED: Limits = Limits {
    width: 6,
    rows: 1,
    delay: 100,
    uncertainty: 10,
    hold: 400,
    drift: 0,
    unit: 12,
};

pub fn settings(limits: Limits) -> Settings {
    Settings::new(limits).expect("these settings keep every limit")
}

/// W, R, d, u, A, r, h.
fn limits([width, rows, delay, uncertainty, hold, drift, unit]: [u64; 7]) -> Limits {
    Limits {
        width,
        rows,
        delay,
        uncertainty,
        hold,
        drift,
        unit,
    }
}

/// Settings just past each limit, and the number under which they are turned away.
pub fn refused_settings() -> impl Iterator<Item = (Limits, u32)> {
    let refused = [
        ([5, 1, 100, 10, 400, 0, 12], 1),
        ([257, 1, 100, 10, 400, 0, 12], 1),
        ([6, 0, 100, 10, 400, 0, 12], 2),
        ([6, 1025, 100, 10, 400, 0, 12], 2),
        ([6, 1, 0, 0, 400, 0, 12], 3),
        ([6, 1, 1000001, 10, 400, 0, 12], 3),
        ([6, 1, 100, 101, 400, 0, 12], 4),
        ([6, 1, 100, 10, 0, 0, 12], 5),
        ([6, 1, 100, 10, 1000001, 0, 12], 5),
        ([6, 1, 100, 10, 400, 10001, 12], 6),
        ([6, 1, 100, 10, 400, 0, 0], 7),
        ([6, 1, 100, 10, 1000000, 0, 62501], 7),
        ([6, 1, 100, 10, 400, 0, 11], 8),
        ([6, 1, 100, 10, 400, 10000, 15], 8),
        ([6, 1, 100, 10, 191, 0, 12], 9),
        ([6, 1, 100, 10, 999999, 0, 62500], 9),
    ];
    refused
        .into_iter()
        .map(|(given, number)| (limits(given), number))
}

/// Letters as text.
pub fn letters(letters: &[Letter]) -> String {
    letters.iter().map(|letter| letter.as_char()).collect()
}

pub fn neighbours(width: usize, a: usize, b: usize) -> bool {
    let (left, right) = (a.min(b), a.max(b));
    right - left == 1 || (left, right) == (0, 2) || (left, right) == (width - 3, width - 1)
}

pub fn hears(width: usize, tile: usize, sender: usize) -> bool {
    tile == sender || neighbours(width, tile, sender)
}

/// Tile and sender of each link value, in their order.
pub fn links(width: usize) -> Vec<(usize, usize)> {
    let all = (0..width).flat_map(|tile| (0..width).map(move |sender| (tile, sender)));
    all.filter(|&(tile, sender)| hears(width, tile, sender))
        .collect()
}

/// A wall file that is easy to change: the printed wall with two rows, or what a test makes of it.
#[derive(Clone)]
pub struct WallFile {
    pub limits: Limits,
    pub start: [u64; 6],
    pub rows: Vec<FileRow>,
}

#[derive(Clone)]
pub struct FileRow {
    pub marks: u8,
    pub drifts: [u16; 6],
    pub phases: [u32; 6],
    pub links: [u64; 20],
}

/// Where the fields of [`WallFile::small`] begin, and where the file ends.
pub const TAG_2: usize = 27;
pub const TAG_3: usize = 78;
pub const TAG_4: usize = 82;
pub const LAST_TAG_3: usize = 281;
pub const LAST_TAG_4: usize = 285;
pub const END: usize = 484;

impl WallFile {
    pub fn small() -> WallFile {
        let row = FileRow {
            marks: 0,
            drifts: [0; 6],
            phases: [0; 6],
            links: [100; 20],
        };
        WallFile {
            limits: Limits { rows: 2, ..PRINTED },
            start: [1000, 1000, 1000, 1080, 1000, 1000],
            rows: vec![row.clone(), row],
        }
    }

    pub fn bytes(&self) -> Vec<u8> {
        let Limits {
            width,
            rows,
            delay,
            uncertainty,
            hold,
            drift,
            unit,
        } = self.limits;
        let mut bytes = Vec::new();
        field(&mut bytes, 1, 24);
        bytes.extend([width, rows].iter().flat_map(|&n| (n as u16).to_be_bytes()));
        let wide = [delay, uncertainty, hold, drift, unit];
        bytes.extend(wide.iter().flat_map(|&n| (n as u32).to_be_bytes()));
        field(&mut bytes, 2, 48);
        bytes.extend(self.start.iter().flat_map(|n| n.to_be_bytes()));
        for row in &self.rows {
            field(&mut bytes, 3, 1);
            bytes.push(row.marks);
            field(&mut bytes, 4, 196);
            let mut values = row.links.iter().zip(links(6)).peekable();
            for tile in 0..6 {
                bytes.extend(row.drifts[tile].to_be_bytes());
                bytes.extend(row.phases[tile].to_be_bytes());
                while let Some((value, _)) = values.next_if(|&(_, (of, _))| of == tile) {
                    bytes.extend(value.to_be_bytes());
                }
            }
        }
        bytes
    }
}

impl FileRow {
    /// Marks a column of the row before, and has it send the same on each of its links.
    pub fn fault(&mut self, column: usize, arrival: u64) {
        self.marks |= 1 << column;
        for (value, (_, sender)) in self.links.iter_mut().zip(links(6)) {
            if sender == column {
                *value = arrival;
            }
        }
    }
}

fn field(bytes: &mut Vec<u8>, tag: u8, length: u16) {
    bytes.push(tag);
    bytes.extend(length.to_be_bytes());
}
