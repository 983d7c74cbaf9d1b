//! The seams of a wall file as they are printed, by which limits are chosen and answers counted.

use wall_reference::file::{walk, FileRefused, ShownRow};
use wall_reference::shape::is_marked;
use wall_reference::wide::{wallwide, Answer};

/// A seam as it is printed.
#[derive(Clone, Copy)]
pub struct Printed {
    pub row: usize,
    pub left: usize,
    pub right: usize,
    pub open: bool,
    /// Right less left in ticks, be it open: the half gap in half ticks where it is closed.
    pub gap: i64,
}

impl Printed {
    /// The gap without its sign.
    pub fn half_ticks(&self) -> u64 {
        self.gap.unsigned_abs()
    }
}

/// The seams that are printed of a wall file, in their order.
pub fn printed(file: &[u8]) -> Vec<Printed> {
    let mut printed = Vec::new();
    let add = |row: ShownRow| {
        let number = row.number;
        let of_row = row
            .wall
            .shape()
            .seams()
            .iter()
            .map(|&(left, right)| Printed {
                row: number,
                left,
                right,
                open: is_marked(row.marks, left) || is_marked(row.marks, right),
                gap: row.times[right] as i64 - row.times[left] as i64,
            });
        printed.extend(of_row.filter(|_| number > 0));
        Ok::<(), ()>(())
    };
    // A refusal leaves what was printed before it.
    let _ = walk(file, add);
    printed
}

/// W and R as a file says them that is long enough.
pub fn size(file: &[u8]) -> (usize, usize) {
    let two = |at: usize| u16::from_be_bytes([file[at], file[at + 1]]).into();
    (two(3), two(5))
}

/// Whether a seam of the last row that was worked out before the refusal, and so is not printed, is over the limit. The file cut
/// after that row, and made to say that it is the last, is answered so.
pub fn hides_wide(file: &[u8], refused: FileRefused, limit: u64) -> bool {
    if refused.at == 0 {
        return false;
    }
    let (w, _) = size(file);
    let row_1 = 27 + 3 + 8 * w;
    let row_size = 3 + w.div_ceil(8) + 3 + 30 * w + 16;
    let rows = refused.at.saturating_sub(row_1) / row_size;
    if rows == 0 {
        return false;
    }
    let mut cut = file[..row_1 + rows * row_size].to_vec();
    cut[5..7].copy_from_slice(&(rows as u16).to_be_bytes());
    matches!(wallwide(&cut, limit), Answer::Wide { row, .. } if row == rows)
}
