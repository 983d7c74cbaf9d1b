//! In which way a faulty tile fails, seen from the tiles that it sends to.

use crate::file::ShownRow;
use crate::{Tick, SILENT};

/// What a faulty tile does on its links.
#[derive(Clone, Copy, Debug, PartialEq, Eq, PartialOrd, Ord)]
pub enum Kind {
    /// Silent on all of them.
    Silent,
    /// On all of them before each correct predecessor of the receiver.
    Early,
    /// On all of them after each correct predecessor of the receiver.
    Late,
    /// Among the others, or something else on each link.
    Other,
}

impl Kind {
    /// All kinds.
    pub const ALL: [Kind; 4] = [Kind::Silent, Kind::Early, Kind::Late, Kind::Other];
}

/// The kind of the faulty tile of `column` in a row that is not the last.
pub fn kind(row: &ShownRow, column: usize) -> Kind {
    // Who receives from a column is who sends to it: neighbours are so both ways.
    let receivers = row.wall.shape().predecessors(column).iter();
    let mut kinds = receivers.map(|&tile| link_kind(row, column, tile));
    let first = kinds.next().expect("a tile sends to its own column");
    if kinds.all(|kind| kind == first) {
        first
    } else {
        Kind::Other
    }
}

/// The kind of one link. The row is accepted, so all other predecessors of the receiver are correct.
fn link_kind(row: &ShownRow, column: usize, tile: usize) -> Kind {
    let mut sent = SILENT;
    let mut arrivals = Vec::new();
    for (sender, at) in row.wall.shape().links_of(tile) {
        if sender == column {
            sent = row.links[at];
        } else {
            arrivals.push(Tick::from(row.times[sender]) + Tick::from(row.links[at]));
        }
    }
    match Tick::from(sent) {
        _ if sent == SILENT => Kind::Silent,
        sent if arrivals.iter().all(|&arrival| sent < arrival) => Kind::Early,
        sent if arrivals.iter().all(|&arrival| sent > arrival) => Kind::Late,
        _ => Kind::Other,
    }
}

#[cfg(test)]
mod tests {
    use super::*;
    use crate::cases::build::{fault, printed};
    use crate::file::walk;

    /// The kind of a tile that is faulty in row 0 and sends `value` to each tile.
    fn kind_of(column: usize, value: impl Fn(usize) -> u64) -> Kind {
        let mut wall = printed(1);
        wall.start.fill(1_000);
        fault(&mut wall.rows[0], column, value);
        let mut found = None;
        walk(&wall.encode().bytes, |row| {
            found.get_or_insert_with(|| kind(&row, column));
            Ok::<(), ()>(())
        })
        .unwrap();
        found.unwrap()
    }

    #[test]
    fn kinds_at_their_borders() {
        // All correct pulses arrive at 1100.
        for column in 0..6 {
            assert_eq!(kind_of(column, |_| SILENT), Kind::Silent);
            assert_eq!(kind_of(column, |_| 1_099), Kind::Early);
            assert_eq!(kind_of(column, |_| 1_100), Kind::Other);
            assert_eq!(kind_of(column, |_| 1_101), Kind::Late);
            let own_late = |tile| if tile == column { 1_101 } else { 1_099 };
            assert_eq!(kind_of(column, own_late), Kind::Other);
            let own_silent = |tile| if tile == column { SILENT } else { 1_101 };
            assert_eq!(kind_of(column, own_silent), Kind::Other);
        }
    }
}
