//! The wall (§1.1, §1.3, §7.3, §8.1): neighbours, predecessors, links and seams of W columns.

/// True where columns `a` and `b` of a wall of `w` columns are neighbours.
pub fn are_neighbours(w: usize, a: usize, b: usize) -> bool {
    let (left, right) = (a.min(b), a.max(b));
    right - left == 1 || (left, right) == (0, 2) || (left, right) == (w - 3, w - 1)
}

/// The tables of a wall of W columns, made from `are_neighbours` alone.
#[derive(Clone, Debug)]
pub struct Shape {
    columns: usize,
    predecessors: Vec<Vec<usize>>,
    first_link: Vec<usize>,
    seams: Vec<(usize, usize)>,
}

impl Shape {
    /// The tables for `w` columns, 6 or more.
    pub fn new(w: usize) -> Shape {
        let is_predecessor = |tile, sender| sender == tile || are_neighbours(w, tile, sender);
        let predecessors: Vec<Vec<usize>> = (0..w)
            .map(|tile| (0..w).filter(|&c| is_predecessor(tile, c)).collect())
            .collect();
        let mut first_link = vec![0];
        for tile in 0..w {
            first_link.push(first_link[tile] + predecessors[tile].len());
        }
        let pairs = (0..w).flat_map(|left| (left + 1..w).map(move |right| (left, right)));
        let seams = pairs.filter(|&(a, b)| are_neighbours(w, a, b)).collect();
        Shape {
            columns: w,
            predecessors,
            first_link,
            seams,
        }
    }

    /// W.
    pub fn columns(&self) -> usize {
        self.columns
    }

    /// How many bytes the marks take: W / 8 rounded up.
    pub fn mark_bytes(&self) -> usize {
        self.columns.div_ceil(8)
    }

    /// How many links lead to a row.
    pub fn links(&self) -> usize {
        self.first_link[self.columns]
    }

    /// The columns that send to `tile`, ascending, its own among them.
    pub fn predecessors(&self, tile: usize) -> &[usize] {
        &self.predecessors[tile]
    }

    /// The links of `tile`: each sender, ascending, with the place of its link value in the row.
    pub fn links_of(&self, tile: usize) -> impl Iterator<Item = (usize, usize)> + '_ {
        let senders = self.predecessors[tile].iter().copied();
        senders.zip(self.first_link[tile]..)
    }

    /// The seams of a row, by left and then right.
    pub fn seams(&self) -> &[(usize, usize)] {
        &self.seams
    }
}

/// True where `column` has its bit set in the marks, the lowest column of a byte the lowest bit.
pub fn is_marked(marks: &[u8], column: usize) -> bool {
    marks[column / 8] >> (column % 8) & 1 == 1
}

#[cfg(test)]
mod tests {
    use super::*;

    #[test]
    fn predecessors_of_the_smallest_wall() {
        let shape = Shape::new(6);
        let all: Vec<&[usize]> = (0..6).map(|tile| shape.predecessors(tile)).collect();
        let due: [&[usize]; 6] = [
            &[0, 1, 2],
            &[0, 1, 2],
            &[0, 1, 2, 3],
            &[2, 3, 4, 5],
            &[3, 4, 5],
            &[3, 4, 5],
        ];
        assert_eq!(all, due);
    }

    #[test]
    fn links_stand_by_tile_and_then_by_sender() {
        let shape = Shape::new(6);
        let places: Vec<(usize, usize)> = (0..6).flat_map(|tile| shape.links_of(tile)).collect();
        assert_eq!(places[6..10], [(0, 6), (1, 7), (2, 8), (3, 9)]);
        assert_eq!(places[10..14], [(2, 10), (3, 11), (4, 12), (5, 13)]);
        assert!(places.iter().enumerate().all(|(i, &(_, at))| i == at));
    }

    #[test]
    fn sizes_for_every_width() {
        for w in 6..=256 {
            let shape = Shape::new(w);
            assert_eq!(shape.links(), 3 * w + 2);
            assert_eq!((2 + 4) * w + 8 * shape.links(), 30 * w + 16);
            assert_eq!(shape.seams().len(), w + 1);
            assert!(shape.seams().is_sorted());
            assert!(shape.seams().contains(&(0, 2)));
            assert!(shape.seams().contains(&(w - 3, w - 1)));
            for tile in 0..w {
                let count = shape.predecessors(tile).len();
                let due = if tile == 2 || tile == w - 3 { 4 } else { 3 };
                assert_eq!(count, due);
            }
        }
    }

    #[test]
    fn the_first_column_is_the_lowest_bit() {
        let marks = [0b0000_0001, 0b0000_0010];
        let marked: Vec<usize> = (0..16).filter(|&c| is_marked(&marks, c)).collect();
        assert_eq!(marked, [0, 9]);
    }
}
