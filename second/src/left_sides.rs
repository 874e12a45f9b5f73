//! Decides which left sides are drawn: about half of those of |=> match the empty word, in each
//! way that a sequence can.

use crate::draft::Draft;
use crate::random::Random;
use crate::tables::Maker;

impl Maker<'_> {
    /// A left side of at most `size` new rows and at most `most_cells` cells.
    pub fn left_side(&mut self, kind: u8, size: usize, most_cells: usize) -> u8 {
        match kind == 41 && size > 0 && self.random.chance(1, 2) {
            true => self.empty_sequence(size, most_cells),
            false => self.sequence(size, most_cells),
        }
    }

    /// A sequence that matches the empty word; the size is 1 or more.
    fn empty_sequence(&mut self, size: usize, most_cells: usize) -> u8 {
        let row = match self.random.pick(&[16, 18, 19, 19, 20]) {
            kind @ (16 | 18) if size >= 3 && most_cells >= 2 => {
                let left_size = self.random.between(1, size - 2);
                let left_cells = self.random.between(1, most_cells - 1);
                let a = match kind {
                    16 => self.empty_sequence(left_size, left_cells),
                    _ => self.sequence(left_size, left_cells),
                };
                let b = self.empty_sequence(size - 1 - left_size, most_cells - left_cells);
                [kind, a, b, 0]
            }
            20 if size >= 2 => [20, self.empty_sequence(size - 1, most_cells), 0, 0],
            _ => [19, self.sequence(size - 1, most_cells), 0, 0],
        };
        self.draft.push(row)
    }

    /// A sequence and the empty word with it, in two more rows.
    pub fn or_empty(&mut self, sequence: u8) -> u8 {
        let repeated = self.boolean();
        let repeats = self.draft.push([19, repeated, 0, 0]);
        self.draft.push([18, sequence, repeats, 0])
    }
}

/// A |=> whose right side is owed at once, under a frame in most tables.
pub fn owed_at_once(random: &mut Random) -> Draft {
    let first = random.between(2, 4);
    let mut maker = Maker::new(random, first);
    let sizes = [maker.random.between(1, 5), maker.random.between(1, 4)];
    let left = maker.empty_sequence(sizes[0], 4);
    let right = maker.property(sizes[1]);
    let mut node = maker.draft.push([41, left, right, 0]);
    if maker.random.chance(2, 3) {
        node = maker.frame(node);
    }
    maker.root(node);
    maker.finish()
}
