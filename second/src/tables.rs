//! Decides which valid tables are drawn: every kind, shared Booleans, sequences that can be
//! empty, sizes up to 64 nodes, and left sides with up to 63 cells.

use crate::draft::Draft;
use crate::random::Random;
use crate::table::{fields_of, MOST_NODES, MOST_PROPERTIES, MOST_SIGNALS, MOST_WEAK_CELLS};

/// Draws rows; `booleans` are the Boolean rows so far, `in_play` the signals worth reading.
pub struct Maker<'a> {
    pub random: &'a mut Random,
    pub draft: Draft,
    booleans: Vec<u8>,
    in_play: Vec<u8>,
}

impl<'a> Maker<'a> {
    /// Starts with a few Booleans, the first of them a signal.
    pub fn new(random: &'a mut Random, first_booleans: usize) -> Maker<'a> {
        let widths = [1, 2, 3, random.between(1, MOST_SIGNALS), 31, 32];
        let signals = random.pick(&widths);
        let mut in_play = Vec::new();
        for _ in 0..random.between(1, 3) {
            let any = random.below(signals);
            in_play.push(random.pick(&[any, any, 0, signals - 1]) as u8);
        }
        let draft = Draft { signals, rows: Vec::new(), roots: Vec::new() };
        let mut maker = Maker { random, draft, booleans: Vec::new(), in_play };
        for _ in 0..first_booleans {
            maker.new_boolean();
        }
        maker
    }

    fn push(&mut self, kind: u8, a: u8, b: u8, c: u8) -> u8 {
        self.draft.push([kind, a, b, c])
    }

    pub fn boolean(&mut self) -> u8 {
        self.random.pick(&self.booleans)
    }

    pub fn new_boolean(&mut self) -> u8 {
        let kind = match self.booleans.len() {
            0 => 3,
            _ => self.random.pick(&[1, 2, 3, 3, 3, 3, 3, 3, 4, 4, 4, 5, 5, 6, 6]),
        };
        let node = match kind {
            3 => {
                let signal = self.random.pick(&self.in_play);
                self.push(3, signal, 0, 0)
            }
            4 => {
                let a = self.boolean();
                self.push(4, a, 0, 0)
            }
            5 | 6 => {
                let (a, b) = (self.boolean(), self.boolean());
                self.push(kind, a, b, 0)
            }
            _ => self.push(kind, 0, 0, 0),
        };
        self.booleans.push(node);
        node
    }

    /// A sequence of at most `size` new rows and at most `most_cells` cells.
    pub fn sequence(&mut self, size: usize, most_cells: usize) -> u8 {
        if size == 0 {
            return self.boolean();
        }
        let kinds: &[u8] = match most_cells {
            1 => &[0, 19, 19, 20],
            _ => &[0, 16, 16, 16, 16, 16, 17, 17, 18, 18, 19, 19, 20],
        };
        match self.random.pick(kinds) {
            0 => self.new_boolean(),
            kind @ (19 | 20) => {
                let a = self.sequence(size - 1, most_cells);
                self.push(kind, a, 0, 0)
            }
            kind => {
                let left_size = self.random.below(size);
                let left_cells = self.random.between(1, most_cells - 1);
                let a = self.sequence(left_size, left_cells);
                let b = self.sequence(size - 1 - left_size, most_cells - left_cells);
                self.push(kind, a, b, 0)
            }
        }
    }

    /// A sequence of exactly so many cells, with cells - 1 new rows.
    pub fn sequence_of_cells(&mut self, cells: usize, kinds: &[u8]) -> u8 {
        if cells == 1 {
            return self.boolean();
        }
        let left = self.random.between(1, cells - 1);
        let a = self.sequence_of_cells(left, kinds);
        let b = self.sequence_of_cells(cells - left, kinds);
        let kind = self.random.pick(kinds);
        self.push(kind, a, b, 0)
    }

    /// A Boolean, repeated now and then.
    fn cell(&mut self) -> u8 {
        let boolean = self.boolean();
        match self.random.pick(&[0, 0, 0, 19, 20]) {
            0 => boolean,
            kind => self.push(kind, boolean, 0, 0),
        }
    }

    /// A weak sequence of so many cells, with as many new rows.
    fn weak_sequence(&mut self, cells: usize) -> u8 {
        let sequence = self.sequence_of_cells(cells, &[16, 16, 17, 18]);
        self.push(32, sequence, 0, 0)
    }

    /// A property of at most `size` new rows.
    pub fn property(&mut self, size: usize) -> u8 {
        if size == 0 {
            return self.boolean();
        }
        let rest = size - 1;
        let part = self.random.between(0, rest);
        let kinds = [0, 32, 32, 32, 33, 33, 34, 34, 35, 36, 37, 38, 38, 39, 39, 40, 40, 41, 41, 42];
        let kind = self.random.pick(&kinds);
        let (a, b, c) = match kind {
            0 => return self.new_boolean(),
            32 => (self.sequence(rest, MOST_WEAK_CELLS), 0, 0),
            42 => (self.sequence(rest, MOST_NODES), 0, 0),
            33 => (self.property(part), self.property(rest - part), 0),
            34 | 38 => (self.property(rest), 0, 0),
            35 => (self.boolean(), self.property(part), self.property(rest - part)),
            36 => (self.boolean(), self.property(rest), 0),
            37 | 39 => (self.property(rest), self.boolean(), 0),
            _ => (self.left_side(kind, part, MOST_NODES), self.property(rest - part), 0),
        };
        self.push(kind, a, b, c)
    }

    /// One more row over a property.
    pub fn frame(&mut self, inner: u8) -> u8 {
        let kind = self.random.pick(&[34, 36, 38, 38, 38, 39, 40, 41]);
        let guard = self.boolean();
        match kind {
            34 | 38 => self.push(kind, inner, 0, 0),
            36 => self.push(36, guard, inner, 0),
            39 => self.push(39, inner, guard, 0),
            _ => {
                let left = self.left_side(kind, 3, 3);
                self.push(kind, left, inner, 0)
            }
        }
    }

    pub fn root(&mut self, node: u8) {
        self.draft.roots.push(u16::from(node));
    }

    /// The finished table, its nodes renumbered in half of the cases.
    pub fn finish(mut self) -> Draft {
        if self.random.chance(1, 2) {
            self.draft.shuffle(self.random);
        }
        self.draft
    }
}

/// A table of ordinary size, with Boolean roots now and then and one root named twice.
pub fn ordinary(random: &mut Random) -> Draft {
    let first = random.between(1, 4);
    let roots = random.pick(&[1, 1, 1, 2, 2, 3, 5, MOST_PROPERTIES]);
    let largest = random.pick(&[3, 6, 9, 12, 20, 40]);
    let mut maker = Maker::new(random, first);
    for _ in 0..roots {
        let room = largest.min((MOST_NODES - 4) / roots);
        let size = maker.random.between(1, room);
        let node = maker.property(size);
        maker.root(node);
    }
    if roots < MOST_PROPERTIES && maker.random.chance(1, 6) {
        let node = maker.boolean();
        maker.root(node);
        if roots + 1 < MOST_PROPERTIES {
            maker.root(node);
        }
    }
    maker.finish()
}

/// One small property under a frame that keeps its attempts coming.
pub fn framed(random: &mut Random) -> Draft {
    let first = random.between(2, 4);
    let mut maker = Maker::new(random, first);
    let size = maker.random.between(2, 8);
    let inner = maker.property(size);
    let node = maker.frame(inner);
    maker.root(node);
    maker.finish()
}

/// A table of exactly 64 nodes, some of them Booleans that nothing uses.
pub fn full(random: &mut Random) -> Draft {
    of_nodes(random, MOST_NODES)
}

/// A table of exactly so many nodes, 8 or more, sound in all but perhaps that count.
pub fn of_nodes(random: &mut Random, nodes: usize) -> Draft {
    let roots = random.between(1, MOST_PROPERTIES);
    let mut maker = Maker::new(random, 4);
    for _ in 0..roots {
        let room = (nodes - 4) / roots;
        let size = maker.random.between(room / 2, room);
        let node = maker.property(size);
        maker.root(node);
    }
    while maker.draft.rows.len() < nodes {
        maker.new_boolean();
    }
    maker.finish()
}

/// A left side or a never with many cells, up to 63.
pub fn wide(random: &mut Random) -> Draft {
    let cells = random.pick(&[7, 8, 12, 20, 40, 62, 63]);
    let mixes: [&[u8]; 4] = [&[16, 17, 18], &[17, 18, 18], &[16, 18, 18, 18], &[16]];
    let kinds = random.pick(&mixes);
    let mut maker = Maker::new(random, 1);
    for _ in 0..(MOST_NODES - 1 - cells).min(2) {
        maker.new_boolean();
    }
    let mut left = maker.sequence_of_cells(cells, kinds);
    let kind = maker.random.pick(&[40, 41, 42]);
    if kind == 41 && maker.draft.rows.len() + 3 <= MOST_NODES && maker.random.chance(1, 2) {
        left = maker.or_empty(left);
    }
    let right = if kind == 42 { 0 } else { maker.boolean() };
    let node = maker.push(kind, left, right, 0);
    maker.root(node);
    maker.finish()
}

/// One weak sequence for each count of cells, with repeats that add none. With a count of 7 or
/// more the table is refused.
pub fn weak_of_cells(random: &mut Random, counts: &[usize]) -> Draft {
    let first = random.between(1, 3);
    let mut maker = Maker::new(random, first);
    for &cells in counts {
        let mut node = maker.sequence_of_cells(cells, &[16, 16, 17, 18]);
        if maker.random.chance(1, 2) {
            let kind = maker.random.pick(&[19, 20]);
            node = maker.push(kind, node, 0, 0);
        }
        node = maker.push(32, node, 0, 0);
        maker.root(node);
    }
    maker.finish()
}

/// Attempts at a sequence that start while earlier ones are still open.
pub fn overlapping(random: &mut Random) -> Draft {
    let first = random.between(2, 4);
    let mut maker = Maker::new(random, first);
    let sizes = [maker.random.between(0, 3), maker.random.between(2, 7)];
    let kind = maker.random.pick(&[40, 41, 41]);
    let left = maker.left_side(kind, sizes[0], 3);
    let right = maker.sequence(sizes[1], MOST_WEAK_CELLS);
    let weak = maker.push(32, right, 0, 0);
    let attempt = maker.push(kind, left, weak, 0);
    let guard = maker.boolean();
    let node = match maker.random.below(4) {
        0 => maker.push(39, attempt, guard, 0),
        _ => maker.push(38, attempt, 0, 0),
    };
    maker.root(node);
    maker.finish()
}

/// A weak sequence of several cells that begins at almost every sample, and whose attempts last:
/// many are under way at once, each somewhere else in it.
pub fn pipelined(random: &mut Random) -> Draft {
    let mut maker = Maker::new(random, 3);
    let holds = maker.push(1, 0, 0, 0);
    maker.booleans.extend([holds; 2]);
    let mut sequence = maker.cell();
    for _ in 1..maker.random.between(3, MOST_WEAK_CELLS) {
        let next = maker.cell();
        let kind = maker.random.pick(&[16, 16, 16, 18]);
        sequence = maker.push(kind, sequence, next, 0);
    }
    let weak = maker.push(32, sequence, 0, 0);
    let kind = maker.random.pick(&[36, 40, 41]);
    let guard = match kind {
        41 => maker.left_side(41, 1, 1),
        _ => maker.boolean(),
    };
    let attempt = maker.push(kind, guard, weak, 0);
    let node = maker.push(38, attempt, 0, 0);
    maker.root(node);
    maker.finish()
}

/// Many weak sequences in one property: up to 32, up to 64 nodes.
pub fn crowded(random: &mut Random) -> Draft {
    let cells = random.pick(&[1, 1, 2, 3, 4, 6]);
    let first = random.between(1, 3);
    let is_framed = random.chance(1, 2);
    let mut maker = Maker::new(random, first);
    // A weak sequence takes a row for each of its cells, and one that joins it to the others.
    let most = (MOST_NODES - first - is_framed as usize + 1) / (cells + 1);
    let some = maker.random.between(1, most);
    let mut node = maker.weak_sequence(cells);
    for _ in 1..maker.random.pick(&[some, most]) {
        let other = maker.weak_sequence(cells);
        node = match maker.random.chance(1, 4) {
            true => {
                let chosen = maker.boolean();
                maker.push(35, chosen, node, other)
            }
            false => maker.push(33, node, other, 0),
        };
    }
    if is_framed {
        let guard = maker.boolean();
        node = match maker.random.below(4) {
            0 => maker.push(39, node, guard, 0),
            1 => maker.push(41, guard, node, 0),
            _ => maker.push(38, node, 0, 0),
        };
    }
    maker.root(node);
    maker.finish()
}

/// A right layout over rows and roots of any numbers.
pub fn noise(random: &mut Random) -> Draft {
    let kinds: Vec<u8> = (1..=42).filter(|&kind| fields_of(kind).is_some()).collect();
    let nodes = random.pick(&[1, 5, 20, MOST_NODES, MOST_NODES]);
    let mut rows = Vec::new();
    for _ in 0..nodes {
        let any = random.next().to_le_bytes();
        let below = [(); 3].map(|_| random.below(nodes) as u8);
        let kind = random.pick(&kinds);
        rows.push([
            random.pick(&[kind, kind, any[0]]),
            random.pick(&[below[0], below[0], any[1]]),
            random.pick(&[below[1], below[1], any[2]]),
            random.pick(&[below[2], below[2], any[3]]),
        ]);
    }
    let roots = (0..random.between(1, MOST_PROPERTIES)).map(|_| random.below(nodes) as u16);
    Draft { signals: 32, roots: roots.collect(), rows }
}

/// Booleans over Booleans, each row naming the one before it twice: small as rows, not as trees.
pub fn doubling(random: &mut Random) -> Draft {
    let mut maker = Maker::new(random, 2);
    let mut node = maker.boolean();
    for _ in 0..maker.random.between(20, 58) {
        let kind = maker.random.pick(&[4, 5, 6]);
        node = maker.push(kind, node, if kind == 4 { 0 } else { node }, 0);
    }
    maker.booleans.push(node);
    let sequence = maker.push(20, node, 0, 0);
    let weak = maker.push(32, sequence, 0, 0);
    let next = maker.push(34, weak, 0, 0);
    maker.root(next);
    maker.root(node);
    maker.finish()
}

/// A table small enough for long lists of samples.
pub fn small(random: &mut Random) -> Draft {
    let first = random.between(1, 3);
    let mut maker = Maker::new(random, first);
    let size = maker.random.between(1, 4);
    let inner = maker.property(size);
    let node = maker.push(38, inner, 0, 0);
    maker.root(node);
    maker.finish()
}
