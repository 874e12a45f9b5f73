//! Decides what an accepted row says: the property, read as a tree, and the truth of Booleans.

use crate::table::Table;

/// A sequence. The slot tells it from the other parts of its tree.
pub struct Sequence {
    pub slot: usize,
    pub form: SequenceForm,
}

pub enum SequenceForm {
    /// The node number of a Boolean that stands as a sequence.
    Boolean(usize),
    Then(Box<Sequence>, Box<Sequence>),
    /// a ; true, the left side a of |=>; no row says this true.
    ThenTrue(Box<Sequence>),
    Sharing(Box<Sequence>, Box<Sequence>),
    Either(Box<Sequence>, Box<Sequence>),
    AnyTimes(Box<Sequence>),
    OnceOrMore(Box<Sequence>),
}

pub struct Property {
    pub slot: usize,
    pub form: PropertyForm,
}

/// A usize is the node number of a Boolean.
pub enum PropertyForm {
    Boolean(usize),
    Weak(Sequence),
    Both(Box<Property>, Box<Property>),
    Next(Box<Property>),
    If(usize, Box<Property>, Box<Property>),
    Implies(usize, Box<Property>),
    Or(Box<Property>, usize),
    Always(Box<Property>),
    Until(Box<Property>, usize),
    /// r |-> f, and r |=> f as {r ; true} |-> f.
    Overlapping(Sequence, Box<Property>),
    Never(Sequence),
}

/// A property with the number of slots it has and the most letters T any part asks for.
pub struct Tree {
    pub root: Property,
    pub slots: usize,
    pub most_cells: usize,
}

struct Reader<'a> {
    table: &'a Table,
    slots: usize,
    most_cells: usize,
}

pub fn read(table: &Table, property: usize) -> Tree {
    let mut reader = Reader { table, slots: 0, most_cells: 0 };
    let root = reader.property(table.roots[property]);
    Tree { root, slots: reader.slots, most_cells: reader.most_cells }
}

/// The sequence at a node by itself, with the number of slots it has.
pub fn read_sequence(table: &Table, node: usize) -> (Sequence, usize) {
    let mut reader = Reader { table, slots: 0, most_cells: 0 };
    let r = reader.sequence(node);
    (r, reader.slots)
}

impl Reader<'_> {
    fn slot(&mut self) -> usize {
        self.slots += 1;
        self.slots - 1
    }

    fn sequence(&mut self, node: usize) -> Sequence {
        let [kind, a, b, _] = self.table.rows[node];
        let (a, b) = (a as usize, b as usize);
        let form = match kind {
            16 => SequenceForm::Then(self.boxed_sequence(a), self.boxed_sequence(b)),
            17 => SequenceForm::Sharing(self.boxed_sequence(a), self.boxed_sequence(b)),
            18 => SequenceForm::Either(self.boxed_sequence(a), self.boxed_sequence(b)),
            19 => SequenceForm::AnyTimes(self.boxed_sequence(a)),
            20 => SequenceForm::OnceOrMore(self.boxed_sequence(a)),
            _ => SequenceForm::Boolean(node),
        };
        self.sequence_of(form)
    }

    fn sequence_of(&mut self, form: SequenceForm) -> Sequence {
        Sequence { slot: self.slot(), form }
    }

    fn boxed_sequence(&mut self, node: usize) -> Box<Sequence> {
        Box::new(self.sequence(node))
    }

    fn completed_sequence(&mut self, node: usize) -> Sequence {
        let r = self.sequence(node);
        self.completed(r)
    }

    fn completed_then_true(&mut self, node: usize) -> Sequence {
        let form = SequenceForm::ThenTrue(self.boxed_sequence(node));
        let r = self.sequence_of(form);
        self.completed(r)
    }

    /// A sequence that is tried with letters T after it.
    fn completed(&mut self, r: Sequence) -> Sequence {
        self.most_cells = self.most_cells.max(cells(&r));
        r
    }

    fn property(&mut self, node: usize) -> Property {
        let [kind, a, b, c] = self.table.rows[node];
        let (a, b, c) = (a as usize, b as usize, c as usize);
        let slot = self.slot();
        let form = match kind {
            32 => PropertyForm::Weak(self.completed_sequence(a)),
            33 => PropertyForm::Both(self.boxed_property(a), self.boxed_property(b)),
            34 => PropertyForm::Next(self.boxed_property(a)),
            35 => PropertyForm::If(a, self.boxed_property(b), self.boxed_property(c)),
            36 => PropertyForm::Implies(a, self.boxed_property(b)),
            37 => PropertyForm::Or(self.boxed_property(a), b),
            38 => PropertyForm::Always(self.boxed_property(a)),
            39 => PropertyForm::Until(self.boxed_property(a), b),
            40 => PropertyForm::Overlapping(self.completed_sequence(a), self.boxed_property(b)),
            41 => PropertyForm::Overlapping(self.completed_then_true(a), self.boxed_property(b)),
            42 => PropertyForm::Never(self.sequence(a)),
            _ => PropertyForm::Boolean(node),
        };
        Property { slot, form }
    }

    fn boxed_property(&mut self, node: usize) -> Box<Property> {
        Box::new(self.property(node))
    }
}

/// The places where a Boolean stands as a sequence, the true of |=> among them.
pub fn cells(r: &Sequence) -> usize {
    match &r.form {
        SequenceForm::Boolean(_) => 1,
        SequenceForm::Then(a, b) | SequenceForm::Sharing(a, b) | SequenceForm::Either(a, b) => {
            cells(a) + cells(b)
        }
        SequenceForm::ThenTrue(a) => cells(a) + 1,
        SequenceForm::AnyTimes(a) | SequenceForm::OnceOrMore(a) => cells(a),
    }
}

/// Which Boolean nodes a sample satisfies, as bit k for node k. Rows are taken upwards, since
/// Booleans may be shared and a tree of them could be far larger than the table.
pub fn satisfied(table: &Table, sample: u32) -> u64 {
    let mut truth = 0u64;
    for (node, &[kind, a, b, _]) in table.rows.iter().enumerate() {
        let holds = |operand: u8| truth >> operand & 1 == 1;
        let value = match kind {
            1 => true,
            3 => sample >> a & 1 == 1,
            4 => !holds(a),
            5 => holds(a) && holds(b),
            6 => holds(a) || holds(b),
            _ => false,
        };
        truth |= (value as u64) << node;
    }
    truth
}
