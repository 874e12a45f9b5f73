//! Decides whether table bytes are accepted, and otherwise which refusal 1 to 11
//! they get and at which place. The order of the tests is the order of the document.

pub const MOST_SIGNALS: usize = 32;
pub const MOST_NODES: usize = 64;
pub const MOST_PROPERTIES: usize = 8;
pub const MOST_WEAK_CELLS: usize = 6;
pub const HEADER_BYTES: usize = 16;

#[derive(Clone, Copy, PartialEq, Eq, Debug)]
pub struct Refusal {
    pub number: u32,
    pub place: u32,
}

/// An accepted table.
pub struct Table {
    pub signals: usize,
    pub rows: Vec<[u8; 4]>,
    pub roots: Vec<usize>,
}

#[derive(Clone, Copy, PartialEq, Eq, Debug)]
pub enum Class {
    Boolean,
    Sequence,
    Property,
}

/// What a field of a node row holds.
#[derive(Clone, Copy, PartialEq, Eq, Debug)]
pub enum Field {
    Unused,
    Signal,
    B,
    Q,
    F,
}

pub fn refused<T>(number: u32, place: usize) -> Result<T, Refusal> {
    Err(Refusal { number, place: place as u32 })
}

pub fn u16_at(bytes: &[u8], at: usize) -> usize {
    bytes[at] as usize + 256 * bytes[at + 1] as usize
}

pub fn u32_at(bytes: &[u8], at: usize) -> usize {
    u16_at(bytes, at) + 65_536 * u16_at(bytes, at + 2)
}

/// The three fields of a kind that is read; None for every other number.
pub fn fields_of(kind: u8) -> Option<[Field; 3]> {
    use Field::*;
    Some(match kind {
        1 | 2 => [Unused, Unused, Unused],
        3 => [Signal, Unused, Unused],
        4 => [B, Unused, Unused],
        5 | 6 => [B, B, Unused],
        16 | 17 | 18 => [Q, Q, Unused],
        19 | 20 => [Q, Unused, Unused],
        32 | 42 => [Q, Unused, Unused],
        33 => [F, F, Unused],
        34 | 38 => [F, Unused, Unused],
        35 => [B, F, F],
        36 => [B, F, Unused],
        37 | 39 => [F, B, Unused],
        40 | 41 => [Q, F, Unused],
        _ => return None,
    })
}

pub fn is_strong(kind: u8) -> bool {
    kind == 48 || kind == 49 || kind == 50
}

/// Class of a kind that fields_of knows.
pub fn class_of(kind: u8) -> Class {
    match kind {
        1..=6 => Class::Boolean,
        16..=20 => Class::Sequence,
        _ => Class::Property,
    }
}

pub fn is_operand(field: Field) -> bool {
    field == Field::B || field == Field::Q || field == Field::F
}

pub fn allows(field: Field, class: Class) -> bool {
    match field {
        Field::B => class == Class::Boolean,
        Field::Q => class == Class::Boolean || class == Class::Sequence,
        Field::F => class == Class::Boolean || class == Class::Property,
        Field::Unused | Field::Signal => false,
    }
}

pub fn check(bytes: &[u8]) -> Result<Table, Refusal> {
    let table = read_layout(bytes)?;
    for node in 0..table.rows.len() {
        check_row(&table, node)?;
    }
    check_roots(&table)?;
    check_uses(&table)?;
    check_cells(&table)?;
    Ok(table)
}

/// Refusals 1 to 4; what comes back has rows and roots nobody has looked at yet.
fn read_layout(bytes: &[u8]) -> Result<Table, Refusal> {
    if bytes.len() < HEADER_BYTES {
        return refused(1, 0);
    }
    if u16_at(bytes, 0) != 1 {
        return refused(2, 0);
    }
    let (signals, nodes, properties) = (u16_at(bytes, 2), u16_at(bytes, 4), u16_at(bytes, 6));
    let in_range = (1..=MOST_SIGNALS).contains(&signals)
        && (1..=MOST_NODES).contains(&nodes)
        && (1..=MOST_PROPERTIES).contains(&properties);
    if !in_range {
        return refused(3, 0);
    }
    let property_rows = HEADER_BYTES + 4 * nodes;
    let total = property_rows + 2 * properties;
    let laid_out = u16_at(bytes, 8) == HEADER_BYTES
        && u16_at(bytes, 10) == property_rows
        && u32_at(bytes, 12) == total
        && bytes.len() == total;
    if !laid_out {
        return refused(4, 0);
    }
    let row = |node: usize| {
        let at = HEADER_BYTES + 4 * node;
        [bytes[at], bytes[at + 1], bytes[at + 2], bytes[at + 3]]
    };
    Ok(Table {
        signals,
        rows: (0..nodes).map(row).collect(),
        roots: (0..properties).map(|p| u16_at(bytes, property_rows + 2 * p)).collect(),
    })
}

/// Refusals 5 to 8 of one row; the rows below it have passed.
fn check_row(table: &Table, node: usize) -> Result<(), Refusal> {
    let [kind, a, b, c] = table.rows[node];
    let fields = match fields_of(kind) {
        Some(fields) => fields,
        None if is_strong(kind) => return refused(6, node),
        None => return refused(5, node),
    };
    let values = [a as usize, b as usize, c as usize];
    for (field, value) in fields.into_iter().zip(values) {
        let fits = match field {
            Field::Unused => value == 0,
            Field::Signal => value < table.signals,
            _ => value < node,
        };
        if !fits {
            return refused(7, node);
        }
    }
    for (field, value) in fields.into_iter().zip(values) {
        if is_operand(field) && !allows(field, class_of(table.rows[value][0])) {
            return refused(8, node);
        }
    }
    Ok(())
}

fn check_roots(table: &Table) -> Result<(), Refusal> {
    for (property, &root) in table.roots.iter().enumerate() {
        if root >= table.rows.len() || class_of(table.rows[root][0]) == Class::Sequence {
            return refused(9, property);
        }
    }
    Ok(())
}

/// The nodes a row names, once for each time it names them.
pub fn operands(row: [u8; 4]) -> Vec<usize> {
    let fields = fields_of(row[0]).unwrap_or([Field::Unused; 3]);
    (0..3).filter(|&f| is_operand(fields[f])).map(|f| row[f + 1] as usize).collect()
}

fn check_uses(table: &Table) -> Result<(), Refusal> {
    for node in 0..table.rows.len() {
        let by_rows: usize = table
            .rows
            .iter()
            .map(|&row| operands(row).iter().filter(|&&named| named == node).count())
            .sum();
        let by_roots = table.roots.iter().filter(|&&root| root == node).count();
        if table.rows[node][0] >= 16 && by_rows + by_roots != 1 {
            return refused(10, node);
        }
    }
    Ok(())
}

/// Cells of the sequence at a node; every sequence node is used once by now, so this ends fast.
fn cells(table: &Table, node: usize) -> usize {
    let row = table.rows[node];
    match class_of(row[0]) {
        Class::Boolean => 1,
        _ => operands(row).into_iter().map(|operand| cells(table, operand)).sum(),
    }
}

fn check_cells(table: &Table) -> Result<(), Refusal> {
    for (node, row) in table.rows.iter().enumerate() {
        if row[0] == 32 && cells(table, row[1] as usize) > MOST_WEAK_CELLS {
            return refused(11, node);
        }
    }
    Ok(())
}
