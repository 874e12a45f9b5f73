//! Decides how a valid case is damaged so that a chosen refusal number is due. Rows and roots
//! are damaged in the draft, the header in the bytes, so that several damages can be put
//! together; which refusal then comes first is for the check to say.

use crate::draft::Draft;
use crate::random::Random;
use crate::table::{allows, class_of, fields_of, is_operand, Class, Field};

fn random_row(random: &mut Random, draft: &Draft) -> usize {
    random.below(draft.rows.len())
}

/// Refusals 5 to 10 in the rows and roots.
pub fn damage_draft(random: &mut Random, draft: &mut Draft, number: usize) {
    match number {
        5 => unknown_kind(random, draft),
        6 => strong_kind(random, draft),
        7 => wrong_number(random, draft),
        8 => wrong_class(random, draft),
        9 => wrong_root(random, draft),
        10 => wrong_use(random, draft),
        _ => {}
    }
}

fn unknown_kind(random: &mut Random, draft: &mut Draft) {
    let unknown = [0, 7, 8, 15, 21, 22, 31, 43, 47, 51, 64, 128, 144, 160, 254, 255];
    let row = random_row(random, draft);
    draft.rows[row][0] = random.pick(&unknown);
}

/// The fields of a strong kind are not looked at, so half of them get any bytes.
fn strong_kind(random: &mut Random, draft: &mut Draft) {
    let row = random_row(random, draft);
    draft.rows[row][0] = random.pick(&[48, 49, 50]);
    if random.chance(1, 2) {
        for field in 1..4 {
            draft.rows[row][field] = random.next() as u8;
        }
    }
}

fn wrong_number(random: &mut Random, draft: &mut Draft) {
    let mut row = random_row(random, draft);
    if random.chance(1, 4) {
        row = draft.rows.iter().position(|row| row[0] == 3).unwrap_or(row);
    }
    let fields = fields_of(draft.rows[row][0]).unwrap_or([Field::Unused; 3]);
    let f = random.below(3);
    let wrong = match fields[f] {
        Field::Unused => vec![1, 2, 128, 255],
        Field::Signal => vec![draft.signals, draft.signals, draft.signals + 1, 255],
        _ => vec![row, row + 1, 64, 255, row + 128],
    };
    draft.rows[row][f + 1] = random.pick(&wrong) as u8;
    // With an operand of a wrong class before it in the same row, 7 still comes first.
    if f > 0 && is_operand(fields[f - 1]) && row > 0 {
        draft.rows[row][f] = random.below(row) as u8;
    }
}

/// An operand of a class its row does not allow; often with the next row damaged as well.
fn wrong_class(random: &mut Random, draft: &mut Draft) {
    let mut places = Vec::new();
    for (node, row) in draft.rows.iter().enumerate() {
        for (f, field) in fields_of(row[0]).unwrap_or([Field::Unused; 3]).into_iter().enumerate() {
            for operand in 0..node {
                let class = class_of(draft.rows[operand][0]);
                if is_operand(field) && !allows(field, class) {
                    places.push((node, f, operand));
                }
            }
        }
    }
    if places.is_empty() {
        return;
    }
    let (node, f, operand) = random.pick(&places);
    draft.rows[node][f + 1] = operand as u8;
    if node + 1 < draft.rows.len() && random.chance(1, 3) {
        draft.rows[node + 1][0] = random.pick(&[0, 48, 255]);
    }
}

fn wrong_root(random: &mut Random, draft: &mut Draft) {
    let property = random.below(draft.roots.len());
    let nodes = draft.rows.len() as u16;
    let old = draft.roots[property];
    let sequences = draft.nodes_of(Class::Sequence);
    if !sequences.is_empty() && random.chance(1, 2) {
        draft.roots[property] = random.pick(&sequences) as u16;
    } else {
        draft.roots[property] = random.pick(&[nodes, nodes + 1, 255, 256, 256 + old, 65_535]);
    }
}

/// Named twice by one row, by two rows, by two roots, by a row and a root, or not at all.
fn wrong_use(random: &mut Random, draft: &mut Draft) {
    let last = draft.rows.len() as u8 - 1;
    let later = [draft.nodes_of(Class::Sequence), draft.nodes_of(Class::Property)].concat();
    let used = if later.is_empty() { 0 } else { random.pick(&later) as u8 };
    let sequence = later.is_empty() || class_of(draft.rows[used as usize][0]) == Class::Sequence;
    match random.below(7) {
        0 => draft.roots[0] = draft.roots[draft.roots.len() - 1],
        1 => draft.roots.push(draft.roots[0]),
        2 if sequence => {
            draft.push([16, used, used, 0]);
            draft.push([42, last + 1, 0, 0]);
            draft.roots.push(u16::from(last) + 2);
        }
        2 => {
            draft.push([33, used, used, 0]);
            draft.roots.push(u16::from(last) + 1);
        }
        3 => {
            draft.push([if sequence { 42 } else { 38 }, used, 0, 0]);
            draft.roots.push(u16::from(last) + 1);
        }
        4 => drop(draft.push([random.pick(&[19, 32, 42]), 0, 0, 0])),
        5 => name_twice(random, draft),
        _ => rewire(random, draft),
    }
}

/// Makes one row name the same node in two fields, where no other node goes unused by that.
fn name_twice(random: &mut Random, draft: &mut Draft) {
    let mut places = Vec::new();
    for (node, row) in draft.rows.iter().enumerate() {
        let later = |operand: u8| draft.rows[operand as usize][0] >= 16;
        match row[0] {
            16 | 17 | 18 | 33 if later(row[1]) && !later(row[2]) => places.push((node, 2, row[1])),
            16 | 17 | 18 | 33 if later(row[2]) && !later(row[1]) => places.push((node, 1, row[2])),
            35 if later(row[2]) && !later(row[3]) => places.push((node, 3, row[2])),
            _ => {}
        }
    }
    if !places.is_empty() {
        let (node, field, operand) = random.pick(&places);
        draft.rows[node][field] = operand;
    }
}

/// Points one operand to another node of an allowed class.
fn rewire(random: &mut Random, draft: &mut Draft) {
    let row = random_row(random, draft);
    let fields = fields_of(draft.rows[row][0]).unwrap_or([Field::Unused; 3]);
    let f = random.below(3);
    let allowed: Vec<usize> =
        (0..row).filter(|&node| allows(fields[f], class_of(draft.rows[node][0]))).collect();
    if !allowed.is_empty() {
        draft.rows[row][f + 1] = random.pick(&allowed) as u8;
    }
}

fn put_u16(bytes: &mut [u8], at: usize, value: usize) {
    bytes[at..at + 2].copy_from_slice(&(value as u16).to_le_bytes());
}

fn put_u32(bytes: &mut [u8], at: usize, value: usize) {
    bytes[at..at + 4].copy_from_slice(&(value as u32).to_le_bytes());
}

/// Refusals 1 to 4 in the bytes of a table that has its header.
pub fn damage_bytes(random: &mut Random, bytes: &mut Vec<u8>, number: usize) {
    match number {
        1 => bytes.truncate(random.below(16)),
        2 => put_u16(bytes, 0, random.pick(&[0, 2, 256, 257, 513, 65_535])),
        3 => wrong_count(random, bytes),
        4 => wrong_layout(random, bytes),
        _ => {}
    }
}

fn wrong_count(random: &mut Random, bytes: &mut [u8]) {
    let (at, most) = random.pick(&[(2, 32), (4, 64), (6, 8)]);
    let old = bytes[at] as usize;
    let wrong = [0, most + 1, 255, 256, old + 256, old + 32_768, 65_535];
    put_u16(bytes, at, random.pick(&wrong));
}

fn wrong_layout(random: &mut Random, bytes: &mut Vec<u8>) {
    let total = bytes.len();
    let near = |value: usize, random: &mut Random| {
        random.pick(&[value + 1, value - 1, value + 4, value + 256, value + 32_768, 0, 65_535])
    };
    let rows_end = bytes[10] as usize + 256 * bytes[11] as usize;
    match random.below(9) {
        0 => put_u16(bytes, 8, near(16, random)),
        1 => put_u16(bytes, 10, near(rows_end, random)),
        2 => put_u32(bytes, 12, near(total, random)),
        3 => put_u32(bytes, 12, total + random.pick(&[1 << 16, 1 << 17, 1 << 31])),
        4 => bytes.push(random.next() as u8),
        5 => bytes.truncate(random.between(16, total - 1)),
        6 => bytes.truncate(random.pick(&[16, total - 1])),
        7 => {
            // Right in the low byte only.
            let (at, value) = random.pick(&[(8, 16), (10, rows_end), (12, total)]);
            put_u16(bytes, at, value ^ random.pick(&[256, 512, 32_768]));
        }
        _ => {
            // One byte or row more or less, and a total that agrees with the bytes given.
            let wrong = random.pick(&[total - 1, total + 1, total + 2, total + 4]);
            bytes.resize(wrong, 0);
            put_u32(bytes, 12, wrong);
        }
    }
    if random.chance(1, 40) {
        // Right modulo 65,536 only, in the bytes given.
        bytes.resize(total + 65_536, 0);
    }
}
