//! Decides how rows and roots are written as table bytes; a draft need not be a valid table.

use crate::random::Random;
use crate::table::{class_of, fields_of, is_operand, operands, Class, HEADER_BYTES};

#[derive(Clone)]
pub struct Draft {
    pub signals: usize,
    pub rows: Vec<[u8; 4]>,
    pub roots: Vec<u16>,
}

impl Draft {
    pub fn bytes(&self) -> Vec<u8> {
        let property_rows = HEADER_BYTES + 4 * self.rows.len();
        let total = property_rows + 2 * self.roots.len();
        let mut bytes = Vec::new();
        for field in [1, self.signals, self.rows.len(), self.roots.len(), 16, property_rows] {
            bytes.extend_from_slice(&(field as u16).to_le_bytes());
        }
        bytes.extend_from_slice(&(total as u32).to_le_bytes());
        for row in &self.rows {
            bytes.extend_from_slice(row);
        }
        for root in &self.roots {
            bytes.extend_from_slice(&root.to_le_bytes());
        }
        bytes
    }

    pub fn push(&mut self, row: [u8; 4]) -> u8 {
        self.rows.push(row);
        (self.rows.len() - 1) as u8
    }

    pub fn nodes_of(&self, class: Class) -> Vec<usize> {
        (0..self.rows.len()).filter(|&node| class_of(self.rows[node][0]) == class).collect()
    }

    /// The signals that some row reads.
    pub fn signals_read(&self) -> Vec<usize> {
        self.rows.iter().filter(|row| row[0] == 3).map(|row| row[1] as usize).collect()
    }

    /// Renumbers the nodes at random; operands still have smaller numbers than their rows.
    pub fn shuffle(&mut self, random: &mut Random) {
        let count = self.rows.len();
        let mut new_number: Vec<Option<u8>> = vec![None; count];
        let mut rows = Vec::new();
        while rows.len() < count {
            let ready: Vec<usize> = (0..count)
                .filter(|&node| new_number[node].is_none())
                .filter(|&node| operands(self.rows[node]).iter().all(|&o| new_number[o].is_some()))
                .collect();
            let node = random.pick(&ready);
            new_number[node] = Some(rows.len() as u8);
            rows.push(self.renamed(node, &new_number));
        }
        for root in &mut self.roots {
            *root = u16::from(new_number[*root as usize].unwrap_or(0));
        }
        self.rows = rows;
    }

    fn renamed(&self, node: usize, new_number: &[Option<u8>]) -> [u8; 4] {
        let mut row = self.rows[node];
        if let Some(fields) = fields_of(row[0]) {
            for f in (0..3).filter(|&f| is_operand(fields[f])) {
                row[f + 1] = new_number[row[f + 1] as usize].unwrap_or(0);
            }
        }
        row
    }
}
