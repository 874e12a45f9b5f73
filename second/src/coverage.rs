//! Decides what is counted of the tables and traces in a file, so that whoever runs it sees what
//! was tried: the kinds that the judged properties reach, left sides that match the empty word,
//! steps after a refused opening, and the sizes.

use crate::sequences::Word;
use crate::table::{self, operands, Table, MOST_NODES};
use crate::trace::{samples_in, MOST_CYCLES};
use crate::tree;
use crate::vectors::{counts, last_verdict, refusal_number, Case, CHECK, SHUT, STATE, STRAY};
use std::collections::{BTreeMap, BTreeSet};

const LARGEST_TABLE: usize = 288;
const LONG: usize = 24;
const VERY_LONG: usize = 1000;
/// One more than the highest refusal number.
const REFUSALS: usize = 16;

#[derive(Default)]
pub struct Coverage {
    of_kind: BTreeMap<usize, usize>,
    /// Properties with an empty left side of |=>: broken, settled, pending.
    empty_left: [usize; 3],
    /// Steps after a refused opening, by its number: on its own table, on other ones.
    shut: [[usize; REFUSALS]; 2],
    /// Those on other tables that are accepted.
    shut_accepted: usize,
    /// How all of them were answered.
    shut_answers: [usize; REFUSALS],
    full: usize,
    shared: usize,
    no_cycle: usize,
    long: usize,
    very_long: usize,
    longest: usize,
    too_long: usize,
    largest: usize,
    too_large: usize,
}

impl Coverage {
    pub fn count(&mut self, case: &Case, answers: &[u64]) {
        self.largest += (case.table.len() == LARGEST_TABLE) as usize;
        self.too_large += (case.table.len() == LARGEST_TABLE + 1) as usize;
        if [CHECK, STATE, STRAY, SHUT].contains(&case.kind) {
            return;
        }
        let cycles = samples_in(&case.trace).len();
        self.too_long += (cycles == MOST_CYCLES + 1) as usize;
        if let Ok(table) = table::check(&case.table) {
            if let Some(&root) = table.roots.get(case.property as usize) {
                let uses = uses(&table, root);
                self.count_property(&table, &uses, cycles);
                // A refused trace has no verdict.
                if answers[0] >> 32 != 0 && has_empty_left(&table, &uses) {
                    self.empty_left[(last_verdict(answers) >> 32) as usize - 1] += 1;
                }
            }
        }
    }

    /// Steps of a monitor whose opening was refused for this reason.
    pub fn count_shut(&mut self, number: usize, case: &Case, steps: &[u64]) {
        let is_other = case.kind == SHUT;
        self.shut[is_other as usize][number] += steps.len();
        if is_other && table::check(&case.table).is_ok() {
            self.shut_accepted += steps.len();
        }
        for answer in steps.iter().filter_map(|&answer| refusal_number(answer)) {
            self.shut_answers[answer] += 1;
        }
    }

    fn count_property(&mut self, table: &Table, uses: &[usize], cycles: usize) {
        let kinds: BTreeSet<u8> = reached(uses).map(|node| table.rows[node][0]).collect();
        for kind in kinds {
            *self.of_kind.entry(kind as usize).or_insert(0) += 1;
        }
        self.full += (table.rows.len() == MOST_NODES) as usize;
        self.shared += uses.iter().any(|&count| count > 1) as usize;
        self.no_cycle += (cycles == 0) as usize;
        self.long += (cycles >= LONG) as usize;
        self.very_long += (cycles >= VERY_LONG) as usize;
        self.longest += (cycles == MOST_CYCLES) as usize;
    }

    pub fn lines(&self) -> String {
        let mut text = counts("kinds", self.of_kind.iter().map(|(&kind, &count)| (kind, count)));
        let of_verdict = (1..).zip(self.empty_left);
        text += &counts("empty left sides of |=> by verdict", of_verdict);
        for (name, of) in [
            ("steps of refused openings by number", self.shut[0]),
            ("steps of refused openings on other tables by number", self.shut[1]),
            ("steps of refused openings by answer", self.shut_answers),
        ] {
            text += &counts(name, of.into_iter().enumerate());
        }
        for (name, count) in [
            ("steps of refused openings on other tables that are accepted", self.shut_accepted),
            ("empty left sides of |=>", self.empty_left.iter().sum()),
            ("shared Booleans", self.shared),
            ("tables of 64 nodes", self.full),
            ("tables of 288 bytes", self.largest),
            ("tables of 289 bytes", self.too_large),
            ("lists of no sample", self.no_cycle),
            ("lists of 24 samples or more", self.long),
            ("lists of 1000 samples or more", self.very_long),
            ("traces of 16381 cycles", self.longest),
            ("traces of 16382 cycles", self.too_long),
        ] {
            text += &format!("{} {}\n", name, count);
        }
        text
    }
}

/// How often the property at a root uses each node.
fn uses(table: &Table, root: usize) -> Vec<usize> {
    let mut uses = vec![0; table.rows.len()];
    let mut open = vec![root];
    while let Some(node) = open.pop() {
        uses[node] += 1;
        if uses[node] == 1 {
            open.extend(operands(table.rows[node]));
        }
    }
    uses
}

fn reached(uses: &[usize]) -> impl Iterator<Item = usize> + '_ {
    (0..uses.len()).filter(|&node| uses[node] > 0)
}

/// Whether the left side of some |=> that is used matches the word of no letters.
fn has_empty_left(table: &Table, uses: &[usize]) -> bool {
    reached(uses).filter(|&node| table.rows[node][0] == 41).any(|node| {
        let (r, slots) = tree::read_sequence(table, table.rows[node][1] as usize);
        Word::new(&[], 0, slots).matches(&r, 0, 0)
    })
}
