//! Decides what a list of samples says of r |=> f by rules over r itself; the self test compares
//! them with the reading as {r ; true} |-> f.

use crate::judge::verdict_answer;
use crate::properties::Reading;
use crate::sequences::Word;
use crate::table::Table;
use crate::tree;

const NEITHER: u64 = 0;
const BREAKS: u64 = 1;
const SECURES: u64 = 2;

/// What a list says of a property: neither, breaks or secures.
pub fn said(table: &Table, property: usize, samples: &[u32]) -> u64 {
    let tree = tree::read(table, property);
    let decided = Reading::new(table, &tree, samples).decides(samples.len());
    decided.map_or(NEITHER, |verdict| verdict_answer(verdict) >> 32)
}

/// Adds two roots to a table with the root r |=> f: {r ; true} |-> f in rows, and f. The check
/// would refuse it now, since r and f are used again.
pub fn add_roots(table: &mut Table) {
    let [_, r, f, _] = table.rows[table.roots[0]];
    let true_row = table.rows.len() as u8;
    table.rows.extend([[1, 0, 0, 0], [16, r, true_row, 0], [40, true_row + 1, f, 0]]);
    table.roots.extend([true_row as usize + 2, f as usize]);
}

/// A list w of n samples, by what it says of r and of f.
pub struct Parts {
    n: usize,
    /// Whether the first j samples match r, for each j from 0 to n.
    matched: Vec<bool>,
    /// Whether w followed by m letters T matches r for some m of 1 or more.
    completed: bool,
    /// What w(j..) says of f, for each j from 0 to n.
    rests: Vec<u64>,
}

impl Parts {
    /// The table has the roots that add_roots gives it.
    pub fn read(table: &Table, samples: &[u32]) -> Parts {
        let n = samples.len();
        let (r, slots) = tree::read_sequence(table, table.rows[table.roots[0]][1] as usize);
        let most = tree::cells(&r) + 2;
        let letters: Vec<u64> = samples.iter().map(|&s| tree::satisfied(table, s)).collect();
        let mut word = Word::new(&letters, most, slots);
        Parts {
            n,
            matched: (0..=n).map(|j| word.matches(&r, 0, j)).collect(),
            completed: (1..=most).any(|m| word.matches(&r, 0, n + m)),
            rests: (0..=n).map(|j| said(table, 2, &samples[j..])).collect(),
        }
    }

    pub fn empty_matches(&self) -> bool {
        self.matched[0]
    }

    /// For every r: f is owed after each j samples that match, also after none, and nothing is
    /// secured while w or a longer word can match.
    pub fn rule(&self) -> u64 {
        let owed = (0..self.n).filter(|&j| self.matched[j]).map(|j| self.rests[j]).collect();
        said_of_owed(owed, self.n > 0 && !self.matched[self.n] && !self.completed)
    }

    /// For an r that does not match the empty word: f is owed from j + 1 on where a match ends
    /// at sample j. After the last sample the list is empty, which secures nothing.
    pub fn rule_of_ends(&self) -> u64 {
        let ends = (0..self.n).filter(|&j| self.matched[j + 1]);
        let owed = ends.map(|j| self.rests[j + 1]).collect();
        said_of_owed(owed, self.n > 0 && !self.completed)
    }
}

fn said_of_owed(owed: Vec<u64>, may_secure: bool) -> u64 {
    if owed.contains(&BREAKS) {
        BREAKS
    } else if may_secure && owed.iter().all(|&rest| rest == SECURES) {
        SECURES
    } else {
        NEITHER
    }
}
