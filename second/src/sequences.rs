//! Decides which words match a sequence, by trying every way to split the word.
//!
//! How many letters T have to be tried: if v followed by m letters T matches r for some m of 1
//! or more, it does so for some m from 1 to cells(r). By the form of r, for v empty or not:
//! - B: a word of one letter, so v is empty and m = 1.
//! - a ; b: the split lies in v or at its end, and then b alone takes the letters T (at most
//!   cells(b) needed); or a takes 1 or more of them (cells(a) needed) and b takes none or 1 or
//!   more (cells(b) needed).
//! - a ; true: the last letter T is for true, and a takes none or 1 or more (cells(a) needed).
//! - a : b: the same as a ; b, the shared letter in v, or a letter T, which is then counted once.
//! - a | b: as the side that matches.
//! - a[*], a[+]: the first letter T lies in one match of a, which needs at most cells(a) of
//!   them; the matches after it can be left out.
//! The self test tries longer runs of T at random.

use crate::tree::{cells, Sequence, SequenceForm, Tree};

#[derive(Clone, Copy)]
pub enum Letter {
    /// A sample, as the set of Boolean nodes it satisfies.
    Sample(u64),
    T,
}

impl Letter {
    fn satisfies(self, boolean: usize) -> bool {
        match self {
            Letter::Sample(truth) => truth >> boolean & 1 == 1,
            Letter::T => true,
        }
    }
}

/// Samples followed by letters T, with the matches already decided for it.
pub struct Word {
    letters: Vec<Letter>,
    samples: usize,
    /// 0 not decided yet, 1 no match, 2 match; per slot, start and end.
    decided: Vec<u8>,
}

impl Word {
    pub fn new(samples: &[u64], letters_t: usize, slots: usize) -> Word {
        let mut letters: Vec<Letter> = samples.iter().map(|&s| Letter::Sample(s)).collect();
        letters.resize(samples.len() + letters_t, Letter::T);
        let side = letters.len() + 1;
        Word { letters, samples: samples.len(), decided: vec![0; slots * side * side] }
    }

    /// The room that a word of so many samples takes for one tree.
    pub fn bytes(samples: usize, tree: &Tree) -> usize {
        let side = samples + tree.most_cells + 1;
        tree.slots * side * side
    }

    /// Whether letters i up to and not including j match r.
    pub fn matches(&mut self, r: &Sequence, i: usize, j: usize) -> bool {
        let side = self.letters.len() + 1;
        let at = (r.slot * side + i) * side + j;
        if self.decided[at] == 0 {
            self.decided[at] = 1 + self.matches_by_splitting(r, i, j) as u8;
        }
        self.decided[at] == 2
    }

    fn matches_by_splitting(&mut self, r: &Sequence, i: usize, j: usize) -> bool {
        match &r.form {
            SequenceForm::Boolean(b) => j == i + 1 && self.letters[i].satisfies(*b),
            SequenceForm::Then(a, b) => {
                (i..=j).any(|k| self.matches(a, i, k) && self.matches(b, k, j))
            }
            // Any letter satisfies true, so a takes all but the last.
            SequenceForm::ThenTrue(a) => i < j && self.matches(a, i, j - 1),
            SequenceForm::Sharing(a, b) => {
                (i..j).any(|k| self.matches(a, i, k + 1) && self.matches(b, k, j))
            }
            SequenceForm::Either(a, b) => self.matches(a, i, j) || self.matches(b, i, j),
            // Empty matches of a add no letter, so the first one left is not empty.
            SequenceForm::AnyTimes(a) => {
                i == j || (i + 1..=j).any(|k| self.matches(a, i, k) && self.matches(r, k, j))
            }
            SequenceForm::OnceOrMore(a) => {
                self.matches(a, i, j)
                    || (i + 1..j).any(|k| self.matches(a, i, k) && self.matches(r, k, j))
            }
        }
    }

    /// Whether the samples from i on match r, with no letter T.
    pub fn matched_from(&mut self, r: &Sequence, i: usize) -> bool {
        self.matches(r, i, self.samples)
    }

    /// Whether the samples from i on, followed by m letters T, match r for any m of 1 or more.
    pub fn completed_from(&mut self, r: &Sequence, i: usize) -> bool {
        (1..=cells(r)).any(|m| self.matches(r, i, self.samples + m))
    }
}
