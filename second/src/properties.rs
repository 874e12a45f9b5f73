//! Decides whether a list of samples breaks or secures a property, each rule as the document
//! states it, and the right verdict: the shortest list that does one of the two.
//!
//! A stretch is given by i and n: samples i up to and not including n. The whole list read so
//! far is 0 to n, and w(k..) of a stretch i to n is k to n.

use crate::sequences::Word;
use crate::table::Table;
use crate::tree::{self, Property, PropertyForm, Sequence, Tree};

/// Bytes that the words kept at one time may take, and that one word may take at most.
const MOST_REMEMBERED_BYTES: usize = 1 << 28;
/// Stretches that end later are decided anew each time, so that memory stays small.
const LATEST_REMEMBERED_END: usize = 400;

#[derive(Clone, Copy, PartialEq, Eq, Debug)]
pub enum Verdict {
    Broken(u32),
    Settled(u32),
    Pending(u32),
}

#[derive(Clone, Copy)]
enum Question {
    Breaks,
    Secures,
}

pub struct Reading<'a> {
    tree: &'a Tree,
    samples: Vec<u64>,
    /// For each end n: the samples before n followed by letters T.
    words: Vec<Option<Word>>,
    word_bytes: usize,
    side: usize,
    /// 0 not decided yet, 1 no, 2 yes; per question, slot, start and end.
    decided: Vec<u8>,
}

impl<'a> Reading<'a> {
    pub fn new(table: &Table, tree: &'a Tree, samples: &[u32]) -> Reading<'a> {
        let side = samples.len().min(LATEST_REMEMBERED_END) + 1;
        Reading {
            decided: vec![0; 2 * tree.slots * side * side],
            tree,
            samples: samples.iter().map(|&s| tree::satisfied(table, s)).collect(),
            words: samples.iter().map(|_| None).chain([None]).collect(),
            word_bytes: 0,
            side,
        }
    }

    /// The verdict on the first `length` samples: the shortest list among them that decides.
    pub fn right_verdict(&mut self, length: usize) -> Verdict {
        for n in 0..=length {
            if let Some(verdict) = self.decides(n) {
                return verdict;
            }
        }
        Verdict::Pending(length as u32)
    }

    /// The verdict that the first n samples themselves give, if any.
    pub fn decides(&mut self, n: usize) -> Option<Verdict> {
        let root = &self.tree.root;
        let broken = self.breaks(root, 0, n);
        let secured = self.secures(root, 0, n);
        assert!(!(broken && secured), "{} samples both break and secure", n);
        if broken {
            Some(Verdict::Broken(n as u32))
        } else if secured {
            Some(Verdict::Settled(n as u32))
        } else {
            None
        }
    }

    fn breaks(&mut self, f: &Property, i: usize, n: usize) -> bool {
        self.decided(Question::Breaks, f, i, n)
    }

    fn secures(&mut self, f: &Property, i: usize, n: usize) -> bool {
        self.decided(Question::Secures, f, i, n)
    }

    fn decided(&mut self, question: Question, f: &Property, i: usize, n: usize) -> bool {
        // The empty list neither breaks nor secures anything.
        if i >= n {
            return false;
        }
        if n >= self.side {
            return self.decide(question, f, i, n);
        }
        let at = ((2 * f.slot + question as usize) * self.side + i) * self.side + n;
        if self.decided[at] == 0 {
            self.decided[at] = 1 + self.decide(question, f, i, n) as u8;
        }
        self.decided[at] == 2
    }

    fn decide(&mut self, question: Question, f: &Property, i: usize, n: usize) -> bool {
        match question {
            Question::Breaks => self.breaks_by_rule(f, i, n),
            Question::Secures => self.secures_by_rule(f, i, n),
        }
    }

    /// The rules for "breaks"; the stretch is not empty.
    fn breaks_by_rule(&mut self, f: &Property, i: usize, n: usize) -> bool {
        match &f.form {
            PropertyForm::Boolean(b) => !self.holds(i, *b),
            PropertyForm::Weak(r) => (i + 1..=n).any(|v| {
                !(i + 1..=v).any(|end| self.matches(r, i, end)) && !self.completes(r, i, v)
            }),
            PropertyForm::Both(a, b) => self.breaks(a, i, n) || self.breaks(b, i, n),
            PropertyForm::Next(a) => n - i >= 2 && self.breaks(a, i + 1, n),
            PropertyForm::If(a, b, c) => {
                let branch = if self.holds(i, *a) { b } else { c };
                self.breaks(branch, i, n)
            }
            PropertyForm::Implies(a, b) => self.holds(i, *a) && self.breaks(b, i, n),
            PropertyForm::Or(a, b) => !self.holds(i, *b) && self.breaks(a, i, n),
            PropertyForm::Always(a) => (i..n).any(|k| self.breaks(a, k, n)),
            PropertyForm::Until(a, b) => (i..n).any(|k| {
                (i..=k).all(|early| !self.holds(early, *b)) && self.breaks(a, k, n)
            }),
            PropertyForm::Overlapping(r, a) => {
                (i..n).any(|j| self.matches(r, i, j + 1) && self.breaks(a, j, n))
            }
            PropertyForm::Never(r) => {
                (i..n).any(|start| (start..n).any(|j| self.matches(r, start, j + 1)))
            }
        }
    }

    /// The rules for "secures"; the stretch is not empty.
    fn secures_by_rule(&mut self, f: &Property, i: usize, n: usize) -> bool {
        match &f.form {
            PropertyForm::Boolean(b) => self.holds(i, *b),
            PropertyForm::Weak(r) => (i + 1..=n).any(|end| self.matches(r, i, end)),
            PropertyForm::Both(a, b) => self.secures(a, i, n) && self.secures(b, i, n),
            PropertyForm::Next(a) => n - i >= 2 && self.secures(a, i + 1, n),
            PropertyForm::If(a, b, c) => {
                let branch = if self.holds(i, *a) { b } else { c };
                self.secures(branch, i, n)
            }
            PropertyForm::Implies(a, b) => !self.holds(i, *a) || self.secures(b, i, n),
            PropertyForm::Or(a, b) => self.holds(i, *b) || self.secures(a, i, n),
            PropertyForm::Always(_) | PropertyForm::Never(_) => false,
            PropertyForm::Until(a, b) => (i..n).any(|k| {
                self.holds(k, *b) && (i..k).all(|early| self.secures(a, early, n))
            }),
            PropertyForm::Overlapping(r, a) => {
                (i..n).all(|j| !self.matches(r, i, j + 1) || self.secures(a, j, n))
                    && !self.completes(r, i, n)
            }
        }
    }

    fn holds(&self, sample: usize, boolean: usize) -> bool {
        self.samples[sample] >> boolean & 1 == 1
    }

    /// The word that ends there; when the words kept take too much room, all are forgotten.
    fn word(&mut self, end: usize) -> &mut Word {
        if self.words[end].is_none() {
            let bytes = Word::bytes(end, self.tree);
            assert!(bytes <= MOST_REMEMBERED_BYTES, "too many samples to try every split");
            if self.word_bytes + bytes > MOST_REMEMBERED_BYTES {
                self.words.iter_mut().for_each(|word| *word = None);
                self.word_bytes = 0;
            }
            self.word_bytes += bytes;
        }
        let (samples, tree) = (&self.samples[..end], self.tree);
        self.words[end].get_or_insert_with(|| Word::new(samples, tree.most_cells, tree.slots))
    }

    /// Whether samples i up to and not including end match r.
    fn matches(&mut self, r: &Sequence, i: usize, end: usize) -> bool {
        self.word(end).matched_from(r, i)
    }

    /// Whether samples i up to and not including end, and some letters T, match r.
    fn completes(&mut self, r: &Sequence, i: usize, end: usize) -> bool {
        self.word(end).completed_from(r, i)
    }
}
