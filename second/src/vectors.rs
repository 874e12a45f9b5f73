//! Decides how a record of the vector file is written, and keeps the counts that are printed.

use crate::coverage::Coverage;
use crate::judge::{
    check_answer, judge_answer, promised_answer, shut_answers, step_answers, PENDING,
};
use crate::states::verdict_of;
use crate::trace::samples_in;

pub const CHECK: u8 = 1;
pub const JUDGE: u8 = 2;
pub const STEPS: u8 = 3;
/// Any monitor, made of the bytes that follow the trace.
pub const STATE: u8 = 4;
/// The last monitor that was opened, with another table.
pub const STRAY: u8 = 5;
/// The same where its opening was refused: every answer is known.
pub const SHUT: u8 = 6;
/// What stands for the answer to opening where nothing is opened.
const NOT_OPENED: u64 = 0;

/// What a record asks about.
#[derive(Clone, Default)]
pub struct Case {
    pub kind: u8,
    pub property: u32,
    pub table: Vec<u8>,
    pub trace: Vec<u8>,
    pub state: Vec<u8>,
}

impl Case {
    pub fn check(table: Vec<u8>) -> Case {
        Case { kind: CHECK, table, ..Case::default() }
    }

    pub fn judge(table: Vec<u8>, trace: Vec<u8>, property: u32) -> Case {
        Case { kind: JUDGE, property, table, trace, ..Case::default() }
    }

    /// The answer to a check or to judging a trace.
    pub fn answer(&self) -> u64 {
        match self.kind {
            CHECK => check_answer(&self.table),
            _ => judge_answer(&self.table, &self.trace, self.property),
        }
    }

    /// Every answer of the record; `last` is the verdict of the last monitor that was opened.
    pub fn answers(&self, last: u64) -> Vec<u64> {
        let samples = samples_in(&self.trace);
        match self.kind {
            STEPS => step_answers(&self.table, self.property, &samples),
            STATE => vec![promised_answer(verdict_of(&self.state), &self.table, samples[0])],
            STRAY => vec![promised_answer(last, &self.table, samples[0])],
            SHUT => shut_answers(NOT_OPENED, &self.table, &samples),
            _ => vec![self.answer()],
        }
    }
}

/// The refusal number of an answer, if it is a refusal.
pub fn refusal_number(answer: u64) -> Option<usize> {
    match answer >> 32 == 0 && answer != 0 {
        true => Some((answer >> 16) as usize),
        false => None,
    }
}

/// The verdict of a monitor after these answers; pending where there are none.
pub fn last_verdict(answers: &[u64]) -> u64 {
    let verdict = answers.iter().rev().find(|&&answer| answer >> 32 != 0);
    verdict.copied().unwrap_or(PENDING << 32)
}

/// The file so far and its counts.
#[derive(Default)]
pub struct Vectors {
    pub bytes: Vec<u8>,
    pub of_kind: [usize; 7],
    /// Broken, settled, pending.
    pub of_verdict: [usize; 3],
    /// Verdicts at cycle 3 or later, broken and settled.
    late: usize,
    pub of_refusal: [usize; 16],
    accepted: usize,
    /// Answers to opening and to samples.
    step_answers: usize,
    /// Samples fed to monitors of any kind.
    steps: usize,
    /// The answers of the last monitor that was opened.
    last: Vec<u64>,
    coverage: Coverage,
}

impl Vectors {
    pub fn record(&mut self, case: &Case, answer: u64) {
        self.record_all(case, &[answer]);
        self.count(answer);
    }

    fn record_all(&mut self, case: &Case, answers: &[u64]) {
        self.bytes.push(case.kind);
        self.bytes.extend_from_slice(&case.property.to_le_bytes());
        self.bytes.extend_from_slice(&(case.table.len() as u32).to_le_bytes());
        self.bytes.extend_from_slice(&(case.trace.len() as u32).to_le_bytes());
        self.bytes.extend_from_slice(&answers[0].to_le_bytes());
        self.bytes.extend_from_slice(&case.table);
        self.bytes.extend_from_slice(&case.trace);
        for answer in &answers[1..] {
            self.bytes.extend_from_slice(&answer.to_le_bytes());
        }
        self.bytes.extend_from_slice(&case.state);
        if ![CHECK, JUDGE].contains(&case.kind) {
            self.steps += samples_in(&case.trace).len();
        }
        self.of_kind[case.kind as usize] += 1;
        self.coverage.count(case, answers);
    }

    /// A monitor that is opened and fed; of the answers the last verdict is counted, or a refusal to open.
    pub fn record_steps(&mut self, case: &Case) {
        let answers = case.answers(0);
        self.record_all(case, &answers);
        self.step_answers += answers.len();
        self.count(if answers[0] >> 32 == 0 { answers[0] } else { last_verdict(&answers) });
        if let Some(number) = refusal_number(answers[0]) {
            self.coverage.count_shut(number, case, &answers[1..]);
        }
        self.last = answers;
    }

    /// Any other monitor: the answer to its first sample is promised, the steps after it end.
    pub fn record_stray(&mut self, case: &Case) {
        let answers = case.answers(last_verdict(&self.last));
        self.record_all(case, &answers);
    }

    /// The last monitor goes on with another table. Where its opening was refused, for the reason
    /// that is counted, every answer is known.
    pub fn record_other_table(&mut self, table: Vec<u8>, trace: Vec<u8>) {
        let mut case = Case { kind: STRAY, table, trace, ..Case::default() };
        match self.last.first().and_then(|&answer| refusal_number(answer)) {
            None => self.record_stray(&case),
            Some(number) => {
                case.kind = SHUT;
                let answers = case.answers(0);
                self.record_all(&case, &answers);
                self.step_answers += answers.len() - 1;
                self.coverage.count_shut(number, &case, &answers[1..]);
            }
        }
    }

    fn count(&mut self, answer: u64) {
        match (answer >> 32, refusal_number(answer)) {
            (0, Some(number)) => self.of_refusal[number] += 1,
            (0, None) => self.accepted += 1,
            (code, _) => {
                self.of_verdict[code as usize - 1] += 1;
                self.late += (code != PENDING && answer as u32 >= 3) as usize;
            }
        }
    }

    pub fn verdicts(&self) -> usize {
        self.of_verdict.iter().sum()
    }

    /// Monitors that are stepped on another table than they were opened on, or that were not opened.
    pub fn strays(&self) -> usize {
        let [.., states, strays, shut] = self.of_kind;
        states + strays + shut
    }

    pub fn refusals(&self) -> usize {
        self.of_refusal.iter().sum()
    }

    pub fn summary(&self, seed: u64) -> String {
        let [_, checks, judges, steps, states, strays, shut] = self.of_kind;
        let [broken, settled, pending] = self.of_verdict;
        let mut text = format!("seed {}\n", seed);
        text += &format!("records check {} judge {} steps {}", checks, judges, steps);
        text += &format!(" state {} stray {} shut {}\n", states, strays, shut);
        text += &format!("accepted {}\n", self.accepted);
        text += &format!("verdicts {}\n", self.verdicts());
        text += &format!("broken {} settled {} pending {}\n", broken, settled, pending);
        text += &format!("broken or settled at cycle 3 or later {}\n", self.late);
        text += &format!("refusals {}\n", self.refusals());
        text += &counts("refusals by number", self.of_refusal.iter().copied().enumerate());
        text += &self.coverage.lines();
        text + &self.due()
    }

    /// What the program `vectors` prints for this file, where no answer differs.
    fn due(&self) -> String {
        let [_, checks, judges, _, states, strays, _] = self.of_kind;
        let mut text = format!("due check: {} compared, 0 differ\n", checks);
        text += &format!("due judge: {} compared, 0 differ\n", judges);
        text += &format!("due steps: {} compared, 0 differ\n", self.step_answers);
        text += &format!("due states: {} compared, 0 differ\n", states + strays);
        text + &format!("due advance: {} compared, 0 differ\n", self.steps)
    }
}

/// A line of numbers that occurred, each with how often.
pub fn counts(name: &str, of: impl Iterator<Item = (usize, usize)>) -> String {
    let mut text = name.to_string();
    for (number, count) in of.filter(|&(_, count)| count > 0) {
        text += &format!(" {}:{}", number, count);
    }
    text + "\n"
}
