//! Decides the answers: what the program `judge` prints, and the one u64 for the host in C.

use crate::properties::{Reading, Verdict};
use crate::table::{self, refused, Refusal, Table};
use crate::{trace, tree};

pub const PENDING: u64 = 3;

/// Opening a property: the table check, then 12.
fn open(table: &[u8], property: u32) -> Result<Table, Refusal> {
    let table = table::check(table)?;
    if property as usize >= table.roots.len() {
        return refused(12, 0);
    }
    Ok(table)
}

/// What opening refuses, 15, 13, and only then the first cycle.
pub fn judge(table: &[u8], trace: &[u8], property: u32) -> Result<Verdict, Refusal> {
    let table = open(table, property)?;
    let samples = trace::read(trace, table.signals)?;
    Ok(verdict(&table, property as usize, &samples))
}

pub fn verdict(table: &Table, property: usize, samples: &[u32]) -> Verdict {
    let tree = tree::read(table, property);
    Reading::new(table, &tree, samples).right_verdict(samples.len())
}

/// The answer to opening, pending after no cycle, and then to each sample. A sample that sets a
/// bit S or above is refused, and the samples after it are read as if it had not been there. Where
/// opening is refused, every sample is.
pub fn step_answers(bytes: &[u8], property: u32, samples: &[u32]) -> Vec<u64> {
    let table = match open(bytes, property) {
        Ok(table) => table,
        Err(refusal) => return shut_answers(refusal_answer(refusal), bytes, samples),
    };
    let is_declared = |sample: &u32| u64::from(*sample) >> table.signals == 0;
    let declared: Vec<u32> = samples.iter().copied().filter(is_declared).collect();
    let tree = tree::read(&table, property as usize);
    let mut reading = Reading::new(&table, &tree, &declared);
    let mut answers = vec![verdict_answer(Verdict::Pending(0))];
    let mut length = 0;
    for sample in samples {
        answers.push(match is_declared(sample) {
            true => {
                length += 1;
                verdict_answer(reading.right_verdict(length))
            }
            false => refusal_answer(UNDECLARED),
        });
    }
    answers
}

/// 2^32 times this, plus a cycle, stands for any verdict at that cycle.
const ANY: u64 = 4;
const UNDECLARED: Refusal = Refusal { number: 13, place: 0 };
const TOO_MANY: Refusal = Refusal { number: 14, place: 0 };

/// Whether a sample sets a bit S or above. S is byte 2 of any bytes, and 0 where they end before it.
fn sets_undeclared(table: &[u8], sample: u32) -> bool {
    let signals = table.get(2).copied().unwrap_or(0);
    signals < 32 && sample >> signals != 0
}

/// What a monitor whose opening was refused answers to a sample, with its own table or any bytes:
/// it stands at the count limit, so 13 or else 14, and never a verdict.
pub fn shut_answer(table: &[u8], sample: u32) -> u64 {
    refusal_answer(match sets_undeclared(table, sample) {
        true => UNDECLARED,
        false => TOO_MANY,
    })
}

/// A first answer, and those of a monitor whose opening was refused.
pub fn shut_answers(first: u64, table: &[u8], samples: &[u32]) -> Vec<u64> {
    let rest = samples.iter().map(|&sample| shut_answer(table, sample));
    std::iter::once(first).chain(rest).collect()
}

/// What is promised of a step from a verdict, whatever monitor it is of and whatever bytes stand
/// for its table: refusals 13 and 14, a verdict repeated, or a new one at the next cycle.
pub fn promised_answer(before: u64, table: &[u8], sample: u32) -> u64 {
    if sets_undeclared(table, sample) {
        return refusal_answer(UNDECLARED);
    }
    match (before >> 32, before as u32) {
        (PENDING, u32::MAX) => refusal_answer(TOO_MANY),
        (PENDING, cycles) => (ANY << 32) + u64::from(cycles) + 1,
        _ => before,
    }
}

pub fn printed(table: &[u8], trace: &[u8]) -> String {
    match printed_lines(table, trace) {
        Ok(lines) => lines,
        Err(refusal) => format!("refused {} {}\n", refusal.number, refusal.place),
    }
}

fn printed_lines(table: &[u8], trace: &[u8]) -> Result<String, Refusal> {
    let table = table::check(table)?;
    let samples = trace::read(trace, table.signals)?;
    let mut lines = format!("cycles {}\n", samples.len());
    for property in 0..table.roots.len() {
        let (word, cycle) = match verdict(&table, property, &samples) {
            Verdict::Broken(cycle) => ("broken", cycle),
            Verdict::Settled(cycle) => ("settled", cycle),
            Verdict::Pending(cycle) => ("pending", cycle),
        };
        lines += &format!("{} {} {}\n", property, word, cycle);
    }
    Ok(lines)
}

pub fn verdict_answer(verdict: Verdict) -> u64 {
    let (code, cycle) = match verdict {
        Verdict::Broken(cycle) => (1, cycle),
        Verdict::Settled(cycle) => (2, cycle),
        Verdict::Pending(cycle) => (PENDING, cycle),
    };
    (code << 32) + u64::from(cycle)
}

fn refusal_answer(refusal: Refusal) -> u64 {
    65_536 * u64::from(refusal.number) + u64::from(refusal.place)
}

pub fn check_answer(table: &[u8]) -> u64 {
    match table::check(table) {
        Ok(_) => 0,
        Err(refusal) => refusal_answer(refusal),
    }
}

pub fn judge_answer(table: &[u8], trace: &[u8], property: u32) -> u64 {
    match judge(table, trace, property) {
        Ok(verdict) => verdict_answer(verdict),
        Err(refusal) => refusal_answer(refusal),
    }
}
