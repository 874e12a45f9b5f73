//! Decides which monitors are stepped: opened ones, fed every sample of a case; ones whose opening
//! was refused, which refuse every sample of any table; and any others, of which little is promised
//! but that a step ends.

use crate::cases::{damaged_case, valid_table, wanted_case};
use crate::damage_trace::set_high_bits;
use crate::random::Random;
use crate::states::State;
use crate::table::HEADER_BYTES;
use crate::trace::samples_in;
use crate::vectors::{refusal_number, Case, Vectors, STATE, STEPS};
use crate::{tables, traces};

/// Lists with more samples than this are decided early.
const MOST_DRAWN: usize = 120;
/// The refusals of opening are 1 up to this.
pub const WRONG_PROPERTY: usize = 12;

/// Tries until opening is refused for this reason, and steps the monitor all the same.
pub fn add_refused_opening(random: &mut Random, vectors: &mut Vectors, number: usize) {
    loop {
        let mut case = damaged_case(random, &[number]);
        case.kind = STEPS;
        case.trace = traces::bytes(1, &[]);
        if refusal_number(case.answers(0)[0]) == Some(number) {
            case.trace = any_trace(random, &case.table);
            return vectors.record_steps(&case);
        }
    }
}

/// In one of eight some samples set bits that the table does not declare; not in a long list,
/// since what decided it early may be refused then.
fn add_opened(random: &mut Random, vectors: &mut Vectors) {
    if let Some((mut case, table)) = wanted_case(random, vectors) {
        let mut samples = samples_in(&case.trace);
        if samples.len() <= MOST_DRAWN && random.chance(1, 8) {
            set_high_bits(random, table.signals, &mut samples);
            case.trace = traces::bytes(table.signals, &samples);
        }
        case.kind = STEPS;
        vectors.record_steps(&case);
    }
}

/// In one of sixteen opening is refused, for each reason in turn.
pub fn steps(random: &mut Random, vectors: &mut Vectors, count: usize) {
    let mut turn = 0;
    while vectors.of_kind[STEPS as usize] < count {
        match turn % 16 {
            0 => add_refused_opening(random, vectors, 1 + turn / 16 % WRONG_PROPERTY),
            _ => add_opened(random, vectors),
        }
        turn += 1;
    }
}

/// Bytes that a step may be given as a table: sound, damaged, cut, of any rows, or any at all.
fn any_table(random: &mut Random) -> Vec<u8> {
    match random.below(8) {
        0 | 1 => tables::noise(random).bytes(),
        2 => {
            let number = random.between(1, WRONG_PROPERTY - 1);
            damaged_case(random, &[number]).table
        }
        3 => {
            let mut bytes = tables::full(random).bytes();
            bytes.truncate(random.below(bytes.len()));
            bytes
        }
        4 => (0..random.between(0, 300)).map(|_| random.next() as u8).collect(),
        _ => valid_table(random).0.bytes(),
    }
}

/// A trace of samples that the table declares in most cases, the highest bit declared and the
/// lowest not declared among them.
fn any_trace(random: &mut Random, table: &[u8]) -> Vec<u8> {
    let signals = table.get(2).map_or(0, |&signals| u32::from(signals).min(32));
    let declared = ((1u64 << signals) - 1) as u32;
    let edges = [declared ^ (declared >> 1), (1u64 << signals) as u32, u32::MAX, 0];
    let mut samples = Vec::new();
    for _ in 0..random.between(1, 12) {
        let any = random.next() as u32;
        let edge = random.pick(&edges);
        samples.push(random.pick(&[any, any & declared, any & declared, declared, edge, edge]));
    }
    traces::bytes(signals as usize, &samples)
}

fn add_state(random: &mut Random, vectors: &mut Vectors) {
    let table = any_table(random);
    let trace = any_trace(random, &table);
    let nodes = table.len().saturating_sub(HEADER_BYTES) / 4;
    let state = State::drawn(random, nodes).bytes();
    vectors.record_stray(&Case { kind: STATE, property: 0, table, trace, state });
}

fn add_stray(random: &mut Random, vectors: &mut Vectors) {
    let table = any_table(random);
    let trace = any_trace(random, &table);
    vectors.record_other_table(table, trace);
}

/// Half of them states of any words, half monitors of an opening that go on with other tables; in
/// one of sixteen the opening is refused, for each reason in turn.
pub fn strays(random: &mut Random, vectors: &mut Vectors, count: usize) {
    let mut turn = 0;
    while vectors.strays() < count {
        add_state(random, vectors);
        match turn % 16 {
            0 => add_refused_opening(random, vectors, 1 + turn / 16 % WRONG_PROPERTY),
            _ => add_opened(random, vectors),
        }
        add_stray(random, vectors);
        turn += 1;
    }
}
