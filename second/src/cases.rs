//! Decides which cases go into a vector file, and in what numbers.

use crate::damage::{damage_bytes, damage_draft};
use crate::damage_trace::{damage_trace, set_high_bits, too_long, wrong_property};
use crate::draft::Draft;
use crate::judge::PENDING;
use crate::random::Random;
use crate::table::{self, Table, MOST_NODES, MOST_PROPERTIES, MOST_SIGNALS};
use crate::trace::{samples_in, MOST_CYCLES};
use crate::vectors::{refusal_number, Case, Vectors};
use crate::{left_sides, tables, traces};

const REFUSALS: [usize; 14] = [1, 2, 3, 4, 5, 6, 7, 8, 9, 10, 11, 12, 13, 15];
const TABLE_REFUSALS: usize = 11;
/// Every refusal number comes at least this often in a file of LARGE refusals or more, and each
/// of the largest sizes at least so often.
const LEAST_OF_EACH: usize = 50;
const EDGES: usize = 10;
const LARGE: usize = 2_000;

/// A valid table, with the most samples that are fast to read with it.
pub fn valid_table(random: &mut Random) -> (Draft, usize) {
    match random.below(52) {
        40 | 41 => (tables::crowded(random), 16),
        42..=45 => (tables::pipelined(random), 40),
        46..=51 => (left_sides::owed_at_once(random), 24),
        0..=11 => (tables::ordinary(random), 20),
        12..=21 => (tables::framed(random), 24),
        22..=28 => (tables::overlapping(random), 40),
        29 | 30 => (tables::full(random), 10),
        31 | 32 => (tables::wide(random), 12),
        33 | 34 => (tables::weak_of_cells(random, &[6]), 12),
        35 => (tables::weak_of_cells(random, &[6, 5, 6]), 12),
        36 => (tables::doubling(random), 12),
        _ => (tables::small(random), 120),
    }
}

fn accepted(draft: &Draft) -> Table {
    match table::check(&draft.bytes()) {
        Ok(table) => table,
        Err(refusal) => panic!("a table meant to be valid is refused: {:?}", refusal),
    }
}

/// A case that is not refused.
fn sound_case(random: &mut Random) -> (Case, Table) {
    let (draft, most) = valid_table(random);
    let table = accepted(&draft);
    let property = random.below(draft.roots.len());
    let length = random.between(0, most);
    let samples = if random.chance(1, 4) {
        traces::walk(random, &draft, length)
    } else {
        let guided = random.between(0, length);
        traces::kept_pending(random, &draft, &table, property, guided, length)
    };
    let trace = traces::bytes(draft.signals, &samples);
    (Case::judge(draft.bytes(), trace, property as u32), table)
}

/// Thins out verdicts of the first cycle, and any verdict that is already common.
fn is_wanted(random: &mut Random, vectors: &Vectors, answer: u64) -> bool {
    let (code, cycle) = ((answer >> 32) as usize, answer as u32);
    let common = 20 * vectors.of_verdict[code - 1] > 9 * vectors.verdicts() + 200;
    !common && (cycle > 2 || random.chance(u32::max(cycle, 1) as usize, 6))
}

/// A case that is not refused and that is wanted; one of 150 that are decided goes on for up to
/// as many cycles as a file holds.
pub fn wanted_case(random: &mut Random, vectors: &Vectors) -> Option<(Case, Table)> {
    let (mut case, table) = sound_case(random);
    let answer = case.answer();
    if !is_wanted(random, vectors, answer) {
        return None;
    }
    if answer >> 32 != PENDING && random.chance(1, 150) {
        let mut samples = samples_in(&case.trace);
        let length = random.between(samples.len(), MOST_CYCLES);
        traces::draw_out(random, table.signals, &mut samples, length);
        case.trace = traces::bytes(table.signals, &samples);
    }
    Some((case, table))
}

fn add_verdicts(random: &mut Random, vectors: &mut Vectors, count: usize) {
    if count >= LARGE {
        for which in 0..6 {
            let (draft, samples) = traces::longest(random, which);
            let case = Case::judge(draft.bytes(), traces::bytes(draft.signals, &samples), 0);
            vectors.record(&case, case.answer());
        }
    }
    while vectors.verdicts() < count {
        if let Some((case, _)) = wanted_case(random, vectors) {
            vectors.record(&case, case.answer());
        }
    }
}

/// The largest table, one byte more, and with it a trace of one cycle more than a file may hold.
fn add_edges(random: &mut Random, vectors: &mut Vectors) {
    let mut draft = tables::full(random);
    while draft.roots.len() < MOST_PROPERTIES {
        draft = tables::full(random);
    }
    let samples = traces::walk(random, &draft, 6);
    let trace = traces::bytes(draft.signals, &samples);
    let table = draft.bytes();
    let larger = [&table[..], &[0]].concat();
    let property = random.below(MOST_PROPERTIES) as u32;
    for (table, trace) in [(&table, &trace), (&larger, &trace), (&table, &too_long(draft.signals))] {
        let case = Case::judge(table.clone(), trace.clone(), property);
        vectors.record(&case, case.answer());
    }
}

/// A table for the damages to start from.
fn table_to_damage(random: &mut Random, numbers: &[usize]) -> Draft {
    if numbers.contains(&11) {
        let counts: [&[usize]; 6] = [&[7], &[6, 7], &[7, 8], &[6, 6, 7], &[1, 20], &[40]];
        let counts = random.pick(&counts);
        return tables::weak_of_cells(random, counts);
    }
    match random.below(8) {
        0 if numbers.contains(&3) => tables::of_nodes(random, 65),
        0 => tables::full(random),
        1 => tables::wide(random),
        2 | 3 => tables::framed(random),
        _ => tables::ordinary(random),
    }
}

/// A case with all these damages; the last in the order of the refusals is done first.
pub fn damaged_case(random: &mut Random, numbers: &[usize]) -> Case {
    let mut draft = table_to_damage(random, numbers);
    if numbers.contains(&3) && random.chance(1, 8) {
        draft.roots.resize(MOST_PROPERTIES + 1, 0);
    }
    let properties = draft.roots.len();
    let mut length = random.between(0, 8);
    // With 32 signals nothing is refused by 13, and so many samples would be read.
    if numbers.contains(&13) && draft.signals < MOST_SIGNALS && random.chance(1, 60) {
        length = MOST_CYCLES;
    }
    let mut samples = traces::walk(random, &draft, length);
    for number in (5..=10).rev().filter(|number| numbers.contains(number)) {
        damage_draft(random, &mut draft, number);
    }
    let mut bytes = draft.bytes();
    for number in (1..=4).rev().filter(|number| numbers.contains(number)) {
        // A table of 65 nodes or 9 properties needs no further damage to its counts.
        let too_many = draft.rows.len() > MOST_NODES || draft.roots.len() > MOST_PROPERTIES;
        if number != 3 || !too_many {
            damage_bytes(random, &mut bytes, number);
        }
    }
    if numbers.iter().all(|&number| number <= TABLE_REFUSALS) && random.chance(1, 2) {
        return Case::check(bytes);
    }
    if numbers.contains(&13) {
        set_high_bits(random, draft.signals, &mut samples);
    }
    let mut property = random.below(properties) as u32;
    if numbers.contains(&12) {
        property = wrong_property(random, draft.roots.len(), property);
    }
    let trace = written_trace(random, draft.signals, &samples, numbers.contains(&15));
    Case::judge(bytes, trace, property)
}

fn written_trace(random: &mut Random, signals: usize, samples: &[u32], damaged: bool) -> Vec<u8> {
    if damaged && random.chance(1, 40) {
        return too_long(signals);
    }
    let mut trace = traces::bytes(signals, samples);
    if damaged {
        damage_trace(random, &mut trace, signals);
    }
    trace
}

/// Tries until one damage gives its own refusal; what passes meanwhile is kept now and then.
fn add_aimed(random: &mut Random, vectors: &mut Vectors, number: usize) {
    loop {
        let case = damaged_case(random, &[number]);
        let answer = case.answer();
        if refusal_number(answer) == Some(number) {
            return vectors.record(&case, answer);
        }
        if answer == 0 && random.chance(1, 4) {
            vectors.record(&case, answer);
        }
    }
}

/// Two or three damages at once; the check says which refusal is due.
fn add_mixed(random: &mut Random, vectors: &mut Vectors, among: &[usize]) {
    let numbers: Vec<usize> = (0..random.between(2, 3)).map(|_| random.pick(among)).collect();
    let case = damaged_case(random, &numbers);
    let answer = case.answer();
    if refusal_number(answer).is_some() {
        vectors.record(&case, answer);
    }
}

fn add_refusals(random: &mut Random, vectors: &mut Vectors, count: usize, among: &[usize]) {
    let mut turn = 0;
    while vectors.refusals() < count {
        match turn % 4 {
            3 => add_mixed(random, vectors, among),
            _ => add_aimed(random, vectors, among[(turn / 4 * 3 + turn % 4) % among.len()]),
        }
        turn += 1;
    }
    for &number in among.iter().filter(|_| count >= LARGE) {
        while vectors.of_refusal[number] < LEAST_OF_EACH {
            add_aimed(random, vectors, number);
        }
    }
}

pub fn cases(random: &mut Random, vectors: &mut Vectors, verdicts: usize, refusals: usize) {
    add_verdicts(random, vectors, verdicts);
    add_refusals(random, vectors, refusals, &REFUSALS);
    if refusals >= LARGE {
        for _ in 0..EDGES {
            add_edges(random, vectors);
        }
    }
}

fn record_check(vectors: &mut Vectors, table: &[u8]) {
    let case = Case::check(table.to_vec());
    vectors.record(&case, case.answer());
}

/// Every byte of a table with several values, every shorter length, and one byte too many.
fn sweep(random: &mut Random, vectors: &mut Vectors, table: &[u8], count: usize) {
    for length in 0..table.len() {
        record_check(vectors, &table[..length]);
    }
    record_check(vectors, &[table, &[0]].concat());
    for at in 0..table.len() {
        let old = table[at];
        let random_value = random.next() as u8;
        let near = [old.wrapping_add(1), old.wrapping_sub(1), old ^ 128, random_value];
        for value in [0, 1, 48, 255].into_iter().chain(near) {
            let mut bytes = table.to_vec();
            bytes[at] = value;
            if value != old && vectors.of_kind[1] < count {
                record_check(vectors, &bytes);
            }
        }
    }
}

pub fn checks(random: &mut Random, vectors: &mut Vectors, count: usize) {
    while vectors.of_kind[1] < count / 2 {
        let (draft, _) = valid_table(random);
        sweep(random, vectors, &draft.bytes(), count / 2);
    }
    while vectors.of_kind[1] < count * 3 / 5 {
        record_check(vectors, &valid_table(random).0.bytes());
    }
    let mut turn = 0;
    let missing = |vectors: &Vectors| {
        count >= LARGE && vectors.of_refusal[1..=11].iter().any(|&seen| seen < LEAST_OF_EACH)
    };
    while vectors.of_kind[1] < count || missing(vectors) {
        let mut numbers = vec![1 + turn % TABLE_REFUSALS];
        if turn % 3 == 0 {
            numbers.push(random.between(1, TABLE_REFUSALS));
        }
        let case = damaged_case(random, &numbers);
        record_check(vectors, &case.table);
        turn += 1;
    }
}
