//! Decides whether this program agrees with the runs, limits and example bytes of the document,
//! and with what holds of the definitions at random.

use crate::draft::Draft;
use crate::fixed;
use crate::following::{add_roots, said, Parts};
use crate::judge;
use crate::properties::{Reading, Verdict};
use crate::random::Random;
use crate::replay::replay;
use crate::sequences::Word;
use crate::table;
use crate::trace::MOST_CYCLES;
use crate::tree::{self, PropertyForm};
use crate::vectors::Vectors;
use crate::{cases, monitors, tables, traces};

const EXAMPLE_TABLE: [u8; 42] = [
    0x01, 0x00, 0x03, 0x00, 0x05, 0x00, 0x03, 0x00, 0x10, 0x00, 0x24, 0x00, 0x2A, 0x00, 0x00, 0x00,
    0x03, 0x00, 0x00, 0x00, 0x03, 0x01, 0x00, 0x00, 0x27, 0x00, 0x01, 0x00, 0x26, 0x00, 0x00, 0x00,
    0x22, 0x01, 0x00, 0x00, 0x02, 0x00, 0x03, 0x00, 0x04, 0x00,
];
const EXAMPLE_TRACE: [u8; 20] = [
    0x01, 0x00, 0x03, 0x00, 0x02, 0x00, 0x00, 0x00, 0x0C, 0x00, 0x00, 0x00, 0x01, 0x00, 0x00, 0x00,
    0x03, 0x00, 0x00, 0x00,
];
const EXAMPLE_PRINTED: &str = "cycles 2\n0 settled 2\n1 pending 2\n2 settled 2\n";

fn expect<T: PartialEq + std::fmt::Debug>(what: &str, found: T, due: T) -> Result<(), String> {
    match found == due {
        true => Ok(()),
        false => Err(format!("{}: found {:?}, due {:?}", what, found, due)),
    }
}

pub fn run() -> Result<(), String> {
    small_runs()?;
    limits()?;
    example()?;
    refusal_orders()?;
    refused_openings()?;
    refused_samples()?;
    written_files()?;
    let mut random = Random::from_seed(1);
    for _ in 0..10_000 {
        no_longer_run_of_t_is_needed(&mut random)?;
        verdicts_last(&mut random)?;
    }
    following_rules(&mut random)?;
    println!("selftest: no difference");
    Ok(())
}

fn small_runs() -> Result<(), String> {
    for run in fixed::runs() {
        let case = fixed::judged_run(run);
        let found = judge::judge(&case.table, &case.trace, 0);
        expect(&format!("{} on {:?}", run.0, run.2), found, Ok(run.3))?;
    }
    Ok(())
}

/// A chain a ; a ; .. of so many cells under one property row.
fn chain(cells: usize, property: u8) -> Vec<u8> {
    let mut draft = Draft { signals: 1, rows: vec![[3, 0, 0, 0]], roots: Vec::new() };
    let mut node = 0;
    for _ in 1..cells {
        node = draft.push([16, node, 0, 0]);
    }
    let root = draft.push([property, node, 0, 0]);
    draft.roots.push(u16::from(root));
    draft.bytes()
}

fn limits() -> Result<(), String> {
    let refusal = |number: u64, place: u64| 65_536 * number + place;
    let mut random = Random::from_seed(2);
    let of_64 = tables::of_nodes(&mut random, 64).bytes();
    let of_65 = tables::of_nodes(&mut random, 65).bytes();
    expect("64 nodes", judge::check_answer(&of_64), 0)?;
    expect("65 nodes", judge::check_answer(&of_65), refusal(3, 0))?;
    expect("6 cells", judge::check_answer(&chain(6, 32)), 0)?;
    expect("7 cells", judge::check_answer(&chain(7, 32)), refusal(11, 7))?;
    expect("never with 63 cells", judge::check_answer(&chain(63, 42)), 0)?;
    let table = chain(2, 32);
    let longest = traces::bytes(1, &[0; MOST_CYCLES]);
    let longer = traces::bytes(1, &[0; MOST_CYCLES + 1]);
    expect("16,381 cycles", judge::judge_answer(&table, &longest, 0), (1 << 32) + 1)?;
    expect("16,382 cycles", judge::judge_answer(&table, &longer, 0), refusal(15, 0))
}

fn example() -> Result<(), String> {
    expect("example", judge::printed(&EXAMPLE_TABLE, &EXAMPLE_TRACE).as_str(), EXAMPLE_PRINTED)?;
    expect("no table", judge::printed(&[], &EXAMPLE_TRACE).as_str(), "refused 1 0\n")?;
    expect("no trace", judge::printed(&EXAMPLE_TABLE, &[]).as_str(), "refused 15 0\n")
}

/// Cases by hand where two refusals apply at once, or where one is easily placed wrongly.
fn refusal_orders() -> Result<(), String> {
    let answer = |rows: &[[u8; 4]], roots: &[u16]| {
        let draft = Draft { signals: 2, rows: rows.to_vec(), roots: roots.to_vec() };
        let found = judge::check_answer(&draft.bytes());
        (found >> 16, found & 65_535)
    };
    let (a, next) = ([3, 0, 0, 0], [34, 0, 0, 0]);
    expect("own node", answer(&[[4, 0, 0, 0]], &[0]), (7, 0))?;
    expect("signal S", answer(&[a, [3, 2, 0, 0]], &[0]), (7, 1))?;
    expect("7 before 8", answer(&[a, next, [5, 1, 2, 0]], &[1]), (7, 2))?;
    expect("8 before 5 of the next row", answer(&[a, next, [5, 1, 0, 0], [0; 4]], &[1]), (8, 2))?;
    expect("strong, any fields", answer(&[a, [49, 255, 255, 255]], &[0]), (6, 1))?;
    expect("root 256", answer(&[a, next], &[1, 256]), (9, 1))?;
    expect("sequence root", answer(&[a, [19, 0, 0, 0]], &[1]), (9, 0))?;
    expect("Boolean root twice", answer(&[a], &[0, 0]), (0, 0))?;
    expect("root twice", answer(&[a, next], &[1, 1]), (10, 1))?;
    expect("unused", answer(&[a, next, [34, 0, 0, 0]], &[2]), (10, 1))?;
    expect("twice in one row", answer(&[a, next, [33, 1, 1, 0]], &[2]), (10, 1))?;
    expect("15 bytes", judge::check_answer(&[0; 15]), 65_536)?;
    expect("16 bytes", judge::check_answer(&EXAMPLE_TABLE[..16]), 4 * 65_536)?;
    expect("12 before 15", judge::judge_answer(&EXAMPLE_TABLE, &[], 3), 12 * 65_536)
}

/// After a refused opening a step is refused, by 13 where byte 2 of the bytes given does not
/// declare the sample, else by 14.
fn refused_openings() -> Result<(), String> {
    let refusals = |numbers: &[u64]| numbers.iter().map(|number| 65_536 * number).collect();
    let cases: [(&[u8], &[u32], &[u64]); 7] = [
        (&[], &[0, 1, u32::MAX], &[14, 13, 13]),
        (&[1, 0], &[0, 1], &[14, 13]),
        (&[1, 0, 3], &[0, 4, 7, 8, u32::MAX], &[14, 14, 14, 13, 13]),
        (&[1, 0, 0, 1], &[0, 1], &[14, 13]),
        (&[1, 0, 31], &[u32::MAX >> 1, 1 << 31], &[14, 13]),
        (&[1, 0, 32], &[0, u32::MAX], &[14, 14]),
        (&[1, 0, 255], &[0, u32::MAX], &[14, 14]),
    ];
    for (bytes, samples, due) in cases {
        let answers = samples.iter().map(|&sample| judge::shut_answer(bytes, sample));
        let what = format!("refused opening, {:?} on {:?}", bytes, samples);
        expect(&what, answers.collect::<Vec<u64>>(), refusals(due))?;
    }
    let no_property = judge::step_answers(&EXAMPLE_TABLE, 3, &[0, 7, 8]);
    expect("property 3 of three", no_property, refusals(&[12, 14, 14, 13]))?;
    let cut = judge::step_answers(&EXAMPLE_TABLE[..41], 0, &[8, 1]);
    expect("cut table", cut, refusals(&[4, 13, 14]))?;
    expect("three properties", fixed::three_properties(), EXAMPLE_TABLE.to_vec())
}

/// A sample that is not declared is refused before a verdict is repeated.
fn refused_samples() -> Result<(), String> {
    let undeclared = 13 * 65_536;
    for run in fixed::REFUSED_AFTER {
        let (name, _, samples, verdict) = run;
        let given = judge::verdict_answer(verdict);
        let start = [0, 1].map(|cycle| judge::verdict_answer(Verdict::Pending(cycle)));
        let rest = [given, undeclared, given, undeclared, given, undeclared];
        let found = judge::step_answers(&fixed::judged_run(run).table, 0, samples);
        expect(name, found, [&start[..], &rest[..]].concat())?;
    }
    Ok(())
}

/// Files are read back as they were written, and cut ones are noticed.
fn written_files() -> Result<(), String> {
    let mut random = Random::from_seed(3);
    let mut files = [(); 5].map(|_| Vectors::default());
    cases::cases(&mut random, &mut files[0], 60, 60);
    cases::checks(&mut random, &mut files[1], 60);
    monitors::steps(&mut random, &mut files[2], 60);
    monitors::strays(&mut random, &mut files[3], 60);
    fixed::fixed(&mut random, &mut files[4]);
    for (vectors, least) in files.iter().zip([120, 60, 60, 60, 60]) {
        let (records, differences) = replay(&vectors.bytes)?;
        expect("records written", records >= least, true)?;
        expect("answers read back", differences, 0)?;
        let cut = replay(&vectors.bytes[..vectors.bytes.len() - 1]);
        expect("cut file noticed", cut.is_err(), true)?;
    }
    Ok(())
}

/// If a word is completed by more letters T than the sequence has cells, fewer do as well.
fn no_longer_run_of_t_is_needed(random: &mut Random) -> Result<(), String> {
    let mut maker = tables::Maker::new(random, 3);
    let size = maker.random.between(1, 7);
    let sequence = maker.sequence(size, 8);
    let row = maker.random.pick(&[[41, sequence, 0, 0], [42, sequence, 0, 0]]);
    let root = maker.draft.push(row);
    maker.root(root);
    let draft = maker.finish();
    let table = table::check(&draft.bytes()).map_err(|refusal| format!("{:?}", refusal))?;
    let tree = tree::read(&table, 0);
    let length = random.between(0, 4);
    let samples: Vec<u64> = traces::walk(random, &draft, length)
        .into_iter()
        .map(|sample| tree::satisfied(&table, sample))
        .collect();
    if let PropertyForm::Overlapping(r, _) | PropertyForm::Never(r) = &tree.root.form {
        let most = tree::cells(r) + 10;
        let mut word = Word::new(&samples, most, tree.slots);
        let completed = (1..=most).any(|m| word.matches(r, 0, samples.len() + m));
        let found = word.completed_from(r, 0);
        expect(&format!("letters T after {:?} in {:?}", samples, draft.rows), found, completed)?;
    }
    Ok(())
}

/// A list that breaks or secures goes on doing so when it grows.
fn verdicts_last(random: &mut Random) -> Result<(), String> {
    let draft = tables::framed(random);
    let table = table::check(&draft.bytes()).map_err(|refusal| format!("{:?}", refusal))?;
    let samples = traces::walk(random, &draft, 7);
    let tree = tree::read(&table, 0);
    let mut reading = Reading::new(&table, &tree, &samples);
    let mut before = 0;
    for n in 0..=samples.len() {
        let code = reading.decides(n).map_or(0, |verdict| judge::verdict_answer(verdict) >> 32);
        let lasts = before == 0 || code == before;
        expect(&format!("{:?} on {:?} at {}", draft.rows, samples, n), lasts, true)?;
        before = code;
    }
    Ok(())
}

/// Left sides with and without a match of the empty word, on lists that break, secure or neither.
fn following_rules(random: &mut Random) -> Result<(), String> {
    let mut seen = [[0; 3]; 2];
    for _ in 0..2_000 {
        let (empty, found) = following_rule(random)?;
        seen[empty as usize][found as usize] += 1;
    }
    expect(&format!("each seen {:?}", seen), seen.iter().flatten().all(|&count| count >= 50), true)
}

/// The reading of |=> against {r ; true} |-> f in rows, and against the rules over r itself.
fn following_rule(random: &mut Random) -> Result<(bool, u64), String> {
    let mut maker = tables::Maker::new(random, 3);
    let sizes = [maker.random.between(0, 5), maker.random.between(0, 4)];
    let left = maker.left_side(41, sizes[0], 5);
    let right = maker.property(sizes[1]);
    let root = maker.draft.push([41, left, right, 0]);
    maker.root(root);
    let draft = maker.finish();
    let mut table = table::check(&draft.bytes()).map_err(|refusal| format!("{:?}", refusal))?;
    add_roots(&mut table);
    let length = random.between(0, 5);
    let samples = traces::walk(random, &draft, length);
    let what = format!("{:?} on {:?}", draft.rows, samples);
    let found = said(&table, 0, &samples);
    let parts = Parts::read(&table, &samples);
    expect(&format!("true in a row: {}", what), found, said(&table, 1, &samples))?;
    expect(&format!("rule: {}", what), found, parts.rule())?;
    if !parts.empty_matches() {
        expect(&format!("rule of ends: {}", what), found, parts.rule_of_ends())?;
    }
    Ok((parts.empty_matches(), found))
}
