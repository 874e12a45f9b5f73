//! Decides the cases of the fixed file: the small runs of the document and more about left sides,
//! opening refused for each reason, refused samples after a verdict, the count limit and verdicts
//! already given, two refusals at once, and some random cases.

use crate::draft::Draft;
use crate::properties::Verdict;
use crate::random::Random;
use crate::states::State;
use crate::vectors::{Case, Vectors, STATE, STEPS};
use crate::{cases, monitors, traces};
use Verdict::{Broken, Pending, Settled};

/// Nodes 0, 1, 2 are a, b, c and node 3 is false; the rows given follow, the last is the root.
type Rows = &'static [[u8; 4]];
pub type Run = (&'static str, Rows, &'static [u32], Verdict);
/// One property on several traces.
type Runs = (&'static str, Rows, &'static [(&'static [u32], Verdict)]);

const RUNS: [Run; 16] = [
    ("always a", &[[38, 0, 0, 0]], &[1, 1, 0], Broken(3)),
    ("always a", &[[38, 0, 0, 0]], &[1, 1], Pending(2)),
    ("next b", &[[34, 1, 0, 0]], &[1], Pending(1)),
    ("a until b", &[[39, 0, 1, 0]], &[1, 2], Settled(2)),
    ("a until b", &[[39, 0, 1, 0]], &[1, 0], Broken(2)),
    ("weak {a;b}", &[[16, 0, 1, 0], [32, 4, 0, 0]], &[1, 1], Broken(2)),
    ("weak {a;b}", &[[16, 0, 1, 0], [32, 4, 0, 0]], &[], Pending(0)),
    ("weak {a[*]}", &[[19, 0, 0, 0], [32, 4, 0, 0]], &[0], Broken(1)),
    ("weak {a[*]}", &[[19, 0, 0, 0], [32, 4, 0, 0]], &[1, 0], Settled(1)),
    ("weak {a:b}", &[[17, 0, 1, 0], [32, 4, 0, 0]], &[1], Broken(1)),
    ("weak {a;false}", &[[16, 0, 3, 0], [32, 4, 0, 0]], &[1], Pending(1)),
    ("{a;b} |-> c", &[[16, 0, 1, 0], [40, 4, 2, 0]], &[0], Settled(1)),
    ("{a;b} |=> c", &[[16, 0, 1, 0], [41, 4, 2, 0]], &[1, 2, 0], Broken(3)),
    ("{a[*]} |=> b", &[[19, 0, 0, 0], [41, 4, 1, 0]], &[0], Broken(1)),
    ("never {a;b}", &[[16, 0, 1, 0], [42, 4, 0, 0]], &[1, 1, 2], Broken(3)),
    (
        "always ({a} |=> weak {b;c})",
        &[[16, 1, 2, 0], [32, 4, 0, 0], [41, 0, 5, 0], [38, 6, 0, 0]],
        &[1, 3, 6, 0],
        Broken(4),
    ),
];

/// Where a left side of |=> matches the empty word, its right side is owed at once; where it
/// matches the whole list, nothing is settled yet. No a : b matches the empty word, and |-> asks
/// for non-empty matches only.
const LEFT_SIDES: [Runs; 21] = [
    (
        "{a[*]} |=> b",
        &[[19, 0, 0, 0], [41, 4, 1, 0]],
        &[(&[2], Settled(1)), (&[3], Pending(1)), (&[3, 0], Broken(2)), (&[3, 2], Settled(2))],
    ),
    (
        "{a[*]} |=> c",
        &[[19, 0, 0, 0], [41, 4, 2, 0]],
        &[(&[5, 4], Settled(2)), (&[5, 5], Pending(2)), (&[5, 5, 1], Broken(3))],
    ),
    (
        "{a} |=> b",
        &[[41, 0, 1, 0]],
        &[(&[1], Pending(1)), (&[1, 2], Settled(2)), (&[0], Settled(1))],
    ),
    (
        "{a[*];b[*]} |=> c",
        &[[19, 0, 0, 0], [19, 1, 0, 0], [16, 4, 5, 0], [41, 6, 2, 0]],
        &[
            (&[0], Broken(1)),
            (&[4], Settled(1)),
            (&[5, 6, 5], Settled(3)),
            (&[5, 6, 1], Broken(3)),
            (&[6, 5], Settled(2)),
            (&[5, 6], Pending(2)),
        ],
    ),
    (
        "{a|b[*]} |=> c",
        &[[19, 1, 0, 0], [18, 0, 4, 0], [41, 5, 2, 0]],
        &[
            (&[0], Broken(1)),
            (&[5], Pending(1)),
            (&[5, 4], Settled(2)),
            (&[5, 0], Broken(2)),
            (&[6, 6, 0], Broken(3)),
            (&[4], Settled(1)),
        ],
    ),
    (
        "{{a[*]}[+]} |=> c",
        &[[19, 0, 0, 0], [20, 4, 0, 0], [41, 5, 2, 0]],
        &[(&[0], Broken(1)), (&[4], Settled(1)), (&[5, 5, 4], Settled(3)), (&[5, 2], Broken(2))],
    ),
    (
        "{a[*]:b[*]} |=> c",
        &[[19, 0, 0, 0], [19, 1, 0, 0], [17, 4, 5, 0], [41, 6, 2, 0]],
        &[
            (&[0], Settled(1)),
            (&[1], Pending(1)),
            (&[1, 0], Settled(2)),
            (&[3], Pending(1)),
            (&[3, 0], Broken(2)),
            (&[3, 4], Settled(2)),
        ],
    ),
    (
        "always ({a[*]} |=> b)",
        &[[19, 0, 0, 0], [41, 4, 1, 0], [38, 5, 0, 0]],
        &[(&[2, 0], Broken(2)), (&[2, 3, 2], Pending(3)), (&[2, 3, 1], Broken(3))],
    ),
    (
        "next ({a[*]} |=> b)",
        &[[19, 0, 0, 0], [41, 4, 1, 0], [34, 5, 0, 0]],
        &[
            (&[0], Pending(1)),
            (&[2, 0], Broken(2)),
            (&[0, 2], Settled(2)),
            (&[0, 3], Pending(2)),
            (&[0, 3, 0], Broken(3)),
        ],
    ),
    (
        "({a[*]} |=> b) until c",
        &[[19, 0, 0, 0], [41, 4, 1, 0], [39, 5, 2, 0]],
        &[
            (&[0], Broken(1)),
            (&[4], Settled(1)),
            (&[2, 0], Broken(2)),
            (&[2, 4], Settled(2)),
            (&[3, 4], Broken(2)),
            (&[3, 7], Pending(2)),
            (&[3, 7, 2], Settled(3)),
        ],
    ),
    (
        "if a then ({a[*]} |=> b) else ({b[*]} |=> c)",
        &[[19, 0, 0, 0], [41, 4, 1, 0], [19, 1, 0, 0], [41, 6, 2, 0], [35, 0, 5, 7]],
        &[
            (&[1], Broken(1)),
            (&[0], Broken(1)),
            (&[3, 2], Settled(2)),
            (&[4], Settled(1)),
            (&[6, 2], Broken(2)),
            (&[6, 6], Pending(2)),
        ],
    ),
    (
        "both ({a[*]} |=> b) ({b[*]} |=> c)",
        &[[19, 0, 0, 0], [41, 4, 1, 0], [19, 1, 0, 0], [41, 6, 2, 0], [33, 5, 7, 0]],
        &[
            (&[2], Broken(1)),
            (&[6], Pending(1)),
            (&[6, 4], Settled(2)),
            (&[7, 4], Broken(2)),
            (&[7, 6, 4], Settled(3)),
        ],
    ),
    (
        "{c} |-> ({a[*]} |=> b)",
        &[[19, 0, 0, 0], [41, 4, 1, 0], [40, 2, 5, 0]],
        &[(&[0], Settled(1)), (&[4], Broken(1)), (&[6], Settled(1)), (&[7, 0], Broken(2))],
    ),
    (
        "{c} |=> ({a[*]} |=> b)",
        &[[19, 0, 0, 0], [41, 4, 1, 0], [41, 2, 5, 0]],
        &[
            (&[4], Pending(1)),
            (&[4, 0], Broken(2)),
            (&[4, 2], Settled(2)),
            (&[4, 3, 2], Settled(3)),
        ],
    ),
    (
        "{c[*]} |=> ({a[*]} |=> b)",
        &[[19, 0, 0, 0], [41, 4, 1, 0], [19, 2, 0, 0], [41, 6, 5, 0]],
        &[
            (&[0], Broken(1)),
            (&[6], Pending(1)),
            (&[6, 2], Settled(2)),
            (&[6, 0], Broken(2)),
            (&[7, 6, 2], Settled(3)),
        ],
    ),
    (
        "{a[*]} |-> b",
        &[[19, 0, 0, 0], [40, 4, 1, 0]],
        &[(&[0], Settled(1)), (&[1], Broken(1)), (&[3], Pending(1)), (&[3, 0], Settled(2))],
    ),
    (
        "{a[*]} |=> weak {b;c}",
        &[[19, 0, 0, 0], [16, 1, 2, 0], [32, 5, 0, 0], [41, 4, 6, 0]],
        &[
            (&[0], Broken(1)),
            (&[2, 4], Settled(2)),
            (&[3, 6, 4], Settled(3)),
            (&[3, 6, 0], Broken(3)),
        ],
    ),
    (
        "always ({a[*]} |=> weak {b;c})",
        &[[19, 0, 0, 0], [16, 1, 2, 0], [32, 5, 0, 0], [41, 4, 6, 0], [38, 7, 0, 0]],
        &[(&[2, 6, 4], Broken(3)), (&[2, 6, 6], Pending(3))],
    ),
    (
        "a -> ({b[*]} |=> c)",
        &[[19, 1, 0, 0], [41, 4, 2, 0], [36, 0, 5, 0]],
        &[(&[1], Broken(1)), (&[0], Settled(1)), (&[7, 4], Settled(2))],
    ),
    (
        "({a[*]} |=> b) or c",
        &[[19, 0, 0, 0], [41, 4, 1, 0], [37, 5, 2, 0]],
        &[(&[0], Broken(1)), (&[4], Settled(1)), (&[3, 4], Broken(2))],
    ),
    (
        "{a[*]} |=> next b",
        &[[19, 0, 0, 0], [34, 1, 0, 0], [41, 4, 5, 0]],
        &[
            (&[0], Pending(1)),
            (&[0, 2], Settled(2)),
            (&[0, 0], Broken(2)),
            (&[1, 3, 2], Pending(3)),
            (&[1, 3, 2, 2], Settled(4)),
        ],
    ),
];

pub fn runs() -> impl Iterator<Item = Run> {
    let more = LEFT_SIDES.iter().flat_map(|&(name, rows, traces)| {
        traces.iter().map(move |&(samples, verdict)| (name, rows, samples, verdict))
    });
    RUNS.into_iter().chain(more)
}

/// A small run as a trace that is judged.
pub fn judged_run((_, more_rows, samples, _): Run) -> Case {
    let mut rows = vec![[3, 0, 0, 0], [3, 1, 0, 0], [3, 2, 0, 0], [2, 0, 0, 0]];
    rows.extend_from_slice(more_rows);
    let root = rows.len() as u16 - 1;
    let table = Draft { signals: 3, rows, roots: vec![root] }.bytes();
    Case::judge(table, traces::bytes(3, samples), 0)
}

/// Samples that are refused after a verdict, which is repeated after them; 8 sets a bit not declared.
pub const REFUSED_AFTER: [Run; 2] = [
    ("always a", &[[38, 0, 0, 0]], &[1, 0, 8, 1, 15, 0, MOST], Broken(2)),
    ("a until b", &[[39, 0, 1, 0]], &[1, 2, 8, 0, 9, 3, MOST], Settled(2)),
];

/// Of three signals: none, one, the highest, all, the lowest not declared, one of each, all bits.
const EDGE_SAMPLES: [u32; 7] = [0, 1, 4, 7, 8, 12, MOST];

/// `a until b`, `always a` and `next b`, over three signals.
pub fn three_properties() -> Vec<u8> {
    let rows = vec![[3, 0, 0, 0], [3, 1, 0, 0], [39, 0, 1, 0], [38, 0, 0, 0], [34, 1, 0, 0]];
    Draft { signals: 3, rows, roots: vec![2, 3, 4] }.bytes()
}

/// Opening refused for each reason, then property 3 of three: each is stepped on its own table and
/// on an accepted one.
fn add_refused_openings(random: &mut Random, vectors: &mut Vectors) {
    let trace = traces::bytes(3, &EDGE_SAMPLES);
    for number in 1..=monitors::WRONG_PROPERTY {
        monitors::add_refused_opening(random, vectors, number);
        vectors.record_other_table(three_properties(), trace.clone());
    }
    let not_there = Case::judge(three_properties(), trace.clone(), 3);
    vectors.record_steps(&Case { kind: STEPS, ..not_there });
    vectors.record_other_table(judged_run(RUNS[0]).table, trace);
}

/// Property 3 of three, with a trace of another header, cut, empty, or with a bit not declared: 12
/// comes before 15 and 13.
fn add_refused_twice(vectors: &mut Vectors) {
    let sound = traces::bytes(3, &[1, 3]);
    let cut = sound[..sound.len() - 1].to_vec();
    for trace in [traces::bytes(2, &[1, 3]), cut, Vec::new(), traces::bytes(3, &[8])] {
        let case = Case::judge(three_properties(), trace, 3);
        vectors.record(&case, case.answer());
    }
}

/// A monitor of `always a` at a verdict, and a sample; 8 is one that sets a bit not declared.
const MOST: u32 = u32::MAX;
const PLACES: [(Verdict, u32); 12] = [
    (Pending(MOST), 1),
    (Pending(MOST), 0),
    (Pending(MOST), 8),
    (Pending(MOST - 1), 1),
    (Pending(MOST - 1), 0),
    (Pending(MOST - 1), 8),
    (Broken(7), 1),
    (Broken(7), 8),
    (Settled(7), 0),
    (Settled(7), 8),
    (Broken(MOST), 1),
    (Settled(MOST), 0),
];

fn place((verdict, sample): (Verdict, u32)) -> Case {
    let table = Draft { signals: 3, rows: vec![[3, 0, 0, 0], [38, 0, 0, 0]], roots: vec![1] };
    let (code, cycle) = match verdict {
        Broken(cycle) => (1, cycle),
        Settled(cycle) => (2, cycle),
        Pending(cycle) => (3, cycle),
    };
    // Row 0 is its Boolean; row 1, always, is running.
    let state = State { words: [1, 0, 0, 2, 0, 0], families: [0; 32], cycle, code, root: 1 };
    let trace = traces::bytes(3, &[sample, 1, 8, 0]);
    Case { kind: STATE, property: 0, table: table.bytes(), trace, state: state.bytes() }
}

pub fn fixed(random: &mut Random, vectors: &mut Vectors) {
    for run in runs() {
        let case = judged_run(run);
        vectors.record(&case, case.answer());
        vectors.record_steps(&Case { kind: STEPS, ..case });
    }
    for run in REFUSED_AFTER {
        vectors.record_steps(&Case { kind: STEPS, ..judged_run(run) });
    }
    add_refused_openings(random, vectors);
    add_refused_twice(vectors);
    for at in PLACES {
        vectors.record_stray(&place(at));
    }
    // The runs count as verdicts and as steps, and the random cases come on top of them.
    let (verdicts, steps) = (vectors.verdicts() + 70, vectors.of_kind[STEPS as usize] + 30);
    let strays = vectors.strays() + 48;
    cases::cases(random, vectors, verdicts, 100);
    cases::checks(random, vectors, 200);
    monitors::steps(random, vectors, steps);
    monitors::strays(random, vectors, strays);
}
