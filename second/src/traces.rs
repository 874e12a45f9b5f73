//! Decides which traces are drawn: walks over the few signals a table reads, walks that keep a
//! property pending for as long as they can, and the longest traces that a file can hold.

use crate::draft::Draft;
use crate::properties::Reading;
use crate::random::Random;
use crate::table::Table;
use crate::trace::{MOST_CYCLES, TRACE_HEADER_BYTES};
use crate::tree;

pub fn bytes(signals: usize, samples: &[u32]) -> Vec<u8> {
    let mut bytes = Vec::with_capacity(TRACE_HEADER_BYTES + 4 * samples.len());
    bytes.extend_from_slice(&1u16.to_le_bytes());
    bytes.extend_from_slice(&(signals as u16).to_le_bytes());
    bytes.extend_from_slice(&(samples.len() as u32).to_le_bytes());
    bytes.extend_from_slice(&(TRACE_HEADER_BYTES as u32).to_le_bytes());
    for sample in samples {
        bytes.extend_from_slice(&sample.to_le_bytes());
    }
    bytes
}

/// Every bit below S.
fn all_signals(signals: usize) -> u32 {
    (u64::MAX >> (64 - signals)) as u32
}

/// A sample near the one before; signals that no row reads are set now and then.
fn next_sample(random: &mut Random, draft: &Draft, read: &[usize], before: u32) -> u32 {
    let mut sample = before;
    match random.below(6) {
        0 => {}
        1 | 2 if !read.is_empty() => sample ^= 1 << random.pick(read),
        3 => sample = 0,
        4 => sample = all_signals(draft.signals),
        _ => {
            for &signal in read {
                sample = sample & !(1 << signal) | (random.below(2) as u32) << signal;
            }
        }
    }
    if random.chance(1, 8) {
        sample ^= random.next() as u32 & all_signals(draft.signals);
    }
    sample
}

pub fn walk(random: &mut Random, draft: &Draft, length: usize) -> Vec<u32> {
    let mut samples = Vec::new();
    extend(random, draft, &mut samples, length);
    samples
}

fn extend(random: &mut Random, draft: &Draft, samples: &mut Vec<u32>, length: usize) {
    let read = draft.signals_read();
    while samples.len() < length {
        let before = samples.last().copied().unwrap_or(0);
        samples.push(next_sample(random, draft, &read, before));
    }
}

/// Goes on with any declared samples.
pub fn draw_out(random: &mut Random, signals: usize, samples: &mut Vec<u32>, length: usize) {
    while samples.len() < length {
        samples.push(random.next() as u32 & all_signals(signals));
    }
}

/// Draws each sample up to a few times so that the property stays pending for `guided` cycles
/// where it can, and walks on to `length`.
pub fn kept_pending(
    random: &mut Random,
    draft: &Draft,
    table: &Table,
    property: usize,
    guided: usize,
    length: usize,
) -> Vec<u32> {
    let read = draft.signals_read();
    let tree = tree::read(table, property);
    let mut samples: Vec<u32> = Vec::new();
    while samples.len() < guided.min(length) {
        let before = samples.last().copied().unwrap_or(0);
        let mut tries = 0;
        loop {
            samples.push(next_sample(random, draft, &read, before));
            tries += 1;
            let n = samples.len();
            if tries == 4 || Reading::new(table, &tree, &samples).decides(n).is_none() {
                break;
            }
            samples.pop();
        }
        if tries == 4 {
            break;
        }
    }
    extend(random, draft, &mut samples, length);
    samples
}

/// Tables and traces of exactly 16,381 cycles. Reading the definitions on each of 16,381 lists
/// is only fast enough where one list takes a number of steps near its length, or where a
/// short list decides; so these are the properties tried at that length.
pub fn longest(random: &mut Random, which: usize) -> (Draft, Vec<u32>) {
    let (a, b) = ([3, 0, 0, 0], [3, 1, 0, 0]);
    let rows: Vec<[u8; 4]> = match which % 6 {
        0 => vec![a, [38, 0, 0, 0]],
        1 => vec![a, b, [34, 1, 0, 0], [36, 0, 2, 0], [38, 3, 0, 0]],
        2 => vec![a, b, [16, 0, 1, 0], [32, 2, 0, 0]],
        3 => vec![a, b, [39, 0, 1, 0]],
        4 => vec![a, b, [16, 0, 1, 0], [42, 2, 0, 0]],
        _ => vec![a, b, [17, 0, 1, 0], [41, 2, 0, 0]],
    };
    let root = rows.len() as u16 - 1;
    let draft = Draft { signals: random.between(2, 32), rows, roots: vec![root] };
    let mut samples = vec![3; MOST_CYCLES];
    match which % 6 {
        // Broken at the last cycle.
        0 => samples[MOST_CYCLES - 1] = 2,
        // Pending to the end; the last a waits for its b.
        1 => samples[MOST_CYCLES - 1] = 3,
        // The others are decided within the first cycles.
        _ => {
            for sample in samples.iter_mut().skip(2) {
                *sample = random.below(4) as u32;
            }
        }
    }
    (draft, samples)
}
