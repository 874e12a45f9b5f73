//! Decides how a valid trace or property number is damaged, so that 12, 15 or 13 is due.

use crate::random::Random;
use crate::trace::{MOST_CYCLES, TRACE_HEADER_BYTES};
use crate::traces;

/// A property number not below P.
pub fn wrong_property(random: &mut Random, properties: usize, property: u32) -> u32 {
    let p = properties as u32;
    random.pick(&[p, p + 1, 8, 255, 256, 256 + property, 65_536 + property, 1 << 31, u32::MAX])
}

/// Sets a bit S or above in some samples; returns whether there was one to set.
pub fn set_high_bits(random: &mut Random, signals: usize, samples: &mut [u32]) -> bool {
    if signals == 32 || samples.is_empty() {
        return false;
    }
    let any = random.below(samples.len());
    let first = random.pick(&[0, any, any, samples.len() - 1]);
    samples[first] |= 1 << random_bit(random, signals);
    for sample in samples.iter_mut().skip(first + 1) {
        if random.chance(1, 4) {
            *sample |= 1 << random_bit(random, signals);
        }
    }
    true
}

fn random_bit(random: &mut Random, signals: usize) -> usize {
    let any = random.between(signals, 31);
    random.pick(&[signals, 31, any])
}

fn put(bytes: &mut [u8], at: usize, width: usize, value: u64) {
    bytes[at..at + width].copy_from_slice(&value.to_le_bytes()[..width]);
}

/// A wrong header field or length in the bytes of a valid trace.
pub fn damage_trace(random: &mut Random, bytes: &mut Vec<u8>, signals: usize) {
    let cycles = ((bytes.len() - TRACE_HEADER_BYTES) / 4) as u64;
    let s = signals as u64;
    match random.below(9) {
        0 => put(bytes, 0, 2, random.pick(&[0, 2, 257, 65_535])),
        1 => put(bytes, 2, 2, random.pick(&[s - 1, s + 1, s + 256, s + 32_768, 0, 65_535])),
        2 => put(bytes, 4, 4, random.pick(&[cycles + 1, cycles + 65_536, cycles.wrapping_sub(1)])),
        // Twelve and four times these agree with the length modulo 2^32.
        3 => put(bytes, 4, 4, cycles + random.pick(&[1 << 30, 1 << 31, 3 << 30])),
        4 => put(bytes, 8, 4, random.pick(&[0, 11, 13, 16, 268, 65_548, 131_084, 1 << 31 | 12])),
        5 => bytes.truncate(random.below(bytes.len())),
        6 => drop(bytes.pop()),
        7 => bytes.extend(std::iter::repeat(0).take(random.between(1, 4))),
        _ => bytes.truncate(random.pick(&[0, 1, 11])),
    }
}

/// A trace of one cycle more than a file may hold, otherwise sound.
pub fn too_long(signals: usize) -> Vec<u8> {
    traces::bytes(signals, &[0; MOST_CYCLES + 1])
}
