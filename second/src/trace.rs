//! Decides whether trace bytes are read, or get refusal 15 or 13.

use crate::table::{refused, u16_at, u32_at, Refusal};

pub const MOST_CYCLES: usize = 16_381;
pub const TRACE_HEADER_BYTES: usize = 12;

pub fn read(bytes: &[u8], signals: usize) -> Result<Vec<u32>, Refusal> {
    if bytes.len() < TRACE_HEADER_BYTES {
        return refused(15, 0);
    }
    let cycles = u32_at(bytes, 4);
    let well_formed = u16_at(bytes, 0) == 1
        && u16_at(bytes, 2) == signals
        && cycles <= MOST_CYCLES
        && u32_at(bytes, 8) == TRACE_HEADER_BYTES
        && bytes.len() == TRACE_HEADER_BYTES + 4 * cycles;
    if !well_formed {
        return refused(15, 0);
    }
    let samples = samples_in(bytes);
    // Cycles count from 1.
    match samples.iter().position(|&sample| u64::from(sample) >> signals != 0) {
        Some(index) => refused(13, index + 1),
        None => Ok(samples),
    }
}

/// The samples after a header, declared or not.
pub fn samples_in(bytes: &[u8]) -> Vec<u32> {
    let samples = bytes.get(TRACE_HEADER_BYTES..).unwrap_or(&[]);
    samples.chunks_exact(4).map(|sample| u32_at(sample, 0) as u32).collect()
}
