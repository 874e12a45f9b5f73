//! Decides whether every record of a vector file has the answer this program gives.

use crate::states::STATE_BYTES;
use crate::table::u32_at;
use crate::trace::samples_in;
use crate::vectors::{last_verdict, Case, SHUT, STATE, STEPS};

const HEADER_BYTES: usize = 21;

/// Takes so many bytes off the front.
fn take<'a>(rest: &mut &'a [u8], count: usize) -> Result<&'a [u8], String> {
    if rest.len() < count {
        return Err("the file ends inside a record".to_string());
    }
    let (front, back) = rest.split_at(count);
    *rest = back;
    Ok(front)
}

fn u64_at(bytes: &[u8], at: usize) -> u64 {
    u32_at(bytes, at) as u64 + ((u32_at(bytes, at + 4) as u64) << 32)
}

/// One record: the case and every answer the file expects for it.
fn take_record(rest: &mut &[u8]) -> Result<(Case, Vec<u64>), String> {
    let header = take(rest, HEADER_BYTES)?;
    let mut case = Case { kind: header[0], property: u32_at(header, 1) as u32, ..Case::default() };
    case.table = take(rest, u32_at(header, 5))?.to_vec();
    case.trace = take(rest, u32_at(header, 9))?.to_vec();
    let mut expected = vec![u64_at(header, 13)];
    if [STEPS, SHUT].contains(&case.kind) {
        let cycles = samples_in(&case.trace).len();
        expected.extend(take(rest, 8 * cycles)?.chunks(8).map(|chunk| u64_at(chunk, 0)));
    }
    if case.kind == STATE {
        case.state = take(rest, STATE_BYTES)?.to_vec();
    }
    Ok((case, expected))
}

/// Counts the records, and those that have another answer here.
pub fn replay(bytes: &[u8]) -> Result<(usize, usize), String> {
    let (mut records, mut differences, mut last) = (0, 0, Vec::new());
    let mut rest = bytes;
    while !rest.is_empty() {
        let (case, expected) = take_record(&mut rest)?;
        let answers = case.answers(last_verdict(&last));
        records += 1;
        differences += (answers != expected) as usize;
        if case.kind == STEPS {
            last = answers;
        }
    }
    Ok((records, differences))
}
