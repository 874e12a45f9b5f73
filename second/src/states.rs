//! Decides the bytes of a state: a monitor that no opening made, with any words and any verdict.

use crate::judge::PENDING;
use crate::random::Random;
use crate::table::u32_at;

pub const STATE_BYTES: usize = 310;
const CYCLE_AT: usize = 304;
const CODE_AT: usize = 308;

/// Three words of a plan and three of what is expected, the families of weak sequences, the
/// verdict's cycle and code, the root.
pub struct State {
    pub words: [u64; 6],
    pub families: [u64; 32],
    pub cycle: u32,
    pub code: u8,
    pub root: u8,
}

impl State {
    pub fn bytes(&self) -> Vec<u8> {
        let words = self.words.iter().chain(&self.families);
        let mut bytes: Vec<u8> = words.flat_map(|word| word.to_le_bytes()).collect();
        bytes.extend_from_slice(&self.cycle.to_le_bytes());
        bytes.push(self.code);
        bytes.push(self.root);
        bytes
    }

    /// Words of any bits; in most states of rows below `nodes`, so that a step goes over them.
    pub fn drawn(random: &mut Random, nodes: usize) -> State {
        let rows = match random.chance(3, 4) {
            true => u64::MAX >> (64 - nodes.clamp(1, 64)),
            false => u64::MAX,
        };
        let most = u32::MAX;
        let any = random.next() as u32;
        let below = random.below(nodes.max(1)) as u8;
        State {
            words: [(); 6].map(|_| word(random) & rows),
            families: [(); 32].map(|_| word(random)),
            cycle: random.pick(&[0, 0, 1, any, most - 1, most]),
            code: random.pick(&[1, 2, 3, 3, 3, 3]),
            root: random.pick(&[below, any as u8]),
        }
    }
}

/// Full, empty, sparse, dense or even words.
fn word(random: &mut Random) -> u64 {
    let [a, b, c] = [random.next(), random.next(), random.next()];
    random.pick(&[0, u64::MAX, a & b & c, a | b | c, a, a])
}

/// The verdict of a state, as an answer has it.
pub fn verdict_of(state: &[u8]) -> u64 {
    let code = match state[CODE_AT] {
        code @ (1 | 2) => u64::from(code),
        _ => PENDING,
    };
    (code << 32) + u32_at(state, CYCLE_AT) as u64
}
