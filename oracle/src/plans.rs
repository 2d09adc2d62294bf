//! Plans to compare, record and measure.

use sifli::plan::{DEFAULT, LARGEST, LENGTH, at};
use sifli::random::Random;

pub type Record = [u8; LENGTH];

/// Room for slices longer than a plan.
pub const LONGEST: usize = 40;

pub const STAGES: [u8; 16] = [0, 1, 2, 3, 4, 5, 6, 7, 8, 9, 10, 11, 12, 13, 14, 15];

/// A DLL's three bytes: absent, then each stage whole and halved.
pub fn dlls(stages: &[u8]) -> Vec<[u8; 3]> {
    let present = stages.iter().flat_map(|&s| [[1, s, 0], [1, s, 1]]);
    [[0; 3]].into_iter().chain(present).collect()
}

pub fn put_dll(plan: &mut Record, at: usize, dll: [u8; 3]) {
    plan[at..at + 3].copy_from_slice(&dll);
}

/// The default plan with some bytes changed.
pub fn default_with(changes: &[(usize, u8)]) -> Record {
    let mut plan = DEFAULT;
    for &(index, byte) in changes {
        plan[index] = byte;
    }
    plan
}

/// Puts any of its codes into a field.
fn redraw(random: &mut Random, plan: &mut Record, index: usize) {
    plan[index] = random.up_to(LARGEST[index - at::CORE]);
}

/// An absent DLL gets stage and half 0.
fn settle(plan: &mut Record) {
    for dll in [at::DLL1, at::DLL2] {
        if plan[dll] == 0 {
            put_dll(plan, dll, [0; 3]);
        }
    }
}

/// Every field any of its codes.
pub fn coded(random: &mut Random) -> Record {
    let mut plan = DEFAULT;
    for index in at::CORE..LENGTH {
        redraw(random, &mut plan, index);
    }
    settle(&mut plan);
    plan
}

/// The default plan with one to four fields drawn anew.
pub fn near_default(random: &mut Random) -> Record {
    let mut plan = DEFAULT;
    for _ in 0..1 + random.below(4) {
        let index = at::CORE + random.below(LENGTH - at::CORE);
        redraw(random, &mut plan, index);
    }
    settle(&mut plan);
    plan
}

/// A plan that passes tests 4 to 8, and often all of them.
pub fn likely(random: &mut Random) -> Record {
    let mut plan = coded(random);
    plan[at::CORE] = random.pick(&[0, 1, 3, 3]);
    plan[at::HDIV] = random.pick(&[0, 1, 1, 2, 2, 3, 4, 5, 6, 7, 8, 10, 20, 255]);
    plan[at::PDIV2] = random.pick(&[2, 3, 4, 5, 6, 7]);
    plan[at::DLL1] = 1;
    plan[at::DLL1 + 1] = random.up_to(15);
    plan[at::DLL2] = 1;
    plan[at::DLL2 + 1] = random.pick(&[4, 9, 10, 11, 11, 12, 13, 15]);
    plan[at::USB] = random.once_in(4).into();
    plan
}

/// A slice of any length up to `LONGEST`, most often 20, with some bytes
/// replaced by any byte.
pub fn damaged(random: &mut Random, buffer: &mut [u8; LONGEST]) -> usize {
    let plan = near_default(random);
    buffer[..LENGTH].copy_from_slice(&plan);
    buffer[LENGTH..].fill_with(|| random.byte());
    for _ in 0..1 + random.below(3) {
        buffer[random.below(LENGTH)] = random.byte();
    }
    if random.once_in(8) {
        random.below(LONGEST + 1)
    } else {
        LENGTH
    }
}

/// Slices of one length: zeros, 255s, the default plan cut short or with zeros
/// after it, and the same with a length field that fits the slice.
pub fn of_length(length: usize) -> Vec<Vec<u8>> {
    let mut plan = DEFAULT.to_vec();
    plan.resize(length, 0);
    let mut fitting = plan.clone();
    if length >= 2 {
        fitting[..2].copy_from_slice(&(length as u16 - 2).to_be_bytes());
    }
    vec![vec![0; length], vec![255; length], plan, fitting]
}
