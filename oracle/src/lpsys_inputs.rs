//! Arguments, answers and random heads for the calls of LPSYS.

use crate::heads::{Buffer, likely};
use sifli::call::MOST_ANSWERS;
use sifli::head::at;
use sifli::query::{Argument, Call};
use sifli::random::Random;

/// Answers that end a wait: one and several bits, in either byte.
pub const READY: [u16; 6] = [1, 2, 0x0100, 0x8000, 0x00FF, u16::MAX];

/// Every choice of arguments, each from its list.
fn choices(lists: &[Vec<u32>]) -> Vec<[u32; 3]> {
    let mut choices = vec![[0; 3]];
    for (index, list) in lists.iter().enumerate() {
        let with = |choice: [u32; 3]| {
            list.iter().map(move |&value| {
                let mut choice = choice;
                choice[index] = value;
                choice
            })
        };
        choices = choices.into_iter().flat_map(with).collect();
    }
    choices
}

/// The arguments at their ends.
pub fn ends(call: &Call) -> Vec<[u32; 3]> {
    let ends = |argument: &Argument| argument.ends.to_vec();
    choices(&call.arguments.iter().map(ends).collect::<Vec<_>>())
}

/// The values that are drawn often of a single argument, else the ends.
pub fn usual(call: &Call) -> Vec<[u32; 3]> {
    match call.arguments {
        [argument] => choices(&[argument.often.clone().collect()]),
        _ => ends(call),
    }
}

/// So many arguments at all values, the others at their ends.
pub fn all(call: &Call, number: usize) -> Vec<[u32; 3]> {
    let count = call.arguments.len();
    let mut every = Vec::new();
    for chosen in 0..1u32 << count {
        if chosen.count_ones() as usize == number.min(count) {
            let list = |(index, argument): (usize, &Argument)| match chosen >> index & 1 {
                1 => values(argument),
                _ => argument.ends.to_vec(),
            };
            let lists: Vec<Vec<u32>> = call.arguments.iter().enumerate().map(list).collect();
            every.extend(choices(&lists));
        }
    }
    every
}

/// All bytes; for a larger type also more, around powers of two, and values
/// whose low bytes alone would do.
fn values(argument: &Argument) -> Vec<u32> {
    let mut values: Vec<u32> = (0..=255).collect();
    if argument.largest > 255 {
        values.extend(256..1000);
        for bit in 8..32 {
            let power = 1u32 << bit;
            values.extend([power - 1, power, power + 1, power + 20, power + 48]);
        }
        values.extend([4294, 4295, 4295 + 20, u32::MAX - 1, u32::MAX]);
    }
    values
}

/// Random arguments.
pub fn arguments(random: &mut Random, call: &Call) -> [u32; 3] {
    let mut arguments = [0; 3];
    for (value, argument) in arguments.iter_mut().zip(call.arguments) {
        let often = argument.often.clone();
        let any = random.word() as u32 & argument.largest;
        *value = match random.below(8) {
            0 => random.pick(argument.ends),
            1 => any,
            2 => any >> random.below(32),
            _ => often.start() + random.below((often.end() - often.start()) as usize + 1) as u32,
        };
    }
    arguments
}

/// Answers with a ready one at some places.
pub fn ready_at(length: usize, places: &[usize], ready: u16) -> Vec<u16> {
    let mut answers = vec![0; length];
    for &place in places {
        answers[place] = ready;
    }
    answers
}

/// Lists of answers: none; every list of up to six that are ready or not; all
/// not ready; ready at one place, and at two; the longest.
pub fn answer_lists(call: &Call, quick: bool) -> Vec<Vec<u16>> {
    let mut lists = vec![Vec::new()];
    if !call.is_lent_answers {
        return lists;
    }
    for length in 1..=6 {
        for choice in 0..1usize << length {
            let ready = READY[choice % READY.len()];
            let answer = |index: usize| match choice >> index & 1 {
                1 => ready,
                _ => 0,
            };
            lists.push((0..length).map(answer).collect());
        }
    }
    for length in 7..=24 {
        lists.push(vec![0; length]);
        for place in 0..length {
            lists.push(ready_at(length, &[place], READY[place % READY.len()]));
            for second in place + 1..length {
                let ready = READY[second % READY.len()];
                lists.push(ready_at(length, &[place, second], ready));
            }
        }
    }
    let step = if quick { 273 } else { 13 };
    for place in (0..MOST_ANSWERS).step_by(step) {
        lists.push(ready_at(MOST_ANSWERS, &[place], 1));
        lists.push(ready_at(MOST_ANSWERS, &[place, MOST_ANSWERS - 1], 1));
        lists.push(vec![0; place]);
    }
    lists.push(vec![0; MOST_ANSWERS - 1]);
    lists.push(vec![0; MOST_ANSWERS]);
    lists
}

/// A few lists: none, not enough, and enough for two waits.
pub fn few_lists(call: &Call) -> Vec<Vec<u16>> {
    if call.is_lent_answers {
        vec![vec![], vec![0, 1], vec![1, 0, 0, 0x0100, 0]]
    } else {
        vec![vec![]]
    }
}

/// Random answers, none where the call is not lent any: most often a few, now
/// and then thousands, and too many.
pub fn answers(random: &mut Random, call: &Call) -> Vec<u16> {
    if !call.is_lent_answers {
        return Vec::new();
    }
    let length = match random.below(64) {
        0 => random.below(MOST_ANSWERS + 1),
        1 => MOST_ANSWERS - 1 + random.below(4),
        2..16 => random.below(100),
        _ => random.below(10),
    };
    match random.below(4) {
        0 => vec![0; length],
        1 => {
            let places = [0, 1].map(|_| random.below(length.max(1)));
            let count = random.below(3).min(length);
            ready_at(length, &places[..count], random.pick(&READY))
        }
        2 => {
            let seldom = random.pick(&[2, 8, 64, 4000]);
            let mut answer = || if random.once_in(seldom) { 1 } else { 0 };
            (0..length).map(|_| answer()).collect()
        }
        _ => (0..length)
            .map(|_| random.word() as u16 >> random.below(17).min(15))
            .collect(),
    }
}

/// A likely head, its wake count often near 0.
pub fn head(random: &mut Random) -> Buffer {
    let mut buffer = likely(random);
    if !random.once_in(3) {
        buffer[at::WAKE_COUNT] = random.pick(&[0, 1, 2, 255]);
    }
    buffer
}
