//! Plans, heads and answers for the calls of `rcc/clock_config.rs`.

use crate::heads::{Buffer, buffer, busy, likely, plain, put_flags, put_register, with};
use crate::lpsys_inputs::READY;
use sifli::call::{Frequencies, MOST_ANSWERS};
use sifli::head::{Head, at};
use sifli::plan::{LENGTH, at as field};
use sifli::random::Random;

/// Measurements of a whole search.
pub const SEARCH: usize = 11;

/// Differences at both sides of each turn.
pub const DIFFERENCES: [u16; 7] = [0, 63, 64, 65, 159, 160, 161];

/// Core select, both of its ready flags, DLL1 and hdiv: HCLK in each supply mode,
/// above 240 MHz, and unreadable.
pub fn present_clocks(head: &Head) -> Vec<Buffer> {
    const STAGES: [[u8; 3]; 7] = [
        [1, 0, 9],
        [0, 0, 9],
        [1, 0, 0],
        [1, 0, 1],
        [1, 0, 5],
        [1, 1, 15],
        [1, 0, 10],
    ];
    let mut heads = Vec::new();
    for core in 0..4 {
        let dlls = if core == 3 { &STAGES[..] } else { &STAGES[..2] };
        for &dll1 in dlls {
            for flags in 0..4 {
                for hdiv in [0, 1, 2, 5, 16, 255] {
                    let mut buffer = buffer(head, 0);
                    put_flags(&mut buffer, flags);
                    put_register(&mut buffer, 3, dll1);
                    heads.push(with(buffer, &[(at::c(1), core), (at::a(2), hdiv)]));
                }
            }
        }
    }
    heads
}

/// Heads that go each way through a call: HXT48 to wait for, HXT48 ready, HRC48
/// with HXT48 and without, DLL1 with HXT48 and without, DBL96, DLL1 too fast,
/// nothing ready; the first with everything else 0.
pub fn few_cores() -> Vec<Buffer> {
    let cores = [
        (plain(), 1, 2),
        (busy(), 1, 7),
        (plain(), 0, 3),
        (plain(), 0, 2),
        (busy(), 3, 7),
        (busy(), 3, 2),
        (busy(), 2, 7),
        (busy(), 3, 7),
        (busy(), 3, 0),
    ];
    let mut heads: Vec<Buffer> = cores
        .into_iter()
        .map(|(head, core, flags)| {
            let mut buffer = buffer(&head, 0);
            put_flags(&mut buffer, flags);
            with(buffer, &[(at::c(1), core)])
        })
        .collect();
    heads[7][at::c(3)] = 15;
    heads
}

/// Whether `init` waits for HXT48 on the head.
pub fn waits_for_hxt48(head: &[u8]) -> bool {
    head.len() > at::FLAGS && (head[at::c(1)], head[at::FLAGS]) == (1, 0)
}

/// Ready at the first poll, then the two counts.
fn measurement(difference: u16, is_hxt_larger: bool) -> [u16; 3] {
    match is_hxt_larger {
        true => [1, 1000 + difference, 1000],
        false => [1, 1000, 1000 + difference],
    }
}

/// A search of so many measurements: all but the last too far off to end it, the
/// larger count by the bits of a number.
pub fn search(length: usize, last: u16, larger: u32) -> Vec<u16> {
    let difference = |index: usize| match index + 1 == length {
        true => last,
        false => 64 + 97 * (index as u16 % 3),
    };
    (0..length)
        .flat_map(|index| measurement(difference(index), larger >> index & 1 == 1))
        .collect()
}

/// Whole searches, shorter ones and longer ones, with each last difference; the
/// larger count always the same, in turn, and changing once.
pub fn searches() -> Vec<Vec<u16>> {
    let mut lists = Vec::new();
    for length in 1..=SEARCH + 1 {
        for last in DIFFERENCES {
            for larger in [0, !0, 0x2AA, 0x555, 0x01F] {
                lists.push(search(length, last, larger));
            }
        }
    }
    lists
}

/// The answers of an `init`: a wait for HXT48 where the head has one, what
/// calibration takes, and the waits for both DLLs.
pub fn around(head: &[u8], search: &[u16]) -> Vec<u16> {
    let mut answers = Vec::new();
    if waits_for_hxt48(head) {
        answers.extend([0, 0, 1]);
    }
    answers.extend_from_slice(search);
    answers.extend([0, 1, 0, 0, 2]);
    answers
}

/// A first wait of every length to 40, around 256, and around the most answers;
/// all after it ready, or nothing.
pub fn first_waits() -> Vec<Vec<u16>> {
    let lengths = (0..=40).chain(254..=258).chain([1000, 2048]);
    let mut lists = Vec::new();
    for zeros in lengths.chain(MOST_ANSWERS - 8..=MOST_ANSWERS + 1) {
        let mut answers = vec![0; zeros];
        lists.push(answers.clone());
        answers.resize(zeros.max(MOST_ANSWERS.min(zeros + 6)), 1000);
        lists.push(answers);
    }
    lists
}

/// Everything ready at once, all counts alike; nothing ready; no answers.
pub fn few_lists() -> [Vec<u16>; 3] {
    [vec![1000; 8], vec![0; 8], Vec::new()]
}

/// A likely head, often with DLL2 as the plan has it or nearly, now and then
/// after standby.
pub fn head(random: &mut Random, plan: &[u8]) -> Buffer {
    let mut buffer = likely(random);
    if random.once_in(3) && plan.len() == LENGTH {
        let [stage, half] = [plan[field::DLL2 + 1], plan[field::DLL2 + 2]];
        put_register(&mut buffer, 4, [1, half.min(1), stage.min(15)]);
        if random.once_in(3) {
            buffer[at::b(4)] ^= 1;
        }
    }
    if random.once_in(16) {
        buffer[at::BOOT_MODE] = 3;
    }
    if random.once_in(2) {
        buffer[at::a(2)] = random.pick(&[0, 1, 1, 2, 3, 5, 10]);
    }
    buffer
}

/// Random clocks, some none.
pub fn clocks(random: &mut Random) -> Frequencies {
    [(); 15].map(|()| match random.below(4) {
        0 => 0,
        1 => 48_000_000,
        _ => random.word() as u32,
    })
}

/// Random answers: most often those that a call on the head would take to be
/// done, often cut; or any, none, none ready, or all near each other; now and
/// then thousands, and too many.
pub fn answers(random: &mut Random, head: &[u8], is_measuring: bool) -> Vec<u16> {
    let length = random.below(60);
    let mut answers = match random.below(12) {
        0 => Vec::new(),
        1 => vec![0; length],
        2 => (0..length).map(|_| random.any_length()).collect(),
        3 => {
            let least = random.any_length();
            let mut near = || least.saturating_add(random.pick(&DIFFERENCES));
            (0..length).map(|_| near()).collect()
        }
        _ => script(random, head, is_measuring),
    };
    match random.below(64) {
        0 => answers.resize(MOST_ANSWERS - 1 + random.below(4), 0),
        1..16 => answers.truncate(random.below(answers.len() + 1)),
        _ => {}
    }
    answers
}

/// Waits and measurements in the order in which `init` takes them.
fn script(random: &mut Random, head: &[u8], is_measuring: bool) -> Vec<u16> {
    let mut answers = Vec::new();
    if waits_for_hxt48(head) {
        wait(random, &mut answers);
    }
    if is_measuring {
        measurements(random, &mut answers);
    }
    for _ in 0..2 + random.below(2) {
        wait(random, &mut answers);
    }
    answers
}

/// Polls up to the first that is ready.
fn wait(random: &mut Random, answers: &mut Vec<u16>) {
    let zeros = match random.below(64) {
        0 => random.below(600),
        1..16 => random.below(5),
        _ => 0,
    };
    answers.resize(answers.len() + zeros, 0);
    answers.push(random.pick(&READY));
}

/// Some measurements, at most 12, whose last difference is any of the turns.
fn measurements(random: &mut Random, answers: &mut Vec<u16>) {
    let length = random.pick(&[1, 2, 3, 6, 10, 11, 11, 11, 12]);
    for index in 1..=length {
        wait(random, answers);
        let difference = match index == length {
            true => random.pick(&DIFFERENCES),
            false => random.pick(&[64, 65, 100, 160, 161, 5000]),
        };
        let least = (random.word() as u16).min(u16::MAX - difference);
        let mut counts = [least, least + difference];
        if random.once_in(2) {
            counts.reverse();
        }
        answers.extend(counts);
    }
}
