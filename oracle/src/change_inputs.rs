//! Heads, plans and answers for the guarded change.

use crate::config_plans::{self, refused_plans};
use crate::heads::{DIVIDERS, likely, plain};
use crate::plans::{Record, default_with, put_dll};
use sifli::call::MOST_ANSWERS;
use sifli::claim::planned;
use sifli::head::{Head, LONGEST_PERIOD, MOST_TASKS, Task, decode};
use sifli::plan::at as field;
use sifli::random::Random;
use sifli::readings;

/// Answers that are ready: one and several bits, in either byte.
pub const READY: [u16; 5] = [1, 2, 0x0100, 0x8000, u16::MAX];

/// Microseconds in a second: the period whose share is its cycles.
const SECOND: u32 = 1_000_000;

/// A core select, hdiv, and DLL1's bytes on, half, stage.
pub type Core = (u8, u8, [u8; 3]);

/// HCLK in each mode from each clock, above 240 MHz, and unreadable.
pub const CORES: [Core; 24] = [
    // 24 MHz and below
    (0, 2, [0; 3]),
    (1, 2, [1, 1, 3]),
    (1, 255, [0, 1, 15]),
    (3, 1, [1, 0, 0]),
    (3, 0, [1, 1, 0]),
    (3, 10, [1, 0, 9]),
    // 48 MHz and below
    (0, 1, [0; 3]),
    (1, 0, [0, 0, 9]),
    (1, 1, [1, 0, 9]),
    (3, 1, [1, 0, 1]),
    (3, 1, [1, 1, 3]),
    (3, 5, [1, 0, 9]),
    // 144 MHz and below
    (3, 1, [1, 0, 2]),
    (3, 1, [1, 0, 5]),
    (3, 0, [1, 1, 11]),
    (3, 2, [1, 0, 9]),
    // 240 MHz and below
    (3, 1, [1, 0, 6]),
    (3, 1, [1, 0, 9]),
    (3, 0, [1, 1, 15]),
    // above
    (3, 1, [1, 0, 10]),
    (3, 1, [1, 0, 15]),
    // none
    (2, 1, [1, 0, 9]),
    (3, 1, [0, 0, 9]),
    (3, 1, [0, 1, 1]),
];

/// Register 12, and the buck and ldo of its supply.
pub type Rails = (u32, u32, u32);

/// The least rails of each mode.
pub const ROWS: [Rails; 4] = [(1, 9, 6), (1, 10, 8), (0, 13, 11), (0, 15, 13)];

/// Rails at, one below and above each row's values.
pub fn rails() -> Vec<Rails> {
    const D: ([u32; 4], [u32; 5]) = ([8, 9, 10, 15], [5, 6, 7, 8, 15]);
    const S: ([u32; 4], [u32; 5]) = ([12, 13, 14, 15], [10, 11, 12, 13, 15]);
    let mut rails = Vec::new();
    for (supply, (bucks, ldos)) in [(1, D), (0, S)] {
        for buck in bucks {
            rails.extend(ldos.map(|ldo| (supply, buck, ldo)));
        }
    }
    rails
}

/// The mode of an HCLK; S1 above it.
fn mode(hclk: u32) -> usize {
    let above = |&&mhz: &&u32| hclk > mhz * 1_000_000;
    [24, 48, 144].iter().filter(above).count()
}

pub fn put_rails(head: &mut Head, (supply, buck, ldo): Rails) {
    head.registers[12] = supply;
    let at = if supply == 1 { 15 } else { 13 };
    (head.registers[at], head.registers[at + 1]) = (buck, ldo);
}

pub fn put_core(head: &mut Head, (select, hdiv, [on, half, stage]): Core) {
    head.registers[1] = select.into();
    head.registers[2] = u32::from_be_bytes([0, hdiv, 1, 6]);
    head.registers[3] = u32::from_be_bytes([0, on, half, stage]);
}

/// A head with a core clock, the least rails for it, all oscillators ready, and
/// LPSYS at 24 MHz on D: fit where HCLK reads and is at most 240 MHz.
pub fn with_core(core: Core) -> Head {
    let mut head = plain();
    put_core(&mut head, core);
    head.registers[26] = 0x020000;
    let hclk = readings::hclk(&head).unwrap_or(0);
    put_rails(&mut head, ROWS[mode(hclk)]);
    head
}

/// Fit heads that go each way: from each source and in each mode, with flash on
/// DLL1 or not.
pub fn few_fit() -> Vec<Head> {
    let mut heads: Vec<Head> = [6, 8, 3, 15, 17].map(|at| with_core(CORES[at])).into();
    heads[3].registers[5] = 0x000103;
    heads[4].registers[5] = 0x000201;
    heads[4].registers[4] = 0x01000B;
    heads[4].registers[11] = 0x000100;
    heads
}

/// A plan with a core select, hdiv and DLL1, and nothing else of note.
pub fn plan((core, hdiv, [present, half, stage]): Core) -> Record {
    let mut plan = default_with(&[
        (field::CORE, core),
        (field::HDIV, hdiv),
        (field::PDIV1, 1),
        (field::CALIBRATE, 0),
        (field::USB, 0),
        (field::MPI2, 0),
    ]);
    put_dll(&mut plan, field::DLL2, [0; 3]);
    put_dll(&mut plan, field::DLL1, [present, stage, half]);
    plan
}

/// Accepted plans: each mode, from each source, with DLL1 and without.
pub fn targets() -> Vec<Record> {
    const TARGETS: [Core; 14] = [
        (1, 2, [0; 3]),
        (0, 255, [0; 3]),
        (0, 2, [1, 0, 5]),
        (3, 1, [1, 0, 0]),
        (1, 1, [0; 3]),
        (0, 0, [0; 3]),
        (1, 1, [1, 1, 15]),
        (3, 5, [1, 0, 9]),
        (3, 1, [1, 0, 2]),
        (3, 1, [1, 1, 11]),
        (3, 2, [1, 0, 9]),
        (3, 1, [1, 0, 6]),
        (3, 1, [1, 0, 9]),
        (3, 2, [1, 0, 15]),
    ];
    TARGETS.map(plan).into()
}

/// Ready at once, ready later, not ready, none.
pub const LISTS: [&[u16]; 4] = [&[1], &[0, 0, 0x0100, 0], &[0, 0], &[]];

/// The head with so many tasks whose load is just this; each share is rounded up
/// where that is asked.
pub fn with_load(mut head: Head, count: usize, load: u64, is_rounded: bool) -> Head {
    head.tasks.clear();
    for index in 0..count {
        let left = load - sifli::tasks::load(&head.tasks);
        let share = left / (count - index) as u64;
        let id = 1 + 7 * index as u8;
        let (cycles, period_us) = match is_rounded {
            true => ((10 * share).saturating_sub(9), LONGEST_PERIOD),
            false => (share, SECOND),
        };
        if let Some(cycles) = u32::try_from(cycles).ok().filter(|&cycles| cycles > 0) {
            head.tasks.push(Task {
                id,
                cycles,
                period_us,
            });
        }
    }
    head
}

/// Any head, more often than not one that is fit.
pub fn head(random: &mut Random) -> Head {
    let mut head = decode(&likely(random)).expect("a head");
    head.tasks.clear();
    if !random.once_in(8) {
        (head.hxt48_ready, head.hrc48_ready) = (true, true);
    }
    head.registers[1] = match random.below(32) {
        0 => 2,
        draw => [0, 1, 3, 3][draw % 4],
    };
    let hdiv = match random.below(4) {
        0 => random.byte(),
        1 => random.pick(&DIVIDERS),
        _ => random.pick(&[0, 1, 1, 2, 4]),
    };
    head.registers[2] = head.registers[2] & 0xFFFF | u32::from(hdiv) << 16;
    if random.once_in(3) && head.registers[1] == 3 {
        head.registers[3] = head.registers[3] & 0x010100 | random.below(10) as u32;
    }
    if !random.once_in(4) {
        head.registers[3] |= 0x010000;
    }
    put_rails(&mut head, draw_rails(random));
    if !random.once_in(8) {
        carry(random, &mut head);
    }
    for shift in [8, 0] {
        let select = (head.registers[5] >> shift & 3) as usize;
        let is_off = matches!(select, 1 | 2) && head.registers[2 + select] >> 16 == 0;
        if is_off && !random.once_in(8) {
            head.registers[5] &= !(3 << shift);
        }
    }
    if head.registers[26] >> 16 < 2 && !random.once_in(8) {
        head.registers[28] = 1;
    }
    head
}

fn draw_rails(random: &mut Random) -> Rails {
    match random.below(2) {
        0 => {
            let mut four_bits = || random.up_to(15).into();
            (four_bits() & 1, four_bits(), four_bits())
        }
        _ => random.pick(&rails()),
    }
}

/// Rails that carry HCLK: those of its mode or of a higher one, or more.
fn carry(random: &mut Random, head: &mut Head) {
    let Some(hclk) = readings::hclk(head) else {
        return;
    };
    let least = mode(hclk);
    let (supply, buck, ldo) = ROWS[least + random.below(4 - least)];
    let mut more = |least: u32| match random.below(3) {
        0 => least + u32::from(random.up_to(15 - least as u8)),
        _ => least,
    };
    let rails = (supply, more(buck), more(ldo));
    put_rails(head, rails);
}

/// A fit head.
pub fn fit_head(random: &mut Random) -> Head {
    loop {
        let head = head(random);
        if sifli::claim::is_fit(&head) {
            return head;
        }
    }
}

/// No tasks, light ones, a load near an HCLK, or any.
pub fn put_tasks(random: &mut Random, head: &mut Head, hclk: u32) {
    let count = random.below(MOST_TASKS + 1);
    let load = match random.below(8) {
        0..3 => return,
        3 => u64::from(hclk) + 1,
        4 => hclk.into(),
        5 => u64::from(hclk) - 1,
        6 => 1 + random.below(2 * hclk as usize) as u64,
        _ => 1 + random.below(hclk as usize) as u64,
    };
    let is_rounded = random.once_in(2) && load / 16 < 400_000_000 && load > 16;
    *head = with_load(head.clone(), count, load, is_rounded);
}

/// Most often one of the accepted plans; now and then one for each refusal.
pub fn any_plan(random: &mut Random, accepted: &[Record]) -> Vec<u8> {
    match random.below(32) {
        0 => {
            let plans = refused_plans();
            plans[random.below(plans.len())].clone()
        }
        1..5 => random.pick(&targets()).to_vec(),
        _ => config_plans::plan(random, accepted),
    }
}

/// The plan's HCLK, 48 MHz where it is no plan.
pub fn target(plan: &[u8]) -> u32 {
    match sifli::plan::check(plan) {
        0 => planned(plan),
        _ => 48_000_000,
    }
}

/// Most often ready at once or soon; not ready, none, and now and then thousands
/// and too many.
pub fn answers(random: &mut Random) -> Vec<u16> {
    let length = random.below(20);
    let mut answers = match random.below(8) {
        0 => Vec::new(),
        1 => vec![0; length],
        2 => (0..length).map(|_| random.any_length()).collect(),
        3 => {
            let mut answers = vec![0; length];
            answers.push(random.pick(&READY));
            answers
        }
        _ => vec![random.pick(&READY); 1 + length],
    };
    if random.once_in(128) {
        answers.resize(MOST_ANSWERS - 1 + random.below(4), 0);
    }
    if random.once_in(256) {
        let place = random.below(MOST_ANSWERS);
        answers = vec![0; MOST_ANSWERS];
        answers[place] = 1;
    }
    answers
}
