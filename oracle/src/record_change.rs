//! Guarded changes to record, with the answers of document 01.

use crate::change_inputs::{
    CORES, LISTS, READY, answers, any_plan, few_fit, head, plan, put_rails, put_tasks, rails,
    target, targets, with_core, with_load,
};
use crate::config_plans::{accepted, refused_plans};
use crate::heads::{buffer, damaged, put_flags, task, with};
use crate::record::{CallLines, write_calls};
use crate::task_inputs::any_past;
use sifli::calls::guarded;
use sifli::claim::planned;
use sifli::head::{BUFFER, MOST_TASKS, at};
use sifli::plan::DEFAULT;
use sifli::random::Random;
use std::io;
use std::path::Path;

/// The most answers in a line.
const MOST_ANSWERS: usize = 60;

pub fn write(directory: &Path) -> io::Result<()> {
    write_calls(directory, guarded(), 1, |list| {
        modes(list);
        unfit(list);
        every_rails(list);
        flash_selects(list);
        waits(list);
        flags_and_lpsys(list);
        loads(list);
        refused(list);
        random(list);
    })
}

/// Every pair of modes, from each source and to each, and HCLK that is right
/// already.
fn modes(list: &mut CallLines) {
    for head in few_fit() {
        for plan in targets() {
            list.planned(&buffer(&head, 0), &plan, &[0, 1]);
        }
    }
    for core in CORES {
        let (select, hdiv, [on, half, stage]) = core;
        let dll1 = if on == 1 { [1, half, stage] } else { [0; 3] };
        let head = buffer(&with_core(core), 0xEE);
        list.planned(&head, &plan((select, hdiv, dll1)), &[1]);
    }
}

/// A head at 0, HCLK too high for the rails, and flash on a DLL that is off.
fn unfit(list: &mut CallLines) {
    list.planned(&buffer(&Default::default(), 0), &DEFAULT, &[1]);
    for core in [3, 6, 13, 17].map(|at| CORES[at]) {
        let good = with_core(core);
        for number in 13..=16 {
            let mut head = good.clone();
            head.registers[number] = head.registers[number].saturating_sub(1);
            list.planned(&buffer(&head, 0), &DEFAULT, &[1]);
        }
        let mut head = good;
        head.registers[12] ^= 1;
        list.planned(&buffer(&head, 0), &DEFAULT, &[1]);
    }
    for selects in [0x000100, 0x000001, 0x000200, 0x000002, 0x000303] {
        let mut head = with_core(CORES[6]);
        head.registers[5] = selects;
        list.planned(&buffer(&head, 0), &DEFAULT, &[1]);
    }
}

/// Rails at, one below and above each row's values, up and down.
fn every_rails(list: &mut CallLines) {
    for (place, rails) in rails().into_iter().enumerate() {
        let core = if place < 20 { CORES[3] } else { CORES[13] };
        let mut head = with_core(core);
        put_rails(&mut head, rails);
        let plan = if place % 2 == 0 {
            DEFAULT
        } else {
            plan((3, 1, [1, 0, 0]))
        };
        list.planned(&buffer(&head, 0), &plan, &[1]);
    }
}

/// Every pair of flash selects and of hpbg flags, DLL1 planned and not.
fn flash_selects(list: &mut CallLines) {
    for selects in 0..16 {
        let mut head = with_core(CORES[17]);
        head.registers[4] = 0x01000B;
        head.registers[5] = selects >> 2 << 8 | selects & 3;
        head.registers[11] = (selects & 1) << 8 | selects >> 1 & 1;
        list.planned(&buffer(&head, 0), &DEFAULT, &[1]);
        list.planned(&buffer(&head, 0), &plan((1, 1, [0; 3])), &[]);
    }
}

/// Answers that end the wait at each place, and that do not.
fn waits(list: &mut CallLines) {
    let heads = few_fit();
    let head = buffer(&heads[4], 0);
    for length in 0..6 {
        list.planned(&head, &DEFAULT, &vec![0; length]);
        let mut answers = vec![0; length];
        answers.extend([READY[length % READY.len()], 0, 1]);
        list.planned(&head, &DEFAULT, &answers);
    }
    list.planned(&head, &DEFAULT, &[0; MOST_ANSWERS]);
    for head in &heads {
        for answers in LISTS {
            list.planned(&buffer(head, 0), &DEFAULT, answers);
        }
    }
}

/// Ready flags with each core select planned, then LPSYS.
fn flags_and_lpsys(list: &mut CallLines) {
    for flags in 0..8 {
        let mut head = buffer(&with_core(CORES[17]), 0);
        put_flags(&mut head, flags);
        head[at::c(25)] = flags >> 2;
        for core in [(0, 1, [0; 3]), (1, 1, [0; 3]), (3, 1, [1, 0, 9])] {
            list.planned(&head, &plan(core), &[1]);
        }
    }
    for hdiv in [0, 1, 2] {
        for supply in 0..2 {
            let changes = [(at::a(26), hdiv), (at::c(28), supply)];
            let head = with(buffer(&with_core(CORES[6]), 0), &changes);
            list.planned(&head, &DEFAULT, &[1]);
        }
    }
}

/// Loads at, one below and one above the target's HCLK.
fn loads(list: &mut CallLines) {
    for (plan, count) in targets().iter().zip([1, 16, 3, 2].into_iter().cycle()) {
        for offset in 0..3 {
            let load = u64::from(planned(plan)) - 1 + offset;
            let head = with_load(with_core(CORES[17]), count, load, offset == 1);
            list.planned(&buffer(&head, 0xEE), plan, &[1]);
        }
    }
}

/// The head's refusals, the plan's, and two at once.
fn refused(list: &mut CallLines) {
    let head = with_load(with_core(CORES[6]), MOST_TASKS, 240_000_001, false);
    let good = buffer(&head, 0);
    let faults: [&[(usize, u8)]; 5] = [
        &[(at::COUNT, 3)],
        &[(at::VERSION, 2), (at::c(1), 4)],
        &[(at::c(34), 1), (at::a(34), 1)],
        &[(task(1), 1)],
        &[(at::FLAGS, 2)],
    ];
    list.planned(&good[..BUFFER - 1], &DEFAULT[..3], &[1]);
    for changes in faults {
        list.planned(&with(good, changes), &DEFAULT[..3], &[1]);
    }
    for plan in refused_plans() {
        list.planned(&with(good, &[(at::c(1), 2)]), &plan, &[1]);
    }
    // 37 before 38, 38 before 39, 39 before 36.
    list.planned(&with(good, &[(at::FLAGS, 0)]), &DEFAULT, &[]);
    let on_hrc48 = [(at::FLAGS, 0), (at::c(1), 0)];
    list.planned(&with(good, &on_hrc48), &DEFAULT, &[]);
    list.planned(&good, &DEFAULT, &[]);
}

fn random(list: &mut CallLines) {
    let mut random = Random::new(0xC4A7);
    let accepted = accepted(&mut random, 100);
    for index in 0..40 {
        let plan = any_plan(&mut random, &accepted);
        let mut head = head(&mut random);
        put_tasks(&mut random, &mut head, target(&plan));
        let buffer = match index {
            0..3 => damaged(&mut random),
            _ => any_past(&mut random, &head),
        };
        let mut answers = answers(&mut random);
        answers.truncate(MOST_ANSWERS);
        list.planned(&buffer, &plan, &answers);
    }
}
