//! Calls of `rcc/clock_config.rs` to record, with the refusals of the oracle's
//! decoders and what the original code does.

use crate::config_inputs::{
    DIFFERENCES, SEARCH, answers, around, clocks, few_cores, few_lists, head, search,
};
use crate::config_plans::{
    HXT48, MODE_STAGES, accepted, dll1_plan, few_plans, plan, refused_plans,
};
use crate::heads::{
    buffer, busy, damaged, few_heads, plain, put_flags, put_register, task, with, with_tasks,
};
use crate::plans::default_with;
use crate::record::{CallLines, write_calls};
use sifli::call::Frequencies;
use sifli::calls::config;
use sifli::head::{BUFFER, at};
use sifli::plan::{DEFAULT, at as field};
use sifli::query::{Clocks, FORMER, Query};
use sifli::random::Random;
use std::io;
use std::path::Path;

/// The most answers in a line.
const MOST_ANSWERS: usize = 60;

pub fn write(directory: &Path) -> io::Result<()> {
    write_calls(directory, config(), 1, |list| {
        clocks_and_plans(list);
        supply_modes(list);
        measurements(list);
        dlls_and_selects(list);
        cut(list);
        refused(list);
        random(list);
    })
}

fn add_former(
    list: &mut CallLines,
    head: &[u8],
    plan: &[u8],
    clocks: Frequencies,
    answers: &[u16],
) {
    // Those of `init` are only written.
    let clocks = match list.call.clocks {
        Clocks::Former => clocks,
        _ => FORMER,
    };
    list.add(&Query {
        plan,
        clocks,
        answers,
        ..Query::on(list.call, head)
    });
}

/// Heads that go each way, with each of some plans, all ready; and after standby.
fn clocks_and_plans(list: &mut CallLines) {
    let [ready, ..] = few_lists();
    let plans = few_plans();
    let plans = match list.call.clocks {
        Clocks::Written => &plans[..],
        Clocks::Former => &plans[1..5],
        _ => &plans[..1],
    };
    for head in few_cores() {
        for plan in plans {
            list.planned(&head, plan, &ready);
        }
    }
    for (head, mode) in few_cores().into_iter().zip([3, 3, 2, 4, 3]) {
        list.planned(&with(head, &[(at::BOOT_MODE, mode)]), &DEFAULT, &ready);
    }
    for head in few_heads() {
        list.planned(&head, &DEFAULT, &ready);
    }
}

/// Every pair of supply modes with the core on DLL1, and a core that is too fast.
fn supply_modes(list: &mut CallLines) {
    if !list.call.is_lent_plan {
        return;
    }
    for present in MODE_STAGES {
        let mut head = buffer(&busy(), 0);
        put_register(&mut head, 2, [1, 0, 0]);
        put_register(&mut head, 3, [1, 0, present]);
        for target in &MODE_STAGES[..4] {
            list.planned(&head, &dll1_plan(*target), &[0, 1]);
        }
        list.planned(&head, &HXT48, &[]);
    }
}

/// Searches with each last difference, those of `init` fewer.
fn measurements(list: &mut CallLines) {
    let (lengths, lasts): (&[usize], &[u16]) = match list.call.clocks {
        Clocks::Written => (&[1, SEARCH], &[63, 64, 160, 161]),
        Clocks::Former => return,
        _ => (&[1, 2, 6, 10, SEARCH], &DIFFERENCES),
    };
    let head = buffer(&plain(), 0);
    for &length in lengths {
        for &last in lasts.iter().filter(|&&last| length == SEARCH || last < 64) {
            for larger in [0, !0, 0x555] {
                let answers = around(&head, &search(length, last, larger));
                list.planned(&head, &DEFAULT, &answers);
            }
        }
    }
    for counts in [[0, u16::MAX], [u16::MAX, 0], [0, 0], [u16::MAX; 2]] {
        let answers = [2, counts[0], counts[1]].repeat(SEARCH);
        list.planned(&head, &DEFAULT, &around(&head, &answers));
    }
}

/// DLL2 as the plan has it, nearly so and off; pairs of flash selects and of hpbg
/// flags.
fn dlls_and_selects(list: &mut CallLines) {
    if !list.call.is_lent_plan {
        return;
    }
    let plan = default_with(&[(field::CALIBRATE, 0)]);
    for dll2 in [[1, 0, 11], [1, 1, 11], [1, 0, 10], [0, 0, 11]] {
        let mut head = buffer(&busy(), 0);
        put_register(&mut head, 4, dll2);
        list.planned(&head, &plan, &[1, 1]);
    }
    if list.call.clocks == Clocks::Former {
        return;
    }
    for selects in 0..16 {
        let mut head = buffer(&plain(), 0);
        put_register(&mut head, 5, [0, selects / 4, selects % 4]);
        put_register(&mut head, 11, [0, selects % 2, selects / 2 % 2]);
        list.planned(&head, &plan, &[1, 1]);
    }
}

/// A list that is just enough, cut at every length.
fn cut(list: &mut CallLines) {
    let mut head = buffer(&plain(), 0);
    if list.call.clocks != Clocks::None {
        put_flags(&mut head, 2);
    }
    let measured = [0, 1, 900, 1000, 3, 1000, 1000];
    let answers = match list.call.clocks {
        Clocks::Written => [&[0, 1], &measured[..], &[1, 0, 1]].concat(),
        Clocks::Former => vec![0, 0, 1],
        _ => measured.to_vec(),
    };
    for length in 0..=answers.len() {
        list.planned(&head, &DEFAULT, &answers[..length]);
    }
    list.planned(&head, &DEFAULT, &[0; MOST_ANSWERS]);
}

/// The head's refusals, the plan's, and both at once; clocks that are none.
fn refused(list: &mut CallLines) {
    let [ready, ..] = few_lists();
    let good = buffer(&with_tasks(busy(), 2), 0);
    let faults: [&[(usize, u8)]; 4] = [
        &[(at::COUNT, 3)],
        &[(at::VERSION, 2), (at::c(1), 4)],
        &[(at::c(34), 1), (at::a(34), 1)],
        &[(task(1), 1)],
    ];
    list.planned(&good[..BUFFER - 1], &DEFAULT, &ready);
    for changes in faults {
        list.planned(&with(good, changes), &DEFAULT, &ready);
    }
    if !list.call.is_lent_plan {
        return;
    }
    for plan in refused_plans() {
        list.planned(&good, &plan, &ready);
    }
    list.planned(&with(good, faults[1]), &DEFAULT[..3], &ready);
    list.planned(&with(good, faults[3]), &DEFAULT[..3], &ready);
    add_former(list, &good, &DEFAULT, [0; 15], &ready);
    add_former(list, &good, &DEFAULT, [u32::MAX; 15], &[]);
}

fn random(list: &mut CallLines) {
    let mut random = Random::new(0xA118);
    let accepted = accepted(&mut random, 100);
    for index in 0..10 {
        let plan = plan(&mut random, &accepted);
        let head = match index {
            0 => damaged(&mut random),
            _ => head(&mut random, &plan),
        };
        let is_measuring = list.call.clocks != Clocks::Former;
        let mut answers = answers(&mut random, &head, is_measuring);
        answers.truncate(MOST_ANSWERS);
        add_former(list, &head, &plan, clocks(&mut random), &answers);
    }
}
