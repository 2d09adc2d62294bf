//! The calls of `rcc/clock_config.rs` of librikkovan.a against the original's.

use crate::compare::Extent;
use crate::compare_config_plans;
use crate::config_inputs::{
    DIFFERENCES, SEARCH, answers, around, clocks, few_cores, few_lists, first_waits, head,
    present_clocks, search, searches,
};
use crate::config_plans::{accepted, few_plans, plan, targets};
use crate::groups::{Groups, Number, Report};
use crate::heads::{
    DIVIDERS, LONGEST, buffer, busy, damaged_or_any, dlls, few_heads, journal, plain, put_flags,
    put_register, task, with, with_tasks,
};
use crate::plans::{Record, STAGES, default_with};
use crate::tally::Tally;
use sifli::call::MOST_ANSWERS;
use sifli::calls::config;
use sifli::head::{BUFFER, at};
use sifli::plan::{DEFAULT, at as field};
use sifli::query::{Call, Clocks, Query};
use sifli::random::Random;

const RANDOM: Number = Number::new(1_000_000, 150_000);
const DAMAGED: Number = Number::new(400_000, 60_000);

/// Plans from which those of random calls are drawn.
const ACCEPTED: usize = 4000;

/// Compares all groups of all calls.
pub fn run(extent: Extent) -> Vec<Report> {
    config().iter().map(|call| groups(call, extent)).collect()
}

/// All groups of a call, those of the plan only where there is one.
fn groups(call: &'static Call, extent: Extent) -> Report {
    let quick = extent.quick;
    let mut groups = Groups::of_original(call.function, extent);
    groups.group("supply modes", |tally| supply_modes(tally, call, quick));
    groups.group("core clocks", |tally| core_clocks(tally, call, quick));
    if call.is_lent_plan {
        compare_config_plans::run(&mut groups, call, quick);
    }
    groups.group("boot modes and ready flags", |tally| {
        boot_modes(tally, call)
    });
    groups.group("answers cut", |tally| answers_cut(tally, call));
    groups.group("searches", |tally| every_search(tally, call, quick));
    groups.group("waits", |tally| every_wait(tally, call));
    groups.group("order of refusals", |tally| refusals(tally, call));
    groups.group("one byte changed", |tally| {
        one_byte_changed(tally, call, quick)
    });
    let accepted = accepted(&mut extent.random("accepted plans"), ACCEPTED);
    groups.random("damaged heads", DAMAGED, |tally, random| {
        let head = damaged_or_any(random);
        let plan = plan(random, &accepted);
        random_call(tally, random, call, &head, &plan);
    });
    groups.random("random calls", RANDOM, |tally, random| {
        let plan = plan(random, &accepted);
        let head = head(random, &plan);
        random_call(tally, random, call, &head, &plan);
    });
    groups.finish(call.refusals).with_delays(call.delays)
}

/// A call with a journal of the usual length.
pub fn on(tally: &mut Tally, call: &'static Call, head: &[u8], plan: &[u8], answers: &[u16]) {
    tally.compare(&Query {
        plan,
        answers,
        ..Query::on(call, head)
    });
}

/// The plans, or one for a call that takes none.
fn plans_for<'a>(call: &Call, plans: &'a [Record]) -> &'a [Record] {
    match call.is_lent_plan {
        true => plans,
        false => &plans[..1],
    }
}

/// Every present HCLK with every target, and so every pair of supply modes; with
/// calibration and without. In the full run from either supply.
fn supply_modes(tally: &mut Tally, call: &'static Call, quick: bool) {
    let targets = targets();
    let heads = if quick {
        vec![busy()]
    } else {
        vec![busy(), plain()]
    };
    for buffer in heads.iter().flat_map(present_clocks) {
        for plan in plans_for(call, &targets) {
            for calibrate in 0..2 {
                let mut plan = *plan;
                plan[field::CALIBRATE] = calibrate;
                for answers in few_lists() {
                    on(tally, call, &buffer, &plan, &answers);
                }
            }
        }
    }
}

/// Core select, DLL1, ready flags and some hdivs; in the full run every hdiv.
fn core_clocks(tally: &mut Tally, call: &'static Call, quick: bool) {
    let every: Vec<u8> = (0..=255).collect();
    let hdivs = if quick { &DIVIDERS[..] } else { &every };
    let few = few_plans();
    let few = if quick { &few[1..3] } else { &few[..4] };
    let [ready, ..] = few_lists();
    for core in 0..4 {
        for dll1 in dlls(&STAGES) {
            for flags in 0..4 {
                let mut buffer = with(buffer(&busy(), 0), &[(at::c(1), core)]);
                put_register(&mut buffer, 3, dll1);
                put_flags(&mut buffer, flags);
                for &hdiv in hdivs {
                    buffer[at::a(2)] = hdiv;
                    for plan in plans_for(call, few) {
                        on(tally, call, &buffer, plan, &ready);
                    }
                }
            }
        }
    }
}

/// Every boot mode with every core select and all flags, with calibration and
/// without.
fn boot_modes(tally: &mut Tally, call: &'static Call) {
    let few = few_plans();
    for core in 0..4 {
        for flags in 0..8 {
            let mut buffer = with(buffer(&busy(), 0), &[(at::c(1), core)]);
            put_flags(&mut buffer, flags);
            for mode in 0..=255 {
                buffer[at::BOOT_MODE] = mode;
                for plan in plans_for(call, &few[..2]) {
                    on(tally, call, &buffer, plan, &[1000; 6]);
                }
            }
        }
    }
}

/// Lists that end a call, cut at every length.
fn answers_cut(tally: &mut Tally, call: &'static Call) {
    let few = few_plans();
    let polled = |list: &[u16]| {
        let polls = list.chunks(3);
        polls.flat_map(|three| [&[0], three].concat()).collect()
    };
    for head in few_cores() {
        for larger in [0, !0, 0x555] {
            for last in [0, 64, 160, 161] {
                let search = search(SEARCH, last, larger);
                for search in [polled(&search), search] {
                    let answers = around(&head, &search);
                    for plan in plans_for(call, &few) {
                        for cut in 0..=answers.len() {
                            on(tally, call, &head, plan, &answers[..cut]);
                        }
                    }
                }
            }
        }
    }
}

/// Searches of every length with each last difference, and whole ones with every
/// choice of the larger counts; quick with one last difference each.
fn every_search(tally: &mut Tally, call: &'static Call, quick: bool) {
    let few = few_plans();
    for head in few_cores() {
        for search in searches() {
            let answers = around(&head, &search);
            for plan in plans_for(call, &few) {
                on(tally, call, &head, plan, &answers);
            }
        }
    }
    let step = if quick { DIFFERENCES.len() } else { 1 };
    for head in &few_cores()[..2] {
        for larger in 0..1 << SEARCH {
            let lasts = DIFFERENCES.iter().cycle().skip(larger as usize % 7);
            for &last in lasts.take(DIFFERENCES.len()).step_by(step) {
                let answers = around(head, &search(SEARCH, last, larger));
                on(tally, call, head, &DEFAULT, &answers);
            }
        }
    }
}

/// Long waits, and the most answers.
fn every_wait(tally: &mut Tally, call: &'static Call) {
    let few = few_plans();
    for answers in first_waits() {
        for head in few_cores() {
            for plan in plans_for(call, &few) {
                on(tally, call, &head, plan, &answers);
            }
        }
    }
}

/// Journals and answers of lengths around their limits, and past 16 bits, with
/// faults in head and plan.
fn refusals(tally: &mut Tally, call: &'static Call) {
    const HEADS: [&[(usize, u8)]; 7] = [
        &[],
        &[(1, 0)],
        &[(at::COUNT, 17)],
        &[(at::VERSION, 2)],
        &[(at::VERSION, 0), (at::c(1), 4)],
        &[(at::FLAGS + 2, 2)],
        &[(task(1), 1)],
    ];
    let plans = [
        DEFAULT,
        default_with(&[(field::PDIV1, 0)]),
        default_with(&[(1, 19), (field::VERSION, 2)]),
        default_with(&[(field::VERSION, 0), (field::CORE, 4)]),
        default_with(&[(field::CORE, 4)]),
    ];
    let good = buffer(&with_tasks(busy(), 2), 0);
    for journal in [0, 1, 64, 127, 128, 129, 200, 256, 65_536, 65_600] {
        for answers in [0, 2, MOST_ANSWERS, MOST_ANSWERS + 1, 65_536, 65_538] {
            let answers = vec![1; answers];
            for faults in HEADS {
                let mut head = with(good, faults).to_vec();
                head.resize(LONGEST, 0);
                for length in [0, 254, 255, 256] {
                    for plan in plans_for(call, &plans) {
                        tally.compare(&Query {
                            plan,
                            journal,
                            answers: &answers,
                            ..Query::on(call, &head[..length])
                        });
                    }
                }
            }
        }
    }
}

/// Every byte of some heads at every value.
fn one_byte_changed(tally: &mut Tally, call: &'static Call, quick: bool) {
    let [zeros, plain, busy, largest] = few_heads();
    let heads = [busy, plain, zeros, largest];
    let heads = if quick { &heads[..1] } else { &heads };
    let [ready, ..] = few_lists();
    for good in heads {
        for index in 0..BUFFER {
            for byte in 0..=255 {
                on(
                    tally,
                    call,
                    &with(*good, &[(index, byte)]),
                    &DEFAULT,
                    &ready,
                );
            }
        }
    }
}

/// Random answers, clocks and length of the journal.
fn random_call(
    tally: &mut Tally,
    random: &mut Random,
    call: &'static Call,
    head: &[u8],
    plan: &[u8],
) {
    let is_measuring = match call.clocks {
        Clocks::Written => plan.get(field::CALIBRATE) == Some(&1),
        Clocks::Former => false,
        _ => true,
    };
    tally.compare(&Query {
        plan,
        clocks: clocks(random),
        journal: journal(random),
        answers: &answers(random, head, is_measuring),
        ..Query::on(call, head)
    });
}
