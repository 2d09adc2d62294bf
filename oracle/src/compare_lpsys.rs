//! The calls of LPSYS of librikkovan.a against the original's.

use crate::compare::Extent;
use crate::groups::{Groups, Number, Report};
use crate::heads::{
    DIVIDERS, LONGEST, buffer, busy, damaged_or_any, dlls, few_heads, journal, plain, put_flags,
    put_register, task, with, with_tasks,
};
use crate::lpsys_inputs::{all, answer_lists, answers, arguments, ends, few_lists, head, usual};
use crate::plans::STAGES;
use crate::tally::Tally;
use sifli::call::MOST_ANSWERS;
use sifli::calls::lpsys;
use sifli::head::at;
use sifli::query::{Call, Query};
use sifli::random::Random;

const RANDOM: Number = Number::new(1_000_000, 100_000);
const DAMAGED: Number = Number::new(400_000, 60_000);

/// Compares all groups of all calls.
pub fn run(extent: Extent) -> Vec<Report> {
    lpsys().iter().map(|call| groups(call, extent)).collect()
}

fn groups(call: &'static Call, extent: Extent) -> Report {
    let quick = extent.quick;
    let mut groups = Groups::of_original(call.function, extent);
    groups.group("LPSYS clocks", |tally| lpsys_clocks(tally, call, quick));
    groups.group("core clocks", |tally| core_clocks(tally, call));
    groups.group("arguments", |tally| every_argument(tally, call, quick));
    groups.group("wake counts", |tally| wake_counts(tally, call));
    groups.group("answers", |tally| every_answer(tally, call, quick));
    groups.group("order of refusals", |tally| refusals(tally, call));
    groups.random("damaged heads", DAMAGED, |tally, random| {
        let bytes = damaged_or_any(random);
        random_call(tally, random, call, &bytes);
    });
    groups.random("random calls", RANDOM, |tally, random| {
        let head = head(random);
        random_call(tally, random, call, &head);
    });
    groups.finish(call.refusals).with_delays(call.delays)
}

/// A call on a head with a journal of the usual length.
fn on(
    tally: &mut Tally,
    call: &'static Call,
    head: &[u8],
    arguments: &[[u32; 3]],
    answers: &[Vec<u16>],
) {
    for &arguments in arguments {
        for answers in answers {
            tally.compare(&Query {
                arguments,
                answers,
                ..Query::on(call, head)
            });
        }
    }
}

/// LPSYS select, ready flags, supply and every divider, with the arguments that
/// are drawn often; in the full run with every core select.
fn lpsys_clocks(tally: &mut Tally, call: &'static Call, quick: bool) {
    let selects = if quick { 1..2 } else { 0..4 };
    let (arguments, lists) = (usual(call), few_lists(call));
    for core in selects {
        for setting in 0..32 {
            let mut buffer = with(
                buffer(&plain(), 0),
                &[
                    (at::c(1), core),
                    (at::c(25), setting % 2),
                    (at::c(28), setting / 2 % 2),
                ],
            );
            put_flags(&mut buffer, setting / 4);
            for hdiv1 in 0..=255 {
                put_register(&mut buffer, 26, [hdiv1, hdiv1 % 8, hdiv1 / 32]);
                on(tally, call, &buffer, &arguments, &lists);
            }
        }
    }
}

/// What a delay depends on, with LPSYS at 24 MHz: core select, DLL1, ready
/// flags and some hdivs; and with all flags 1 every hdiv. A call that has no
/// delay gets only the first of its arguments.
fn core_clocks(tally: &mut Tally, call: &'static Call) {
    let every: Vec<u8> = (0..=255).collect();
    let (mut arguments, lists) = (ends(call), few_lists(call));
    if !call.refusals.contains(&34) {
        arguments.truncate(1);
    }
    for select in 0..4 {
        for dll1 in dlls(&STAGES) {
            for flags in 0..8 {
                let changes = [(at::c(1), select), (at::a(26), 2)];
                let mut buffer = with(buffer(&plain(), 0), &changes);
                put_register(&mut buffer, 3, dll1);
                put_flags(&mut buffer, flags);
                let hdivs = if flags == 7 { &every } else { &DIVIDERS[..] };
                for &hdiv in hdivs {
                    buffer[at::a(2)] = hdiv;
                    on(tally, call, &buffer, &arguments, &lists);
                }
            }
        }
    }
}

/// One argument at all its values with the others at their ends, in the full
/// run two.
fn every_argument(tally: &mut Tally, call: &'static Call, quick: bool) {
    let arguments = all(call, if quick { 1 } else { 2 });
    for head in few_heads() {
        on(tally, call, &head, &arguments, &few_lists(call));
    }
}

/// Every wake count, the requests set or not, the core readable or not.
fn wake_counts(tally: &mut Tally, call: &'static Call) {
    let (arguments, lists) = (ends(call), few_lists(call));
    for setting in 0..16 {
        let mut buffer = with(
            buffer(&plain(), 0xEE),
            &[
                (at::c(33), setting % 2),
                (at::c(22), setting / 2 % 2),
                (at::c(32), setting / 4 % 2),
                (at::c(1), 1 + setting / 8),
            ],
        );
        for count in 0..=255 {
            buffer[at::WAKE_COUNT] = count;
            on(tally, call, &buffer, &arguments, &lists);
        }
    }
}

/// Every list of answers with every set of ready flags, the core on HXT48 and
/// on DLL1.
fn every_answer(tally: &mut Tally, call: &'static Call, quick: bool) {
    let (arguments, lists) = (ends(call), answer_lists(call, quick));
    for good in [plain(), busy()] {
        for flags in 0..8 {
            let mut buffer = buffer(&good, 0);
            put_flags(&mut buffer, flags);
            on(tally, call, &buffer, &arguments, &lists);
        }
    }
}

/// Journals and answers of lengths around their limits, and past 16 bits, with
/// buffers of several lengths and several faults.
fn refusals(tally: &mut Tally, call: &'static Call) {
    const FAULTS: [&[(usize, u8)]; 8] = [
        &[],
        &[(1, 0)],
        &[(at::COUNT, 17)],
        &[(at::VERSION, 2)],
        &[(at::VERSION, 0), (at::c(34), 1), (at::c(1), 4)],
        &[(at::c(25), 2)],
        &[(at::FLAGS + 2, 2)],
        &[(task(1), 1)],
    ];
    let lengths: &[usize] = match call.is_lent_answers {
        true => &[0, 2, MOST_ANSWERS, MOST_ANSWERS + 1, 65_536, 65_538],
        false => &[0],
    };
    let good = buffer(&with_tasks(busy(), 2), 0);
    for journal in [0, 1, 64, 127, 128, 129, 200, 256, 65_536, 65_600] {
        for &answers in lengths {
            let answers = vec![1; answers];
            for faults in FAULTS {
                let mut head = with(good, faults).to_vec();
                head.resize(LONGEST, 0);
                for length in [0, 111, 254, 255, 256, LONGEST] {
                    for arguments in ends(call) {
                        tally.compare(&Query {
                            arguments,
                            journal,
                            answers: &answers,
                            ..Query::on(call, &head[..length])
                        });
                    }
                }
            }
        }
    }
}

/// Random arguments, answers and length of the journal.
fn random_call(tally: &mut Tally, random: &mut Random, call: &'static Call, head: &[u8]) {
    tally.compare(&Query {
        arguments: arguments(random, call),
        journal: journal(random),
        answers: &answers(random, call),
        ..Query::on(call, head)
    });
}
