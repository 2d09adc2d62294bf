//! The guarded change of librikkovan.a against document 01, with demand 3 asked
//! of every moment.

use crate::change_inputs::{
    CORES, LISTS, READY, answers, any_plan, few_fit, head, plan, put_core, put_rails, put_tasks,
    rails, target, targets, with_core, with_load,
};
use crate::compare::Extent;
use crate::compare_change_refused;
use crate::config_plans::accepted;
use crate::groups::{Groups, Number, Report};
use crate::heads::{
    Buffer, DIVIDERS, buffer, damaged_or_any, dlls, journal, put_flags, put_register,
};
use crate::ours::ours;
use crate::plans::{self, Record, STAGES};
use crate::tally::Tally;
use crate::task_inputs::any_past;
use sifli::call::MOST_ANSWERS;
use sifli::claim::{self, Broken, Seen, planned};
use sifli::head::{MOST_TASKS, at, decode};
use sifli::lent::Left;
use sifli::plan::DEFAULT;
use sifli::query::{Id, JOURNAL, Query, call};
use sifli::random::Random;

const RANDOM: Number = Number::new(1_000_000, 400_000);
const DAMAGED: Number = Number::new(200_000, 20_000);

/// Plans from which those of random calls are drawn.
pub const ACCEPTED: usize = 4000;

pub fn run(extent: Extent) -> Report {
    let quick = extent.quick;
    let mut groups = Groups::ruled("change", extent);
    groups.group("modes and rails", |tally| modes_and_rails(tally, quick));
    groups.group("every rail", |tally| every_rail(tally, quick));
    groups.group("flash selects", |tally| flash_selects(tally, quick));
    groups.group("every DLL1", every_dll1);
    groups.group("dividers", |tally| dividers(tally, quick));
    groups.group("answers", |tally| every_answer(tally, quick));
    groups.group("ready flags and LPSYS", |tally| {
        flags_and_lpsys(tally, quick)
    });
    groups.group("loads", |tally| loads(tally, quick));
    compare_change_refused::run(&mut groups, quick);
    let accepted = accepted(&mut extent.random("accepted plans"), ACCEPTED);
    groups.random("damaged heads", DAMAGED, |tally, random| {
        let head = damaged_head(random);
        let plan = any_plan(random, &accepted);
        random_change(tally, random, &head, &plan);
    });
    groups.random("random changes", RANDOM, |tally, random| {
        let mut head = head(random);
        let plan = any_plan(random, &accepted);
        put_tasks(random, &mut head, target(&plan));
        let bytes = any_past(random, &head);
        random_change(tally, random, &bytes, &plan);
    });
    let call = call(Id::Change);
    groups.finish(call.refusals).with_delays(call.delays)
}

/// A change, and demand 3 of what it left.
fn compare(tally: &mut Tally, query: &Query) {
    let (left, _) = tally.compare(query);
    let moments = left.entries().len() + 1;
    let asked = |query: &Query| holds(query, &ours(query));
    tally.claim(query, moments, holds(query, &left), asked);
}

/// Demand 3 of what a change left; nothing where the buffer is no head.
pub fn holds(query: &Query, left: &Left) -> Result<(), Broken> {
    let Ok(before) = decode(query.bytes) else {
        return Ok(());
    };
    let after = decode(left.bytes()).map_err(|_| "the buffer is no head".to_string())?;
    let seen = Seen {
        before: &before,
        answer: left.refusal(),
        entries: left.entries(),
        taken: left.taken() as usize,
        after: &after,
    };
    claim::of_change(&seen, query.plan, query.answers)
}

/// A change with a journal of the usual length.
pub fn on(tally: &mut Tally, head: &[u8], plan: &[u8], answers: &[u16]) {
    with_journal(tally, head, plan, answers, JOURNAL);
}

pub fn with_journal(tally: &mut Tally, head: &[u8], plan: &[u8], answers: &[u16], journal: usize) {
    let query = Query {
        plan,
        journal,
        answers,
        ..Query::on(call(Id::Change), head)
    };
    compare(tally, &query);
}

/// Every present HCLK on every rails with every target, and so every pair of
/// modes; in the full run with DLL1 ready, ready later, not ready, no answers.
fn modes_and_rails(tally: &mut Tally, quick: bool) {
    let lists = if quick { &LISTS[..1] } else { &LISTS[..] };
    for core in CORES {
        let mut head = with_core(core);
        for rails in rails() {
            put_rails(&mut head, rails);
            let buffer = buffer(&head, 0);
            for plan in targets() {
                for answers in lists {
                    on(tally, &buffer, &plan, answers);
                }
            }
        }
    }
}

/// All values of the active rails, with the others low and high.
fn every_rail(tally: &mut Tally, quick: bool) {
    let targets = targets();
    let targets = targets.iter().step_by(if quick { 4 } else { 1 });
    for core in [3, 6, 13, 17].map(|at| CORES[at]) {
        for others in [0, 15] {
            for supply in 0..2 {
                let mut head = with_core(core);
                head.registers[13..=16].fill(others);
                for rail in 0..=255 {
                    put_rails(&mut head, (supply, rail >> 4, rail & 15));
                    for plan in targets.clone() {
                        on(tally, &buffer(&head, 0), plan, &[1]);
                    }
                }
            }
        }
    }
}

/// Every pair of flash selects with both DLLs on and off, halved or not, and the
/// hpbg flags; from each core select, with DLL1 planned and not.
fn flash_selects(tally: &mut Tally, quick: bool) {
    let lists = if quick { &LISTS[1..3] } else { &LISTS[..] };
    let plans = [
        (1, 1, [0; 3]),
        (0, 2, [0; 3]),
        (1, 1, [1, 1, 3]),
        (3, 1, [1, 0, 0]),
        (3, 1, [1, 0, 9]),
    ]
    .map(plan);
    for setting in 0..1 << 9 {
        let bits = |shift: u32, mask: u32| setting >> shift & mask;
        for dll1 in [[1, 0, 9], [1, 1, 9], [0, 0, 9], [0, 1, 9]] {
            for core in [0, 1, 3] {
                let mut head = with_core((core, 1, [1, 0, 9]));
                put_core(&mut head, (core, 1, dll1));
                head.registers[4] = bits(8, 1) << 16 | 0x0B;
                head.registers[5] = bits(0, 3) << 8 | bits(2, 3);
                head.registers[11] = bits(4, 1) << 8 | bits(5, 1);
                (head.registers[10], head.registers[6]) = (bits(6, 1), bits(7, 1));
                for plan in &plans {
                    for answers in lists {
                        on(tally, &buffer(&head, 0), plan, answers);
                    }
                }
            }
        }
    }
}

/// Every DLL1 of the head with every one of the plan, from HXT48 and from DLL1,
/// to HXT48 and to DLL1.
fn every_dll1(tally: &mut Tally) {
    for [on_off, half, stage] in dlls(&STAGES) {
        for core in [1, 3] {
            let head = buffer(&with_core((core, 2, [on_off, half, stage])), 0);
            for [present, stage, half] in plans::dlls(&STAGES) {
                for select in [1, 3] {
                    let plan = plan((select, 2, [present, half, stage]));
                    on(tally, &head, &plan, &[0, 1]);
                }
            }
        }
    }
}

/// Every hdiv of the head with some of the plan, in the full run with all.
fn dividers(tally: &mut Tally, quick: bool) {
    let every: Vec<u8> = (0..=255).collect();
    let planned = if quick { &DIVIDERS[..] } else { &every };
    for (select, dll1) in [(0, [0; 3]), (1, [0; 3]), (3, [1, 0, 9])] {
        for hdiv in 0..=255 {
            let head = buffer(&with_core((select, hdiv, dll1)), 0);
            for &other in planned {
                let core = 3 - select;
                let core = if core == 2 { 1 } else { core };
                let dll1 = if core == 3 { [1, 0, 9] } else { [0; 3] };
                on(tally, &head, &plan((core, other, dll1)), &[1]);
            }
        }
    }
}

/// None; all lists of up to six ready or not; one ready at each place of up to 40
/// and of the most, quick at every 97th.
fn every_answer(tally: &mut Tally, quick: bool) {
    let heads: Vec<Buffer> = few_fit().iter().map(|head| buffer(head, 0)).collect();
    let plans = [DEFAULT, plan((1, 1, [1, 0, 3])), plan((1, 1, [0; 3]))];
    let all = |tally: &mut Tally, answers: &[u16]| {
        for head in &heads {
            for plan in &plans {
                on(tally, head, plan, answers);
            }
        }
    };
    for length in 0..=6 {
        for ready in 0..1 << length {
            let bit = |index: usize| (ready >> index & 1) * READY[index % READY.len()];
            let answers: Vec<u16> = (0..length).map(bit).collect();
            all(tally, &answers);
        }
    }
    for length in 7..=40 {
        for place in 0..=length {
            let mut answers = vec![0; length];
            if let Some(answer) = answers.get_mut(place) {
                *answer = READY[place % READY.len()];
            }
            all(tally, &answers);
        }
    }
    let none = [0; MOST_ANSWERS];
    for length in [255, 256, 257, MOST_ANSWERS - 1, MOST_ANSWERS] {
        all(tally, &none[..length]);
    }
    late_answers(tally, &heads, &plans[..2], quick);
}

/// The most answers, one of them ready.
fn late_answers(tally: &mut Tally, heads: &[Buffer], plans: &[Record], quick: bool) {
    let mut answers = vec![0; MOST_ANSWERS];
    for place in (0..MOST_ANSWERS).step_by(if quick { 97 } else { 1 }) {
        answers[place] = 0x0100;
        let plan = &plans[place % plans.len()];
        on(tally, &heads[place % heads.len()], plan, &answers);
        answers[place] = 0;
    }
}

/// Ready flags, LPSYS select and supply, some hdiv1, in the full run all; each
/// core select, with plans from each source.
fn flags_and_lpsys(tally: &mut Tally, quick: bool) {
    let every: Vec<u8> = (0..=255).collect();
    let hdivs = if quick { &DIVIDERS[..5] } else { &every };
    let plans = [(0, 1, [0; 3]), (1, 1, [0; 3]), (3, 1, [1, 0, 9])].map(plan);
    for core in [
        (0, 1, [0; 3]),
        (1, 1, [0; 3]),
        (2, 1, [0; 3]),
        (3, 1, [1, 0, 9]),
    ] {
        for flags in 0..8 {
            for select in 0..4 {
                let mut head = buffer(&with_core(core), 0);
                put_flags(&mut head, flags);
                (head[at::c(25)], head[at::c(28)]) = (select & 1, select >> 1);
                for &hdiv in hdivs {
                    head[at::a(26)] = hdiv;
                    for plan in &plans {
                        on(tally, &head, plan, &[1]);
                    }
                }
            }
        }
    }
}

/// Tasks whose load is at, one below and one above the target's HCLK and the
/// present one's, by each number of tasks.
fn loads(tally: &mut Tally, quick: bool) {
    let targets = targets();
    for head in few_fit() {
        let present = sifli::readings::hclk(&head).expect("a fit head");
        for plan in targets.iter().step_by(if quick { 3 } else { 1 }) {
            for hclk in [present, planned(plan)].map(u64::from) {
                for count in 1..=MOST_TASKS {
                    for load in [hclk - 1, hclk, hclk + 1, 2 * hclk] {
                        let head = with_load(head.clone(), count, load, count % 2 == 0);
                        on(tally, &buffer(&head, 0xEE), plan, &[1]);
                    }
                }
            }
        }
    }
}

/// A damaged head, any bytes, or a head that may be fit with a register replaced.
fn damaged_head(random: &mut Random) -> Vec<u8> {
    if !random.once_in(3) {
        return damaged_or_any(random);
    }
    let head = head(random);
    let mut buffer = any_past(random, &head);
    let number = 1 + random.below(34);
    put_register(&mut buffer, number, [(); 3].map(|()| random.up_to(3)));
    buffer.to_vec()
}

/// Random answers and length of the journal.
fn random_change(tally: &mut Tally, random: &mut Random, head: &[u8], plan: &[u8]) {
    let journal = journal(random);
    with_journal(tally, head, plan, &answers(random), journal);
}
