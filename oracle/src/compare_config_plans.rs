//! Groups of the plans of `init` and `reconfigure_sysclk`.

use crate::compare_config::on;
use crate::config_inputs::{few_cores, few_lists};
use crate::config_plans::few_plans;
use crate::groups::Groups;
use crate::heads::{DIVIDERS, buffer, busy, dlls, put_register, with};
use crate::plans::{self, STAGES, default_with, of_length, put_dll};
use crate::tally::Tally;
use sifli::head::{BUFFER, at};
use sifli::plan::{LARGEST, LENGTH, at as field};
use sifli::query::Call;

pub fn run(groups: &mut Groups, call: &'static Call, quick: bool) {
    groups.group("plan bytes", |tally| plan_bytes(tally, call, quick));
    groups.group("pairs of plan fields", |tally| {
        plan_pairs(tally, call, quick)
    });
    groups.group("plan lengths 0 to 40", |tally| plan_lengths(tally, call));
    groups.group("DLLs and flash selects", |tally| {
        dlls_and_selects(tally, call, quick)
    });
    groups.group("every DLL2", |tally| every_dll2(tally, call, quick));
    groups.group("delays", |tally| delays(tally, call));
}

/// Delays of whole cycles and of parts of one: `init` stores the plan's hdiv before them, 7 is
/// the first that leaves parts, and with it only 360 and 384 MHz still lead to supply S.
fn delays(tally: &mut Tally, call: &'static Call) {
    let [ready, ..] = few_lists();
    let plan = |stage, hdiv| {
        let mut plan = default_with(&[(field::USB, 0), (field::HDIV, hdiv)]);
        put_dll(&mut plan, field::DLL1, [1, stage, 0]);
        plan
    };
    let plans = (1..=8).flat_map(|hdiv| [9, 14, 15].map(|stage| plan(stage, hdiv)));
    let plans: Vec<_> = plans.collect();
    for dll1 in dlls(&STAGES) {
        for core in [0, 1, 3] {
            for hdiv in [1, 7, 255] {
                let changes = [(at::c(1), core), (at::a(2), hdiv)];
                let mut head = with(buffer(&busy(), 0), &changes);
                put_register(&mut head, 3, dll1);
                for plan in &plans {
                    on(tally, call, &head, plan, &ready);
                }
            }
        }
    }
}

/// Some plans with each byte at all values.
fn plan_bytes(tally: &mut Tally, call: &'static Call, quick: bool) {
    let heads = few_cores();
    let heads = if quick { &heads[..2] } else { &heads };
    let [ready, ..] = few_lists();
    for good in few_plans() {
        for index in 0..LENGTH {
            for byte in 0..=255 {
                let mut plan = good;
                plan[index] = byte;
                for head in heads {
                    on(tally, call, head, &plan, &ready);
                }
            }
        }
    }
}

/// Some plans with each pair of fields at all codes, hdiv at some.
fn plan_pairs(tally: &mut Tally, call: &'static Call, quick: bool) {
    let codes = |index: usize| match index {
        field::HDIV => DIVIDERS.to_vec(),
        _ => (0..=LARGEST[index - field::CORE]).collect(),
    };
    let heads = few_cores();
    let heads = if quick { &heads[4..5] } else { &heads };
    let few = few_plans();
    let few = if quick { &few[..2] } else { &few };
    let [ready, ..] = few_lists();
    for first in field::CORE..LENGTH {
        for second in first + 1..LENGTH {
            for byte in codes(first) {
                for other in codes(second) {
                    for &good in few {
                        let mut plan = good;
                        (plan[first], plan[second]) = (byte, other);
                        for head in heads {
                            on(tally, call, head, &plan, &ready);
                        }
                    }
                }
            }
        }
    }
}

/// Plans of every length, on heads that are refused and that are not.
fn plan_lengths(tally: &mut Tally, call: &'static Call) {
    let [ready, ..] = few_lists();
    let good = buffer(&busy(), 0);
    let heads = [good, with(good, &[(at::VERSION, 2)]), [0; BUFFER]];
    for length in 0..=plans::LONGEST {
        for plan in of_length(length) {
            for head in &heads {
                on(tally, call, head, &plan, &ready);
            }
        }
    }
}

/// Both DLLs in the plan or not, set or not, as the plan has them or not; every
/// pair of flash selects and of hpbg flags. In the full run with answers that
/// end at either DLL.
fn dlls_and_selects(tally: &mut Tally, call: &'static Call, quick: bool) {
    let lists = if quick {
        vec![vec![1, 1]]
    } else {
        vec![vec![1, 1], vec![1], vec![0, 1, 0], vec![]]
    };
    for setting in 0..1 << 11 {
        let bit = |index: u32| (setting >> index & 1) as u8;
        let mut plan = default_with(&[
            (field::CALIBRATE, 0),
            (field::USB, 0),
            (field::MPI2, 0),
            (field::CORE, 1 + 2 * bit(9)),
        ]);
        if bit(9) == 0 {
            put_dll(&mut plan, field::DLL1, [0; 3]);
        }
        let planned = [[0; 3], [1, 11, 0], [1, 11, 1]];
        for dll2 in planned {
            put_dll(&mut plan, field::DLL2, dll2);
            let mut buffer = buffer(&busy(), 0);
            put_register(
                &mut buffer,
                5,
                [0, setting as u8 & 3, setting as u8 >> 2 & 3],
            );
            put_register(&mut buffer, 11, [0, bit(4), bit(5)]);
            put_register(&mut buffer, 4, [bit(6), bit(7), 11 - bit(8)]);
            put_register(&mut buffer, 3, [bit(10), 0, 9]);
            for answers in &lists {
                on(tally, call, &buffer, &plan, answers);
            }
        }
    }
}

/// Every DLL2 of the head with every DLL2 of the plan; quick with every fifth.
fn every_dll2(tally: &mut Tally, call: &'static Call, quick: bool) {
    let step = if quick { 5 } else { 1 };
    for core in [1, 3] {
        for dll2 in plans::dlls(&STAGES) {
            let mut plan = default_with(&[
                (field::CALIBRATE, 0),
                (field::USB, 0),
                (field::HDIV, 5),
                (field::MPI2, 0),
            ]);
            put_dll(&mut plan, field::DLL2, dll2);
            for present in dlls(&STAGES).into_iter().step_by(step) {
                let mut buffer = with(buffer(&busy(), 0), &[(at::c(1), core)]);
                put_register(&mut buffer, 4, present);
                on(tally, call, &buffer, &plan, &[1, 0, 1]);
            }
        }
    }
}
