//! Plans for the calls of `rcc/clock_config.rs` and the guarded change.

use crate::plans::{self, Record, coded, damaged, default_with, near_default, put_dll};
use sifli::plan::{self, DEFAULT, LENGTH, at as field};
use sifli::random::Random;

/// Core on HXT48 at 48 MHz, PCLK2 at 6 MHz, no DLL, no USB, no calibration.
pub const HXT48: Record = [0, 18, 1, 1, 1, 0, 3, 0, 0, 0, 0, 0, 0, 0, 0, 1, 0, 1, 0, 0];

/// The default plan with and without calibration, one from each oscillator
/// without a DLL, one from DLL1 without DLL2, one with USB from DLL2.
pub fn few_plans() -> [Record; 6] {
    let mut hrc48 = HXT48;
    (hrc48[field::CORE], hrc48[field::CALIBRATE]) = (0, 1);
    let mut dll1 = default_with(&[
        (field::DLL1 + 1, 5),
        (field::USB, 0),
        (field::MPI1, 1),
        (field::MPI2, 0),
        (field::WDT, 0),
        (field::PERIPHERAL, 0),
    ]);
    put_dll(&mut dll1, field::DLL2, [0; 3]);
    let usb = default_with(&[
        (field::HDIV, 3),
        (field::DLL2 + 1, 9),
        (field::DLL2 + 2, 1),
        (field::USB_SOURCE, 1),
    ]);
    let uncalibrated = default_with(&[(field::CALIBRATE, 0)]);
    [DEFAULT, uncalibrated, HXT48, hrc48, dll1, usb]
}

/// Of a plan within each limit: core select, hdiv and DLL1.
const CORES: [(u8, u8, [u8; 3]); 18] = [
    // 24 MHz and below
    (1, 2, [0; 3]),
    (0, 255, [0; 3]),
    (1, 2, [1, 9, 0]),
    (3, 1, [1, 0, 0]),
    (3, 10, [1, 9, 0]),
    // 48 MHz and below
    (1, 1, [0; 3]),
    (0, 0, [0; 3]),
    (0, 1, [1, 9, 0]),
    (3, 0, [1, 1, 0]),
    (3, 5, [1, 9, 0]),
    (3, 1, [1, 3, 1]),
    // 144 MHz and below
    (3, 1, [1, 5, 0]),
    (3, 1, [1, 4, 1]),
    (3, 2, [1, 9, 0]),
    // 240 MHz and below
    (3, 1, [1, 6, 0]),
    (3, 1, [1, 9, 0]),
    (3, 2, [1, 15, 0]),
    (3, 0, [1, 15, 1]),
];

/// usb, its source and DLL2.
const USES: [(u8, u8, [u8; 3]); 4] = [
    (0, 0, [0; 3]),
    (0, 0, [1, 11, 0]),
    (1, 0, [1, 11, 1]),
    (1, 1, [1, 9, 0]),
];

/// Accepted plans of each supply mode, several core clocks of each, with and
/// without DLL2 and USB.
pub fn targets() -> Vec<Record> {
    let mut plans = Vec::new();
    for (core, hdiv, dll1) in CORES {
        for (usb, source, dll2) in USES {
            let mut plan = default_with(&[
                (field::CORE, core),
                (field::HDIV, hdiv),
                (field::USB, usb),
                (field::USB_SOURCE, source),
                (field::MPI2, 0),
            ]);
            put_dll(&mut plan, field::DLL1, dll1);
            put_dll(&mut plan, field::DLL2, dll2);
            plans.push(plan);
        }
    }
    plans.retain(|plan| plan::check(plan) == 0);
    plans
}

/// Accepted plans for random calls.
pub fn accepted(random: &mut Random, number: usize) -> Vec<Record> {
    let mut accepted = Vec::new();
    while accepted.len() < number {
        let mut plan = plans::likely(random);
        if random.once_in(4) {
            plan[field::CORE] = random.up_to(1);
            put_dll(&mut plan, field::DLL1, [0; 3]);
        }
        if random.once_in(4) {
            put_dll(&mut plan, field::DLL2, [0; 3]);
        }
        if plan::check(&plan) == 0 {
            accepted.push(plan);
        }
    }
    accepted
}

/// Most often one of the accepted plans, with what the check does not look at
/// drawn anew.
pub fn plan(random: &mut Random, accepted: &[Record]) -> Vec<u8> {
    match random.below(24) {
        0 => coded(random).to_vec(),
        1 => near_default(random).to_vec(),
        2 => {
            let mut slice = [0; plans::LONGEST];
            let length = damaged(random, &mut slice);
            slice[..length].to_vec()
        }
        _ => {
            let mut plan = random.pick(accepted);
            for index in [field::CALIBRATE, field::WDT, field::PERIPHERAL] {
                plan[index] = random.up_to(1);
            }
            plan.to_vec()
        }
    }
}

/// A plan for each of its refusals, and some more of 1 to 3.
pub fn refused_plans() -> Vec<Vec<u8>> {
    let absent = [(field::DLL2, 0), (field::DLL2 + 1, 0), (field::MPI2, 0)];
    let without_dll2 = |change| default_with(&[&absent[..], &[change]].concat());
    let stage = field::DLL1 + 1;
    let records = [
        default_with(&[(1, 17)]),
        default_with(&[(field::VERSION, 2)]),
        default_with(&[(field::CORE, 4)]),
        default_with(&[(field::DLL1, 0)]),
        default_with(&[(field::DLL1, 0), (stage, 0)]),
        default_with(&[(field::CORE, 2)]),
        without_dll2((field::MPI1, 2)),
        without_dll2((field::MPI2, 2)),
        without_dll2((field::USB_SOURCE, 1)),
        default_with(&[(stage, 10)]),
        default_with(&[(stage, 0), (field::DLL1 + 2, 1), (field::USB, 0)]),
        default_with(&[(stage, 10), (field::USB, 0)]),
        default_with(&[(field::PDIV1, 0)]),
        default_with(&[(field::PDIV2, 4)]),
        default_with(&[(field::DLL2 + 1, 12)]),
    ];
    let mut plans: Vec<Vec<u8>> = records.iter().map(|record| record.to_vec()).collect();
    plans.push(Vec::new());
    plans.push(DEFAULT[..LENGTH - 1].to_vec());
    plans
}

/// Stages at which DLL1 gives the most of each supply mode, and one above.
pub const MODE_STAGES: [u8; 5] = [0, 1, 5, 9, 10];

/// The plan with HCLK from DLL1 at a stage, and nothing else of note.
pub fn dll1_plan(stage: u8) -> Record {
    let mut plan = default_with(&[
        (field::CALIBRATE, 0),
        (field::USB, 0),
        (field::MPI2, 0),
        (field::DLL1 + 1, stage),
    ]);
    put_dll(&mut plan, field::DLL2, [0; 3]);
    plan
}
