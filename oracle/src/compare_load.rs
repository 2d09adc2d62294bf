//! Groups of the load check.

use crate::compare::Extent;
use crate::groups::{Groups, Number, Report};
use crate::tally::Tally;
use crate::task_inputs::{
    LONGEST, all_cycles, all_periods, damaged_list, light_list, list, random_list,
};
use sifli::head::{LONGEST_PERIOD, MOST_TASKS, TASK, Task};
use sifli::query::{Id, Query, call};
use sifli::random::Random;

const RANDOM: Number = Number::new(1_500_000, 300_000);
const DAMAGED: Number = Number::new(500_000, 60_000);

pub fn run(extent: Extent) -> Report {
    let quick = extent.quick;
    let mut groups = Groups::ruled("load_check", extent);
    groups.group("shares", |tally| shares(tally, quick));
    groups.group("sums", sums);
    groups.group("fields", fields);
    groups.group("equal ids", equal_ids);
    groups.group("one byte changed", one_byte_changed);
    groups.group("lengths", lengths);
    groups.group("several faults", several_faults);
    groups.random("damaged lists", DAMAGED, |tally, random| {
        check(tally, &damaged_list(random))
    });
    groups.random("random lists", RANDOM, |tally, random| {
        check(tally, &random_list(random))
    });
    groups.finish(call(Id::LoadCheck).refusals)
}

fn check(tally: &mut Tally, bytes: &[u8]) {
    tally.compare(&Query::on(call(Id::LoadCheck), bytes));
}

/// One task: cycles with periods, each at and around its limits, powers of two
/// and of ten; and multiples of the period, with one cycle more and less. In the
/// full run every period up to a thousand.
fn shares(tally: &mut Tally, quick: bool) {
    let mut one = |cycles, period_us| {
        let task = Task {
            id: 1,
            cycles,
            period_us,
        };
        check(tally, &task.encode());
    };
    let cycles = all_cycles();
    let mut periods = all_periods();
    if !quick {
        periods.extend(0..1000);
        periods.extend((0..1000).map(|less| LONGEST_PERIOD - less));
    }
    for period in periods {
        for &cycles in &cycles {
            one(cycles, period);
        }
        for times in [1, 2, 3, 1000] {
            let multiple = period.wrapping_mul(times);
            one(multiple.wrapping_sub(1), period);
            one(multiple, period);
            one(multiple.wrapping_add(1), period);
        }
    }
}

/// Lists of every count whose tasks all have one share: small, near 2^32 and
/// near 2^48, and the largest; then with one task that differs.
fn sums(tally: &mut Tally) {
    let shares = [
        (1, LONGEST_PERIOD),
        (1, 3),
        (999_999, LONGEST_PERIOD),
        (268_435_456, 1_000_000),
        (4_294_967_295, 1_000_000),
        (4_294_967_295, 999_999),
        (281_474_977, 1),
        (u32::MAX, 1),
    ];
    for count in 0..=MOST_TASKS {
        for (cycles, period_us) in shares {
            let task = |id| Task {
                id,
                cycles,
                period_us,
            };
            let mut tasks: Vec<Task> = (1..=count as u8).map(task).collect();
            check(tally, &list(&tasks));
            for place in 0..count {
                let former = tasks[place];
                for (cycles, period_us) in shares {
                    let id = former.id;
                    tasks[place] = Task {
                        id,
                        cycles,
                        period_us,
                    };
                    check(tally, &list(&tasks));
                }
                tasks[place] = former;
            }
        }
    }
}

/// Every place of every count: every id, and cycles and periods that may stand
/// there and that may not.
fn fields(tally: &mut Tally) {
    let (cycles, periods) = (all_cycles(), all_periods());
    for count in 1..=MOST_TASKS {
        let good = light_list(count);
        for place in 0..count {
            let mut one = |task: Task| {
                let mut bytes = good.clone();
                bytes[TASK * place..TASK * (place + 1)].copy_from_slice(&task.encode());
                check(tally, &bytes);
            };
            let task = Task::decode(&good[TASK * place..]);
            (0..=255).for_each(|id| one(Task { id, ..task }));
            cycles
                .iter()
                .for_each(|&cycles| one(Task { cycles, ..task }));
            periods
                .iter()
                .for_each(|&period_us| one(Task { period_us, ..task }));
        }
    }
}

/// Two tasks of one id at every pair of places of every count.
fn equal_ids(tally: &mut Tally) {
    for count in 2..=MOST_TASKS {
        let good = light_list(count);
        for second in 1..count {
            for first in 0..second {
                for id in [1, 16, 17, 128, 255] {
                    let mut bytes = good.clone();
                    bytes[TASK * first] = id;
                    bytes[TASK * second] = id;
                    check(tally, &bytes);
                    let same = bytes[TASK * first..TASK * (first + 1)].to_vec();
                    bytes[TASK * second..TASK * (second + 1)].copy_from_slice(&same);
                    check(tally, &bytes);
                }
            }
        }
    }
}

/// Every byte of lists of 1, 2, 7, 16 and 17 tasks at every value.
fn one_byte_changed(tally: &mut Tally) {
    for count in [1, 2, 7, MOST_TASKS, MOST_TASKS + 1] {
        let mut bytes = light_list(count);
        for index in 0..bytes.len() {
            let former = bytes[index];
            for byte in 0..=255 {
                bytes[index] = byte;
                check(tally, &bytes);
            }
            bytes[index] = former;
        }
    }
}

/// Every length up to 300: good tasks as far as they go, zeros, 255s, any bytes;
/// and lengths whose number of tasks is small in its low 8 or 16 bits.
fn lengths(tally: &mut Tally) {
    let mut random = Random::new(0x1E48);
    let good = light_list(LONGEST.div_ceil(TASK));
    for length in 0..=LONGEST {
        check(tally, &good[..length]);
        check(tally, &vec![0; length]);
        check(tally, &vec![255; length]);
        for _ in 0..20 {
            let bytes: Vec<u8> = (0..length).map(|_| random.byte()).collect();
            check(tally, &bytes);
        }
    }
    let mut long = good;
    long.resize(TASK * (65_536 + 2), 1);
    for count in [255, 256, 257, 272, 273, 4096, 65_535, 65_536, 65_537] {
        let at = TASK * count;
        for length in [at - 1, at, at + 1, at + TASK / 2] {
            check(tally, &long[..length]);
        }
    }
    for length in [65_535, 65_536, 65_537, 65_544, 65_545] {
        check(tally, &long[..length]);
    }
}

/// Every choice among nine faults, on lists of 16 tasks, of 17, and of 16 with a
/// byte more or less.
fn several_faults(tally: &mut Tally) {
    const FAULTS: [(usize, u8); 9] = [
        (0, 0),
        (TASK, 1),
        (2 * TASK, 2),
        (2 * TASK + 5, 1),
        (7 * TASK, 0),
        (9 * TASK, 9),
        (14 * TASK + 5, 255),
        (15 * TASK, 0),
        (15 * TASK, 15),
    ];
    let good = light_list(MOST_TASKS + 1);
    for choice in 0..1 << FAULTS.len() {
        let mut bytes = good.clone();
        for (bit, (at, byte)) in FAULTS.into_iter().enumerate() {
            if choice >> bit & 1 == 1 {
                bytes[at] = byte;
            }
        }
        for less in [0, 1, TASK - 1, TASK, TASK + 1] {
            check(tally, &bytes[..bytes.len() - less]);
        }
    }
}
