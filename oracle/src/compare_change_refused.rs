//! Groups of the guarded change: what is refused, and its neighbours that are not.

use crate::change_inputs::{CORES, few_fit, plan, with_core, with_load};
use crate::compare_change::{on, with_journal};
use crate::config_plans::{few_plans, refused_plans};
use crate::groups::Groups;
use crate::heads::{Buffer, LONGEST, buffer, few_heads, with};
use crate::plans::{self, of_length};
use crate::tally::Tally;
use sifli::call::MOST_ANSWERS;
use sifli::head::{BUFFER, Head, at};
use sifli::plan::{DEFAULT, LENGTH};
use sifli::query::JOURNAL;

pub fn run(groups: &mut Groups, quick: bool) {
    groups.group("plan bytes", |tally| plan_bytes(tally, quick));
    groups.group("plan lengths 0 to 40", plan_lengths);
    groups.group("order of refusals", order_of_refusals);
    groups.group("lengths", lengths);
    groups.group("one byte changed", |tally| one_byte_changed(tally, quick));
}

/// Some plans with each byte at all values; quick on one head.
fn plan_bytes(tally: &mut Tally, quick: bool) {
    let mut heads: Vec<Buffer> = few_fit().iter().map(|head| buffer(head, 0)).collect();
    heads.truncate(if quick { 1 } else { 4 });
    for good in few_plans() {
        for index in 0..LENGTH {
            for byte in 0..=255 {
                let mut plan = good;
                plan[index] = byte;
                for head in &heads {
                    on(tally, head, &plan, &[1]);
                }
            }
        }
    }
}

/// Plans of every length, on a head that is fit and on one that is not.
fn plan_lengths(tally: &mut Tally) {
    let heads = [with_core(CORES[6]), Head::default()];
    for length in 0..=plans::LONGEST {
        for plan in of_length(length) {
            for head in &heads {
                on(tally, &buffer(head, 0), &plan, &[1]);
            }
        }
    }
}

/// A head with the faults 5 to 10: 37 by its rails, its flash or LPSYS, 38 by each flag, 39.
fn with_faults(mut head: Head, has: impl Fn(u32) -> bool) -> Head {
    if has(5) {
        head.registers[14] = 12;
    }
    if has(6) {
        head.registers[5] = 0x000200;
    }
    if has(7) {
        head.registers[26] = 0x010000;
    }
    head.hrc48_ready = !has(8);
    head.hxt48_ready = !has(9);
    if has(10) {
        head = with_load(head, 3, 240_000_001, false);
    }
    head
}

/// Every choice among a short journal, too many answers, three faults of the
/// head's record, four ways not to be fit, an oscillator that is not ready, a
/// load that is too high and no answer that is ready, each with a plan of every
/// refusal and with one that is accepted.
fn order_of_refusals(tally: &mut Tally) {
    let mut plans: Vec<Vec<u8>> = vec![DEFAULT.to_vec(), plan((0, 1, [0; 3])).to_vec()];
    plans.extend(refused_plans());
    // On DLL1, so that 37 and 38 stand apart; LPSYS on HRC48.
    let mut good = with_core(CORES[17]);
    good.registers[11] = 0x000101;
    for faults in 0..1 << 12 {
        let has = |fault: u32| faults >> fault & 1 == 1;
        let mut bytes = buffer(&with_faults(good.clone(), has), 0).to_vec();
        if has(3) {
            bytes[at::VERSION] = 0;
        }
        if has(4) {
            bytes[at::a(34)] = 1;
        }
        if has(2) {
            bytes.push(0);
        }
        let length = if has(1) { MOST_ANSWERS + 1 } else { 2 };
        let answers = vec![u16::from(!has(11)); length];
        let journal = if has(0) { JOURNAL - 1 } else { JOURNAL };
        for plan in &plans {
            with_journal(tally, &bytes, plan, &answers, journal);
        }
    }
}

/// Journals, answers, buffers and plans of lengths around their limits, and past
/// 16 bits.
fn lengths(tally: &mut Tally) {
    let mut bytes = buffer(&with_core(CORES[6]), 0).to_vec();
    bytes.resize(LONGEST, 0);
    let mut slice = DEFAULT.to_vec();
    slice.push(0);
    for journal in [0, 1, 20, 64, 127, 128, 129, 200, 256, 65_536, 65_600] {
        for answers in [0, 2, MOST_ANSWERS, MOST_ANSWERS + 1, 65_536, 65_538] {
            let answers = vec![1; answers];
            for head in [0, 110, 254, BUFFER, 256].map(|length| &bytes[..length]) {
                for plan in [0, 19, LENGTH, 21].map(|length| &slice[..length]) {
                    with_journal(tally, head, plan, &answers, journal);
                }
            }
        }
    }
}

/// Every byte of some heads at every value; quick of one.
fn one_byte_changed(tally: &mut Tally, quick: bool) {
    let with_tasks = |head: Head| with_load(head, 5, 20_000_000, false);
    let mut heads: Vec<Buffer> = few_fit()
        .into_iter()
        .rev()
        .map(|head| buffer(&with_tasks(head), 0))
        .collect();
    heads.extend(few_heads());
    heads.truncate(if quick { 1 } else { 7 });
    for good in &heads {
        for index in 0..BUFFER {
            for byte in 0..=255 {
                on(tally, &with(*good, &[(index, byte)]), &DEFAULT, &[0, 1]);
            }
        }
    }
}
