use super::{at_48_mhz, at_240_mhz, entries};
use crate::call::{self, Outcome};
use crate::change::{MOST_ENTRIES, change, is_fit, peak, rail_limit};
use crate::claim::{self, Booked, Broken, Seen};
use crate::head::{Head, Task};
use crate::plan::{self, DEFAULT, LENGTH, at};
use crate::random::Random;
use crate::{readings, tasks};

/// A head at 48 MHz on D, with rails for just that.
fn on_d() -> Head {
    let mut head = at_48_mhz();
    head.registers[2] = 0x010003;
    head.registers[12] = 1;
    head.registers[15] = 10;
    head.registers[16] = 8;
    head.registers[26] = 0x020000;
    head
}

/// A head at 240 MHz on S, with rails for just that.
fn on_s() -> Head {
    let mut head = at_240_mhz();
    head.registers[11] = 0x000101;
    head.registers[13] = 15;
    head.registers[14] = 13;
    head.registers[26] = 0x020000;
    head
}

/// Core select, hdiv, DLL1's stage where it is planned; no USB, no DLL2.
fn plan(core: u8, hdiv: u8, dll1: Option<u8>) -> [u8; LENGTH] {
    let mut plan = DEFAULT;
    plan[at::CORE] = core;
    plan[at::HDIV] = hdiv;
    plan[at::DLL1..at::DLL2 + 3].fill(0);
    if let Some(stage) = dll1 {
        (plan[at::DLL1], plan[at::DLL1 + 1]) = (1, stage);
    }
    (plan[at::USB], plan[at::MPI2]) = (0, 0);
    plan
}

fn done(head: &Head, plan: &[u8], answers: &[u16], expected: &[(u32, u32)]) -> Outcome {
    let outcome = change(head, plan, answers).unwrap();
    assert_eq!(outcome.entries, entries(expected));
    assert_eq!(outcome.answer, 0);
    outcome
}

#[test]
fn from_48_mhz_on_d_to_240() {
    let expected = [
        (13, 15),
        (14, 13),
        (12, 0),
        (48, 12_000),
        (17, 0x3043),
        (11, 0x0100),
        (11, 0x0101),
        (3, 0),
        (3, 0x010009),
        (48, 480),
        (49, 0x030003),
        (2, 0x010106),
        (1, 3),
        (13, 15),
        (14, 13),
        (17, 0x3043),
        (12, 0),
    ];
    let outcome = done(&on_d(), &DEFAULT, &[0, 0, 7, 0], &expected);
    assert_eq!(outcome.taken, 3);
    assert_eq!(readings::hclk(&outcome.head), Some(240_000_000));
}

#[test]
fn from_240_mhz_to_48_on_d() {
    let mut head = on_s();
    head.registers[5] = 0x000102;
    head.registers[4] = 0x01000B;
    let expected = [
        (5, 0x000002),
        (1, 1),
        (2, 0x010106),
        (1, 1),
        (5, 0x000102),
        (15, 10),
        (16, 8),
        (17, 0x1161),
        (12, 1),
    ];
    done(&head, &plan(1, 1, None), &[], &expected);
}

/// All that can be stored is: flash on DLL1, core not on HXT48, rails too low.
#[test]
fn most_entries() {
    let mut head = on_s();
    head.registers[3] = 0x010104;
    head.registers[5] = 0x000101;
    head.registers[11] = 0;
    (head.registers[13], head.registers[14]) = (14, 15);
    let expected = [
        (13, 15),
        (14, 13),
        (12, 0),
        (48, 15_000),
        (17, 0x3043),
        (5, 0),
        (1, 1),
        (11, 0x0100),
        (11, 0x0101),
        (3, 0x000104),
        (3, 0x010009),
        (48, 480),
        (49, 0x030001),
        (2, 0x010106),
        (1, 3),
        (5, 0x000101),
        (13, 15),
        (14, 13),
        (17, 0x3043),
        (12, 0),
    ];
    assert_eq!(expected.len(), MOST_ENTRIES);
    done(&head, &DEFAULT, &[1], &expected);
}

/// Nothing to do, and the stores of (5), (6) and (8) are made all the same.
#[test]
fn hclk_is_right_already() {
    let mut head = on_d();
    head.registers[2] = 0x010106;
    let expected = [
        (2, 0x010106),
        (1, 1),
        (15, 10),
        (16, 8),
        (17, 0x1161),
        (12, 1),
    ];
    done(&head, &plan(1, 1, None), &[1], &expected);
}

/// From 24 MHz to 24 MHz over HXT48: D1's rails are raised on the way, and the
/// delay is that of 24 MHz.
#[test]
fn peak_is_d1_at_least() {
    let mut head = on_d();
    head.registers[1] = 3;
    head.registers[3] = 0x010000;
    head.registers[11] = 0x000101;
    (head.registers[15], head.registers[16]) = (15, 7);
    let expected = [
        (15, 10),
        (16, 8),
        (48, 6_000),
        (1, 1),
        (3, 0),
        (3, 0x010000),
        (48, 480),
        (49, 0x030002),
        (2, 0x010106),
        (1, 3),
        (15, 9),
        (16, 6),
        (17, 0x0160),
        (12, 1),
    ];
    done(&head, &plan(3, 1, Some(0)), &[0, 1], &expected);
}

/// The voltage falls after the clock: from 240 to 144 MHz the rails come last.
#[test]
fn from_s1_to_s0() {
    let expected = [
        (1, 1),
        (3, 0x000009),
        (3, 0x010005),
        (48, 480),
        (49, 0x030001),
        (2, 0x010106),
        (1, 3),
        (13, 13),
        (14, 11),
        (17, 0x3043),
        (12, 0),
    ];
    done(&on_s(), &plan(3, 1, Some(5)), &[1], &expected);
}

#[test]
fn answers_run_out() {
    for answers in [&[][..], &[0], &[0; 4096]] {
        let mut head = on_s();
        head.registers[5] = 0x000103;
        let outcome = change(&head, &DEFAULT, answers).unwrap();
        let expected = [
            (5, 0x000003),
            (1, 1),
            (3, 0x000009),
            (3, 0x010009),
            (48, 480),
        ];
        assert_eq!((outcome.answer, outcome.taken), (36, answers.len()));
        assert_eq!(outcome.entries, entries(&expected));
        assert_eq!(outcome.head.registers[1], 1);
    }
}

#[test]
fn rail_limits() {
    let limit = |supply, buck, ldo| {
        let mut head = Head::default();
        head.registers[12] = supply;
        let at = if supply == 1 { 15 } else { 13 };
        (head.registers[at], head.registers[at + 1]) = (buck, ldo);
        // What the other supply holds is not looked at.
        (head.registers[28 - at], head.registers[29 - at]) = (15, 15);
        assert_eq!(
            rail_limit(&head.registers),
            claim::rails(&head.registers) * 1_000_000
        );
        rail_limit(&head.registers) / 1_000_000
    };
    for supply in 0..2 {
        for buck in 0..16 {
            for ldo in 0..16 {
                limit(supply, buck, ldo);
            }
        }
    }
    let on_d = [(8, 15, 0), (15, 5, 0), (9, 6, 24), (9, 15, 24), (15, 7, 24)];
    for (buck, ldo, mhz) in on_d.into_iter().chain([(10, 8, 48), (15, 15, 48)]) {
        assert_eq!(limit(1, buck, ldo), mhz, "{buck} {ldo}");
    }
    let on_s = [(12, 15, 0), (15, 10, 0), (13, 11, 144), (14, 15, 144)];
    for (buck, ldo, mhz) in on_s.into_iter().chain([(15, 12, 144), (15, 13, 240)]) {
        assert_eq!(limit(0, buck, ldo), mhz, "{buck} {ldo}");
    }
}

#[test]
fn peaks() {
    let mhz = |mhz: u32| mhz * 1_000_000;
    let cases = [
        (1, 24, 1),
        (24, 48, 1),
        (48, 49, 2),
        (144, 24, 2),
        (24, 145, 3),
        (240, 1, 3),
    ];
    for (present, target, wanted) in cases {
        assert_eq!(peak(mhz(present), mhz(target)), wanted);
    }
}

fn fit(change: impl FnOnce(&mut Head)) -> bool {
    let mut head = on_d();
    change(&mut head);
    assert_eq!(is_fit(&head), claim::is_fit(&head));
    is_fit(&head)
}

#[test]
fn fit_heads() {
    assert!(is_fit(&on_s()) && fit(|_| {}));
    // HCLK
    assert!(!fit(|head| head.registers[1] = 2));
    assert!(!fit(|head| head.hxt48_ready = false));
    assert!(!fit(|head| head.registers[15] = 9));
    assert!(!fit(|head| head.registers[12] = 0));
    assert!(fit(|head| head.registers[2] = 0xFF0000));
    // flash
    assert!(!fit(|head| head.registers[5] = 0x000100));
    assert!(!fit(|head| head.registers[5] = 0x000002));
    assert!(fit(|head| head.registers[5] = 0x000303));
    assert!(fit(|head| {
        head.registers[5] = 0x000201;
        (head.registers[3], head.registers[4]) = (0x010000, 0x010000);
    }));
    // LPSYS: its source is HRC48, then HXT48; the flag of LPSYS is not looked at
    assert!(!fit(|head| head.hrc48_ready = false));
    assert!(fit(|head| {
        head.hrc48_ready = false;
        head.lpsys_hxt48_ready = false;
        head.registers[25] = 1;
    }));
    for (divider, supply, wanted) in [(0, 0, false), (1, 0, false), (1, 1, true), (2, 0, true)] {
        let is_fit = fit(|head| {
            head.registers[26] = divider << 16;
            head.registers[28] = supply;
        });
        assert_eq!(is_fit, wanted);
    }
}

fn refusal(head: &Head, plan: &[u8]) -> u64 {
    change(head, plan, &[1]).unwrap_err()
}

#[test]
fn refusals_in_their_order() {
    let task = |cycles| Task {
        id: 9,
        cycles,
        period_us: 1_000,
    };
    let mut head = on_d();
    head.tasks = vec![task(48_000), task(193_000)];
    assert_eq!(refusal(&head, &DEFAULT), 39);
    head.tasks[1].cycles = 192_000;
    assert_eq!(change(&head, &DEFAULT, &[1]).unwrap().answer, 0);
    head.tasks[1].cycles += 1;
    assert_eq!(refusal(&head, &DEFAULT), 39);
    head.hxt48_ready = false;
    assert_eq!(refusal(&head, &DEFAULT), 37);
    head.registers[1] = 0;
    assert_eq!(refusal(&head, &DEFAULT), 38);
    assert_eq!(refusal(&head, &plan(2, 1, None)), 5);
    assert_eq!(refusal(&head, &DEFAULT[..19]), 1);
    // HRC48 is planned, and nothing runs on it now.
    let mut head = on_d();
    head.registers[25] = 1;
    head.hrc48_ready = false;
    assert_eq!(refusal(&head, &plan(0, 1, None)), 38);
    assert_eq!(change(&head, &plan(1, 1, None), &[]).unwrap().answer, 0);
    // The load is that of the target, not of the present HCLK.
    let mut head = on_s();
    head.tasks = vec![task(200_000)];
    assert_eq!(refusal(&head, &plan(1, 1, None)), 39);
}

/// Without a flash to move, (3) to (6) are what the original's
/// `reconfigure_sysclk` does between two clocks of one mode.
#[test]
fn clock_as_in_the_original() {
    let mut random = Random::new(0xC0DE);
    let mut compared = 0;
    while compared < 300 {
        let head = random_head(&mut random);
        let plan = random_plan(&mut random);
        let answers = [0, random.up_to(1).into(), 1];
        let Ok(outcome) = change(&head, &plan, &answers) else {
            continue;
        };
        let present = readings::hclk(&head).unwrap();
        let decoded = plan::decode(&plan).unwrap();
        let target = decoded.builder().get_hclk_freq_hz();
        let is_on_dll1 = [head.registers[5] >> 8, head.registers[5] & 0xFF].contains(&1);
        if is_on_dll1 || head.registers[1] == 0 || mode(present) != mode(target) {
            continue;
        }
        let original = call::reconfigure_sysclk(&head, &decoded, &[0; 15], &answers);
        let entries = &outcome.entries[..outcome.entries.len() - 4];
        assert!(entries.ends_with(&original.entries));
        assert_eq!(outcome.taken, original.taken);
        compared += 1;
    }
}

fn mode(hclk: u32) -> usize {
    [24, 48, 144]
        .iter()
        .filter(|&&mhz| hclk > mhz * 1_000_000)
        .count()
}

/// Any head, made such that it is fit more often than not.
fn random_head(random: &mut Random) -> Head {
    let mut head = Head::random(random);
    head.registers[1] = random.pick(&[0, 1, 3, 3]);
    head.registers[2] = u32::from(random.pick(&[0u8, 1, 2, 5])) << 16;
    head.registers[3] |= 0x010000;
    head.registers[5] &= random.pick(&[0x000101, 0x000303, 0]);
    head.registers[12] = random.up_to(1).into();
    for number in 13..=16 {
        head.registers[number] = random.pick(&[6, 9, 11, 13, 15, 15, 15]);
    }
    head.registers[28] = random.pick(&[0, 1, 1]);
    head.tasks.truncate(random.below(4));
    for task in &mut head.tasks {
        task.cycles %= 100_000;
        task.cycles += 1;
        task.period_us = 1_000 + task.period_us % 10_000;
    }
    head
}

/// A plan near the default one, not always accepted.
fn random_plan(random: &mut Random) -> [u8; LENGTH] {
    let mut plan = DEFAULT;
    plan[at::CORE] = random.pick(&[0, 1, 3, 3]);
    plan[at::HDIV] = random.pick(&[0, 1, 1, 2, 5, 10]);
    plan[at::PDIV1] = random.pick(&[0, 1, 2]);
    plan[at::DLL1 + 1] = random.up_to(15);
    plan[at::DLL1 + 2] = random.up_to(1);
    plan[at::USB] = 0;
    if random.once_in(4) {
        plan[at::DLL1..at::DLL1 + 3].fill(0);
    }
    plan
}

/// Demand 3 on lists of calls of the models and the original.
#[test]
fn demand_3() {
    let mut random = Random::new(0xDE3);
    let (mut lists, mut done) = (0, 0);
    while lists < 1_000 {
        let mut head = random_head(&mut random);
        if !is_fit(&head) {
            assert!(!claim::is_fit(&head));
            continue;
        }
        lists += 1;
        let mut booked = Booked::of(&head);
        for _ in 0..12 {
            let before = head.clone();
            let result = match random.below(6) {
                0 => books(&mut random, &mut head, &mut booked),
                1 => releases(&mut random, &mut head, &mut booked),
                2 => requests(&mut random, &mut head),
                _ => changes(&mut random, &mut head, &mut done),
            };
            assert_eq!(result, Ok(()), "{before:?}");
            assert_eq!(booked.are_held_by(&head), Ok(()));
        }
    }
    assert!(done > 1_000);
}

fn books(random: &mut Random, head: &mut Head, booked: &mut Booked) -> Result<(), Broken> {
    let task = Task {
        id: 1 + random.up_to(20),
        cycles: 1 + random.below(100_000) as u32,
        period_us: 1_000,
    };
    let Ok(after) = tasks::book(head, task) else {
        return Ok(());
    };
    *head = after;
    booked.add(task);
    claim::load_is_carried(head)
}

fn releases(random: &mut Random, head: &mut Head, booked: &mut Booked) -> Result<(), Broken> {
    let id = random.up_to(20);
    if let Ok(after) = tasks::release(head, id) {
        *head = after;
        booked.take_out(id);
    }
    Ok(())
}

fn requests(random: &mut Random, head: &mut Head) -> Result<(), Broken> {
    let before = head.clone();
    let outcome = call::config_lpsys_hclk_mhz(head, random.below(50) as u32);
    *head = outcome.head.clone();
    claim::of_call(&seen(&before, &outcome))
}

/// Counts the changes that are done.
fn changes(random: &mut Random, head: &mut Head, done: &mut usize) -> Result<(), Broken> {
    let before = head.clone();
    let plan = random_plan(random);
    let answers = [0, random.up_to(1).into()];
    match change(head, &plan, &answers) {
        Err(refusal) => {
            assert_ne!(refusal, 37);
            Ok(())
        }
        Ok(outcome) => {
            *done += usize::from(outcome.answer == 0);
            *head = outcome.head.clone();
            claim::of_change(&seen(&before, &outcome), &plan, &answers)
        }
    }
}

fn seen<'a>(before: &'a Head, outcome: &'a Outcome) -> Seen<'a> {
    Seen {
        before,
        answer: outcome.answer,
        entries: &outcome.entries,
        taken: outcome.taken,
        after: &outcome.head,
    }
}

/// The clauses find what breaks them.
#[test]
fn broken_clauses() {
    let head = on_d();
    let outcome = change(&head, &DEFAULT, &[0, 1]).unwrap();
    let holds = |outcome: &Outcome, answers: &[u16]| {
        claim::of_change(&seen(&head, outcome), &DEFAULT, answers).is_ok()
    };
    assert!(holds(&outcome, &[0, 1]));
    assert!(!holds(&outcome, &[0, 0]));
    assert!(!holds(&outcome, &[1, 0]));
    // The core goes to DLL1 before the rails are raised.
    let mut other = outcome.clone();
    other.entries.rotate_left(5);
    assert!(!holds(&other, &[0, 1]));
    // Nothing is stored.
    let mut other = outcome.clone();
    other.entries.clear();
    other.head = head.clone();
    assert!(!holds(&other, &[0, 1]));
    // HCLK is not the plan's.
    let mut other = outcome.clone();
    other.entries[11] = 0x0202_0106;
    other.head.registers[2] = 0x020106;
    assert!(!holds(&other, &[0, 1]));
    let mut other = outcome;
    other.answer = 36;
    assert!(!holds(&other, &[0, 1]));
}
