use super::{at_48_mhz, at_240_mhz, entries};
use crate::call::{self, Frequencies};
use crate::plan::{DEFAULT, Plan, at, decode};

const FORMER: Frequencies = [1, 2, 3, 4, 5, 6, 7, 8, 9, 10, 11, 12, 13, 14, 15];

/// HXT48, undivided, PCLK2 at 6 MHz, no DLL, no USB.
fn hxt48_plan() -> Plan {
    let fields = [1, 1, 0, 3, 0, 0, 0, 0, 0, 0, 0, 0, 1, 0, 1, 0, 0];
    decode(&[&[0, 18, 1], &fields[..]].concat()).unwrap()
}

fn default_plan() -> Plan {
    decode(&DEFAULT).unwrap()
}

#[test]
fn from_240_to_48() {
    let outcome = call::reconfigure_sysclk(&at_240_mhz(), &hxt48_plan(), &FORMER, &[]);
    let expected = [
        (15, 10),
        (16, 8),
        (1, 1),
        (2, 0x010003),
        (1, 1),
        (17, 0x001161),
        (12, 1),
    ];
    assert_eq!(outcome.answer, 0);
    assert_eq!(outcome.entries, entries(&expected));
    assert_eq!(outcome.clocks[1..4], [48_000_000, 48_000_000, 6_000_000]);
    assert_eq!(outcome.clocks[13..], FORMER[13..]);
}

/// Leaving DLL1 with neither oscillator ready: 34 at the delay of DLL1.
#[test]
fn hclk_unreadable() {
    let mut head = at_240_mhz();
    head.hxt48_ready = false;
    head.hrc48_ready = false;
    head.registers[11] = 0x000101;
    let outcome = call::reconfigure_sysclk(&head, &default_plan(), &FORMER, &[1]);
    assert_eq!((outcome.answer, outcome.clocks), (34, FORMER));
    let expected = [(1, 0), (3, 0x000009), (3, 0x010009)];
    assert_eq!(outcome.entries, entries(&expected));
}

#[test]
fn present_hclk_above_240() {
    let mut head = at_240_mhz();
    head.registers[3] = 0x01000A;
    let outcome = call::reconfigure_sysclk(&head, &default_plan(), &FORMER, &[1]);
    assert_eq!((outcome.answer, outcome.clocks), (35, FORMER));
    assert_eq!((outcome.entries.len(), &outcome.head), (0, &head));
}

/// DLL1 does not get ready: the core stays on HXT48.
#[test]
fn answers_run_out() {
    let mut head = at_48_mhz();
    head.registers[11] = 0x000101;
    let outcome = call::reconfigure_sysclk(&head, &default_plan(), &FORMER, &[0, 0]);
    assert_eq!((outcome.answer, outcome.taken), (36, 2));
    assert_eq!(outcome.entries.last(), Some(&0x300001E0));
    assert_eq!(outcome.head.registers[1], 1);
}

/// The present supply mode and the target's, each the highest clock of DLL1 in
/// it, and the numbers stored before and after those of the change itself.
const MODES: [(u8, u8, &[u32], &[u32]); 16] = [
    (0, 0, &[], &[]),
    (0, 1, &[15, 16], &[17, 12]),
    (0, 5, &[13, 14, 12, 48, 17], &[]),
    (0, 9, &[13, 14, 12, 48, 17], &[]),
    (1, 0, &[15, 16], &[17, 12]),
    (1, 1, &[], &[]),
    (1, 5, &[13, 14, 12, 48, 17], &[]),
    (1, 9, &[13, 14, 12, 48, 17], &[]),
    (5, 0, &[15, 16], &[17, 12]),
    (5, 1, &[15, 16], &[17, 12]),
    (5, 5, &[], &[]),
    (5, 9, &[13, 14, 48], &[]),
    (9, 0, &[15, 16], &[17, 12]),
    (9, 1, &[15, 16], &[17, 12]),
    (9, 5, &[13, 14, 48], &[]),
    (9, 9, &[], &[]),
];

/// From DLL1 to DLL1 with `hpbg` off: nine entries of the change, 14 at most.
#[test]
fn supply_modes() {
    for (present, target, before, after) in MODES {
        let mut head = at_240_mhz();
        head.registers[3] = 0x010000 + u32::from(present);
        let mut record = DEFAULT;
        record[at::DLL1 + 1] = target;
        record[at::USB] = 0;
        let plan = decode(&record).unwrap();
        let outcome = call::reconfigure_sysclk(&head, &plan, &FORMER, &[1]);
        let change = [1, 11, 11, 3, 3, 48, 49, 2, 1];
        let numbers: Vec<u32> = outcome.entries.iter().map(|entry| entry >> 24).collect();
        assert_eq!(numbers, [before, &change[..], after].concat());
        let hclk = 24_000_000 * (u32::from(target) + 1);
        assert_eq!((outcome.answer, outcome.clocks[1]), (0, hclk));
    }
}
