use super::{at_48_mhz, at_240_mhz, entries};
use crate::call;
use crate::head::Head;
use crate::plan::{DEFAULT, Plan, at, decode};
use crate::readings;

fn plan_with(changes: &[(usize, u8)]) -> Plan {
    let mut record = DEFAULT;
    for &(index, byte) in changes {
        record[index] = byte;
    }
    decode(&record).unwrap()
}

/// The default plan after reset: core on HXT48, which is not ready yet.
#[test]
fn default_plan() {
    let mut head = at_48_mhz();
    head.hxt48_ready = false;
    let answers = [0, 1, 1, 1000, 1000, 7, 0, 0, 1, 1];
    let outcome = call::init(&head, &plan_with(&[]), &answers);
    assert_eq!((outcome.answer, outcome.value, outcome.taken), (0, 0, 9));
    assert_eq!(outcome.entries, entries(&DEFAULT_PLAN));
    assert_eq!(outcome.clocks, DEFAULT_CLOCKS);
    assert_eq!(readings::read_clocks(&outcome.head), DEFAULT_CLOCKS);
}

const DEFAULT_PLAN: [(u32, u32); 38] = [
    (22, 1),
    (49, 0x010002),
    (6, 1),
    (23, 1),
    (10, 1),
    (24, 1),
    (20, 0x3FFF),
    (18, 0x000303),
    (19, 512),
    (48, 144),
    (21, 1),
    (49, 0x050003),
    (21, 0),
    (2, 0x010106),
    (13, 15),
    (14, 13),
    (12, 0),
    (48, 12_000),
    (17, 0x003043),
    (11, 0x000100),
    (11, 0x000101),
    (3, 0),
    (3, 0x010009),
    (48, 480),
    (49, 0x030001),
    (2, 0x010106),
    (1, 3),
    (5, 0),
    (4, 0),
    (4, 0x01000B),
    (48, 2_400),
    (49, 0x040003),
    (5, 0),
    (8, 4),
    (7, 0),
    (6, 1),
    (10, 1),
    (9, 0),
];

const DEFAULT_CLOCKS: [u32; 15] = [
    240_000_000,
    240_000_000,
    120_000_000,
    3_750_000,
    240_000_000,
    288_000_000,
    48_000_000,
    24_000_000,
    60_000_000,
    32_000,
    100_000,
    48_000_000,
    48_000_000,
    0,
    0,
];

/// Flash selects on DLL2 go back to it; those on DLL1 or reserved stay on Peri.
#[test]
fn flash_selects() {
    for (before, after) in [(0x000202, 0x000202), (0x000102, 2), (0x000301, 0)] {
        let mut head = at_48_mhz();
        head.registers[5] = before;
        let plan = plan_with(&[(at::CALIBRATE, 0)]);
        let outcome = call::init(&head, &plan, &[1, 1]);
        let stored = outcome.entries.iter().filter(|&&entry| entry >> 24 == 5);
        assert_eq!(
            stored.copied().collect::<Vec<u32>>(),
            entries(&[(5, 0), (5, after)])
        );
    }
}

/// A wait for HXT48 whose flag is 1 ends with no answer taken.
#[test]
fn standby_boot() {
    let mut head = at_48_mhz();
    head.boot_mode = 3;
    let outcome = call::init(&head, &plan_with(&[]), &[]);
    let expected = [(22, 1), (49, 0x010000), (6, 1)];
    assert_eq!(outcome.entries, entries(&expected));
    assert_eq!((outcome.answer, outcome.clocks[1]), (0, 48_000_000));
}

fn on_hrc48() -> Head {
    let mut head = at_48_mhz();
    head.registers[1] = 0;
    head
}

#[test]
fn calibrate_on_hrc48() {
    let mut head = on_hrc48();
    let outcome = call::init(&head, &plan_with(&[]), &[1, 9, 9, 1, 1]);
    assert_eq!((outcome.answer, outcome.entries[4]), (0, 0x01000001));
    head.hxt48_ready = false;
    let outcome = call::init(&head, &plan_with(&[]), &[]);
    assert_eq!((outcome.answer, outcome.clocks), (32, [0; 15]));
    let expected = [(6, 1), (23, 1), (10, 1), (24, 1)];
    assert_eq!(outcome.entries, entries(&expected));
    assert_eq!(outcome.head.registers[24], 1);
}

#[test]
fn swallowed() {
    let mut head = at_240_mhz();
    head.hxt48_ready = false;
    let outcome = call::init(&head, &plan_with(&[]), &[1, 1]);
    assert_eq!((outcome.answer, outcome.value), (0, 31));
    let mut answers = [1, 2000, 1000].repeat(11);
    answers.extend([1, 1]);
    let outcome = call::init(&at_48_mhz(), &plan_with(&[]), &answers);
    assert_eq!((outcome.answer, outcome.value), (0, 33));
    assert_eq!(outcome.taken, 35);
}

#[test]
fn refused_by_the_plan() {
    let outcome = call::init(&at_48_mhz(), &plan_with(&[(at::PDIV1, 0)]), &[]);
    assert_eq!((outcome.answer, outcome.entries.len()), (12, 0));
}

/// The answers that the default plan takes from the first head above, cut at
/// every length: each is 36 and takes all.
#[test]
fn cut_at_every_length() {
    let mut head = at_48_mhz();
    head.hxt48_ready = false;
    let answers = [0, 1, 1, 1100, 1000, 0, 7, 5, 5, 1, 0, 1];
    for length in 0..answers.len() {
        let outcome = call::init(&head, &plan_with(&[]), &answers[..length]);
        assert_eq!((outcome.answer, outcome.taken), (36, length));
        assert_eq!((outcome.value, outcome.clocks), (0, [0; 15]));
        assert_eq!(outcome.head.hxt48_ready, length > 1);
    }
    let outcome = call::init(&head, &plan_with(&[]), &answers);
    assert_eq!((outcome.answer, outcome.taken), (0, answers.len()));
}

/// From 48 MHz with everything off and a search of 11 measurements.
#[test]
fn most_entries() {
    let mut answers = [1, 1064, 1000].repeat(11);
    answers.extend([1, 1]);
    let outcome = call::init(&at_48_mhz(), &plan_with(&[]), &answers);
    assert_eq!((outcome.answer, outcome.entries.len()), (0, 88));
}

/// DLL2 as the plan has it is not stored, and takes no answer.
#[test]
fn dll2_already_set() {
    let plan = plan_with(&[(at::CALIBRATE, 0)]);
    let dll2_stores = |dll2: u32| {
        let mut head = at_48_mhz();
        head.registers[4] = dll2;
        let outcome = call::init(&head, &plan, &[1, 1]);
        let stored = outcome.entries.iter().filter(|&&entry| entry >> 24 == 4);
        (stored.count(), outcome.taken)
    };
    assert_eq!(dll2_stores(0x01000B), (0, 1));
    for other in [0x00000B, 0x01010B, 0x01000A] {
        assert_eq!(dll2_stores(other), (2, 2));
    }
}

/// DLL1 at 264 MHz with the plan's hdiv: 35 after the dividers.
#[test]
fn present_hclk_above_240() {
    let mut head = at_240_mhz();
    head.registers[3] = 0x01000A;
    let plan = plan_with(&[(at::CALIBRATE, 0)]);
    let outcome = call::init(&head, &plan, &[1, 1]);
    let expected = [(6, 1), (23, 1), (10, 1), (24, 1), (2, 0x010106)];
    assert_eq!((outcome.answer, outcome.clocks), (35, [0; 15]));
    assert_eq!(outcome.entries, entries(&expected));
}
