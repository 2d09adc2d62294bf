//! What holds of every call on every head: shown on random ones.

use crate::call::{self, Outcome};
use crate::head::{BUFFER, Head, decode};
use crate::plan::{self, DEFAULT, Plan, at};
use crate::random::Random;
use crate::readings;
use crate::world::{DELAY, WAIT};

const HEADS: usize = 5_000;

/// An accepted plan near the default one.
fn accepted(random: &mut Random) -> Plan {
    loop {
        let mut record = DEFAULT;
        record[at::CORE] = random.pick(&[0, 1, 3]);
        record[at::HDIV] = random.pick(&[0, 1, 2, 3, 5, 10]);
        record[at::DLL1 + 1] = random.up_to(15);
        record[at::DLL2 + 1] = random.up_to(15);
        record[at::CALIBRATE] = random.up_to(1);
        record[at::USB] = random.once_in(4).into();
        record[at::MPI1] = random.up_to(2);
        if random.once_in(4) {
            record[at::DLL2..at::DLL2 + 3].fill(0);
            record[at::MPI2] = 0;
        }
        if plan::check(&record) == 0 {
            return plan::decode(&record).unwrap();
        }
    }
}

/// Not ready once in four; counts often near each other.
fn answers(random: &mut Random) -> Vec<u16> {
    let length = random.pick(&[0, 1, 3, 10, 60, 120]);
    (0..length)
        .map(|_| random.pick(&[0, 1000, 1050, 1100, 1200, 60000]))
        .collect()
}

/// The head before with the stores of all entries is the head after, the head
/// after is a record, and a refusal outside 32 to 36 changed nothing.
fn holds(before: &Head, lent: usize, most: usize, outcome: &Outcome) {
    let mut registers = before.registers;
    for entry in &outcome.entries {
        let number = entry >> 24;
        if number != DELAY && number != WAIT {
            registers[number as usize] = entry & 0xFFFFFF;
        }
    }
    assert_eq!(registers, outcome.head.registers);
    assert_eq!(before.tasks, outcome.head.tasks);
    let mut buffer = [0; BUFFER];
    outcome.head.encode(&mut buffer);
    assert_eq!(decode(&buffer).as_ref(), Ok(&outcome.head));
    assert!(outcome.taken <= lent && outcome.entries.len() <= most);
    assert!(outcome.answer != 36 || outcome.taken == lent);
    if !matches!(outcome.answer, 0 | 32..=36) {
        assert_eq!((&outcome.head, outcome.entries.len()), (before, 0));
        assert_eq!(outcome.taken, 0);
    }
}

#[test]
fn every_call() {
    let mut random = Random::new(1);
    for _ in 0..HEADS {
        let head = Head::random(&mut random);
        let lent = answers(&mut random);
        let plan = accepted(&mut random);
        let count = lent.len();
        let former = [7; 15];
        holds(&head, count, 57, &call::calibrate_hrc48(&head, &lent));
        holds(&head, count, 88, &call::init(&head, &plan, &lent));
        let outcome = call::reconfigure_sysclk(&head, &plan, &former, &lent);
        holds(&head, count, 14, &outcome);
        holds(&head, count, 5, &call::wake_lcpu(&head, &lent));
        holds(&head, count, 4, &call::ensure_hxt48_ready(&head, &lent));
        let request = random.below(52) as u32;
        let outcome = call::config_lpsys_hclk_mhz(&head, request);
        holds(&head, 0, 4, &outcome);
        holds(&head, 0, 4, &call::ensure_safe_lcpu_frequency(&head));
        holds(&head, 0, 1, &call::cancel_lcpu_active_request(&head));
        let read = (readings::read_clocks(&head), readings::read_lpsys(&head));
        assert_eq!(readings::both(head), Ok(read));
    }
}
