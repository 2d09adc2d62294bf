//! Slices of every length: a call answers, and writes nothing beside what it is lent.

use crate::head;
use rikkovan::{bytes, Plan, Refusal, Word, CLOCKS, FIT_NUMBERS, JOURNAL_WORDS, LPSYS_CLOCKS};
use std::ops::RangeInclusive;

const LENGTHS: RangeInclusive<usize> = 0..=300;

/// What surrounds a lent slice.
const BESIDE: usize = 32;

/// A call that is lent a head, a plan, a journal and answers, of which it may leave some.
type Call = fn(&mut [u8], &[u8], &mut [u32], &[u16]) -> Word;

/// Those of tasks and readings, then those that are lent a journal, then those that are lent a
/// plan too.
const CALLS: [Call; 21] = [
    |head, _, _, _| bytes::read_clocks(head, &mut [0; CLOCKS]),
    |head, _, _, _| bytes::read_lpsys(head, &mut [0; LPSYS_CLOCKS]),
    |head, _, _, _| bytes::read_fit(head, &mut [0; FIT_NUMBERS]),
    |head, _, _, _| bytes::moment(head, &[0x0100_0001, 0x3000_01E0]),
    |head, _, _, _| bytes::book(head, 1, 1, 1_000),
    |head, _, _, _| bytes::release(head, 1),
    |head, _, _, _| bytes::look_up(head, 1),
    |head, _, journal, _| bytes::config_lpsys_hclk_mhz(head, 20, journal),
    |head, _, journal, _| bytes::ensure_safe_lcpu_frequency(head, journal),
    |head, _, journal, _| bytes::set_lpsys_hdiv(head, 1, journal),
    |head, _, journal, _| bytes::set_lpsys_div(head, 1, 7, 7, journal),
    |head, _, journal, _| bytes::config_lpsys_mac_clock(head, 1, 1, journal),
    |head, _, journal, _| bytes::select_lpsys_sysclk(head, 1, journal),
    |head, _, journal, _| bytes::select_lpsys_peri(head, 1, journal),
    |head, _, journal, _| bytes::cancel_lcpu_active_request(head, journal),
    |head, _, journal, answers| bytes::wake_lcpu(head, journal, answers),
    |head, _, journal, answers| bytes::ensure_hxt48_ready(head, journal, answers),
    |head, _, journal, answers| bytes::calibrate_hrc48(head, journal, answers),
    |head, plan, journal, answers| bytes::init(head, plan, &mut [0; CLOCKS], journal, answers),
    |head, plan, journal, answers| {
        bytes::reconfigure_sysclk(head, plan, &mut [0; CLOCKS], journal, answers)
    },
    bytes::change,
];

const FIRST_WITH_JOURNAL: usize = 7;
const FIRST_WITH_PLAN: usize = 18;

/// Makes every call with these lengths, and gives it and its word to a test.
fn each(head_len: usize, plan_len: usize, journal_len: usize, test: impl Fn(usize, Word)) {
    let plan = resized(&Plan::DEFAULT.to_record(), plan_len);
    for (index, call) in CALLS.iter().enumerate() {
        let mut buffer = vec![0xA5; head_len + 2 * BESIDE];
        let mut words = vec![0xA5A5_A5A5; journal_len + 2 * BESIDE];
        let lent = &mut buffer[BESIDE..BESIDE + head_len];
        lent.copy_from_slice(&resized(head("d48").as_bytes(), head_len));
        let journal = &mut words[BESIDE..BESIDE + journal_len];
        let word = call(lent, &plan, journal, &[1; 40]);
        assert!(word.entries() <= journal_len);
        assert!(
            is_left(&buffer, 0xA5) && is_left(&words, 0xA5A5_A5A5),
            "call {index}"
        );
        test(index, word);
    }
}

fn resized(record: &[u8], length: usize) -> Vec<u8> {
    let mut record = record.to_vec();
    record.resize(length, 0);
    record
}

/// Whether what surrounds a lent slice holds what it held.
fn is_left<T: PartialEq + Copy>(memory: &[T], held: T) -> bool {
    let beside = memory[..BESIDE]
        .iter()
        .chain(&memory[memory.len() - BESIDE..]);
    beside.copied().all(|element| element == held)
}

#[test]
fn heads() {
    for length in LENGTHS {
        each(length, Plan::BYTES, JOURNAL_WORDS, |_, word| {
            assert_eq!(word.refusal() == Some(Refusal::Length), length != 255);
        });
    }
}

#[test]
fn plans() {
    for length in LENGTHS {
        each(255, length, JOURNAL_WORDS, |call, word| {
            let is_refused = call >= FIRST_WITH_PLAN && length != Plan::BYTES;
            assert_eq!(word.refusal() == Some(Refusal::Length), is_refused);
        });
    }
}

#[test]
fn journals() {
    for length in LENGTHS {
        each(255, Plan::BYTES, length, |call, word| {
            let is_refused = call >= FIRST_WITH_JOURNAL && length < JOURNAL_WORDS;
            assert_eq!(word.refusal() == Some(Refusal::Journal), is_refused);
        });
    }
}

#[test]
fn lists_of_tasks() {
    for length in LENGTHS {
        let checked = bytes::load_check(&vec![1; length]);
        assert_eq!(checked == 1 << 63 | 1, length % 9 != 0);
    }
}
