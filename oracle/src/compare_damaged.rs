//! Buffers that are refused, and their neighbours that are not: the refusals
//! of librikkovan.a against those of the oracle's decoder, and the lent memory.

use crate::compare_head::compare;
use crate::groups::{Groups, Number};
use crate::heads::{
    Buffer, LONGEST, buffer, busy, damaged, garbage, plain, put_cycles, put_length, put_period,
    task, with, with_tasks,
};
use crate::tally::Tally;
use sifli::head::{BUFFER, Head, LONGEST_PERIOD, MOST_TASKS, TASK, at};
use sifli::random::Random;

const RANDOM: Number = Number::new(4_000_000, 250_000);

/// A length field that is above that of every count of one byte.
const PAST_ALL_LENGTHS: u16 = 109 + 9 * 256;

pub fn run(groups: &mut Groups, quick: bool) {
    groups.group("one byte changed", one_byte_changed);
    groups.group("buffer lengths 0 to 300", lengths);
    groups.group("task counts and length fields", |tally| {
        counts_and_lengths(tally, quick)
    });
    groups.group("tasks", tasks);
    groups.group("several faults", several_faults);
    groups.random("random damage", RANDOM, |tally, random| {
        compare(tally, &damaged(random))
    });
    groups.random("random bytes", RANDOM, |tally, random| {
        compare(tally, &garbage(random))
    });
}

/// Every byte of the buffer at every value, on two heads with 0, 1, 7 and 16
/// tasks.
fn one_byte_changed(tally: &mut Tally) {
    for head in [plain(), busy()] {
        for count in [0, 1, 7, 16] {
            let good = buffer(&with_tasks(head.clone(), count), 0);
            for index in 0..BUFFER {
                for byte in 0..=255 {
                    compare(tally, &with(good, &[(index, byte)]));
                }
            }
        }
    }
}

/// Buffers of every length: zeros, 255s, heads cut short or with zeros after
/// them, the same with a length field that fits the buffer, and any bytes.
fn lengths(tally: &mut Tally) {
    let mut random = Random::new(0x1E47);
    for length in 0..=LONGEST {
        compare(tally, &vec![0; length]);
        compare(tally, &vec![255; length]);
        for count in 0..=MOST_TASKS {
            let mut bytes = buffer(&with_tasks(plain(), count), 0).to_vec();
            bytes.resize(length, 0);
            compare(tally, &bytes);
            if length >= 2 {
                bytes[..2].copy_from_slice(&(length as u16 - 2).to_be_bytes());
                compare(tally, &bytes);
            }
        }
        for _ in 0..100 {
            let bytes: Vec<u8> = (0..length).map(|_| random.byte()).collect();
            compare(tally, &bytes);
        }
    }
}

/// Every count with every length field, and with versions 1 and 2; in the
/// quick part length fields up to all that fit a count, and the highest.
fn counts_and_lengths(tally: &mut Tally, quick: bool) {
    let mut buffer = buffer(&with_tasks(plain(), MOST_TASKS), 0);
    for count in 0..=255u8 {
        buffer[at::COUNT] = count;
        let fitting = 109 + TASK as u16 * u16::from(count);
        for version in [2, 1] {
            buffer[at::VERSION] = version;
            put_length(&mut buffer, fitting);
            compare(tally, &buffer);
        }
        for length in 0..=u16::MAX {
            if !quick || !(PAST_ALL_LENGTHS..u16::MAX - 1).contains(&length) {
                put_length(&mut buffer, length);
                compare(tally, &buffer);
            }
        }
    }
}

/// Every count, every place in it and behind it: ids, cycles and periods that
/// may stand there and that may not, and equal ids at every pair of places.
fn tasks(tally: &mut Tally) {
    for count in 0..=MOST_TASKS {
        // Tasks stand at all 16 places; those past the count are not read.
        let mut good = buffer(&with_tasks(busy(), MOST_TASKS), 0);
        good[at::COUNT] = count as u8;
        put_length(&mut good, (109 + TASK * count) as u16);
        for index in 0..MOST_TASKS {
            one_task(tally, good, index);
            for other in 0..index {
                equal_ids(tally, good, other, index);
            }
        }
    }
}

fn one_task(tally: &mut Tally, good: Buffer, index: usize) {
    for id in 0..=255 {
        compare(tally, &with(good, &[(task(index), id)]));
    }
    let bits = (0..32).map(|bit| 1 << bit);
    for cycles in bits.clone().chain([0, 255, 65_535, u32::MAX]) {
        let mut buffer = good;
        put_cycles(&mut buffer, index, cycles);
        compare(tally, &buffer);
    }
    let around = (0..=3).flat_map(|by| [LONGEST_PERIOD - by, LONGEST_PERIOD + by]);
    let near = (0..32).map(|bit| LONGEST_PERIOD ^ 1 << bit);
    let periods = around.chain(near).chain(bits);
    for period in periods.chain([0, 255, 65_535, 0xFF_FFFF, u32::MAX]) {
        let mut buffer = good;
        put_period(&mut buffer, index, period);
        compare(tally, &buffer);
    }
}

/// Two tasks of one id, with the other bytes of the tasks equal and not.
fn equal_ids(tally: &mut Tally, good: Buffer, first: usize, second: usize) {
    for id in [1, 16, 17, 128, 255] {
        let mut buffer = with(good, &[(task(first), id), (task(second), id)]);
        compare(tally, &buffer);
        put_cycles(&mut buffer, second, 1);
        put_period(&mut buffer, first, LONGEST_PERIOD);
        compare(tally, &buffer);
    }
}

/// Every choice among ten faults, on buffers of 254, 255 and 256 bytes.
fn several_faults(tally: &mut Tally) {
    const FAULTS: [(usize, u8); 10] = [
        (0, 1),
        (1, 0),
        (at::COUNT, 17),
        (at::VERSION, 2),
        (at::c(1), 4),
        (at::a(34), 1),
        (at::FLAGS + 2, 2),
        (task(0), 0),
        (task(1), 3),
        (task(2) + 5, 1),
    ];
    let good = buffer(&with_tasks(Head::default(), 3), 0);
    for choice in 0..1 << FAULTS.len() {
        let chosen = |index: &usize| choice >> index & 1 == 1;
        let faults = (0..FAULTS.len()).filter(chosen);
        let changes: Vec<(usize, u8)> = faults.map(|index| FAULTS[index]).collect();
        let bytes = with(good, &changes);
        compare(tally, &bytes);
        compare(tally, &bytes[..BUFFER - 1]);
        compare(tally, &[&bytes[..], &[0]].concat());
    }
}
