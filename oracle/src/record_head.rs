//! Head buffers to record, with the refusals of the oracle's decoder and the
//! readings of the original code.

use crate::heads::{
    Buffer, DIVIDERS, LONGEST, buffer, busy, damaged, dlls, garbage, likely, plain, put_cycles,
    put_flags, put_length, put_period, put_register, task, with, with_tasks,
};
use crate::plans::STAGES;
use crate::record::{CallLines, FEWEST, write_calls};
use sifli::calls::of_heads;
use sifli::head::{BUFFER, Head, LARGEST, LONGEST_PERIOD, MOST_TASKS, TASK, at};
use sifli::random::Random;
use std::io;
use std::path::Path;

/// Random buffers of each of the three sorts.
const RANDOM: usize = 20;

pub fn write(directory: &Path) -> io::Result<()> {
    write_calls(directory, of_heads(), FEWEST, |list| {
        simple(list);
        core_clocks(list);
        usb(list);
        selects(list);
        lpsys(list);
        lengths(list);
        counts(list);
        codes(list);
        tasks(list);
        orders(list);
        random(list);
    })
}

fn add_with(list: &mut CallLines, buffer: Buffer, changes: &[(usize, u8)]) {
    list.read(&with(buffer, changes));
}

/// All zero, plain and busy heads, every byte at its largest, each count of
/// tasks.
fn simple(list: &mut CallLines) {
    for head in [Head::default(), plain(), busy()] {
        list.read(&buffer(&head, 0));
        list.read(&buffer(&head, 0xEE));
    }
    let mut largest = buffer(&with_tasks(plain(), MOST_TASKS), 0);
    for (number, bytes) in (1..).zip(LARGEST) {
        put_register(&mut largest, number, bytes);
    }
    add_with(list, largest, &[(at::BOOT_MODE, 255)]);
    add_with(list, largest, &[(at::WAKE_COUNT, 255), (at::c(1), 2)]);
    for count in 0..=MOST_TASKS {
        list.read(&buffer(&with_tasks(busy(), count), 0));
    }
}

/// Each core select with each set of ready flags, each DLL1, each divider.
fn core_clocks(list: &mut CallLines) {
    for select in 0..4 {
        for flags in 0..8 {
            let mut buffer = with(buffer(&plain(), 0), &[(at::c(1), select)]);
            put_flags(&mut buffer, flags);
            list.read(&buffer);
        }
    }
    for (dll1, hdiv) in dlls(&STAGES).into_iter().zip(DIVIDERS.iter().cycle()) {
        if dll1[0] == 1 || dll1[2] % 5 == 0 {
            let mut buffer = with(buffer(&plain(), 0), &[(at::c(1), 3), (at::a(2), *hdiv)]);
            put_register(&mut buffer, 3, dll1);
            list.read(&buffer);
        }
    }
    for hdiv in DIVIDERS {
        add_with(list, buffer(&busy(), 0), &[(at::a(2), hdiv)]);
    }
    for pdiv in 0..8 {
        let slow = [(at::a(2), 255), (at::c(3), 0), (at::b(3), 1)];
        let good = with(buffer(&busy(), 0), &slow);
        add_with(list, good, &[(at::b(2), pdiv), (at::c(2), 7 - pdiv)]);
    }
}

/// Each USB source and divider; DLL2 on and off, with the core on DBL96.
fn usb(list: &mut CallLines) {
    for divider in 0..8 {
        for source in 0..2 {
            let changes = [(at::c(7), source), (at::c(8), divider)];
            add_with(list, buffer(&busy(), 0), &changes);
        }
    }
    for (dll2, divider) in dlls(&STAGES).into_iter().zip((0..8).cycle()) {
        if dll2[2] % 3 == 0 {
            let changes = [(at::c(7), 1), (at::c(8), divider), (at::c(1), 2)];
            let mut buffer = with(buffer(&busy(), 0), &changes);
            put_register(&mut buffer, 4, dll2);
            list.read(&buffer);
        }
    }
}

/// Both flash selects on DLLs that are on and off; peripheral and low-power
/// select.
fn selects(list: &mut CallLines) {
    for setting in 0..16 {
        for dlls_on in [3, setting % 3] {
            let changes = [
                (at::b(5), setting % 4),
                (at::c(5), setting / 4),
                (at::a(3), dlls_on % 2),
                (at::a(4), dlls_on / 2),
                (at::c(6), setting % 2),
                (at::c(10), setting / 2 % 2),
            ];
            add_with(list, buffer(&busy(), 0), &changes);
        }
    }
}

/// LPSYS selects with each set of ready flags; dividers.
fn lpsys(list: &mut CallLines) {
    for selects in 0..4 {
        for flags in 0..8 {
            let sources = [(at::c(25), selects % 2), (at::c(27), selects / 2)];
            let mut buffer = with(buffer(&busy(), 0), &sources);
            put_flags(&mut buffer, flags);
            list.read(&buffer);
        }
    }
    for (index, hdiv1) in (0..).zip(DIVIDERS) {
        let pdivs = [(at::b(26), index % 8), (at::c(26), 7 - index % 8)];
        let good = with(buffer(&busy(), 0), &pdivs);
        add_with(list, good, &[(at::a(26), hdiv1)]);
        add_with(list, good, &[(at::a(26), hdiv1), (at::b(34), hdiv1)]);
    }
}

/// Buffers of other lengths.
fn lengths(list: &mut CallLines) {
    for length in [
        0, 1, 2, 3, 20, 109, 110, 111, 112, 120, 254, 256, 257, LONGEST,
    ] {
        for head in [plain(), with_tasks(busy(), MOST_TASKS)] {
            let mut bytes = buffer(&head, 0).to_vec();
            bytes.resize(length, 0);
            list.read(&bytes);
        }
    }
    list.read(&[0; BUFFER]);
    list.read(&[255; BUFFER]);
}

/// Length fields, counts and versions.
fn counts(list: &mut CallLines) {
    let good = buffer(&with_tasks(plain(), MOST_TASKS), 0);
    for count in [0, 1, 15, 16, 17, 27, 28, 128, 255] {
        let fitting = (109 + TASK * count) as u16;
        for length in [
            fitting,
            fitting - 1,
            fitting + 1,
            fitting + 9,
            fitting ^ 256,
        ] {
            let mut buffer = with(good, &[(at::COUNT, count as u8)]);
            put_length(&mut buffer, length);
            list.read(&buffer);
        }
    }
    for (version, count) in [0, 2, 3, 128, 129, 255]
        .into_iter()
        .zip([0, 1, 2, 3, 7, 16])
    {
        let head = with_tasks(busy(), count);
        for rest in [0, 1, 0x55, 0xFF] {
            add_with(list, buffer(&head, rest), &[(at::VERSION, version)]);
        }
    }
}

/// Every byte of a register one above its largest value, and flags.
fn codes(list: &mut CallLines) {
    let good = buffer(&with_tasks(busy(), 1), 0);
    for (number, largest) in (1..).zip(LARGEST) {
        for (index, most) in (at::a(number)..).zip(largest) {
            if let Some(byte) = most.checked_add(1) {
                add_with(list, good, &[(index, byte)]);
            }
        }
    }
    for index in at::FLAGS..at::FLAGS + 3 {
        for byte in [2, 255] {
            add_with(list, good, &[(index, byte)]);
        }
    }
}

/// Tasks at the first, a middle and the last place, and past it.
fn tasks(list: &mut CallLines) {
    let good = buffer(&with_tasks(busy(), 7), 0);
    for index in [0, 3, 6, 7] {
        add_with(list, good, &[(task(index), 0)]);
        add_with(list, good, &[(task(index), 255)]);
        for cycles in [0, 1, 256, u32::MAX] {
            let mut buffer = good;
            put_cycles(&mut buffer, index, cycles);
            list.read(&buffer);
        }
        for period in [0, 1, LONGEST_PERIOD, LONGEST_PERIOD + 1, u32::MAX] {
            let mut buffer = good;
            put_period(&mut buffer, index, period);
            list.read(&buffer);
        }
    }
    for (first, second) in [(0, 1), (0, 6), (2, 4), (5, 6), (6, 7)] {
        add_with(list, good, &[(task(first), 99), (task(second), 99)]);
    }
    let full = buffer(&with_tasks(busy(), MOST_TASKS), 0);
    for (first, second) in [(0, 15), (14, 15), (7, 8)] {
        add_with(list, full, &[(task(first), 255), (task(second), 255)]);
    }
}

/// 1 comes before 2, 2 before 3.
fn orders(list: &mut CallLines) {
    let good = buffer(&with_tasks(plain(), 2), 0);
    let length = (1, 1);
    let version = (at::VERSION, 0);
    for code in [(at::c(1), 4), (at::FLAGS, 2), (task(1), 0)] {
        add_with(list, good, &[version, code]);
        add_with(list, good, &[length, code]);
        add_with(list, good, &[length, version, code]);
    }
    add_with(list, good, &[length, version]);
}

fn random(list: &mut CallLines) {
    let mut random = Random::new(0xA116);
    for _ in 0..RANDOM {
        list.read(&likely(&mut random));
        list.read(&damaged(&mut random));
        list.read(&garbage(&mut random));
    }
}
