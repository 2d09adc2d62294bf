//! Groups of booking, release and look-up: buffers that are refused, and their
//! neighbours that are not.

use crate::compare_booking::compare;
use crate::groups::Groups;
use crate::heads::{LONGEST, buffer, busy, put_length, task, with};
use crate::tally::Tally;
use crate::task_inputs::{Order, with_light_tasks};
use sifli::head::{BUFFER, MOST_TASKS, TASK, at};

pub fn run(groups: &mut Groups, orders: &[Order], quick: bool) {
    groups.group("one byte changed", |tally| {
        one_byte_changed(tally, orders[0], quick)
    });
    groups.group("buffer lengths 0 to 300", |tally| lengths(tally, orders));
    groups.group("task counts and length fields", |tally| {
        counts_and_lengths(tally, orders)
    });
    groups.group("order of refusals", |tally| refusals(tally, orders));
}

/// Every byte of the buffer at every value, on heads with 1 and 15 tasks, in the
/// full run with 0, 7 and 16 too.
fn one_byte_changed(tally: &mut Tally, order: Order, quick: bool) {
    let counts = [1, MOST_TASKS - 1, 7, 0, MOST_TASKS];
    let counts = if quick { &counts[..2] } else { &counts };
    for &count in counts {
        let good = buffer(&with_light_tasks(busy(), count), 0);
        for index in 0..BUFFER {
            for byte in 0..=255 {
                compare(tally, order, &with(good, &[(index, byte)]));
            }
        }
    }
}

/// Buffers of every length: heads cut short or with zeros after them, zeros and
/// 255s; and lengths that are 255 in their low 8 or 16 bits.
fn lengths(tally: &mut Tally, orders: &[Order]) {
    for &order in orders {
        for length in (0..=LONGEST).chain([511, 767, 65_535, 65_536 + BUFFER]) {
            compare(tally, order, &vec![0; length]);
            compare(tally, order, &vec![255; length]);
            for count in [0, 1, 2, MOST_TASKS - 1, MOST_TASKS] {
                let mut bytes = buffer(&with_light_tasks(busy(), count), 0).to_vec();
                bytes.resize(length, 0);
                compare(tally, order, &bytes);
            }
        }
    }
}

/// Every count, with the length field that fits it and with others, and with
/// versions 1 and 2. Tasks stand at all 16 places.
fn counts_and_lengths(tally: &mut Tally, orders: &[Order]) {
    let mut buffer = buffer(&with_light_tasks(busy(), MOST_TASKS), 0);
    for count in 0..=255u8 {
        buffer[at::COUNT] = count;
        let fitting = 109 + TASK as u16 * u16::from(count);
        let around = [fitting, fitting - 1, fitting + 1, fitting - 9, fitting + 9];
        for length in around.into_iter().chain([0, 109, 253, fitting ^ 256]) {
            put_length(&mut buffer, length);
            for version in [2, 1] {
                buffer[at::VERSION] = version;
                for &order in orders {
                    compare(tally, order, &buffer);
                }
            }
        }
    }
}

/// Every choice among ten faults, two of them of tasks and two that only a
/// booking minds, on buffers of 254, 255 and 256 bytes.
fn refusals(tally: &mut Tally, orders: &[Order]) {
    const FAULTS: [&[(usize, u8)]; 10] = [
        &[(0, 1)],
        &[(at::VERSION, 2)],
        &[(at::a(34), 1)],
        &[(at::FLAGS + 2, 2)],
        &[(task(0) + 1, 0), (task(0) + 3, 0), (task(0) + 4, 0)],
        &[(task(1), 3)],
        &[(task(2) + 5, 1)],
        // HCLK does not read; it carries nothing more; a count of 16.
        &[(at::c(1), 2)],
        &[(task(2) + 1, 255), (task(2) + 6, 0)],
        &[(at::COUNT, 16), (1, 253)],
    ];
    let mut good = buffer(&with_light_tasks(busy(), MOST_TASKS), 0);
    good[at::COUNT] = 3;
    put_length(&mut good, 109 + 27);
    for choice in 0..1 << FAULTS.len() {
        let mut bytes = good;
        for (bit, fault) in FAULTS.into_iter().enumerate() {
            if choice >> bit & 1 == 1 {
                bytes = with(bytes, fault);
            }
        }
        for &order in orders {
            compare(tally, order, &bytes);
            compare(tally, order, &bytes[..BUFFER - 1]);
            compare(tally, order, &[&bytes[..], &[0]].concat());
        }
    }
}
