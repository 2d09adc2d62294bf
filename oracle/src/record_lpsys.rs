//! Calls of LPSYS to record, with the refusals of the oracle's decoder and what
//! the original code does.

use crate::heads::{
    Buffer, DIVIDERS, buffer, busy, damaged, few_heads, plain, put_flags, put_register, task, with,
    with_tasks,
};
use crate::lpsys_inputs::{answers, arguments, ends, few_lists, head, ready_at};
use crate::record::{CallLines, write_calls};
use sifli::calls::lpsys;
use sifli::head::{BUFFER, at};
use sifli::query::Query;
use sifli::random::Random;
use std::io;
use std::path::Path;

/// The most answers in a line, which keeps it below 2,000 characters.
const MOST_ANSWERS: usize = 100;

pub fn write(directory: &Path) -> io::Result<()> {
    write_calls(directory, lpsys(), 1, |list| {
        if list.call.refusals.contains(&15) {
            requests(list);
        }
        clocks(list);
        ends_of_arguments(list);
        waits(list);
        wake_counts(list);
        refused(list);
        random(list);
    })
}

fn add(list: &mut CallLines, head: &[u8], arguments: [u32; 3], answers: &[u16]) {
    list.add(&Query {
        arguments,
        answers,
        ..Query::on(list.call, head)
    });
}

/// With the first arguments that are not refused, and enough answers.
fn add_plain(list: &mut CallLines, head: &[u8]) {
    let mut arguments = [0; 3];
    for (value, argument) in arguments.iter_mut().zip(list.call.arguments) {
        *value = argument.ends[1];
    }
    let lists = few_lists(list.call);
    add(list, head, arguments, &lists[lists.len() - 1]);
}

/// LPSYS on S at 48 MHz, and on D at 24 MHz, all requests at turns of the
/// divider.
fn requests(list: &mut CallLines) {
    let fast = with(buffer(&plain(), 0), &[(at::c(28), 1)]);
    let slow = with(buffer(&busy(), 0), &[(at::a(26), 2)]);
    let requests = [20, 1, 2, 6, 7, 12, 16, 23, 24, 25, 26, 47, 48, 0, 49];
    for request in requests {
        add(list, &fast, [request, 0, 0], &[]);
        add(list, &slow, [request, 0, 0], &[]);
    }
    for request in [50, 60, 256 + 24, 65_536 + 24, 4295, 1 << 31, u32::MAX] {
        add(list, &slow, [request, 0, 0], &[]);
    }
    for (index, hdiv1) in (0..).zip(DIVIDERS) {
        let mut buffer = slow;
        put_register(&mut buffer, 26, [hdiv1, index % 8, 7 - index % 8]);
        for request in [24, 25] {
            add(list, &buffer, [request, 0, 0], &[]);
        }
    }
    for (core, flags) in [(0, 7), (0, 5), (1, 6), (2, 7), (3, 7), (3, 2), (0, 0)] {
        let mut buffer = with(slow, &[(at::c(1), core), (at::c(25), 0)]);
        put_flags(&mut buffer, flags);
        add(list, &buffer, [48, 0, 0], &[]);
        add(list, &with(buffer, &[(at::a(3), 0)]), [48, 0, 0], &[]);
    }
}

/// For calls that read LPSYS HCLK: LPSYS select with each pair of ready flags,
/// and a divider.
fn clocks(list: &mut CallLines) {
    if !list
        .call
        .refusals
        .iter()
        .any(|refusal| matches!(refusal, 15 | 43))
    {
        return;
    }
    for setting in 0..8 {
        let select = [(at::c(25), setting % 2), (at::a(26), setting / 4 * 3)];
        let mut buffer = with(buffer(&busy(), 0), &select);
        put_flags(&mut buffer, setting / 2);
        add_plain(list, &buffer);
    }
}

/// The arguments at their ends: each choice, or every fifth of many.
fn ends_of_arguments(list: &mut CallLines) {
    let (arguments, heads) = (ends(list.call), few_heads());
    let step = if arguments.len() > 16 { 5 } else { 1 };
    for (arguments, head) in arguments
        .into_iter()
        .step_by(step)
        .zip(heads.iter().cycle())
    {
        add(list, head, arguments, &[]);
    }
}

/// Waits that end at several places, and that do not, with one and with both
/// HXT48 flags at 0; delays on several core clocks.
fn waits(list: &mut CallLines) {
    if !list.call.is_lent_answers {
        return;
    }
    let lists = [
        vec![],
        vec![0],
        vec![1],
        vec![0x0100, 0x8000],
        vec![0, 0, 1, 0, 0, 0, 2, 0],
        ready_at(30, &[29], 1),
        ready_at(MOST_ANSWERS, &[40, MOST_ANSWERS - 1], 0xFFFF),
        vec![0; MOST_ANSWERS],
    ];
    for answers in lists {
        for flags in [2, if answers.len() % 2 == 0 { 3 } else { 6 }] {
            let mut buffer = buffer(&busy(), 0);
            put_flags(&mut buffer, flags);
            add(list, &buffer, [0; 3], &answers);
        }
    }
    for (core, dll1) in [(0, 1), (1, 1), (2, 1), (3, 0)] {
        let core = [(at::c(1), core), (at::a(3), dll1)];
        add_plain(list, &with(buffer(&busy(), 0), &core));
    }
}

fn wake_counts(list: &mut CallLines) {
    for (count, request) in [(0, 0), (1, 1), (2, 1), (255, 0)] {
        let changes = [(at::WAKE_COUNT, count), (at::c(33), request)];
        add_plain(list, &with(buffer(&plain(), 0xEE), &changes));
    }
}

/// The head's refusals.
fn refused(list: &mut CallLines) {
    let good = buffer(&with_tasks(plain(), 2), 0);
    add_plain(list, &good[..BUFFER - 1]);
    let mut add = |changes: &[(usize, u8)]| add_plain(list, &with(good, changes));
    add(&[(at::COUNT, 3)]);
    add(&[(at::VERSION, 2), (at::c(1), 4)]);
    add(&[(at::c(34), 1), (at::a(34), 1)]);
    add(&[(task(1), 1)]);
}

fn random(list: &mut CallLines) {
    let mut random = Random::new(0xA117);
    for index in 0..6 {
        let head: Buffer = match index {
            0 => damaged(&mut random),
            _ => head(&mut random),
        };
        let mut answers = answers(&mut random, list.call);
        answers.truncate(MOST_ANSWERS);
        add(list, &head, arguments(&mut random, list.call), &answers);
    }
}
