//! Load checks, bookings, releases and look-ups to record, with the answers of documents
//! 01 and 02.

use crate::heads::{Buffer, buffer, busy, damaged, garbage, plain, put_length, task, with};
use crate::record::{CallLines, write_calls};
use crate::task_inputs::{
    self, Order, any_past, cores, damaged_list, light_list, near_limit, random_head, random_id,
    random_list, random_task, with_light_tasks,
};
use sifli::calls::of_tasks;
use sifli::head::{BUFFER, Head, LONGEST_PERIOD, MOST_TASKS, TASK, Task, at, decode};
use sifli::query::{Id, Query};
use sifli::random::Random;
use std::io;
use std::path::Path;

/// Random inputs of each call; half as many damaged ones.
const RANDOM: usize = 28;

/// An id that no systematic head has.
const NEW: u8 = 200;

pub fn write(directory: &Path) -> io::Result<()> {
    write_calls(directory, of_tasks(), 1, |list| match list.call.id {
        Id::LoadCheck => load_checks(list),
        Id::Book => bookings(list),
        Id::Release => releases(list),
        _ => look_ups(list),
    })
}

fn load_checks(list: &mut CallLines) {
    loads(list);
    lengths(list);
    refused_lists(list);
    random_lists(list);
}

fn bookings(list: &mut CallLines) {
    document_01(list);
    core_clocks(list);
    booked(list);
    bookings_refused(list);
    refused_heads(list, Order::Book(light(NEW)));
    random_heads(list, 0xB00D, |random, head| {
        Order::Book(random_task(random, head))
    });
}

fn releases(list: &mut CallLines) {
    booked_ids(list, Order::Release);
    unknown_ids(list, Order::Release, &UNKNOWN);
    refused_heads(list, Order::Release(1));
    random_heads(list, 0x4E1F, |random, head| {
        Order::Release(random_id(random, head))
    });
}

fn look_ups(list: &mut CallLines) {
    booked_ids(list, Order::LookUp);
    unknown_ids(list, Order::LookUp, &UNKNOWN);
    let next: Vec<_> = (0..=MOST_TASKS)
        .map(|count| (count, count as u8 + 1))
        .collect();
    unknown_ids(list, Order::LookUp, &next);
    refused_heads(list, Order::LookUp(1));
    random_heads(list, 0x100C, |random, head| {
        Order::LookUp(random_id(random, head))
    });
}

fn ordered(list: &mut CallLines, order: Order, bytes: &[u8]) {
    list.add(&order.on(bytes));
}

fn check(list: &mut CallLines, bytes: &[u8]) {
    list.add(&Query::on(list.call, bytes));
}

fn check_tasks(list: &mut CallLines, tasks: &[Task]) {
    check(list, &task_inputs::list(tasks));
}

const fn of(id: u8, cycles: u32, period_us: u32) -> Task {
    Task {
        id,
        cycles,
        period_us,
    }
}

/// A task that fits beside all light tasks.
const fn light(id: u8) -> Task {
    of(id, 0x01_0203, LONGEST_PERIOD - 1)
}

/// Every count; shares at their limits and that are rounded; the largest sums.
fn loads(list: &mut CallLines) {
    check_tasks(list, &[of(1, 120_000, 1_000), of(2, 80_000, 1_000)]);
    check_tasks(
        list,
        &[
            of(1, 120_000, 1_000),
            of(2, 80_000, 1_000),
            of(3, 40_000, 1_000),
        ],
    );
    check_tasks(
        list,
        &[
            of(1, 120_000, 1_000),
            of(2, 80_000, 1_000),
            of(3, 64_000, 1_000),
        ],
    );
    for count in 0..=MOST_TASKS {
        check(list, &light_list(count));
    }
    let cycles = [1, 2, 10, 11, 65_536, 999_999, 1_000_001, u32::MAX];
    let periods = [1, 3, 1_000, 999_999, 1_000_000, LONGEST_PERIOD];
    for (index, cycles) in cycles.into_iter().enumerate() {
        for period in periods.into_iter().skip(index % 2).step_by(2) {
            check_tasks(list, &[of(255 - index as u8, cycles, period)]);
        }
    }
    for (cycles, period) in [(u32::MAX, 1), (1, 3), (268_435_456, 1_000_000)] {
        let tasks: Vec<Task> = (1..=16).map(|id| of(id, cycles, period)).collect();
        check_tasks(list, &tasks);
        check_tasks(list, &tasks[..15]);
    }
}

/// Lists that are not nine each, and that have more than sixteen tasks.
fn lengths(list: &mut CallLines) {
    let good = light_list(20);
    for length in [1, 8, 10, 17, 135 + 8, 144 + 1, 144 + 8, 153 + 1, 180 - 1] {
        check(list, &good[..length]);
    }
    for count in [17, 18, 20] {
        check(list, &good[..TASK * count]);
    }
    check(list, &[0; 17 * TASK]);
    check(list, &[0; 17 * TASK + 1]);
}

/// 16 and 40 at several places, and both.
fn refused_lists(list: &mut CallLines) {
    let tasks = |count| -> Vec<Task> {
        let bytes = light_list(count);
        bytes.chunks_exact(TASK).map(Task::decode).collect()
    };
    let bad = [
        of(0, 1, 1),
        of(9, 0, 1),
        of(9, 1, 0),
        of(9, 1, LONGEST_PERIOD + 1),
        of(9, 1, u32::MAX),
        of(0, 0, 0),
    ];
    for (index, bad) in bad.into_iter().enumerate() {
        for (count, place) in [(1, 0), (2 + index, index), (MOST_TASKS, MOST_TASKS - 1)] {
            let mut tasks = tasks(count);
            tasks[place] = bad;
            check_tasks(list, &tasks);
        }
    }
    for (count, first, second) in [
        (2, 0, 1),
        (3, 0, 2),
        (3, 1, 2),
        (16, 0, 15),
        (16, 14, 15),
        (16, 7, 8),
    ] {
        let mut tasks = tasks(count);
        tasks[second].id = tasks[first].id;
        check_tasks(list, &tasks);
        if count > 2 {
            tasks[second / 2].cycles = 0;
            check_tasks(list, &tasks);
        }
    }
    let mut tasks = tasks(17);
    tasks[1] = of(1, 0, 0);
    check_tasks(list, &tasks);
}

fn random_lists(list: &mut CallLines) {
    let mut random = Random::new(0x10AE);
    for _ in 0..RANDOM {
        check(list, &random_list(&mut random));
    }
    for _ in 0..RANDOM / 2 {
        check(list, &damaged_list(&mut random));
    }
}

/// The case of document 01 at 240 MHz, and the same booking on a slower core.
fn document_01(list: &mut CallLines) {
    let mut head = busy();
    let first = of(1, 120_000, 1_000);
    let second = of(2, 80_000, 1_000);
    ordered(list, Order::Book(first), &buffer(&head, 0));
    head.tasks = vec![first];
    ordered(list, Order::Book(second), &buffer(&head, 0));
    head.tasks = vec![first, second];
    for cycles in [40_000, 64_000, 40_001] {
        ordered(list, Order::Book(of(3, cycles, 1_000)), &buffer(&head, 0));
    }
    ordered(list, Order::Book(first), &buffer(&plain(), 0));
    ordered(
        list,
        Order::Book(of(1, 1, LONGEST_PERIOD)),
        &buffer(&Head::default(), 0),
    );
}

/// Every mode: a task that just fits, one that just does not, and one whose
/// share is only rounded up to what is left.
fn core_clocks(list: &mut CallLines) {
    for (index, core) in cores().into_iter().enumerate() {
        let head = with_light_tasks(core, index % 4);
        let buffer = buffer(&head, 0xEE);
        let period = [1_000_000, 3_333_333, LONGEST_PERIOD][index % 3];
        for task in near_limit(&head, NEW, &[period]).into_iter().skip(1) {
            ordered(list, Order::Book(task), &buffer);
        }
    }
    let mut head = plain();
    head.tasks = vec![of(9, 1, 3)];
    for cycles in [48_000_000 - 333_334, 48_000_000 - 333_333] {
        let order = Order::Book(of(NEW, cycles, 1_000_000));
        ordered(list, order, &buffer(&head, 0));
    }
    head.tasks = vec![of(9, u32::MAX, 1)];
    ordered(list, Order::Book(light(NEW)), &buffer(&head, 0));
}

/// A booking at every count, with several bytes past the record.
fn booked(list: &mut CallLines) {
    for count in 0..=MOST_TASKS {
        let rest = if count % 2 == 0 { 0xEE } else { 0 };
        let buffer = buffer(&with_light_tasks(busy(), count), rest);
        ordered(list, Order::Book(light(NEW)), &buffer);
    }
    for (id, cycles, period) in [
        (255, 1, 1),
        (17, 0x0102_0304, LONGEST_PERIOD),
        (100, 240, 1),
    ] {
        let buffer = buffer(&with_light_tasks(plain(), 1), 0x5A);
        ordered(list, Order::Book(of(id, cycles, period)), &buffer);
    }
}

/// 16, 40, 41, 34 and 39, each where those after it would refuse too.
fn bookings_refused(list: &mut CallLines) {
    let two = buffer(&with_light_tasks(busy(), 2), 0);
    for bad in [
        of(0, 1, 1_000),
        of(3, 0, 1_000),
        of(3, 1, 0),
        of(3, 1, LONGEST_PERIOD + 1),
        of(3, 1, u32::MAX),
        of(1, 0, 0),
    ] {
        ordered(list, Order::Book(bad), &two);
    }
    let mut unreadable = busy();
    unreadable.registers[1] = 2;
    let full = buffer(&with_light_tasks(unreadable.clone(), MOST_TASKS), 0);
    let room = buffer(&with_light_tasks(unreadable, MOST_TASKS - 1), 0);
    let heavy = |id| Order::Book(of(id, u32::MAX, 1));
    ordered(list, Order::Book(of(7, 0, 1)), &full);
    for id in [1, 8, 16] {
        ordered(list, heavy(id), &full);
    }
    ordered(list, heavy(17), &full);
    ordered(list, heavy(15), &room);
    ordered(list, heavy(16), &room);
    ordered(list, Order::Book(light(16)), &room);
    ordered(list, heavy(3), &two);
    ordered(list, heavy(2), &two);
}

/// The head's refusals.
fn refused_heads(list: &mut CallLines, order: Order) {
    let good = buffer(&with_light_tasks(plain(), 3), 0);
    let mut add = |changes: &[(usize, u8)]| ordered(list, order, &with(good, changes));
    add(&[(at::COUNT, 4)]);
    add(&[(at::COUNT, 17)]);
    add(&[(1, 0)]);
    add(&[(at::VERSION, 2), (at::c(1), 4)]);
    add(&[(at::VERSION, 0)]);
    add(&[(at::c(1), 4)]);
    add(&[(at::FLAGS, 2)]);
    add(&[(task(2), 1)]);
    add(&[(task(1), 0)]);
    add(&[(task(2) + 5, 1)]);
    ordered(list, order, &good[..BUFFER - 1]);
    ordered(list, order, &[]);
}

/// Every place of one, two, three and sixteen tasks, and the first and the last
/// of the other counts, with several bytes past the record.
fn booked_ids(list: &mut CallLines, order: fn(u8) -> Order) {
    for count in 1..=MOST_TASKS as u8 {
        let rest = if count % 2 == 0 { 0 } else { 0xEE };
        let buffer = buffer(&with_light_tasks(busy(), count.into()), rest);
        for id in 1..=count {
            if matches!(count, 1..=3 | 16) || id == 1 || id == count {
                ordered(list, order(id), &buffer);
            }
        }
    }
    let mut unreadable = with_light_tasks(plain(), 2);
    unreadable.registers[1] = 2;
    unreadable.tasks[0] = of(255, u32::MAX, 1);
    ordered(list, order(255), &buffer(&unreadable, 0));
}

/// Counts of tasks, and ids that none of them has.
const UNKNOWN: [(usize, u8); 8] = [
    (0, 1),
    (0, 0),
    (2, 0),
    (2, 3),
    (2, 255),
    (15, 16),
    (16, 17),
    (16, 0),
];

/// Past the record stand tasks with the ids that follow.
fn unknown_ids(list: &mut CallLines, order: fn(u8) -> Order, unknown: &[(usize, u8)]) {
    for &(count, id) in unknown {
        let mut buffer: Buffer = buffer(&with_light_tasks(plain(), MOST_TASKS), 0);
        buffer[at::COUNT] = count as u8;
        put_length(&mut buffer, 109 + (TASK * count) as u16);
        ordered(list, order(id), &buffer);
    }
}

fn random_heads(list: &mut CallLines, seed: u64, order: impl Fn(&mut Random, &Head) -> Order) {
    let mut random = Random::new(seed);
    for _ in 0..RANDOM {
        let head = random_head(&mut random);
        let buffer = any_past(&mut random, &head);
        ordered(list, order(&mut random, &head), &buffer);
    }
    for index in 0..RANDOM / 2 {
        let bytes = match index % 4 {
            0 => garbage(&mut random),
            _ => damaged(&mut random).to_vec(),
        };
        let head = decode(&bytes).unwrap_or_default();
        ordered(list, order(&mut random, &head), &bytes);
    }
}
