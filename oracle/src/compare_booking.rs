//! Groups of booking, release and look-up.

use crate::compare::Extent;
use crate::compare_booking_refused;
use crate::groups::{Groups, Number, Report};
use crate::heads::{
    Buffer, DIVIDERS, buffer, busy, damaged_or_any, dlls, plain, put_flags, put_register, task,
    with, with_tasks,
};
use crate::ours::ours;
use crate::plans::STAGES;
use crate::tally::Tally;
use crate::task_inputs::{
    Order, all_cycles, all_periods, any_past, cores, near_limit, near_limits, random_head,
    random_id, random_task, with_light_tasks,
};
use sifli::head::{Head, LONGEST_PERIOD, MOST_TASKS, TASK, Task, at, decode};
use sifli::lent::Left;
use sifli::query::{Id, Query, call};
use sifli::random::Random;

const RANDOM: Number = Number::new(1_500_000, 300_000);
const DAMAGED: Number = Number::new(600_000, 80_000);
const LISTS: Number = Number::new(400_000, 40_000);

/// The bookings and releases of one list.
const ORDERS: usize = 40;

/// An id that no head of the systematic groups has.
const NEW: u8 = 200;

/// A task that fits beside all light tasks.
const LIGHT: Task = Task {
    id: NEW,
    cycles: 0x01_0203,
    period_us: LONGEST_PERIOD - 1,
};

/// A task that fits no HCLK.
const HEAVY: Task = Task {
    id: NEW,
    cycles: u32::MAX,
    period_us: 1,
};

pub fn book(extent: Extent) -> Report {
    let quick = extent.quick;
    let mut groups = Groups::ruled("book", extent);
    groups.group("core clocks", |tally| core_clocks(tally, quick));
    groups.group("loads near HCLK", loads_near_hclk);
    groups.group("shares that round up", shares_that_round_up);
    groups.group("arguments", arguments);
    groups.group("ids", |tally| {
        let bookings = [LIGHT, HEAVY];
        every_id(tally, |id| {
            bookings.map(|task| Order::Book(Task { id, ..task }))
        });
    });
    let few = [
        LIGHT,
        HEAVY,
        Task { id: 1, ..LIGHT },
        Task { id: 0, ..LIGHT },
    ];
    compare_booking_refused::run(&mut groups, &few.map(Order::Book), quick);
    let draw = |random: &mut Random, head: &Head| Order::Book(random_task(random, head));
    random_groups(&mut groups, draw);
    groups.finish(call(Id::Book).refusals)
}

pub fn release(extent: Extent) -> Report {
    let mut groups = Groups::ruled("release", extent);
    groups.group("ids", |tally| every_id(tally, |id| [Order::Release(id)]));
    groups.group("places", |tally| places(tally, Order::Release));
    let few = [1, 2, 16, 0].map(Order::Release);
    compare_booking_refused::run(&mut groups, &few, extent.quick);
    let draw = |random: &mut Random, head: &Head| Order::Release(random_id(random, head));
    random_groups(&mut groups, draw);
    groups.finish(call(Id::Release).refusals)
}

pub fn look_up(extent: Extent) -> Report {
    let mut groups = Groups::requested("look_up", extent);
    groups.group("ids", |tally| every_id(tally, |id| [Order::LookUp(id)]));
    groups.group("places", |tally| places(tally, Order::LookUp));
    let few = [1, 2, 16, 0].map(Order::LookUp);
    compare_booking_refused::run(&mut groups, &few, extent.quick);
    let draw = |random: &mut Random, head: &Head| Order::LookUp(random_id(random, head));
    random_groups(&mut groups, draw);
    let call = call(Id::LookUp);
    groups.finish(call.refusals).with_values(call.values)
}

pub fn compare(tally: &mut Tally, order: Order, bytes: &[u8]) {
    let query = order.on(bytes);
    let (_, is_alike) = tally.compare(&query);
    if is_alike && query.call.id == Id::LookUp {
        tally.hold(&query, is_found_alike, "release or booking finds otherwise");
    }
}

/// Whether a look-up hits just where a release of the id is not 42 and a booking of it
/// is 40, or all three refuse the head alike: of the library, and of what is wanted.
fn is_found_alike(query: &Query) -> bool {
    let id = query.task().id;
    let sides: [fn(&Query) -> Left; 2] = [ours, |query| query.wanted()];
    sides.into_iter().all(|side| {
        let refusal = |order: Order| side(&order.on(query.bytes)).refusal();
        let released = refusal(Order::Release(id));
        let booked = refusal(Order::Book(Task { id, ..LIGHT }));
        let looked_up = side(query);
        match looked_up.refusal() {
            0 => {
                let is_hit = looked_up.value() % 2 == 1;
                is_hit == (released != 42) && is_hit == (booked == 40)
            }
            refusal => [released, booked] == [refusal; 2],
        }
    })
}

/// The random groups of one sort of order.
fn random_groups(groups: &mut Groups, draw: impl Fn(&mut Random, &Head) -> Order) {
    groups.random("damaged heads", DAMAGED, |tally, random| {
        let bytes = damaged_or_any(random);
        let head = decode(&bytes).unwrap_or_default();
        compare(tally, draw(random, &head), &bytes);
    });
    groups.random("lists of calls", LISTS, |tally, random| {
        list(tally, random, &draw)
    });
    groups.random("random heads", RANDOM, |tally, random| {
        let head = random_head(random);
        let buffer = any_past(random, &head);
        compare(tally, draw(random, &head), &buffer);
    });
}

/// Core select, DLL1, ready flags and some hdivs, in the full run with all flags
/// 1 every hdiv: tasks that just fit HCLK, and that just do not.
fn core_clocks(tally: &mut Tally, quick: bool) {
    let every: Vec<u8> = (0..=255).collect();
    for select in 0..4 {
        for dll1 in dlls(&STAGES) {
            for flags in 0..8 {
                let mut buffer = with(buffer(&plain(), 0xEE), &[(at::c(1), select)]);
                put_register(&mut buffer, 3, dll1);
                put_flags(&mut buffer, flags);
                let hdivs = match !quick && flags == 7 {
                    true => &every,
                    false => &DIVIDERS[..],
                };
                for &hdiv in hdivs {
                    buffer[at::a(2)] = hdiv;
                    fit_or_not(tally, &buffer, &[1_000_000]);
                }
            }
        }
    }
}

/// Bookings of a new id near what HCLK has left; one that takes nothing where
/// it has nothing left.
fn fit_or_not(tally: &mut Tally, buffer: &Buffer, periods: &[u32]) {
    let head = decode(buffer).expect("a head");
    for task in near_limit(&head, NEW, periods) {
        compare(tally, Order::Book(task), buffer);
    }
    compare(tally, Order::Book(LIGHT), buffer);
}

/// Every mode with every count of tasks: what is left is reached or passed with
/// periods of all sizes; and once more with the head's last task in its way.
fn loads_near_hclk(tally: &mut Tally) {
    for core in cores() {
        for count in 0..=MOST_TASKS {
            let mut head = with_light_tasks(core.clone(), count);
            for task in near_limits(&head, NEW) {
                compare(tally, Order::Book(task), &buffer(&head, 0xEE));
            }
            let Some(last) = head.tasks.pop() else {
                continue;
            };
            for task in near_limits(&head, last.id) {
                let mut head = head.clone();
                head.tasks.push(task);
                for booking in [LIGHT, HEAVY] {
                    compare(tally, Order::Book(booking), &buffer(&head, 0));
                }
            }
        }
    }
}

/// Tasks that share HCLK evenly with a period of ten seconds, each with 0 to 10
/// cycles less: up to 9 less its share is rounded up to the same.
fn shares_that_round_up(tally: &mut Tally) {
    for core in cores() {
        let hclk = sifli::readings::hclk(&core).unwrap_or(48_000_000);
        for count in 1..=MOST_TASKS as u32 {
            for less in 0..=10 {
                let share = hclk / count;
                let cycles = |share: u32, less: u32| (10 * share).saturating_sub(less).max(1);
                let task = |id: u32, cycles: u32| Task {
                    id: id as u8,
                    cycles,
                    period_us: LONGEST_PERIOD,
                };
                let mut head = core.clone();
                head.tasks = (1..count).map(|id| task(id, cycles(share, less))).collect();
                let rest = hclk - share * (count - 1);
                for cycles in [
                    cycles(rest, less),
                    cycles(rest, 0),
                    10 * rest + 1,
                    10 * rest + 10,
                ] {
                    let order = Order::Book(task(count, cycles));
                    compare(tally, order, &buffer(&head, 0));
                }
            }
        }
    }
}

/// Cycles with periods, both at and around their limits, on heads with 0, 1, 15
/// and 16 tasks.
fn arguments(tally: &mut Tally) {
    for count in [0, 1, MOST_TASKS - 1, MOST_TASKS] {
        let buffer = buffer(&with_light_tasks(busy(), count), 0xEE);
        for cycles in all_cycles() {
            for period_us in all_periods() {
                let task = Task {
                    id: NEW,
                    cycles,
                    period_us,
                };
                compare(tally, Order::Book(task), &buffer);
            }
        }
    }
}

/// Every id on heads with every count of tasks, whose ids are 1 on, 255 down,
/// and far apart; on 48 MHz, and where HCLK does not read.
fn every_id<const N: usize>(tally: &mut Tally, orders: impl Fn(u8) -> [Order; N]) {
    let id = [
        |place: u8| 1 + place,
        |place: u8| 255 - place,
        |place: u8| 8 + 16 * (place % 15) + place / 15,
    ];
    for count in 0..=MOST_TASKS {
        for id in id {
            for select in [1, 2] {
                let mut head = with_light_tasks(plain(), count);
                head.registers[1] = select;
                for (place, task) in (0..).zip(&mut head.tasks) {
                    task.id = id(place);
                }
                for id in 0..=255 {
                    for order in orders(id) {
                        compare(tally, order, &buffer(&head, id ^ 0x5A));
                    }
                }
            }
        }
    }
}

/// Every place of every count, with any bytes in all tasks and past them.
fn places(tally: &mut Tally, order: fn(u8) -> Order) {
    let mut random = Random::new(0x97AC);
    for _ in 0..20 {
        for count in 0..=MOST_TASKS {
            let head = with_tasks(random_head(&mut random), count);
            let mut buffer = any_past(&mut random, &head);
            for index in 0..count {
                let at = task(index);
                buffer[at + 1..at + 5].fill_with(|| 1 + random.up_to(254));
                buffer[at + 6..at + TASK].fill_with(|| 1 + random.up_to(127));
            }
            for id in 0..=MOST_TASKS as u8 + 1 {
                compare(tally, order(id), &buffer);
            }
        }
    }
}

/// Orders of one sort on the buffers that bookings and releases leave one after the
/// other.
fn list(tally: &mut Tally, random: &mut Random, draw: impl Fn(&mut Random, &Head) -> Order) {
    let head = random_head(random);
    let mut bytes = any_past(random, &head).to_vec();
    let releases = random.pick(&[2, 3, 6]);
    for _ in 0..ORDERS {
        let head = decode(&bytes).expect("a head");
        let other = match random.once_in(releases) {
            true => Order::Release(random_id(random, &head)),
            false => Order::Book(random_task(random, &head)),
        };
        compare(tally, draw(random, &head), &bytes);
        bytes = other.on(&bytes).wanted().bytes().to_vec();
    }
}
