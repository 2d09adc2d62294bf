//! Tasks, lists of tasks, and heads with tasks, for load check, booking, release and
//! look-up.

use crate::heads::{Buffer, buffer, likely, plain, put_register, with};
use sifli::head::{BUFFER, Head, LONGEST_PERIOD, MOST_TASKS, TASK, Task, at, decode};
use sifli::query::{Id, Query, call};
use sifli::random::Random;
use sifli::{readings, tasks};

/// Room for lists longer than the longest: 17 tasks and more.
pub const LONGEST: usize = 300;

/// Microseconds in a second: the period whose share is its cycles.
const SECOND: u32 = 1_000_000;

/// Periods on both sides of a second: with a longer one every share can be had.
const PERIODS: [u32; 12] = [
    1,
    3,
    7,
    999,
    1_000,
    65_536,
    SECOND - 1,
    SECOND,
    SECOND + 1,
    3_333_333,
    LONGEST_PERIOD - 1,
    LONGEST_PERIOD,
];

/// Steps by which the first 16 ids, from any id on, are all different.
const STEPS: [usize; 6] = [1, 2, 7, 127, 128, 254];

/// A booking, or a release or a look-up of an id.
#[derive(Clone, Copy)]
pub enum Order {
    Book(Task),
    Release(u8),
    LookUp(u8),
}

impl Order {
    pub fn on(self, buffer: &[u8]) -> Query<'_> {
        let (id, arguments) = match self {
            Self::Book(task) => (Id::Book, [task.id.into(), task.cycles, task.period_us]),
            Self::Release(id) => (Id::Release, [id.into(), 0, 0]),
            Self::LookUp(id) => (Id::LookUp, [id.into(), 0, 0]),
        };
        Query {
            arguments,
            ..Query::on(call(id), buffer)
        }
    }
}

/// Cycles at their limits, and around powers of two and of ten.
pub fn all_cycles() -> Vec<u32> {
    let mut cycles = vec![0, 11, 4294, 4295, 120_000, 80_000, 40_000, 64_000, 240_000];
    cycles.extend(around_powers());
    cycles.extend([u32::MAX - 1, u32::MAX]);
    cycles
}

/// The same of periods, with those that differ from the longest in one bit.
pub fn all_periods() -> Vec<u32> {
    let mut periods = vec![0, 3, 7, 333_333, u32::MAX];
    periods.extend(around_powers());
    periods.extend((0..32).map(|bit| LONGEST_PERIOD ^ 1 << bit));
    periods
}

fn around_powers() -> impl Iterator<Item = u32> {
    let twos = (0..32).map(|bit| 1u32 << bit);
    let tens = (0..10).map(|digits| 10u32.pow(digits));
    twos.chain(tens)
        .flat_map(|power| [power - 1, power, power + 1])
}

/// Cycles with which a task of a period has nearly so large a share: just it or
/// the next smaller one, and those beside; then the fewest cycles for just it.
fn cycles_near(share: u64, period_us: u32) -> impl Iterator<Item = u32> {
    let cycles = |share: u64| share * u64::from(period_us) / u64::from(SECOND);
    let most = cycles(share);
    let near = [most.saturating_sub(1), most, most + 1];
    let fewest = cycles(share.saturating_sub(1)) + 1;
    let fits = |cycles: u64| u32::try_from(cycles).ok().filter(|&cycles| cycles > 0);
    near.into_iter().chain([fewest]).filter_map(fits)
}

/// What HCLK has left; 0 where it does not read.
pub fn room(head: &Head) -> u64 {
    let hclk = readings::hclk(head).unwrap_or(0);
    u64::from(hclk).saturating_sub(tasks::load(&head.tasks))
}

/// Tasks that just fit what is left, that just do not, and that fit easily.
pub fn near_limit(head: &Head, id: u8, periods: &[u32]) -> Vec<Task> {
    let room = room(head);
    let of = |&period_us: &u32| {
        cycles_near(room, period_us).map(move |cycles| Task {
            id,
            cycles,
            period_us,
        })
    };
    periods.iter().flat_map(of).collect()
}

/// The same with every period.
pub fn near_limits(head: &Head, id: u8) -> Vec<Task> {
    near_limit(head, id, &PERIODS)
}

/// A core select, DLL1's bytes on, half, stage, and a divider.
pub const CORES: [(u8, [u8; 3], u8); 12] = [
    (1, [0, 0, 0], 0),
    (0, [0, 0, 0], 2),
    (1, [0, 0, 0], 7),
    (3, [1, 0, 9], 1),
    (3, [1, 0, 5], 0),
    (3, [1, 1, 0], 255),
    (3, [1, 0, 15], 1),
    (3, [1, 0, 0], 1),
    (3, [1, 1, 9], 11),
    // None of these reads.
    (2, [1, 0, 9], 1),
    (3, [0, 0, 9], 1),
    (3, [0, 1, 15], 0),
];

/// Heads at each mode, and at HCLKs that are no whole MHz; then such as do not
/// read, two of them with an oscillator that is not ready.
pub fn cores() -> Vec<Head> {
    let head = |(select, dll1, hdiv): (u8, [u8; 3], u8)| {
        let mut buffer = with(buffer(&plain(), 0), &[(at::c(1), select)]);
        put_register(&mut buffer, 3, dll1);
        put_register(&mut buffer, 2, [hdiv, 1, 6]);
        decode(&buffer).expect("a head")
    };
    let mut heads: Vec<Head> = CORES.into_iter().map(head).collect();
    for select in [0, 1] {
        let mut head = plain();
        head.registers[1] = select;
        head.hrc48_ready = select == 1;
        head.hxt48_ready = select == 0;
        heads.push(head);
    }
    heads
}

/// The head with so many light tasks, ids from 1 on, no two alike in any field.
pub fn with_light_tasks(mut head: Head, count: usize) -> Head {
    let task = |index: u32| Task {
        id: 1 + index as u8,
        cycles: 0x0101 + 0x0203 * index,
        period_us: LONGEST_PERIOD - 0x01_0101 * index,
    };
    head.tasks = (0..count as u32).map(task).collect();
    head
}

/// The bytes of a list of tasks.
pub fn list(tasks: &[Task]) -> Vec<u8> {
    tasks.iter().flat_map(Task::encode).collect()
}

/// A list of so many tasks, as those of `with_light_tasks`.
pub fn light_list(count: usize) -> Vec<u8> {
    list(&with_light_tasks(Head::default(), count).tasks)
}

/// A task that 16 does not refuse.
fn legal(random: &mut Random, id: u8) -> Task {
    let cycles = random.word() as u32 >> random.below(32);
    let period_us = match random.below(4) {
        0 => random.pick(&PERIODS),
        1 => {
            let bits = random.below(23);
            1 + random.below(1 << bits) as u32
        }
        _ => 1 + random.below(LONGEST_PERIOD as usize) as u32,
    };
    Task {
        id,
        cycles: cycles.max(1),
        period_us,
    }
}

/// A task of any fields, often one that 16 refuses.
fn any(random: &mut Random, id: u8) -> Task {
    let mut task = legal(random, id);
    match random.below(6) {
        0 => task.id = 0,
        1 => task.cycles = 0,
        2 => task.period_us = 0,
        3 => task.period_us = random.pick(&[LONGEST_PERIOD, LONGEST_PERIOD + 1, u32::MAX]),
        4 => task.period_us = random.word() as u32,
        _ => {}
    }
    task
}

/// Up to 16 ids, no two alike; often none and often the most.
fn ids(random: &mut Random) -> Vec<u8> {
    let count = match random.below(6) {
        0 => 0,
        1 => MOST_TASKS - random.below(2),
        _ => random.below(MOST_TASKS + 1),
    };
    let (first, step) = (random.below(255), random.pick(&STEPS));
    let id = |index: usize| 1 + ((first + step * index) % 255) as u8;
    (0..count).map(id).collect()
}

/// Tasks that 16 and 40 do not refuse, of any load.
fn legal_tasks(random: &mut Random) -> Vec<Task> {
    let ids = ids(random);
    ids.into_iter().map(|id| legal(random, id)).collect()
}

/// A list of tasks; more often than not one that is not refused.
pub fn random_list(random: &mut Random) -> Vec<u8> {
    let mut tasks = legal_tasks(random);
    for _ in 0..random.pick(&[0, 0, 0, 1, 1, 2]) {
        if tasks.is_empty() {
            break;
        }
        let (one, other) = (random.below(tasks.len()), random.below(tasks.len()));
        match random.below(2) {
            0 => tasks[one].id = tasks[other].id,
            _ => tasks[one] = any(random, tasks[one].id),
        }
    }
    list(&tasks)
}

/// A list with one to three bytes replaced, or of another length; or any bytes.
pub fn damaged_list(random: &mut Random) -> Vec<u8> {
    let mut bytes = list(&legal_tasks(random));
    match random.below(4) {
        0 => {
            bytes = vec![0; random.below(LONGEST + 1)];
            bytes.fill_with(|| random.byte());
        }
        1 => bytes.resize(random.below(LONGEST + 1), random.byte()),
        2 => bytes.resize(TASK * random.below(20), random.byte()),
        _ => {}
    }
    for _ in 0..random.below(4).min(bytes.len()) {
        let at = random.below(bytes.len());
        bytes[at] = random.byte();
    }
    bytes
}

/// A likely head; its tasks are often within HCLK together.
pub fn random_head(random: &mut Random) -> Head {
    let mut head = decode(&likely(random)).expect("a head");
    if random.once_in(4) {
        head.tasks = legal_tasks(random);
        return head;
    }
    if !random.once_in(8) {
        head.hxt48_ready = true;
        head.hrc48_ready = true;
        head.registers[1] = random.pick(&[0, 1, 3]);
    }
    head.tasks.clear();
    let ids = ids(random);
    for (index, &id) in ids.iter().enumerate() {
        let left = room(&head);
        let share = match random.below(8) {
            0 => left,
            1 => left / 2,
            _ => random.below((left / (ids.len() - index) as u64) as usize + 1) as u64,
        };
        let mut task = legal(random, id);
        let cycles = share * u64::from(task.period_us) / u64::from(SECOND);
        task.cycles = u32::try_from(cycles).unwrap_or(u32::MAX).max(1);
        head.tasks.push(task);
    }
    head
}

/// The head's record, and any bytes past it.
pub fn any_past(random: &mut Random, head: &Head) -> Buffer {
    let mut buffer = [0; BUFFER];
    buffer.fill_with(|| random.byte());
    head.encode(&mut buffer);
    buffer
}

/// An id that no task of the head has; any where that takes long.
fn new_id(random: &mut Random, head: &Head) -> u8 {
    let mut id = 1 + random.up_to(254);
    while head.tasks.iter().any(|task| task.id == id) {
        id = 1 + random.up_to(254);
    }
    id
}

/// An id that a task of the head has; any where there is none.
pub fn booked_id(random: &mut Random, head: &Head) -> u8 {
    match head.tasks.len() {
        0 => random.byte(),
        count => head.tasks[random.below(count)].id,
    }
}

/// An id to release or to look up: most often a booked one.
pub fn random_id(random: &mut Random, head: &Head) -> u8 {
    match random.below(4) {
        0 => random.byte(),
        _ => booked_id(random, head),
    }
}

/// A task to book: near what HCLK has left, light, or any; most often of a new
/// id.
pub fn random_task(random: &mut Random, head: &Head) -> Task {
    let id = match random.below(12) {
        0 => booked_id(random, head),
        1 => random.byte(),
        _ => new_id(random, head),
    };
    match random.below(8) {
        0 => any(random, id),
        1 => legal(random, id),
        2 => Task {
            id,
            cycles: 1 + random.below(1000) as u32,
            period_us: LONGEST_PERIOD - random.below(1 << 20) as u32,
        },
        _ => {
            let period = legal(random, id).period_us;
            let near = near_limit(head, id, &[period]);
            match near.is_empty() {
                true => legal(random, id),
                false => random.pick(&near),
            }
        }
    }
}
