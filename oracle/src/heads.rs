//! Heads and buffers to compare, record and measure.

use sifli::head::{BUFFER, Head, LARGEST, LONGEST_PERIOD, MOST_TASKS, TASK, Task, at};
use sifli::random::Random;

pub type Buffer = [u8; BUFFER];

/// Room for buffers longer than a head's.
pub const LONGEST: usize = 300;

/// Dividers at the ends and around powers of two.
pub const DIVIDERS: [u8; 12] = [0, 1, 2, 3, 5, 7, 10, 127, 128, 129, 254, 255];

pub fn plain() -> Head {
    Head::plain()
}

/// The core at 240 MHz from DLL1, USB at 60 MHz, DLL2 at 288 MHz, LPSYS at 24
/// MHz, and every other register at some value that is not 0.
pub fn busy() -> Head {
    let mut head = plain();
    let registers = [
        (1, 3),
        (2, 0x010106),
        (3, 0x010009),
        (4, 0x01000B),
        (5, 0x000102),
        (6, 1),
        (8, 4),
        (10, 1),
        (11, 0x000101),
        (13, 15),
        (14, 13),
        (15, 10),
        (16, 8),
        (17, 0x003043),
        (18, 0x000303),
        (19, 0x000200),
        (20, 0x003FFF),
        (22, 1),
        (23, 1),
        (24, 1),
        (25, 1),
        (26, 0x020103),
        (27, 1),
        (29, 8),
        (30, 6),
        (31, 0x000162),
        (34, 0x000609),
    ];
    for (number, value) in registers {
        head.registers[number] = value;
    }
    head.boot_mode = 200;
    head.wake_count = 7;
    head
}

/// The head with so many tasks, ids from 1 on.
pub fn with_tasks(mut head: Head, count: usize) -> Head {
    let task = |id| Task {
        id,
        cycles: 120_000,
        period_us: 1_000,
    };
    head.tasks = (1..=count as u8).map(task).collect();
    head
}

/// The head's record, and `rest` in the bytes past it.
pub fn buffer(head: &Head, rest: u8) -> Buffer {
    let mut buffer = [rest; BUFFER];
    head.encode(&mut buffer);
    buffer
}

/// The buffer with some bytes changed.
pub fn with(mut buffer: Buffer, changes: &[(usize, u8)]) -> Buffer {
    for &(index, byte) in changes {
        buffer[index] = byte;
    }
    buffer
}

/// Where the task of an index lies: id, then cycles, then period.
pub const fn task(index: usize) -> usize {
    at::TASKS + TASK * index
}

pub fn put_cycles(buffer: &mut Buffer, index: usize, cycles: u32) {
    let at = task(index) + 1;
    buffer[at..at + 4].copy_from_slice(&cycles.to_be_bytes());
}

pub fn put_period(buffer: &mut Buffer, index: usize, period_us: u32) {
    let at = task(index) + 5;
    buffer[at..at + 4].copy_from_slice(&period_us.to_be_bytes());
}

pub fn put_length(buffer: &mut Buffer, length: u16) {
    buffer[..2].copy_from_slice(&length.to_be_bytes());
}

/// The three ready flags, from the bits of a number below 8.
pub fn put_flags(buffer: &mut Buffer, bits: u8) {
    let flags = [bits & 1, bits >> 1 & 1, bits >> 2 & 1];
    buffer[at::FLAGS..at::FLAGS + 3].copy_from_slice(&flags);
}

/// A DLL's three bytes: on or off, whole or halved, each stage.
pub fn dlls(stages: &[u8]) -> Vec<[u8; 3]> {
    let settings = [[1, 0], [1, 1], [0, 0], [0, 1]];
    let with = |[on, half]: [u8; 2]| stages.iter().map(move |&stage| [on, half, stage]);
    settings.into_iter().flat_map(with).collect()
}

pub fn put_register(buffer: &mut Buffer, number: usize, bytes: [u8; 3]) {
    buffer[at::a(number)..=at::c(number)].copy_from_slice(&bytes);
}

/// A few heads: zeros, all oscillators ready, LPSYS at 24 MHz with 16 tasks,
/// every register byte at its largest.
pub fn few_heads() -> [Buffer; 4] {
    let mut largest = buffer(&with_tasks(plain(), 3), 0xEE);
    for (number, bytes) in (1..).zip(LARGEST) {
        put_register(&mut largest, number, bytes);
    }
    [
        buffer(&Head::default(), 0),
        buffer(&plain(), 0xEE),
        buffer(&with_tasks(busy(), MOST_TASKS), 0),
        with(largest, &[(at::WAKE_COUNT, 255), (at::BOOT_MODE, 255)]),
    ]
}

/// Every byte one of its values; those that readings depend on often at the
/// values that they tell apart. The bytes past the record are any.
pub fn likely(random: &mut Random) -> Buffer {
    let mut head = Head::random(random);
    head.boot_mode = random.byte();
    head.wake_count = random.byte();
    if random.once_in(2) {
        head.tasks.clear();
    }
    let mut buffer = [0; BUFFER];
    buffer[at::COUNT..].fill_with(|| random.byte());
    head.encode(&mut buffer);
    buffer[at::c(1)] = random.pick(&[0, 1, 2, 3, 3, 3]);
    for divider in [at::a(2), at::a(26), at::b(34)] {
        if !random.once_in(3) {
            buffer[divider] = random.pick(&[0, 1, 2, 255]);
        }
    }
    for dll in [at::a(3), at::a(4)] {
        buffer[dll] = (!random.once_in(4)).into();
    }
    buffer
}

/// A likely head with one to three bytes replaced by any byte.
pub fn damaged(random: &mut Random) -> Buffer {
    let mut buffer = likely(random);
    for _ in 0..1 + random.below(3) {
        buffer[random.below(BUFFER)] = random.byte();
    }
    buffer
}

/// Any bytes in a buffer of any length up to `LONGEST`, most often 255; more
/// often than not with length, version and count right, and then often with
/// all registers and flags right too.
pub fn garbage(random: &mut Random) -> Vec<u8> {
    let mut buffer: Buffer = [0; BUFFER];
    buffer.fill_with(|| random.byte());
    if !random.once_in(3) {
        let head = with_tasks(Head::random(random), random.below(MOST_TASKS + 1));
        let good = self::buffer(&head, 0);
        let to = random.pick(&[at::a(1), at::FLAGS, at::TASKS, BUFFER - 9]);
        buffer[..to].copy_from_slice(&good[..to]);
        buffer[at::COUNT] = good[at::COUNT];
    }
    let mut bytes = buffer.to_vec();
    if random.once_in(16) {
        bytes.resize(random.below(LONGEST + 1), random.byte());
    }
    bytes
}

/// A damaged head, or any bytes.
pub fn damaged_or_any(random: &mut Random) -> Vec<u8> {
    match random.once_in(2) {
        true => damaged(random).to_vec(),
        false => garbage(random),
    }
}

/// The words of a journal: most often the fewest, now and then too few or many.
pub fn journal(random: &mut Random) -> usize {
    match random.below(64) {
        0 => random.below(128),
        1 => 128 + random.below(1000),
        _ => random.pick(&[128, 129, 200]),
    }
}

/// A random head with so many tasks of any cycles and periods.
pub fn random_with_tasks(random: &mut Random, count: usize) -> Buffer {
    let head = with_tasks(Head::random(random), count);
    let mut buffer = buffer(&head, random.byte());
    for index in 0..count {
        put_cycles(&mut buffer, index, (random.word() as u32).max(1));
        let period = 1 + random.below(LONGEST_PERIOD as usize) as u32;
        put_period(&mut buffer, index, period);
    }
    buffer
}
