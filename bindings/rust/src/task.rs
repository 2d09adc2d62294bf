//! Tasks, their load, and one looked up.

use crate::bytes;
use crate::refusal::Refusal;

/// A task, which needs so many core cycles in each period.
#[derive(Debug, Clone, Copy, PartialEq, Eq, Hash)]
pub struct Task {
    /// 1 to 255, no two tasks of a head alike.
    pub id: u8,
    /// Core cycles in each period, 1 or more.
    pub cycles: u32,
    /// The period in microseconds, 1 to 10,000,000.
    pub period_us: u32,
}

impl Task {
    /// The bytes of a record.
    pub const BYTES: usize = 9;

    /// The most tasks of a head or a list.
    pub const MOST: usize = 16;

    /// The task's record.
    pub const fn to_record(&self) -> [u8; Self::BYTES] {
        let [c0, c1, c2, c3] = self.cycles.to_be_bytes();
        let [p0, p1, p2, p3] = self.period_us.to_be_bytes();
        [self.id, c0, c1, c2, c3, p0, p1, p2, p3]
    }

    /// The task of a record, which a head or [`load_check`] may yet refuse.
    pub const fn from_record(record: [u8; Self::BYTES]) -> Self {
        let [id, c0, c1, c2, c3, p0, p1, p2, p3] = record;
        Self {
            id,
            cycles: u32::from_be_bytes([c0, c1, c2, c3]),
            period_us: u32::from_be_bytes([p0, p1, p2, p3]),
        }
    }
}

/// What [`Head::look_up`](crate::Head::look_up) finds.
#[derive(Debug, Clone, Copy, PartialEq, Eq)]
pub enum LookUp {
    /// A task has the id.
    Hit {
        /// The number of tasks read, up to that one and with it.
        read: usize,
    },
    /// No task has the id.
    Miss {
        /// The number of tasks read: all of them.
        read: usize,
    },
}

impl LookUp {
    /// The place of the task in [`Head::tasks`](crate::Head::tasks), 0 for the first.
    pub const fn place(self) -> Option<usize> {
        match self {
            Self::Hit { read } => Some(read - 1),
            Self::Miss { .. } => None,
        }
    }

    /// Of the value that [`bytes::look_up`] gives.
    pub(crate) const fn of_value(value: u32) -> Self {
        let read = (value >> 1) as usize;
        match value & 1 {
            1 => Self::Hit { read },
            _ => Self::Miss { read },
        }
    }
}

/// Checks a list of tasks, and gives its load in cycles per second: the sum of their shares, each
/// cycles * 1,000,000 / period, rounded up.
///
/// Refusals, each tested of the whole list before the next: `Tasks`, `Task`, `IdInUse`.
///
/// ```
/// use rikkovan::{Refusal, Task, load_check};
///
/// let video = Task { id: 1, cycles: 120_000, period_us: 1_000 };
/// let radio = Task { id: 2, cycles: 1, period_us: 3 };
/// assert_eq!(load_check(&[video, radio]), Ok(120_333_334));
/// assert_eq!(load_check(&[video, video]), Err(Refusal::IdInUse));
/// ```
pub fn load_check(tasks: &[Task]) -> Result<u64, Refusal> {
    // Of more tasks than a list may have, one is enough.
    let tasks = &tasks[..tasks.len().min(Task::MOST + 1)];
    let mut records = [[0; Task::BYTES]; Task::MOST + 1];
    for (record, task) in records.iter_mut().zip(tasks) {
        *record = task.to_record();
    }
    load_of(&records.as_flattened()[..Task::BYTES * tasks.len()])
}

/// The load of the bytes of a list.
pub(crate) fn load_of(list: &[u8]) -> Result<u64, Refusal> {
    match bytes::load_check(list) {
        load if load >> 63 == 0 => Ok(load),
        refused => Err(Refusal::of_number(refused as u32)),
    }
}
