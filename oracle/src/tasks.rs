//! Share, load, load check, booking and release, from document 01, and the look-up,
//! from document 02. Nothing of them is in the original code, which gives only the
//! HCLK of a booking.

use crate::head::{Head, MOST_TASKS, TASK, Task};
use crate::readings;

/// "A task's share is cycles × 1,000,000 / period, rounded up."
pub fn share(task: &Task) -> u64 {
    let micro_cycles = u128::from(task.cycles) * 1_000_000;
    micro_cycles.div_ceil(task.period_us.into()) as u64
}

/// "Load is the sum over a list of task records".
pub fn load(tasks: &[Task]) -> u64 {
    tasks.iter().map(share).sum()
}

/// "The load check on such bytes answers the load, or 1 (not nine each), 41, 16,
/// 40 in that order."
pub fn load_check(bytes: &[u8]) -> Result<u64, u64> {
    if !bytes.len().is_multiple_of(TASK) {
        return Err(1);
    }
    if bytes.len() / TASK > MOST_TASKS {
        return Err(41);
    }
    let tasks: Vec<Task> = bytes.chunks_exact(TASK).map(Task::decode).collect();
    if !tasks.iter().all(Task::is_legal) {
        return Err(16);
    }
    for (place, task) in tasks.iter().enumerate() {
        if has_id(&tasks[..place], task.id) {
            return Err(40);
        }
    }
    Ok(load(&tasks))
}

/// The head with the task booked: "Booking, in order: 16, 40 id in use, 41
/// sixteen tasks, 34, 39 for the load with the new task and the present HCLK";
/// "A booked task goes last".
pub fn book(head: &Head, task: Task) -> Result<Head, u64> {
    if !task.is_legal() {
        return Err(16);
    }
    if has_id(&head.tasks, task.id) {
        return Err(40);
    }
    if head.tasks.len() == MOST_TASKS {
        return Err(41);
    }
    let hclk = readings::hclk(head).ok_or(34u64)?;
    let mut head = head.clone();
    head.tasks.push(task);
    match load(&head.tasks) <= hclk.into() {
        true => Ok(head),
        false => Err(39),
    }
}

/// The head with the id released: "Release: 42 id unknown"; "a release moves the
/// later ones up".
pub fn release(head: &Head, id: u8) -> Result<Head, u64> {
    let place = head
        .tasks
        .iter()
        .position(|task| task.id == id)
        .ok_or(42u64)?;
    let mut head = head.clone();
    head.tasks.remove(place);
    Ok(head)
}

/// What a look-up answers: found or not, with "how many tasks it read".
#[derive(Clone, Copy, PartialEq, Eq, Debug)]
pub enum LookUp {
    Hit(usize),
    Miss(usize),
}

/// The values of the exported look-up: all that `LookUp::value` gives. A hit has read
/// a task at least, so 1 is none of them.
pub const LOOK_UPS: [usize; 33] = [
    0, 2, 3, 4, 5, 6, 7, 8, 9, 10, 11, 12, 13, 14, 15, 16, 17, 18, 19, 20, 21, 22, 23, 24, 25, 26,
    27, 28, 29, 30, 31, 32, 33,
];

impl LookUp {
    /// Twice the tasks read, and one more on a hit.
    pub fn value(self) -> u64 {
        match self {
            Self::Hit(read) => 2 * read as u64 + 1,
            Self::Miss(read) => 2 * read as u64,
        }
    }
}

/// "The walk ends at the first hit, since an id stands in one place, or after the last
/// task"; read are those "up to the hit and with it, or all of them without one".
pub fn look_up(head: &Head, id: u8) -> LookUp {
    let before_hit = head.tasks.iter().take_while(|task| task.id != id).count();
    match before_hit < head.tasks.len() {
        true => LookUp::Hit(before_hit + 1),
        false => LookUp::Miss(before_hit),
    }
}

fn has_id(tasks: &[Task], id: u8) -> bool {
    tasks.iter().any(|task| task.id == id)
}
