//! What a running call sees and changes: a head, the journal it writes and the
//! answers lent to it. The stand-in registers reach it through a thread-local.

use crate::head::{Head, Registers};
use std::any::Any;
use std::cell::RefCell;
use std::mem::take;
use std::panic::resume_unwind;

/// Journal number of a delay.
pub const DELAY: u32 = 48;
/// Journal number of a wait that ended.
pub const WAIT: u32 = 49;

const HXT48_REQUEST: usize = 22;
const LPSYS_HXT48_REQUEST: usize = 32;

/// Payload of the unwinding that ends a call whose answers ran out: refusal 36.
pub struct AnswersRanOut;

/// The kinds of waits, by document 01's numbers.
#[derive(Clone, Copy, PartialEq, Eq, Debug)]
pub enum Kind {
    Hxt48 = 1,
    LpsysHxt48 = 2,
    Dll1 = 3,
    Dll2 = 4,
    Calibration = 5,
    LpsysActive = 6,
}

#[derive(Default)]
pub struct World {
    pub head: Head,
    pub journal: Vec<u32>,
    pub taken: usize,
    /// The text of the last `debug!` that reports a failed calibration.
    pub warning: Option<String>,
    answers: Vec<u16>,
    /// Answers taken before the present wait.
    taken_before: usize,
    /// HXT48 was requested and its wait has not ended: HPSYS, LPSYS.
    requested: [bool; 2],
    /// hxt_cnt and hrc_cnt of the last measurement.
    measured: [u16; 2],
}

thread_local! {
    static WORLD: RefCell<World> = RefCell::default();
}

/// The journal entry of a number and a 24-bit value.
pub const fn entry(number: u32, value: u32) -> u32 {
    number << 24 | value
}

/// Puts a head and answers in place for the next call.
pub fn begin(head: Head, answers: &[u16]) {
    WORLD.set(World {
        head,
        answers: answers.to_vec(),
        ..World::default()
    });
}

/// The same in the world of the last call, whose memory is used again.
pub fn restart(head: &Head, answers: &[u16]) {
    WORLD.with_borrow_mut(|world| {
        let mut former = take(world);
        former.head.tasks.clone_from(&head.tasks);
        former.journal.clear();
        former.answers.clear();
        former.answers.extend_from_slice(answers);
        *world = World {
            head: Head {
                tasks: former.head.tasks,
                ..*head
            },
            journal: former.journal,
            answers: former.answers,
            ..World::default()
        };
    });
}

/// Takes the world as the call left it.
pub fn end() -> World {
    WORLD.take()
}

/// Looks at the head.
pub fn look<T>(f: impl FnOnce(&Head) -> T) -> T {
    WORLD.with_borrow(|world| f(&world.head))
}

/// Whether an entry was written since `begin`.
pub fn written() -> bool {
    WORLD.with_borrow(|world| !world.journal.is_empty())
}

pub fn registers() -> Registers {
    look(|head| head.registers)
}

/// One store: the register takes the value, the journal its entry.
pub fn store(number: usize, value: u32) {
    WORLD.with_borrow_mut(|world| world.store(number, value));
}

/// A delay of so many core cycles.
pub fn delay(cycles: u32) {
    WORLD.with_borrow_mut(|world| world.journal.push(entry(DELAY, cycles)));
}

/// The place and the word of the last entry.
///
/// # Panics
///
/// Panics where none was written.
pub fn last_entry() -> (usize, u32) {
    WORLD.with_borrow(|world| {
        let entries = world.journal.iter().copied().enumerate();
        entries.last().expect("an entry")
    })
}

/// One poll of a wait of kind 3 to 6.
pub fn poll(kind: Kind) -> bool {
    or_unwind(WORLD.with_borrow_mut(|world| world.poll(kind)))
}

/// HXT48's ready bit, read as a poll or as a plain test.
pub fn hxt48_ready(kind: Kind) -> bool {
    or_unwind(WORLD.with_borrow_mut(|world| world.hxt48_ready(kind)))
}

/// hxt_cnt and hrc_cnt of the last measurement.
pub fn measured() -> [u16; 2] {
    WORLD.with_borrow(|world| world.measured)
}

/// Keeps the text of a `debug!` that reports a failed calibration.
pub fn debug(format: &str, text: impl FnOnce() -> String) {
    if format.starts_with("HRC48 calibration warning") {
        WORLD.with_borrow_mut(|world| world.warning = Some(text()));
    }
}

/// Takes the text that `debug` kept.
pub fn take_warning() -> Option<String> {
    WORLD.with_borrow_mut(|world| world.warning.take())
}

fn or_unwind(polled: Result<bool, AnswersRanOut>) -> bool {
    polled.unwrap_or_else(|end| resume_unwind(Box::new(end) as Box<dyn Any + Send>))
}

impl World {
    fn store(&mut self, number: usize, value: u32) {
        self.head.registers[number] = value;
        self.journal.push(entry(number as u32, value));
        match (number, value) {
            (HXT48_REQUEST, 1) => self.requested[0] = true,
            (LPSYS_HXT48_REQUEST, 1) => self.requested[1] = true,
            _ => {}
        }
    }

    fn answer(&mut self) -> Result<u16, AnswersRanOut> {
        let answer = *self.answers.get(self.taken).ok_or(AnswersRanOut)?;
        self.taken += 1;
        Ok(answer)
    }

    fn poll(&mut self, kind: Kind) -> Result<bool, AnswersRanOut> {
        if self.answer()? == 0 {
            return Ok(false);
        }
        if kind == Kind::Calibration {
            self.measured = [self.answer()?, self.answer()?];
        }
        self.end_wait(kind);
        Ok(true)
    }

    /// After the store of a request, reads are polls until one is ready; with
    /// the flag at 1 that wait takes no answer. Every other read is a test.
    fn hxt48_ready(&mut self, kind: Kind) -> Result<bool, AnswersRanOut> {
        let side = (kind == Kind::LpsysHxt48) as usize;
        let flag = *self.ready_flag(kind);
        if !self.requested[side] {
            return Ok(flag);
        }
        if flag {
            self.end_wait(kind);
        } else if !self.poll(kind)? {
            return Ok(false);
        }
        self.requested[side] = false;
        *self.ready_flag(kind) = true;
        Ok(true)
    }

    fn ready_flag(&mut self, kind: Kind) -> &mut bool {
        match kind {
            Kind::LpsysHxt48 => &mut self.head.lpsys_hxt48_ready,
            _ => &mut self.head.hxt48_ready,
        }
    }

    fn end_wait(&mut self, kind: Kind) {
        let taken = (self.taken - self.taken_before) as u32;
        self.taken_before = self.taken;
        self.journal.push(entry(WAIT, (kind as u32) << 16 | taken));
    }
}
