//! The head record.

use crate::bytes;
use crate::clocks::{Clocks, LpsysClocks, CLOCKS, LPSYS_CLOCKS};
use crate::fit::{Fit, FIT_NUMBERS};
use crate::numbered::numbered;
use crate::refusal::Refusal;
use crate::register::Register;
use crate::task::{load_of, LookUp, Task};

const BOOT_MODE: usize = 108;
const WAKE_COUNT: usize = 109;
const COUNT: usize = 110;
const TASKS: usize = 111;

/// The state of a detector head: its registers, its ready flags and its booked tasks.
///
/// It owns a buffer of 255 bytes with a record that the library accepts at the front. No call
/// looks at the bytes past the record, but they are compared with `==`.
///
/// ```
/// use rikkovan::{Head, Hertz, ReadyFlag, Refusal, Register};
///
/// let mut head = Head::new();
/// head.set_ready(ReadyFlag::Hxt48, true);
/// head.set_register(Register::Sysclk, 1)?;
/// assert_eq!(head.clocks().hclk, Some(Hertz(48_000_000)));
///
/// assert_eq!(head.set_register(Register::Sysclk, 4), Err(Refusal::Code));
/// assert_eq!(head.register(Register::Sysclk), 1);
/// # Ok::<(), Refusal>(())
/// ```
#[derive(Debug, Clone, PartialEq, Eq)]
pub struct Head {
    pub(crate) bytes: [u8; Self::BYTES],
}

numbered! {
    /// A ready flag of a head. Its number is the place of its byte.
    ReadyFlag: u8 {
        /// HXT48 is ready.
        Hxt48 = 105,
        /// HRC48 is ready.
        Hrc48 = 106,
        /// HXT48 is ready for LPSYS; no frequency depends on it.
        LpsysHxt48 = 107,
    }
}

impl Head {
    /// The bytes of a head's buffer.
    pub const BYTES: usize = 255;

    /// Registers, flags, boot mode and wake count all 0, no task.
    pub const fn new() -> Self {
        let mut bytes = [0; Self::BYTES];
        bytes[1] = 109;
        bytes[2] = 1;
        Self { bytes }
    }

    /// The head in a buffer. Refusals: `Length`, `Version`, `Code`.
    pub fn from_bytes(buffer: &[u8]) -> Result<Self, Refusal> {
        let bytes = buffer.try_into().map_err(|_| Refusal::Length)?;
        Self { bytes }.tested()
    }

    /// The head's buffer.
    pub const fn as_bytes(&self) -> &[u8; Self::BYTES] {
        &self.bytes
    }

    /// What a register holds: a * 65,536 + b * 256 + c.
    pub fn register(&self, register: Register) -> u32 {
        let value = |value, &byte: &u8| value << 8 | u32::from(byte);
        self.bytes[register.place()].iter().fold(0, value)
    }

    /// Puts a value into a register: a * 65,536 + b * 256 + c. Refusal, which changes nothing:
    /// `Code`.
    pub fn set_register(&mut self, register: Register, value: u32) -> Result<(), Refusal> {
        let [0, abc @ ..] = value.to_be_bytes() else {
            return Err(Refusal::Code);
        };
        let mut head = self.clone();
        head.bytes[register.place()].copy_from_slice(&abc);
        *self = head.tested()?;
        Ok(())
    }

    /// Whether a ready flag is 1.
    pub const fn is_ready(&self, flag: ReadyFlag) -> bool {
        self.bytes[flag.number() as usize] == 1
    }

    /// Sets a ready flag.
    pub fn set_ready(&mut self, flag: ReadyFlag, ready: bool) {
        self.bytes[flag.number() as usize] = ready as u8;
    }

    /// The boot mode; 3 is a standby boot.
    pub const fn boot_mode(&self) -> u8 {
        self.bytes[BOOT_MODE]
    }

    /// Sets the boot mode.
    pub fn set_boot_mode(&mut self, mode: u8) {
        self.bytes[BOOT_MODE] = mode;
    }

    /// How often the core of LPSYS was woken.
    pub const fn wake_count(&self) -> u8 {
        self.bytes[WAKE_COUNT]
    }

    /// Sets the wake count.
    pub fn set_wake_count(&mut self, count: u8) {
        self.bytes[WAKE_COUNT] = count;
    }

    /// The booked tasks, in the order of their places.
    pub fn tasks(&self) -> impl ExactSizeIterator<Item = Task> + '_ {
        let records = self.task_bytes().chunks_exact(Task::BYTES);
        records.map(|record| Task::from_record(record.try_into().expect("nine bytes")))
    }

    /// The load of the booked tasks, in cycles per second.
    pub fn load(&self) -> u64 {
        load_of(self.task_bytes()).expect("the tasks of a head that is accepted")
    }

    /// The 15 frequencies.
    pub fn clocks(&self) -> Clocks {
        let mut clocks = [0; CLOCKS];
        let word = bytes::read_clocks(&self.bytes, &mut clocks);
        debug_assert_eq!(word.refusal(), None);
        clocks.into()
    }

    /// The six frequencies of the low-power system.
    pub fn lpsys_clocks(&self) -> LpsysClocks {
        let mut clocks = [0; LPSYS_CLOCKS];
        let word = bytes::read_lpsys(&self.bytes, &mut clocks);
        debug_assert_eq!(word.refusal(), None);
        clocks.into()
    }

    /// What decides whether a guarded change is made: the rail limit, the load, and what the head
    /// lacks where it is not fit.
    ///
    /// ```
    /// use rikkovan::{Head, Hertz, Unfit};
    ///
    /// let head = Head::from_bytes(&std::fs::read("../../examples/heads/d48-low-volts.head")?)?;
    /// assert_eq!(head.fit().rail_limit, Hertz(24_000_000));
    /// assert_eq!(head.fit().unfit, Some(Unfit::Hclk));
    /// # Ok::<(), Box<dyn std::error::Error>>(())
    /// ```
    pub fn fit(&self) -> Fit {
        let mut fit = [0; FIT_NUMBERS];
        let word = bytes::read_fit(&self.bytes, &mut fit);
        debug_assert_eq!(word.refusal(), None);
        fit.into()
    }

    /// Looks up the task with an id, from the first one on, and counts the tasks that it reads. No
    /// task has the id 0.
    ///
    /// ```
    /// use rikkovan::{Head, LookUp};
    ///
    /// // The tasks 1 and 2.
    /// let head = Head::from_bytes(&std::fs::read("../../examples/heads/s240-tasks.head")?)?;
    /// assert_eq!(head.look_up(1), LookUp::Hit { read: 1 });
    /// assert_eq!(head.look_up(9), LookUp::Miss { read: 2 });
    ///
    /// let second = head.look_up(2).place().and_then(|place| head.tasks().nth(place));
    /// assert_eq!(second.map(|task| task.cycles), Some(38_400));
    /// # Ok::<(), Box<dyn std::error::Error>>(())
    /// ```
    pub fn look_up(&self, id: u8) -> LookUp {
        let word = bytes::look_up(&self.bytes, id);
        debug_assert_eq!(word.refusal(), None);
        LookUp::of_value(word.value())
    }

    fn task_bytes(&self) -> &[u8] {
        let count = usize::from(self.bytes[COUNT]);
        &self.bytes[TASKS..][..Task::BYTES * count]
    }

    /// The head, where the library accepts its record.
    fn tested(self) -> Result<Self, Refusal> {
        let word = bytes::read_lpsys(&self.bytes, &mut [0; LPSYS_CLOCKS]);
        word.refusal().map_or(Ok(self), Err)
    }
}

impl Default for Head {
    fn default() -> Self {
        Self::new()
    }
}
