//! The calls on a head that set its core clock and its tasks.

use crate::bytes;
use crate::call::Outcome;
use crate::clocks::{Clocks, CLOCKS};
use crate::head::Head;
use crate::journal::Journal;
use crate::plan::Plan;
use crate::refusal::Refusal;
use crate::task::Task;
use crate::word::Word;

/// What [`Head::init`] gives.
#[derive(Debug, Clone, Copy, PartialEq, Eq)]
pub struct Booted {
    /// The frequencies after the call.
    pub clocks: Clocks,
    /// Why HRC48, which the plan has calibrated, is not: `Hxt48NotReady` or `Difference`.
    pub uncalibrated: Option<Refusal>,
}

impl Head {
    /// Changes the core clock of a fit head, and its supply with it, guarded: at no moment between
    /// two stores is HCLK above what the supply carries. Of the plan, core select, dividers and
    /// DLL1 are stored. A head whose tasks the plan's HCLK does not carry is left as it is.
    ///
    /// Refusals: `Answers`, the plan's (4 to 14), `Unfit`, `Oscillator`, `Load`; and
    /// `AnswersRanOut`, which keeps what was done so far.
    ///
    /// ```
    /// use rikkovan::{Entry, Head, Hertz, Journal, Plan, Register, WaitKind};
    ///
    /// // On HXT48 at 48 MHz, supply D.
    /// let mut head = Head::from_bytes(&std::fs::read("../../examples/heads/d48.head")?)?;
    /// let mut journal = Journal::new();
    /// let done = head.change(&Plan::DEFAULT, &mut journal, &[0, 1])?;
    /// assert_eq!(head.clocks().hclk, Some(Hertz(240_000_000)));
    ///
    /// // The supply rises before the clock.
    /// let buck = Entry::Store { register: Register::BuckVout, value: 15 };
    /// let core = Entry::Store { register: Register::Sysclk, value: 3 };
    /// assert_eq!(journal.get(0), Some(buck));
    /// assert!(journal.iter().skip(1).any(|entry| entry == core));
    ///
    /// // DLL1 was ready at the second poll.
    /// let wait = Entry::Wait { kind: WaitKind::Dll1, answers: 2 };
    /// assert!(journal.iter().any(|entry| entry == wait));
    /// assert_eq!(done.taken, 2);
    /// # Ok::<(), Box<dyn std::error::Error>>(())
    /// ```
    pub fn change(&mut self, plan: &Plan, journal: &mut Journal, answers: &[u16]) -> Outcome {
        let plan = plan.to_record();
        self.perform(journal, |head, words| {
            bytes::change(head, &plan, words, answers)
        })
    }

    /// Brings up the clocks of a head that boots, as a plan has them. The flash clocks of the plan
    /// are not stored.
    ///
    /// Refusals: `Answers`, the plan's (4 to 14); and with what was done so far kept, `OnHrc48`,
    /// `HclkUnreadable`, `PresentHclk` and `AnswersRanOut`.
    pub fn init(&mut self, plan: &Plan, journal: &mut Journal, answers: &[u16]) -> Outcome<Booted> {
        let plan = plan.to_record();
        let mut clocks = [0; CLOCKS];
        let outcome = self.call(journal, |head, words| {
            bytes::init(head, &plan, &mut clocks, words, answers)
        });
        let booted = |value| Booted {
            clocks: clocks.into(),
            uncalibrated: Refusal::unless_0(value),
        };
        outcome.map(|done| done.map(booted))
    }

    /// Sets the core clock of a running head as a plan has it, and its supply with it. Of the plan,
    /// core select, dividers and DLL1 are stored. It does not look at the load: see
    /// [`change`](Self::change).
    ///
    /// Takes the frequencies before the call, and gives those after it, with the audio PLL's kept.
    ///
    /// Refusals: `Answers`, the plan's (4 to 14), `PresentHclk`; and with what was done so far
    /// kept, `HclkUnreadable` and `AnswersRanOut`.
    pub fn reconfigure_sysclk(
        &mut self,
        plan: &Plan,
        former: Clocks,
        journal: &mut Journal,
        answers: &[u16],
    ) -> Outcome<Clocks> {
        let plan = plan.to_record();
        let mut clocks = former.into();
        let outcome = self.call(journal, |head, words| {
            bytes::reconfigure_sysclk(head, &plan, &mut clocks, words, answers)
        });
        outcome.map(|done| done.map(|_| clocks.into()))
    }

    /// Calibrates HRC48 against HXT48.
    ///
    /// Refusals: `Answers`, `Hxt48NotReady`; and with what was done so far kept, `HclkUnreadable`,
    /// `AnswersRanOut`, and at the end `Difference`.
    pub fn calibrate_hrc48(&mut self, journal: &mut Journal, answers: &[u16]) -> Outcome {
        self.perform(journal, |head, words| {
            bytes::calibrate_hrc48(head, words, answers)
        })
    }

    /// Puts entries of a journal into the registers, one after the other: the head that a call got,
    /// with the first words of its journal, has the registers of that moment.
    ///
    /// Refusal, which changes nothing: `Code`, for a word that no call writes.
    ///
    /// ```
    /// use rikkovan::{Head, Hertz, Journal, Plan};
    ///
    /// let head = Head::from_bytes(&std::fs::read("../../examples/heads/d48.head")?)?;
    /// let mut journal = Journal::new();
    /// head.clone().change(&Plan::DEFAULT, &mut journal, &[0, 1])?;
    ///
    /// // After the third store the supply carries more, and the clock is as it was.
    /// let mut moment = head.clone();
    /// moment.put_entries(&journal.words()[..3])?;
    /// assert_eq!(moment.fit().rail_limit, Hertz(240_000_000));
    /// assert_eq!(moment.clocks(), head.clocks());
    /// # Ok::<(), Box<dyn std::error::Error>>(())
    /// ```
    pub fn put_entries(&mut self, words: &[u32]) -> Result<(), Refusal> {
        done(bytes::moment(&mut self.bytes, words))
    }

    /// Books a task, where the present HCLK carries it beside the tasks that are booked.
    ///
    /// Refusals, which change nothing: `Task`, `IdInUse`, `Tasks`, `HclkUnreadable`, `Load`.
    ///
    /// ```
    /// use rikkovan::{Head, Refusal, Task};
    ///
    /// // At 240 MHz, no task.
    /// let mut head = Head::from_bytes(&std::fs::read("../../examples/heads/s240.head")?)?;
    /// head.book(Task { id: 1, cycles: 120_000, period_us: 1_000 })?;
    /// head.book(Task { id: 2, cycles: 80_000, period_us: 1_000 })?;
    ///
    /// let third = Task { id: 3, cycles: 64_000, period_us: 1_000 };
    /// assert_eq!(head.book(third), Err(Refusal::Load));
    /// assert_eq!(head.load(), 200_000_000);
    ///
    /// head.release(2)?;
    /// head.book(third)?;
    /// assert!(head.tasks().map(|task| task.id).eq([1, 3]));
    /// # Ok::<(), Box<dyn std::error::Error>>(())
    /// ```
    pub fn book(&mut self, task: Task) -> Result<(), Refusal> {
        let Task {
            id,
            cycles,
            period_us,
        } = task;
        done(bytes::book(&mut self.bytes, id, cycles, period_us))
    }

    /// Releases the task with an id; those behind it move up by one place.
    ///
    /// Refusal, which changes nothing: `IdUnknown`.
    pub fn release(&mut self, id: u8) -> Result<(), Refusal> {
        done(bytes::release(&mut self.bytes, id))
    }
}

/// Of a call that writes no entry and gives no value.
fn done(word: Word) -> Result<(), Refusal> {
    word.refusal().map_or(Ok(()), Err)
}
