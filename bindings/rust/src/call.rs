//! What a call on a head leaves beside head and journal.

use crate::head::Head;
use crate::journal::Journal;
use crate::refusal::Refusal;
use crate::word::Word;
use core::error::Error;
use core::fmt::{self, Display, Formatter};

/// A call that was done.
#[derive(Debug, Clone, Copy, PartialEq, Eq)]
pub struct Done<T = ()> {
    /// What the call gives.
    pub value: T,
    /// The number of answers taken.
    pub taken: usize,
}

/// A call that was refused. The journal that was lent has what refusals 32 to 36 keep, as the head
/// has; after every other refusal it is empty.
#[derive(Debug, Clone, Copy, PartialEq, Eq)]
pub struct Refused {
    /// Why.
    pub refusal: Refusal,
    /// The number of answers taken.
    pub taken: usize,
}

impl Display for Refused {
    fn fmt(&self, f: &mut Formatter<'_>) -> fmt::Result {
        write!(f, "refused {}: {}", self.refusal.number(), self.refusal)
    }
}

impl Error for Refused {}

impl From<Refused> for Refusal {
    fn from(refused: Refused) -> Self {
        refused.refusal
    }
}

/// Done or refused.
pub type Outcome<T = ()> = Result<Done<T>, Refused>;

impl<T> Done<T> {
    /// With the value that a function makes of it.
    pub fn map<U>(self, value: impl FnOnce(T) -> U) -> Done<U> {
        Done {
            value: value(self.value),
            taken: self.taken,
        }
    }
}

impl Head {
    /// Lends the head's buffer and a journal to a call.
    pub(crate) fn call(
        &mut self,
        journal: &mut Journal,
        call: impl FnOnce(&mut [u8], &mut [u32]) -> Word,
    ) -> Outcome<u32> {
        let word = journal.written_by(|words| call(&mut self.bytes, words));
        let taken = word.taken();
        match word.refusal() {
            None => Ok(Done {
                value: word.value(),
                taken,
            }),
            Some(refusal) => Err(Refused { refusal, taken }),
        }
    }

    /// Lends the same to a call that gives no value.
    pub(crate) fn perform(
        &mut self,
        journal: &mut Journal,
        call: impl FnOnce(&mut [u8], &mut [u32]) -> Word,
    ) -> Outcome {
        self.call(journal, call).map(|done| done.map(|_| ()))
    }
}
