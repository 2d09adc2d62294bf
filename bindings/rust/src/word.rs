//! What a call returns.

use crate::refusal::Refusal;

/// What a call on the bytes of a head returns: one word of 64 bits.
///
/// | bits | what |
/// |---|---|
/// | 0 to 31 | the refusal number where the call is refused, else its value |
/// | 32 to 47 | the number of journal entries written |
/// | 48 to 62 | the number of answers taken |
/// | 63 | 1 where the call is refused |
#[derive(Debug, Clone, Copy, PartialEq, Eq, Hash)]
#[must_use]
pub struct Word(pub(crate) u64);

impl Word {
    /// The word as the library gave it.
    pub const fn bits(self) -> u64 {
        self.0
    }

    /// The refusal, where the call is refused.
    pub fn refusal(self) -> Option<Refusal> {
        self.is_refused().then(|| Refusal::of_number(self.low()))
    }

    /// The call's value, 0 where the call is refused.
    pub const fn value(self) -> u32 {
        if self.is_refused() {
            0
        } else {
            self.low()
        }
    }

    /// The number of journal entries written.
    pub const fn entries(self) -> usize {
        (self.0 >> 32 & 0xFFFF) as usize
    }

    /// The number of answers taken.
    pub const fn taken(self) -> usize {
        (self.0 >> 48 & 0x7FFF) as usize
    }

    const fn is_refused(self) -> bool {
        self.0 >> 63 != 0
    }

    const fn low(self) -> u32 {
        self.0 as u32
    }
}
