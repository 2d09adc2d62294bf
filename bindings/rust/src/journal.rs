//! The journal: what a call did, step by step.

use crate::numbered::numbered;
use crate::register::Register;
use crate::word::Word;
use core::fmt::{self, Debug, Formatter};
use core::slice;

/// The fewest words of a journal that is lent to a call on bytes.
pub const JOURNAL_WORDS: usize = 128;

/// The most answers that may be lent to a call.
pub const MOST_ANSWERS: usize = 4_096;

const DELAY: u8 = 48;
const WAIT: u8 = 49;

numbered! {
    /// What a wait is for.
    WaitKind: u8 {
        /// HXT48 is ready.
        Hxt48 = 1,
        /// HXT48 is ready for LPSYS.
        LpsysHxt48 = 2,
        /// DLL1 is ready.
        Dll1 = 3,
        /// DLL2 is ready.
        Dll2 = 4,
        /// A measurement of HRC48 is done.
        Calibration = 5,
        /// The core of LPSYS is active.
        LpsysActive = 6,
    }
}

/// One step of a call.
#[derive(Debug, Clone, Copy, PartialEq, Eq, Hash)]
pub enum Entry {
    /// A store; one that does not change the register has its entry all the same.
    Store {
        /// The register.
        register: Register,
        /// What it holds after the store: a * 65,536 + b * 256 + c.
        value: u32,
    },
    /// A delay.
    Delay {
        /// Its length in core cycles, rounded up, so that it is never short.
        cycles: u32,
    },
    /// A wait that ended.
    Wait {
        /// What it was for.
        kind: WaitKind,
        /// The number of answers that it took, with the two counts of a measurement.
        answers: u16,
    },
}

impl Entry {
    /// The entry of a journal word: number * 2^24 + value. `None` for a number that no entry has.
    ///
    /// ```
    /// use rikkovan::{Entry, Head, JOURNAL_WORDS, Register, bytes};
    ///
    /// let mut head = *Head::new().as_bytes();
    /// let mut journal = [0; JOURNAL_WORDS];
    /// let word = bytes::set_lpsys_hdiv(&mut head, 2, &mut journal);
    /// assert_eq!(word.entries(), 1);
    /// let store = Entry::Store { register: Register::LpsysCfgr, value: 0x02_0000 };
    /// assert_eq!(Entry::from_word(journal[0]), Some(store));
    /// ```
    pub const fn from_word(word: u32) -> Option<Self> {
        let [number, a, b, c] = word.to_be_bytes();
        let value = word & 0xFF_FFFF;
        match number {
            DELAY => Some(Self::Delay { cycles: value }),
            WAIT => match WaitKind::from_number(a) {
                Some(kind) => Some(Self::Wait {
                    kind,
                    answers: u16::from_be_bytes([b, c]),
                }),
                None => None,
            },
            _ => match Register::from_number(number) {
                Some(register) => Some(Self::Store { register, value }),
                None => None,
            },
        }
    }
}

/// What a call did: its entries, in the order in which they came. A call that is lent a journal
/// writes it anew.
///
/// ```
/// use rikkovan::{Entry, Head, Journal, Register};
///
/// let mut journal = Journal::new();
/// Head::new().set_lpsys_hdiv(2, &mut journal)?;
/// let store = Entry::Store { register: Register::LpsysCfgr, value: 0x02_0000 };
/// assert!(journal.iter().eq([store]));
/// # Ok::<(), rikkovan::Refused>(())
/// ```
#[derive(Clone)]
pub struct Journal {
    words: [u32; JOURNAL_WORDS],
    len: usize,
}

impl Journal {
    /// Without an entry.
    pub const fn new() -> Self {
        Self {
            words: [0; JOURNAL_WORDS],
            len: 0,
        }
    }

    /// The entries, in their order.
    pub fn iter(&self) -> Entries<'_> {
        Entries(self.words().iter())
    }

    /// The entry at a place, 0 for the first.
    pub fn get(&self, place: usize) -> Option<Entry> {
        self.words().get(place).map(entry)
    }

    /// The number of entries.
    pub const fn len(&self) -> usize {
        self.len
    }

    /// Whether there is no entry.
    pub const fn is_empty(&self) -> bool {
        self.len == 0
    }

    /// The entries as words, number * 2^24 + value.
    pub fn words(&self) -> &[u32] {
        &self.words[..self.len]
    }

    /// Lends all words to a call, and keeps as many as it wrote.
    pub(crate) fn written_by(&mut self, call: impl FnOnce(&mut [u32]) -> Word) -> Word {
        let word = call(&mut self.words);
        self.len = word.entries();
        word
    }
}

impl Default for Journal {
    fn default() -> Self {
        Self::new()
    }
}

impl PartialEq for Journal {
    fn eq(&self, other: &Self) -> bool {
        self.words() == other.words()
    }
}

impl Eq for Journal {}

impl Debug for Journal {
    fn fmt(&self, f: &mut Formatter<'_>) -> fmt::Result {
        f.debug_list().entries(self).finish()
    }
}

impl<'a> IntoIterator for &'a Journal {
    type Item = Entry;
    type IntoIter = Entries<'a>;

    fn into_iter(self) -> Entries<'a> {
        self.iter()
    }
}

/// The entries of a [`Journal`], in their order.
#[derive(Debug, Clone)]
pub struct Entries<'a>(slice::Iter<'a, u32>);

impl Iterator for Entries<'_> {
    type Item = Entry;

    fn next(&mut self) -> Option<Entry> {
        self.0.next().map(entry)
    }

    fn size_hint(&self) -> (usize, Option<usize>) {
        self.0.size_hint()
    }
}

impl ExactSizeIterator for Entries<'_> {}

/// Of a word that the library wrote.
fn entry(word: &u32) -> Entry {
    Entry::from_word(*word).expect("an entry of librikkovan.a")
}
