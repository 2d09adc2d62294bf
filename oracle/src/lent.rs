//! The memory that is lent to a call, and what a call leaves in it.

use crate::call::Outcome;
use crate::delay::Delay;
use crate::head::{BUFFER, Head};
use std::fmt::Write;

/// Bit 63 of an answer word.
pub const REFUSED: u64 = 1 << 63;

/// Elements on each side of what is lent: room for a task and more.
const FENCE: usize = 16;

/// What a call may write; each part is empty where the call is not lent it.
pub struct Lent<'a> {
    /// The head's buffer, or a list of tasks.
    pub bytes: &'a mut [u8],
    pub clocks: &'a mut [u32],
    pub journal: &'a mut [u32],
    /// For the delays of what is wanted; the library tells of none.
    pub delays: &'a mut Vec<Delay>,
}

impl Lent<'_> {
    /// Writes what a call gave, its delays as they are wanted, and gives its answer word.
    pub fn put(self, outcome: Result<Outcome, u64>, delays: Vec<Delay>) -> u64 {
        let outcome = match outcome {
            Ok(outcome) => outcome,
            Err(refusal) => return REFUSED | refusal,
        };
        let entries = outcome.entries.len();
        self.journal[..entries].copy_from_slice(&outcome.entries);
        for delay in &delays {
            self.journal[delay.place] = delay.wanted();
        }
        *self.delays = delays;
        if let Ok(clocks) = <&mut [u32; 15]>::try_from(self.clocks) {
            *clocks = outcome.clocks;
        }
        encode(&outcome.head, self.bytes);
        let counts = (entries as u64) << 32 | (outcome.taken as u64) << 48;
        match outcome.answer {
            0 => counts | u64::from(outcome.value),
            refusal => counts | REFUSED | refusal,
        }
    }

    /// Writes 64-bit numbers in place of clocks, the low half of each first.
    pub fn put_numbers(self, numbers: [u64; 3]) {
        let halves = |number: u64| [number as u32, (number >> 32) as u32];
        self.clocks.copy_from_slice(&numbers.map(halves).concat());
    }

    /// The 64-bit numbers that stand in place of clocks.
    ///
    /// # Panics
    ///
    /// Panics where six clocks are not lent.
    pub fn numbers(&self) -> [u64; 3] {
        let halves = |place: usize| [self.clocks[place], self.clocks[place + 1]].map(u64::from);
        [0, 2, 4].map(|place| {
            let [low, high] = halves(place);
            low | high << 32
        })
    }

    /// Writes the head that a call leaves which gives nothing else.
    pub fn put_head(self, after: Result<Head, u64>) -> u64 {
        match after {
            Ok(head) => {
                encode(&head, self.bytes);
                0
            }
            Err(refusal) => REFUSED | refusal,
        }
    }
}

/// # Panics
///
/// Panics where the bytes are no head's buffer.
fn encode(head: &Head, bytes: &mut [u8]) {
    let buffer: &mut [u8; BUFFER] = bytes.try_into().expect("a head's buffer");
    head.encode(buffer);
}

/// What a call leaves: its answer word, and what was lent to it between fences.
#[derive(Clone, Debug)]
pub struct Left {
    pub word: u64,
    bytes: Vec<u8>,
    clocks: Vec<u32>,
    journal: Vec<u32>,
    /// The delays, of what is wanted alone.
    pub delays: Vec<Delay>,
}

/// Word and memory; what is told of the delays stands beside them.
impl PartialEq for Left {
    fn eq(&self, other: &Self) -> bool {
        self.word == other.word
            && self.bytes == other.bytes
            && self.clocks == other.clocks
            && self.journal == other.journal
    }
}

impl Left {
    /// Lends copies of these, and a journal whose words are no entries.
    pub fn by(
        bytes: Option<&[u8]>,
        clocks: &[u32],
        journal: Option<usize>,
        call: impl FnOnce(Lent) -> u64,
    ) -> Self {
        let mut left = Self {
            word: 0,
            bytes: bytes.map_or(Vec::new(), |bytes| {
                fenced(bytes, |index| 0xA0 ^ index as u8)
            }),
            clocks: match clocks {
                [] => Vec::new(),
                _ => fenced(clocks, |index| 0xA5A5_A500 ^ index),
            },
            journal: journal.map_or(Vec::new(), |words| {
                (0..(words + 2 * FENCE) as u32)
                    .map(|index| 0xA5A5_0000 ^ index)
                    .collect()
            }),
            delays: Vec::new(),
        };
        left.word = call(Lent {
            bytes: lent_mut(&mut left.bytes),
            clocks: lent_mut(&mut left.clocks),
            journal: lent_mut(&mut left.journal),
            delays: &mut left.delays,
        });
        left
    }

    /// 0 for done, else the refusal number.
    pub fn refusal(&self) -> u64 {
        match self.word & REFUSED {
            0 => 0,
            _ => self.word & 0xFFFF_FFFF,
        }
    }

    /// The value, or all of the word where it is a load.
    pub fn value(&self) -> u64 {
        match self.word & REFUSED {
            0 if self.journal.is_empty() => self.word,
            0 => self.word & 0xFFFF_FFFF,
            _ => 0,
        }
    }

    pub fn taken(&self) -> u64 {
        match self.journal.is_empty() {
            true => 0,
            false => self.word >> 48 & 0x7FFF,
        }
    }

    /// The entries written, as far as they lie in the lent journal.
    pub fn entries(&self) -> &[u32] {
        let (journal, entries) = (lent(&self.journal), self.word >> 32 & 0xFFFF);
        &journal[..journal.len().min(entries as usize)]
    }

    /// The lent bytes after the call.
    pub fn bytes(&self) -> &[u8] {
        lent(&self.bytes)
    }

    /// The lent clocks after the call.
    pub fn clocks(&self) -> &[u32] {
        lent(&self.clocks)
    }

    /// What another has that this one has not: the word, and journal words, bytes
    /// and clocks by their place, counted from the first that is lent.
    pub fn beside(&self, other: &Self) -> String {
        let mut text = format!("word {:016X}", other.word);
        for (place, word) in changes(&self.journal, &other.journal) {
            let _ = write!(text, " journal[{place}] {word:08X}");
        }
        for (place, byte) in changes(&self.bytes, &other.bytes) {
            let _ = write!(text, " byte[{place}] {byte:02X}");
        }
        for (place, clock) in changes(&self.clocks, &other.clocks) {
            let _ = write!(text, " clocks[{place}] {clock}");
        }
        text
    }
}

/// Words from a first one on, no two alike.
pub const fn numbered<const N: usize>(first: u32) -> [u32; N] {
    let mut words = [first; N];
    let mut index = 0;
    while index < N {
        words[index] += index as u32;
        index += 1;
    }
    words
}

/// What is lent, between fences no two elements of which are alike.
fn fenced<T: Copy>(lent: &[T], element: impl Fn(u32) -> T) -> Vec<T> {
    let mut memory = Vec::with_capacity(lent.len() + 2 * FENCE);
    memory.extend((0..FENCE as u32).map(&element));
    memory.extend_from_slice(lent);
    memory.extend((FENCE as u32..2 * FENCE as u32).map(&element));
    memory
}

/// What stands between the fences; nothing where nothing is lent.
fn lent<T>(memory: &[T]) -> &[T] {
    memory
        .get(FENCE..memory.len().saturating_sub(FENCE))
        .unwrap_or(&[])
}

fn lent_mut<T>(memory: &mut [T]) -> &mut [T] {
    let end = memory.len().saturating_sub(FENCE);
    memory.get_mut(FENCE..end).unwrap_or(&mut [])
}

/// Where the second differs from the first, counted from the first lent element.
fn changes<T: Copy + PartialEq>(first: &[T], second: &[T]) -> impl Iterator<Item = (isize, T)> {
    let pairs = (-(FENCE as isize)..).zip(first.iter().zip(second));
    pairs.filter_map(|(place, (a, b))| (a != b).then_some((place, *b)))
}
