//! The delays of a call. The original rounds their cycles down; document 02: "The cycles are
//! now rounded up. .. Delay words are then compared with the rounded-up rule, all other words
//! still with the Rust".

use crate::world::{DELAY, entry};
use std::cell::RefCell;

/// A delay that a call made.
#[derive(Clone, Copy, PartialEq, Eq, Debug)]
pub struct Delay {
    /// The place of its entry.
    pub place: usize,
    /// The microseconds that were asked for.
    pub us: u32,
    /// The HCLK that read then, in Hz.
    pub hclk: u32,
    /// Its entry by the original's rule.
    pub original: u32,
}

impl Delay {
    /// The entry that is wanted of it, its cycles rounded up.
    pub fn wanted(&self) -> u32 {
        let cycles = (u64::from(self.hclk) * u64::from(self.us)).div_ceil(1_000_000);
        entry(DELAY, cycles as u32)
    }

    /// Whether another entry is wanted than the original's.
    pub fn is_longer(&self) -> bool {
        self.wanted() != self.original
    }
}

thread_local! {
    /// The delays of the call that runs; none where nobody asks for them.
    static KEPT: RefCell<Option<Vec<Delay>>> = const { RefCell::new(None) };
}

/// Makes a call, and gives the delays that it made beside what it gives.
pub fn kept<T>(call: impl FnOnce() -> T) -> (T, Vec<Delay>) {
    KEPT.set(Some(Vec::new()));
    let given = call();
    (given, KEPT.take().unwrap_or_default())
}

/// Keeps a delay of the call that runs, where they are asked for.
pub fn keep(delay: impl FnOnce() -> Delay) {
    KEPT.with_borrow_mut(|kept| {
        if let Some(delays) = kept {
            delays.push(delay());
        }
    });
}
