//! What the two reading calls leave: their answer words and the lent memory.

use crate::ours::array;
use rikkovan::bytes;
use sifli::head;
use sifli::lent::{REFUSED, numbered};
use sifli::readings;

/// The lent memory: the 15 frequencies and the six of LPSYS, each between two
/// elements that are not lent.
type Lent = [u32; 24];

const CLOCKS: usize = 1;
const LPSYS: usize = 17;

/// What the lent memory holds before the calls: no two elements alike, and no
/// frequency.
const BEFORE: Lent = numbered(0xA5A5_A500);

#[derive(Clone, PartialEq, Eq)]
pub struct Read {
    words: [u64; 2],
    lent: Lent,
}

impl Read {
    /// By the original code, and for refusals by the oracle's decoder. The
    /// text of a panic where the original code ends in one.
    pub fn original(buffer: &[u8]) -> Result<Self, String> {
        let mut read = Self {
            words: [0; 2],
            lent: BEFORE,
        };
        match head::decode(buffer) {
            Err(refusal) => read.words = [REFUSED | refusal; 2],
            Ok(head) => {
                let (clocks, lpsys) = readings::both(head)?;
                read.lent[CLOCKS..CLOCKS + 15].copy_from_slice(&clocks);
                read.lent[LPSYS..LPSYS + 6].copy_from_slice(&lpsys);
            }
        }
        Ok(read)
    }

    /// By librikkovan.a.
    pub fn ours(buffer: &[u8]) -> Self {
        let mut lent = BEFORE;
        let clocks = bytes::read_clocks(buffer, array(&mut lent, CLOCKS)).bits();
        let lpsys = bytes::read_lpsys(buffer, array(&mut lent, LPSYS)).bits();
        Self {
            words: [clocks, lpsys],
            lent,
        }
    }

    /// 0, or the refusal number of the first call.
    pub fn answer(&self) -> u64 {
        self.words[0] & !REFUSED
    }
}
