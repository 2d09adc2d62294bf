//! The frequencies that the original code reads from a head of document 01.

use crate::call::{Frequencies, frequencies};
use crate::caught::{Ended, caught};
use crate::head::Head;
use crate::rcc::{self, Clocks};
use crate::world;

/// LPSYS sysclk, HCLK, PCLK1, PCLK2, peripheral and MAC clock, 0 for none.
pub type LpsysFrequencies = [u32; 6];

/// `read_hpsys_clocks_from_hw`.
pub fn read_clocks(head: &Head) -> Frequencies {
    reading(head.clone(), || frequencies(&clocks_in_place()))
}

/// The `get_lpsys_..` readings.
pub fn read_lpsys(head: &Head) -> LpsysFrequencies {
    reading(head.clone(), lpsys_in_place)
}

/// `get_hclk_freq`, none where it does not read.
pub fn hclk(head: &Head) -> Option<u32> {
    reading(head.clone(), || rcc::get_hclk_freq().map(|hertz| hertz.0))
}

/// Both readings of a head, or the text of the panic that ended one.
pub fn both(head: Head) -> Result<(Frequencies, LpsysFrequencies), String> {
    let read = || (frequencies(&clocks_in_place()), lpsys_in_place());
    caught(|| reading(head, read)).map_err(|ended| match ended {
        Ended::AnswersRanOut => "a reading took an answer".to_string(),
        Ended::Panic(text) => text,
    })
}

/// `read_hpsys_clocks_from_hw` on the head that `world::begin` put in place.
pub fn clocks_in_place() -> Clocks {
    rcc::read_hpsys_clocks_from_hw()
}

/// The `get_lpsys_..` readings, in place.
pub fn lpsys_in_place() -> LpsysFrequencies {
    [
        rcc::get_lpsys_sysclk_freq(),
        rcc::get_lpsys_hclk_freq(),
        rcc::get_lpsys_pclk1_freq(),
        rcc::get_lpsys_pclk2_freq(),
        rcc::get_lpsys_clk_peri_freq(),
        rcc::get_lpsys_mac_clk_freq(),
    ]
    .map(|frequency| frequency.map_or(0, |hertz| hertz.0))
}

fn reading<T>(head: Head, original: impl FnOnce() -> T) -> T {
    world::begin(head, &[]);
    let value = original();
    world::end();
    value
}
