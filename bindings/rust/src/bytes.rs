//! The exported calls on bytes: one safe function for each, on slices of any length and content.
//!
//! A call asks only that its slices can be read, that those it writes can be written, and that
//! these overlap with nothing else; a borrow has all of it. So every call gets an answer, and no
//! call is undefined. `rikkovan.h` says what each one does.
//!
//! ```
//! use rikkovan::{Refusal, bytes};
//!
//! let word = bytes::release(&mut [0; 7], 1);
//! assert_eq!(word.refusal(), Some(Refusal::Length));
//! ```

use crate::clocks::{CLOCKS, LPSYS_CLOCKS};
use crate::fit::FIT_NUMBERS;
use crate::sys;
use crate::word::Word;

// SAFETY, of every call below: a slice is lent by its pointer, which is not null even where it is
// empty, and by its number of elements; an array of a fixed size by its pointer. What is borrowed
// as mutable overlaps with no other borrow. The library asks for nothing else.

/// Checks a plan record: 0 where it is accepted, else a refusal number from 1 to 14.
#[inline]
pub fn plan_check(plan: &[u8]) -> u64 {
    unsafe { sys::rikkovan_plan_check(plan.as_ptr(), plan.len() as u64) }
}

/// Reads the 15 frequencies of a head, in the order of [`Clocks`](crate::Clocks), 0 for none.
#[inline]
pub fn read_clocks(head: &[u8], clocks: &mut [u32; CLOCKS]) -> Word {
    let clocks = clocks.as_mut_ptr();
    Word(unsafe { sys::rikkovan_read_clocks(head.as_ptr(), head.len() as u64, clocks) })
}

/// Reads the six frequencies of LPSYS, in the order of [`LpsysClocks`](crate::LpsysClocks), 0 for
/// none.
#[inline]
pub fn read_lpsys(head: &[u8], lpsys: &mut [u32; LPSYS_CLOCKS]) -> Word {
    let lpsys = lpsys.as_mut_ptr();
    Word(unsafe { sys::rikkovan_read_lpsys(head.as_ptr(), head.len() as u64, lpsys) })
}

/// Reads what decides whether a guarded change is made: the rail limit in Hz, the load, and the
/// number of an [`Unfit`](crate::Unfit), 0 where the head is fit.
#[inline]
pub fn read_fit(head: &[u8], fit: &mut [u64; FIT_NUMBERS]) -> Word {
    let fit = fit.as_mut_ptr();
    Word(unsafe { sys::rikkovan_read_fit(head.as_ptr(), head.len() as u64, fit) })
}

/// Puts entries of a journal into the registers of a head.
#[inline]
pub fn moment(head: &mut [u8], entries: &[u32]) -> Word {
    let (head, head_len) = (head.as_mut_ptr(), head.len() as u64);
    let (entries, entries_len) = (entries.as_ptr(), entries.len() as u64);
    Word(unsafe { sys::rikkovan_moment(head, head_len, entries, entries_len) })
}

/// Checks a list of tasks: the load, or a refusal number with bit 63 set.
#[inline]
pub fn load_check(tasks: &[u8]) -> u64 {
    unsafe { sys::rikkovan_load_check(tasks.as_ptr(), tasks.len() as u64) }
}

/// Books a task on a head.
#[inline]
pub fn book(head: &mut [u8], id: u8, cycles: u32, period_us: u32) -> Word {
    Word(unsafe { sys::rikkovan_book(head.as_mut_ptr(), head.len() as u64, id, cycles, period_us) })
}

/// Releases a task of a head.
#[inline]
pub fn release(head: &mut [u8], id: u8) -> Word {
    Word(unsafe { sys::rikkovan_release(head.as_mut_ptr(), head.len() as u64, id) })
}

/// Looks up the task with an id on a head: the value is the number of tasks read * 2, plus 1 for a
/// hit.
#[inline]
pub fn look_up(head: &[u8], id: u8) -> Word {
    Word(unsafe { sys::rikkovan_look_up(head.as_ptr(), head.len() as u64, id) })
}

/// Changes the core clock of a fit head, guarded.
#[inline]
pub fn change(head: &mut [u8], plan: &[u8], journal: &mut [u32], answers: &[u16]) -> Word {
    Word(unsafe {
        sys::rikkovan_change(
            head.as_mut_ptr(),
            head.len() as u64,
            plan.as_ptr(),
            plan.len() as u64,
            journal.as_mut_ptr(),
            journal.len() as u64,
            answers.as_ptr(),
            answers.len() as u64,
        )
    })
}

/// Calls that are lent a head and a journal, and given numbers between them.
macro_rules! lent_journal {
    ($($(#[$about:meta])* $name:ident = $exported:ident($($number:ident: $type:ty),*);)*) => {
        $($(#[$about])*
        #[inline]
        pub fn $name(head: &mut [u8], $($number: $type,)* journal: &mut [u32]) -> Word {
            let (words, journal_len) = (journal.as_mut_ptr(), journal.len() as u64);
            let (head, head_len) = (head.as_mut_ptr(), head.len() as u64);
            Word(unsafe { sys::$exported(head, head_len, $($number,)* words, journal_len) })
        })*
    };
}

lent_journal! {
    /// Sets the LPSYS HCLK to a frequency in MHz, and its supply with it.
    config_lpsys_hclk_mhz = rikkovan_config_lpsys_hclk_mhz(freq_mhz: u32);
    /// Brings the LPSYS HCLK down to 24 MHz where it is above.
    ensure_safe_lcpu_frequency = rikkovan_ensure_safe_lcpu_frequency();
    /// Sets hdiv1 of LPSYS.
    set_lpsys_hdiv = rikkovan_set_lpsys_hdiv(hdiv: u8);
    /// Sets hdiv1, pdiv1 and pdiv2 of LPSYS.
    set_lpsys_div = rikkovan_set_lpsys_div(hdiv: u8, pdiv1: u8, pdiv2: u8);
    /// Sets macdiv and macfreq of LPSYS.
    config_lpsys_mac_clock = rikkovan_config_lpsys_mac_clock(macdiv: u8, macfreq: u8);
    /// Selects the clock of LPSYS.
    select_lpsys_sysclk = rikkovan_select_lpsys_sysclk(source: u8);
    /// Selects the peripheral clock of LPSYS.
    select_lpsys_peri = rikkovan_select_lpsys_peri(source: u8);
    /// Cancels one wake of the core of LPSYS.
    cancel_lcpu_active_request = rikkovan_cancel_lcpu_active_request();
}

/// Calls that are lent a head, a journal and answers.
macro_rules! lent_answers {
    ($($(#[$about:meta])* $name:ident = $exported:ident;)*) => {
        $($(#[$about])*
        #[inline]
        pub fn $name(head: &mut [u8], journal: &mut [u32], answers: &[u16]) -> Word {
            Word(unsafe {
                sys::$exported(
                    head.as_mut_ptr(),
                    head.len() as u64,
                    journal.as_mut_ptr(),
                    journal.len() as u64,
                    answers.as_ptr(),
                    answers.len() as u64,
                )
            })
        })*
    };
}

lent_answers! {
    /// Wakes the core of LPSYS.
    wake_lcpu = rikkovan_wake_lcpu;
    /// Makes HXT48 ready for both systems.
    ensure_hxt48_ready = rikkovan_ensure_hxt48_ready;
    /// Calibrates HRC48 against HXT48.
    calibrate_hrc48 = rikkovan_calibrate_hrc48;
}

/// Calls that are lent a plan and the 15 frequencies too.
macro_rules! lent_clocks {
    ($($(#[$about:meta])* $name:ident = $exported:ident;)*) => {
        $($(#[$about])*
        #[inline]
        pub fn $name(
            head: &mut [u8],
            plan: &[u8],
            clocks: &mut [u32; CLOCKS],
            journal: &mut [u32],
            answers: &[u16],
        ) -> Word {
            Word(unsafe {
                sys::$exported(
                    head.as_mut_ptr(),
                    head.len() as u64,
                    plan.as_ptr(),
                    plan.len() as u64,
                    clocks.as_mut_ptr(),
                    journal.as_mut_ptr(),
                    journal.len() as u64,
                    answers.as_ptr(),
                    answers.len() as u64,
                )
            })
        })*
    };
}

lent_clocks! {
    /// Brings up the clocks of a head that boots; gives the frequencies after the call.
    init = rikkovan_init;
    /// Sets the core clock of a running head; takes the frequencies before the call, and gives
    /// those after it.
    reconfigure_sysclk = rikkovan_reconfigure_sysclk;
}
