//! Every call of the original code, run on a head of document 01.

use crate::caught::{Ended, caught};
use crate::head::{self, Head};
use crate::pac::lpsys_rcc::vals as lpsys;
use crate::plan::Plan;
use crate::rcc::{self, Clocks};
use crate::time::{Hertz, MaybeHertz};
use crate::world;
use std::sync::{Mutex, MutexGuard, PoisonError};

/// The 15 frequencies of `Clocks` in its order, 0 for none.
pub type Frequencies = [u32; 15];

/// The most answers that may be lent.
pub const MOST_ANSWERS: usize = 4096;

/// What a call gave.
#[derive(Clone, PartialEq, Eq, Debug)]
pub struct Outcome {
    /// 0 for done, else the refusal number.
    pub answer: u64,
    /// The safe frequency's old frequency; a done init's swallowed 31 or 33.
    pub value: u32,
    /// The clocks that `init` and `reconfigure_sysclk` give.
    pub clocks: Frequencies,
    pub entries: Vec<u32>,
    pub head: Head,
    /// Answers taken.
    pub taken: usize,
}

/// What original code returns where it is done.
type Done = Result<(u32, Frequencies), &'static str>;

const NOTHING: (u32, Frequencies) = (0, [0; 15]);

/// The frequencies and the wake count are statics of the original code.
static ONE_AT_A_TIME: Mutex<()> = Mutex::new(());

/// The tests that stand before those of the call: 17 where a journal is lent,
/// 18 where answers are lent, then the head's 1 to 3.
pub fn admit(buffer: &[u8], journal: Option<usize>, answers: Option<usize>) -> Result<Head, u64> {
    if journal.is_some_and(|length| length < 128) {
        return Err(17);
    }
    if answers.is_some_and(|length| length > MOST_ANSWERS) {
        return Err(18);
    }
    head::decode(buffer)
}

pub fn calibrate_hrc48(head: &Head, answers: &[u16]) -> Outcome {
    run(head, answers, || calibrate_in_place().map(|()| NOTHING))
}

pub fn init(head: &Head, plan: &Plan, answers: &[u16]) -> Outcome {
    match plan.check() {
        0 => run(head, answers, || {
            init_in_place(plan);
            let clocks = frequencies(unsafe { rcc::get_freqs() });
            Ok((swallowed(), clocks))
        }),
        refusal => refused(head, refusal),
    }
}

/// The former clocks come in, the new ones out, or the former on a refusal.
pub fn reconfigure_sysclk(
    head: &Head,
    plan: &Plan,
    former: &Frequencies,
    answers: &[u16],
) -> Outcome {
    let mut outcome = match plan.check() {
        0 => run(head, answers, || {
            unsafe { rcc::set_freqs(clocks(former)) };
            reconfigure_in_place(plan);
            Ok((0, frequencies(unsafe { rcc::get_freqs() })))
        }),
        refusal => refused(head, refusal),
    };
    if outcome.answer != 0 {
        outcome.clocks = *former;
    }
    outcome
}

/// `calibrate_hrc48` on the head and answers that `world::begin` put in place.
pub fn calibrate_in_place() -> Result<(), &'static str> {
    unsafe { rcc::calibrate_hrc48() }
}

/// `init` with an accepted plan, in place.
pub fn init_in_place(plan: &Plan) {
    unsafe { rcc::init(rcc::Config(plan.builder())) };
}

/// `reconfigure_sysclk` with an accepted plan, in place.
pub fn reconfigure_in_place(plan: &Plan) {
    rcc::reconfigure_sysclk(rcc::Config(plan.builder()));
}

pub fn config_lpsys_hclk_mhz(head: &Head, freq_mhz: u32) -> Outcome {
    run(head, &[], || {
        unsafe { rcc::config_lpsys_hclk_mhz(freq_mhz) }.map(|()| NOTHING)
    })
}

pub fn ensure_safe_lcpu_frequency(head: &Head) -> Outcome {
    run(head, &[], || {
        rcc::ensure_safe_lcpu_frequency().map(|old| (old, NOTHING.1))
    })
}

pub fn wake_lcpu(head: &Head, answers: &[u16]) -> Outcome {
    run_plain(head, answers, || unsafe { rcc::wake_lcpu() })
}

pub fn cancel_lcpu_active_request(head: &Head) -> Outcome {
    run_plain(head, &[], || unsafe { rcc::cancel_lcpu_active_request() })
}

pub fn ensure_hxt48_ready(head: &Head, answers: &[u16]) -> Outcome {
    run_plain(head, answers, rcc::ensure_hxt48_ready)
}

pub fn set_lpsys_hdiv(head: &Head, hdiv: u8) -> Outcome {
    run_plain(head, &[], || rcc::set_lpsys_hdiv(hdiv))
}

pub fn set_lpsys_div(head: &Head, hdiv: u8, pdiv1: u8, pdiv2: u8) -> Outcome {
    if pdiv1 > 7 || pdiv2 > 7 {
        return refused(head, 3);
    }
    run_plain(head, &[], || rcc::set_lpsys_div(hdiv, pdiv1, pdiv2))
}

pub fn config_lpsys_mac_clock(head: &Head, macdiv: u8, macfreq: u8) -> Outcome {
    run_plain(head, &[], || rcc::config_lpsys_mac_clock(macdiv, macfreq))
}

pub fn select_lpsys_sysclk(head: &Head, source: u8) -> Outcome {
    if source > 1 {
        return refused(head, 3);
    }
    run_plain(head, &[], || {
        rcc::select_lpsys_sysclk(lpsys::Sysclk::from_bits(source))
    })
}

pub fn select_lpsys_peri(head: &Head, source: u8) -> Outcome {
    if source > 1 {
        return refused(head, 3);
    }
    run_plain(head, &[], || {
        rcc::select_lpsys_peri(lpsys::mux::Perisel::from_bits(source))
    })
}

fn run_plain(head: &Head, answers: &[u16], original: impl FnOnce()) -> Outcome {
    run(head, answers, || {
        original();
        Ok(NOTHING)
    })
}

/// Runs original code on a head with answers.
///
/// # Panics
///
/// Panics where the original code ends in a way that document 01 has no number for.
fn run(head: &Head, answers: &[u16], original: impl FnOnce() -> Done) -> Outcome {
    let _guard = one_at_a_time();
    put_wake_count(head.wake_count);
    world::begin(head.clone(), answers);
    let result = caught(original);
    let mut world = world::end();
    world.head.wake_count = take_wake_count();
    let (answer, (value, clocks)) = match result {
        Ok(Ok(done)) => (0, done),
        Ok(Err(text)) => (refusal(text), NOTHING),
        Err(Ended::AnswersRanOut) => (36, NOTHING),
        Err(Ended::Panic(text)) => (refusal(&text), NOTHING),
    };
    Outcome {
        answer,
        value,
        clocks,
        entries: world.journal,
        head: world.head,
        taken: world.taken,
    }
}

/// A refusal from the input: nothing ran.
fn refused(head: &Head, answer: u64) -> Outcome {
    Outcome {
        answer,
        value: 0,
        clocks: [0; 15],
        entries: Vec::new(),
        head: head.clone(),
        taken: 0,
    }
}

/// Document 01's number for an `Err` or a panic of the original code.
fn refusal(text: &str) -> u64 {
    match text {
        "LPSYS HCLK frequency must be 1-48 MHz" => 15,
        "HXT48 is not ready, cannot calibrate HRC48" => 31,
        "Cannot calibrate HRC48: currently running on HRC48 and HXT48 is not available" => 32,
        "HRC48 calibration failed: frequency difference too large" => 33,
        // `get_hclk_freq().unwrap()` of the delay, the only `unwrap` of an `Option`.
        "called `Option::unwrap()` on a `None` value" => 34,
        // `HpsysDvfsMode::from_hertz(..).unwrap()` of the present HCLK.
        "called `Result::unwrap()` on an `Err` value: \"Frequency out of valid range\"" => 35,
        "failed to read LPSYS HCLK frequency" => 43,
        other => panic!("the original code ended with: {other}"),
    }
}

/// The 31 or 33 of a calibration whose failure `init` only reports by `debug!`.
fn swallowed() -> u32 {
    world::take_warning().map_or(0, |text| {
        let reason = text.trim_start_matches("HRC48 calibration warning: ");
        refusal(reason) as u32
    })
}

fn one_at_a_time() -> MutexGuard<'static, ()> {
    ONE_AT_A_TIME.lock().unwrap_or_else(PoisonError::into_inner)
}

/// Sets the original code's private count, which is 0 between calls, by
/// cancelling: it wraps at 8 bits.
fn put_wake_count(count: u8) {
    world::begin(Head::default(), &[]);
    for _ in 0..count.wrapping_neg() {
        unsafe { rcc::cancel_lcpu_active_request() };
    }
}

/// Reads the original code's private count by cancelling until the request is
/// cleared, which happens where it goes from 1 to 0. Leaves it at 0.
fn take_wake_count() -> u8 {
    world::begin(Head::default(), &[]);
    let mut count = 0u8;
    while !world::written() {
        unsafe { rcc::cancel_lcpu_active_request() };
        count = count.wrapping_add(1);
    }
    count
}

/// The numbers of `Clocks`.
pub(crate) fn frequencies(clocks: &Clocks) -> Frequencies {
    [
        clocks.sysclk,
        clocks.hclk,
        clocks.pclk,
        clocks.pclk2,
        clocks.dll1,
        clocks.dll2,
        clocks.clk_peri,
        clocks.clk_peri_div2,
        clocks.clk_usb,
        clocks.clk_wdt,
        clocks.clk_rtc,
        clocks.clk_mpi1,
        clocks.clk_mpi2,
        clocks.clk_aud_pll,
        clocks.clk_aud_pll_div16,
    ]
    .map(|frequency| frequency.to_hertz().map_or(0, |hertz| hertz.0))
}

fn clocks(frequencies: &Frequencies) -> Clocks {
    let at = |index: usize| MaybeHertz::from(Hertz(frequencies[index]));
    Clocks {
        sysclk: at(0),
        hclk: at(1),
        pclk: at(2),
        pclk2: at(3),
        dll1: at(4),
        dll2: at(5),
        clk_peri: at(6),
        clk_peri_div2: at(7),
        clk_usb: at(8),
        clk_wdt: at(9),
        clk_rtc: at(10),
        clk_mpi1: at(11),
        clk_mpi2: at(12),
        clk_aud_pll: at(13),
        clk_aud_pll_div16: at(14),
    }
}
