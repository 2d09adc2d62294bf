//! What librikkovan.a answers to a query, through the crate in bindings/rust.

use rikkovan::bytes;
use sifli::lent::{Left, REFUSED};
use sifli::moment::entries;
use sifli::query::{Call, Id, Query, Side};
use std::hint::black_box;

/// What the library answers and leaves.
pub fn ours(query: &Query) -> Left {
    query.by(side(query.call))
}

/// Whether the library answers or leaves other than is wanted.
pub fn differs(query: &Query) -> bool {
    ours(query) != query.wanted()
}

/// The array that stands in a list from a place on.
///
/// # Panics
///
/// Panics where the list ends before it.
pub fn array<const N: usize>(list: &mut [u32], at: usize) -> &mut [u32; N] {
    list[at..].first_chunk_mut().expect("room for the array")
}

/// A call that is lent a head and a journal, with so many arguments.
macro_rules! with_journal {
    ($call:ident($($argument:ident: $type:ty),*)) => {
        |query, lent| {
            let [$($argument,)* ..] = query.arguments;
            bytes::$call(lent.bytes, $($argument as $type,)* lent.journal).bits()
        }
    };
}

/// A call that is lent answers too.
macro_rules! with_answers {
    ($call:ident) => {
        |query, lent| bytes::$call(lent.bytes, lent.journal, query.answers).bits()
    };
}

/// A call that is lent a plan and the clocks too.
macro_rules! with_clocks {
    ($call:ident) => {
        |query, lent| {
            let clocks = array(lent.clocks, 0);
            bytes::$call(lent.bytes, query.plan, clocks, lent.journal, query.answers).bits()
        }
    };
}

/// The exported call.
pub fn side(call: &Call) -> Side {
    match call.id {
        Id::PlanCheck => |query, _| match bytes::plan_check(query.plan) {
            0 => 0,
            refusal => REFUSED | refusal,
        },
        Id::ReadClocks => {
            |query, lent| bytes::read_clocks(query.bytes, array(lent.clocks, 0)).bits()
        }
        Id::ReadLpsys => |query, lent| bytes::read_lpsys(query.bytes, array(lent.clocks, 0)).bits(),
        Id::Request => with_journal!(config_lpsys_hclk_mhz(freq_mhz: u32)),
        Id::Safe => with_journal!(ensure_safe_lcpu_frequency()),
        Id::Wake => with_answers!(wake_lcpu),
        Id::Cancel => with_journal!(cancel_lcpu_active_request()),
        Id::Hxt48 => with_answers!(ensure_hxt48_ready),
        Id::Hdiv => with_journal!(set_lpsys_hdiv(hdiv: u8)),
        Id::Div => with_journal!(set_lpsys_div(hdiv: u8, pdiv1: u8, pdiv2: u8)),
        Id::Mac => with_journal!(config_lpsys_mac_clock(macdiv: u8, macfreq: u8)),
        Id::Sysclk => with_journal!(select_lpsys_sysclk(source: u8)),
        Id::Peri => with_journal!(select_lpsys_peri(source: u8)),
        Id::Calibrate => with_answers!(calibrate_hrc48),
        Id::Init => with_clocks!(init),
        Id::Reconfigure => with_clocks!(reconfigure_sysclk),
        Id::LoadCheck => |_, lent| seen(lent.bytes, bytes::load_check),
        Id::Book => |query, lent| {
            let task = query.task();
            bytes::book(lent.bytes, task.id, task.cycles, task.period_us).bits()
        },
        Id::Release => |query, lent| bytes::release(lent.bytes, query.task().id).bits(),
        Id::LookUp => |query, lent| {
            seen(lent.bytes, |head| {
                bytes::look_up(head, query.task().id).bits()
            })
        },
        Id::Change => {
            |query, lent| bytes::change(lent.bytes, query.plan, lent.journal, query.answers).bits()
        }
        Id::ReadFit => |query, lent| {
            let mut fit = lent.numbers();
            let word = bytes::read_fit(query.bytes, &mut fit).bits();
            lent.put_numbers(fit);
            word
        },
        Id::Moment => |query, lent| bytes::moment(lent.bytes, &entries(query.plan)).bits(),
    }
}

/// A call that only reads its bytes, lent so that a store into them would be seen.
fn seen(bytes: &mut [u8], call: impl FnOnce(&[u8]) -> u64) -> u64 {
    let answer = call(bytes);
    black_box(bytes);
    answer
}
