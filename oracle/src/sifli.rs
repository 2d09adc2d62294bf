//! The original clock code of sifli-rs, compiled unchanged from its place, and
//! what stands in for the parts that are not among the sources. This is the
//! crate root that the sources expect: `crate::pac`, `crate::time`,
//! `crate::rcc`, `crate::pmu` and `crate::cortex_m_blocking_delay_us`.

/// Stand-in for fmt.rs: the text goes to the world, which keeps what it needs.
macro_rules! debug {
    ($format:literal $($rest:tt)*) => {
        $crate::world::debug($format, || ::std::format!($format $($rest)*))
    };
}

/// As in fmt.rs, without `unchecked-overclocking`.
macro_rules! const_rcc_assert {
    ($condition:expr, $message:literal) => {
        if !$condition {
            ::core::panic!($message);
        }
    };
}

// The sources call `critical_section::with`, which this line makes `crate::with`.
extern crate self as critical_section;

pub mod call;
pub mod calls;
pub mod caught;
pub mod change;
pub mod claim;
pub mod delay;
pub mod head;
pub mod hex;
pub mod lent;
pub mod moment;
pub mod pac;
pub mod plan;
pub mod query;
pub mod random;
pub mod rcc;
pub mod readings;
pub mod shrink;
pub mod tasks;
pub mod world;

#[cfg(test)]
mod tests;

include!(concat!(env!("OUT_DIR"), "/root.rs"));

pub mod pmu {
    include!(concat!(env!("OUT_DIR"), "/pmu.rs"));
}

/// Stand-in for `critical_section::with`: calls run one at a time.
pub fn with<T>(f: impl FnOnce(()) -> T) -> T {
    f(())
}

/// As in lib.rs, which rounds down; what was asked for is kept beside it.
pub fn cortex_m_blocking_delay_us(us: u32) {
    let freq = rcc::get_hclk_freq().unwrap().0 as u64;
    let cycles = freq * us as u64 / 1_000_000;
    cortex_m::asm::delay(cycles as u32);
    delay::keep(|| {
        let (place, original) = world::last_entry();
        let hclk = freq as u32;
        delay::Delay {
            place,
            us,
            hclk,
            original,
        }
    });
}

/// Stand-in for the crate cortex-m.
mod cortex_m {
    pub mod asm {
        pub use crate::world::delay;
    }
}
