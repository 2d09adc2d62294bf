//! Stand-in for rcc/mod.rs, which is not among the sources: its four modules,
//! and their names in one place as they expect it of `super`.

include!(concat!(env!("OUT_DIR"), "/rcc.rs"));

pub use clock::*;
pub use clock_config::*;
pub use clock_lpsys::*;
pub(crate) use clock_read::*;
