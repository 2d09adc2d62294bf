#![doc = include_str!("../README.md")]
#![no_std]
#![deny(unsafe_code)]
#![warn(missing_docs, rust_2018_idioms)]

#[allow(unsafe_code)]
pub mod bytes;
pub mod rcc;

mod call;
mod clocks;
mod control;
mod fit;
mod head;
mod journal;
mod lpsys;
mod numbered;
mod plan;
mod play;
mod refusal;
mod register;
#[allow(unsafe_code)]
mod sys;
mod task;
mod time;
mod word;

pub use call::{Done, Outcome, Refused};
pub use clocks::{Clocks, LpsysClocks, CLOCKS, LPSYS_CLOCKS};
pub use control::Booted;
pub use fit::{Fit, Unfit, FIT_NUMBERS};
pub use head::{Head, ReadyFlag};
pub use journal::{Entries, Entry, Journal, WaitKind, JOURNAL_WORDS, MOST_ANSWERS};
pub use lpsys::LpsysSource;
pub use plan::Plan;
pub use play::{play, Asked, Chip};
pub use refusal::{Refusal, UnknownRefusal};
pub use register::Register;
pub use task::{load_check, LookUp, Task};
pub use time::{Hertz, Megahertz};
pub use word::Word;
