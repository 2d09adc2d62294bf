//! The plan record of document 01, "The verdict on a plan", its refusals 1 to
//! 3, and `ConfigBuilder::check` with its panics as refusals 4 to 14.

use crate::caught::caught_text;
use crate::pac::hpsys_rcc::vals::{Dllstg, Pdiv, Sysclk, mux};
use crate::rcc::{ClockMux, ConfigBuilder, Dll, HclkPrescaler};

/// A plan's slice is this long.
pub const LENGTH: usize = 20;

/// Document 01's default plan.
pub const DEFAULT: [u8; LENGTH] = [
    0x00, 0x12, 0x01, 0x03, 0x01, 0x01, 0x06, 0x01, 0x09, 0x00, 0x01, 0x0B, 0x00, 0x01, 0x01, 0x01,
    0x00, 0x01, 0x00, 0x02,
];

/// Where each field lies in the record.
pub mod at {
    pub const VERSION: usize = 2;
    pub const CORE: usize = 3;
    pub const HDIV: usize = 4;
    pub const PDIV1: usize = 5;
    pub const PDIV2: usize = 6;
    /// Present, stage, half.
    pub const DLL1: usize = 7;
    pub const DLL2: usize = 10;
    pub const CALIBRATE: usize = 13;
    pub const USB: usize = 14;
    pub const WDT: usize = 15;
    pub const USB_SOURCE: usize = 16;
    pub const PERIPHERAL: usize = 17;
    pub const MPI1: usize = 18;
    pub const MPI2: usize = 19;
}

/// The largest code of each byte from the core select on.
pub const LARGEST: [u8; 17] = [3, 255, 7, 7, 1, 15, 1, 1, 15, 1, 1, 1, 1, 1, 1, 2, 2];

/// An answer of `check` that is none of document 01's: its panic has another text.
pub const UNKNOWN: u64 = 99;

/// The 17 bytes of a plan, each one of its codes.
#[derive(Clone, Copy, PartialEq, Eq, Debug)]
pub struct Plan([u8; LENGTH]);

/// The default plan.
impl Default for Plan {
    fn default() -> Self {
        Self(DEFAULT)
    }
}

/// A plan from its slice, or the refusal 1, 2 or 3.
pub fn decode(slice: &[u8]) -> Result<Plan, u64> {
    let record: [u8; LENGTH] = slice.try_into().map_err(|_| 1u64)?;
    if record[..2] != [0, 18] {
        return Err(1);
    }
    if record[at::VERSION] != 1 {
        return Err(2);
    }
    let coded = record[at::CORE..].iter().zip(LARGEST);
    if coded.into_iter().any(|(&byte, largest)| byte > largest) {
        return Err(3);
    }
    let absent = |dll: usize| record[dll] == 0 && record[dll + 1..dll + 3] != [0, 0];
    if absent(at::DLL1) || absent(at::DLL2) {
        return Err(3);
    }
    Ok(Plan(record))
}

/// The answer to a plan: 0, or its refusal number 1 to 14.
pub fn check(slice: &[u8]) -> u64 {
    match decode(slice) {
        Ok(plan) => plan.check(),
        Err(refusal) => refusal,
    }
}

impl Plan {
    /// The plan as the original code has it.
    pub fn builder(&self) -> ConfigBuilder {
        let byte = |at: usize| self.0[at];
        ConfigBuilder {
            sys: Sysclk::from_bits(byte(at::CORE)),
            hdiv: HclkPrescaler(byte(at::HDIV)),
            pdiv1: Pdiv::from_bits(byte(at::PDIV1)),
            pdiv2: Pdiv::from_bits(byte(at::PDIV2)),
            dll1: self.dll(at::DLL1),
            dll2: self.dll(at::DLL2),
            hrc48_calibrate: byte(at::CALIBRATE) == 1,
            usb: byte(at::USB) == 1,
            mux: ClockMux {
                rtcsel: mux::Rtcsel::Lrc10,
                wdtsel: mux::Wdtsel::from_bits(byte(at::WDT)),
                usbsel: mux::Usbsel::from_bits(byte(at::USB_SOURCE)),
                perisel: mux::Perisel::from_bits(byte(at::PERIPHERAL)),
                mpi1sel: mux::Mpisel::from_bits(byte(at::MPI1)),
                mpi2sel: mux::Mpisel::from_bits(byte(at::MPI2)),
                ticksel: mux::Ticksel::ClkRtc,
                lpsel: mux::Lpsel::SelSys,
            },
        }
    }

    fn dll(&self, at: usize) -> Option<Dll> {
        let [present, stage, half] = [self.0[at], self.0[at + 1], self.0[at + 2]];
        (present == 1).then(|| Dll {
            out_div2: half == 1,
            stg: Dllstg::from_bits(stage),
        })
    }

    /// The original check: 0, or the number of the test that it panics at.
    pub fn check(&self) -> u64 {
        let builder = self.builder();
        match caught_text(|| builder.check()) {
            Ok(()) => 0,
            Err(text) => refusal(text),
        }
    }
}

/// Document 01's number for a panic of `check`.
fn refusal(text: &str) -> u64 {
    match text {
        "sysclk is set to DLL1, but dll1 is None" => 4,
        "DBL96 is not implemented yet" => 5,
        "MPI1 clock source is set to DLL2, but dll2 is None" => 6,
        "MPI1 clock source is set to DLL1, but dll1 is None" => 6,
        "MPI2 clock source is set to DLL2, but dll2 is None" => 7,
        "MPI2 clock source is set to DLL1, but dll1 is None" => 7,
        "USB clock source is set to DLL2, but dll2 is None" => 8,
        "USB clock source cannot be divided to exact 60MHz" => 9,
        "DLL1 sysclk frequency below minimum limit (24 MHz)" => 10,
        "HCLK frequency exceeds maximum DVFS limit (240 MHz)" => 11,
        "PCLK1 exceeds S-mode limit (120 MHz), increase pdiv1" => 12,
        "PCLK1 exceeds D-mode limit (48 MHz), increase pdiv1" => 12,
        "PCLK2 exceeds S-mode limit (7.5 MHz), increase pdiv2" => 13,
        "PCLK2 exceeds D-mode limit (6 MHz), increase pdiv2" => 13,
        "DLL2 frequency exceeds DVFS S-mode limit (288 MHz)" => 14,
        _ => UNKNOWN,
    }
}
