//! The plan record.

use crate::bytes;
use crate::rcc::{Dll, DllStage, Mpisel, PclkPrescaler, Perisel, Sysclk, Usbsel, Wdtsel};
use crate::refusal::Refusal;

/// Which clocks a head is to run on.
///
/// ```
/// use rikkovan::rcc::PclkPrescaler;
/// use rikkovan::{Plan, Refusal};
///
/// let mut plan = Plan::DEFAULT;
/// assert_eq!(plan.check(), Ok(()));
///
/// plan.pdiv1 = PclkPrescaler::Div1;
/// assert_eq!(plan.check(), Err(Refusal::Pclk1));
/// ```
#[derive(Debug, Clone, Copy, PartialEq, Eq, Hash)]
pub struct Plan {
    /// The core select.
    pub core: Sysclk,
    /// Divides the core clock, which gives HCLK; 0 divides by 1.
    pub hdiv: u8,
    /// Divides HCLK, which gives PCLK1.
    pub pdiv1: PclkPrescaler,
    /// Divides HCLK, which gives PCLK2.
    pub pdiv2: PclkPrescaler,
    /// DLL1, `None` where it is absent.
    pub dll1: Option<Dll>,
    /// DLL2, `None` where it is absent.
    pub dll2: Option<Dll>,
    /// Whether HRC48 is to be calibrated.
    pub calibrate: bool,
    /// Whether USB is to get its 60 MHz.
    pub usb: bool,
    /// The watchdog clock.
    pub wdt: Wdtsel,
    /// The source of the USB clock.
    pub usb_source: Usbsel,
    /// The peripheral clock.
    pub peripheral: Perisel,
    /// The clock of flash 1.
    pub mpi1: Mpisel,
    /// The clock of flash 2.
    pub mpi2: Mpisel,
}

impl Plan {
    /// The bytes of a record.
    pub const BYTES: usize = 20;

    /// Core on DLL1 at 240 MHz, HCLK 240 MHz, PCLK1 120 MHz, PCLK2 3.75 MHz, DLL2 at 288 MHz,
    /// flash 1 on the peripheral clock, flash 2 on DLL2, USB from the core clock.
    pub const DEFAULT: Self = Self {
        core: Sysclk::Dll1,
        hdiv: 1,
        pdiv1: PclkPrescaler::Div2,
        pdiv2: PclkPrescaler::Div64,
        dll1: Some(Dll::new().with_stg(DllStage::Mul10)),
        dll2: Some(Dll::new().with_stg(DllStage::Mul12)),
        calibrate: true,
        usb: true,
        wdt: Wdtsel::Lrc32,
        usb_source: Usbsel::Sysclk,
        peripheral: Perisel::Hxt48,
        mpi1: Mpisel::Peri,
        mpi2: Mpisel::Dll2,
    };

    /// Checks the plan: refusals 4 to 14.
    pub fn check(&self) -> Result<(), Refusal> {
        checked(&self.to_record()).map_or(Ok(()), Err)
    }

    /// The plan's record.
    pub const fn to_record(&self) -> [u8; Self::BYTES] {
        let [dll1_present, dll1_stage, dll1_half] = dll_bytes(self.dll1);
        let [dll2_present, dll2_stage, dll2_half] = dll_bytes(self.dll2);
        [
            0,
            18,
            1,
            self.core.number(),
            self.hdiv,
            self.pdiv1.number(),
            self.pdiv2.number(),
            dll1_present,
            dll1_stage,
            dll1_half,
            dll2_present,
            dll2_stage,
            dll2_half,
            self.calibrate as u8,
            self.usb as u8,
            self.wdt.number(),
            self.usb_source.number(),
            self.peripheral.number(),
            self.mpi1.number(),
            self.mpi2.number(),
        ]
    }

    /// The plan of a record, which [`check`](Self::check) may yet refuse. Refusals: `Length`,
    /// `Version`, `Code`.
    pub fn from_record(record: &[u8]) -> Result<Self, Refusal> {
        match checked(record) {
            Some(refusal @ (Refusal::Length | Refusal::Version | Refusal::Code)) => Err(refusal),
            _ => decoded(record).ok_or(Refusal::Code),
        }
    }
}

impl Default for Plan {
    fn default() -> Self {
        Self::DEFAULT
    }
}

/// The refusal of a record.
fn checked(record: &[u8]) -> Option<Refusal> {
    Refusal::unless_0(bytes::plan_check(record) as u32)
}

/// The plan of a record that has the right length and version, `None` where a code is wrong.
fn decoded(record: &[u8]) -> Option<Plan> {
    let mut bytes = record.iter().copied().skip(3);
    let mut byte = || bytes.next();
    Some(Plan {
        core: Sysclk::from_number(byte()?)?,
        hdiv: byte()?,
        pdiv1: PclkPrescaler::from_number(byte()?)?,
        pdiv2: PclkPrescaler::from_number(byte()?)?,
        dll1: dll_of([byte()?, byte()?, byte()?])?,
        dll2: dll_of([byte()?, byte()?, byte()?])?,
        calibrate: byte()? == 1,
        usb: byte()? == 1,
        wdt: Wdtsel::from_number(byte()?)?,
        usb_source: Usbsel::from_number(byte()?)?,
        peripheral: Perisel::from_number(byte()?)?,
        mpi1: Mpisel::from_number(byte()?)?,
        mpi2: Mpisel::from_number(byte()?)?,
    })
}

/// A DLL as present, stage and half.
const fn dll_bytes(dll: Option<Dll>) -> [u8; 3] {
    match dll {
        None => [0, 0, 0],
        Some(Dll { out_div2, stg }) => [1, stg.number(), out_div2 as u8],
    }
}

/// The DLL of these bytes, `None` where a code is wrong.
fn dll_of([present, stage, half]: [u8; 3]) -> Option<Option<Dll>> {
    let stg = DllStage::from_number(stage)?;
    let out_div2 = half == 1;
    Some((present == 1).then_some(Dll { out_div2, stg }))
}
