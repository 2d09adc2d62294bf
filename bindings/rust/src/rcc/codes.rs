//! What the fields of a plan may hold.

use crate::numbered::numbered;

numbered! {
    /// Core select: the clock of the core.
    Sysclk: u8 {
        /// The RC oscillator of 48 MHz.
        Hrc48 = 0,
        /// The crystal of 48 MHz.
        Hxt48 = 1,
        /// Has a code, and every plan with it is refused.
        Dbl96 = 2,
        /// DLL1, which the plan must have.
        Dll1 = 3,
    }
}

/// Divides the core clock; 0 divides by 1.
#[derive(Debug, Clone, Copy, PartialEq, Eq, Hash)]
pub struct HclkPrescaler(pub u8);

impl HclkPrescaler {
    /// A divider.
    pub const fn new(div: u8) -> Self {
        Self(div)
    }
}

impl Default for HclkPrescaler {
    fn default() -> Self {
        Self(1)
    }
}

numbered! {
    /// Divides HCLK by a power of 2; its number is the exponent.
    PclkPrescaler: u8 {
        /// HCLK.
        Div1 = 0,
        /// HCLK / 2.
        Div2 = 1,
        /// HCLK / 4.
        Div4 = 2,
        /// HCLK / 8.
        Div8 = 3,
        /// HCLK / 16.
        Div16 = 4,
        /// HCLK / 32.
        Div32 = 5,
        /// HCLK / 64.
        Div64 = 6,
        /// HCLK / 128.
        Div128 = 7,
    }
}

numbered! {
    /// The stage of a DLL, a multiple of 24 MHz.
    DllStage: u8 {
        /// 24 MHz.
        Mul1 = 0,
        /// 48 MHz.
        Mul2 = 1,
        /// 72 MHz.
        Mul3 = 2,
        /// 96 MHz.
        Mul4 = 3,
        /// 120 MHz.
        Mul5 = 4,
        /// 144 MHz.
        Mul6 = 5,
        /// 168 MHz.
        Mul7 = 6,
        /// 192 MHz.
        Mul8 = 7,
        /// 216 MHz.
        Mul9 = 8,
        /// 240 MHz.
        Mul10 = 9,
        /// 264 MHz.
        Mul11 = 10,
        /// 288 MHz.
        Mul12 = 11,
        /// 312 MHz.
        Mul13 = 12,
        /// 336 MHz.
        Mul14 = 13,
        /// 360 MHz.
        Mul15 = 14,
        /// 384 MHz.
        Mul16 = 15,
    }
}

/// A DLL that is on.
#[derive(Debug, Clone, Copy, PartialEq, Eq, Hash)]
pub struct Dll {
    /// Whether the clock of the stage is halved.
    pub out_div2: bool,
    /// The stage.
    pub stg: DllStage,
}

impl Dll {
    /// 24 MHz, not halved.
    pub const fn new() -> Self {
        Self {
            out_div2: false,
            stg: DllStage::Mul1,
        }
    }

    with! {
        with_out_div2, out_div2: bool;
        with_stg, stg: DllStage;
    }
}

impl Default for Dll {
    fn default() -> Self {
        Self::new()
    }
}

numbered! {
    /// The watchdog clock.
    Wdtsel: u8 {
        /// 100,000 Hz.
        Lrc10 = 0,
        /// 32,000 Hz.
        Lrc32 = 1,
    }
}

numbered! {
    /// The source of the USB clock.
    Usbsel: u8 {
        /// The core clock.
        Sysclk = 0,
        /// DLL2.
        Dll2 = 1,
    }
}

numbered! {
    /// The peripheral clock.
    Perisel: u8 {
        /// The RC oscillator of 48 MHz.
        Hrc48 = 0,
        /// The crystal of 48 MHz.
        Hxt48 = 1,
    }
}

numbered! {
    /// The clock of a flash.
    Mpisel: u8 {
        /// The peripheral clock.
        Peri = 0,
        /// DLL1.
        Dll1 = 1,
        /// DLL2.
        Dll2 = 2,
    }
}

numbered! {
    /// The clock of the RTC. A plan has no field for it: this is its only value.
    Rtcsel: u8 {
        /// 100,000 Hz.
        Lrc10 = 0,
    }
}

numbered! {
    /// The clock of the system tick. A plan has no field for it: this is its only value.
    Ticksel: u8 {
        /// The clock of the RTC.
        ClkRtc = 0,
    }
}

numbered! {
    /// The low-power select. A plan has no field for it: this is its only value.
    Lpsel: u8 {
        /// The core runs on the clock of the core select.
        SelSys = 0,
    }
}
