//! Frequencies.

use core::fmt::{self, Display, Formatter};

/// A frequency in Hz.
#[derive(Debug, Clone, Copy, PartialEq, Eq, PartialOrd, Ord, Hash)]
pub struct Hertz(pub u32);

impl Hertz {
    /// From Hz.
    pub const fn hz(hertz: u32) -> Self {
        Self(hertz)
    }

    /// From kHz.
    ///
    /// # Panics
    ///
    /// Panics above 4,294,967 kHz, which is no `Hertz`.
    pub const fn khz(kilohertz: u32) -> Self {
        match kilohertz.checked_mul(1_000) {
            Some(hertz) => Self(hertz),
            None => panic!("at most 4,294,967 kHz"),
        }
    }

    /// From MHz.
    ///
    /// # Panics
    ///
    /// Panics above 4,294 MHz, which is no `Hertz`.
    pub const fn mhz(megahertz: u32) -> Self {
        match megahertz.checked_mul(1_000_000) {
            Some(hertz) => Self(hertz),
            None => panic!("at most 4,294 MHz"),
        }
    }

    /// In whole MHz, rounded down.
    pub const fn whole_megahertz(self) -> Megahertz {
        Megahertz(self.0 / 1_000_000)
    }
}

impl Display for Hertz {
    fn fmt(&self, f: &mut Formatter<'_>) -> fmt::Result {
        write!(f, "{} Hz", self.0)
    }
}

/// A frequency in whole MHz. It is never passed for one in Hz:
///
/// ```
/// # use rikkovan::{Head, Journal, Megahertz};
/// let refused = Head::new().config_lpsys_hclk_mhz(Megahertz(49), &mut Journal::new());
/// ```
///
/// ```compile_fail
/// # use rikkovan::{Head, Hertz, Journal};
/// let refused = Head::new().config_lpsys_hclk_mhz(Hertz(49), &mut Journal::new());
/// ```
#[derive(Debug, Clone, Copy, PartialEq, Eq, PartialOrd, Ord, Hash)]
pub struct Megahertz(pub u32);

impl Display for Megahertz {
    fn fmt(&self, f: &mut Formatter<'_>) -> fmt::Result {
        write!(f, "{} MHz", self.0)
    }
}
