//! The selects beside the core select.

use super::codes::{Lpsel, Mpisel, Perisel, Rtcsel, Ticksel, Usbsel, Wdtsel};
use super::ConfigBuilder;

/// The clock multiplexers of a [`ConfigBuilder`].
#[derive(Debug, Clone, Copy, PartialEq, Eq, Hash)]
#[must_use]
#[non_exhaustive]
pub struct ClockMux {
    /// The clock of the RTC.
    pub rtcsel: Rtcsel,
    /// The watchdog clock.
    pub wdtsel: Wdtsel,
    /// The source of the USB clock.
    pub usbsel: Usbsel,
    /// The peripheral clock.
    pub perisel: Perisel,
    /// The clock of flash 1.
    pub mpi1sel: Mpisel,
    /// The clock of flash 2.
    pub mpi2sel: Mpisel,
    /// The clock of the system tick.
    pub ticksel: Ticksel,
    /// The low-power select.
    pub lpsel: Lpsel,
}

impl ClockMux {
    /// Those of the default plan.
    pub const fn new() -> Self {
        ConfigBuilder::new().mux
    }

    with! {
        with_rtcsel, rtcsel: Rtcsel;
        with_wdtsel, wdtsel: Wdtsel;
        with_usbsel, usbsel: Usbsel;
        with_perisel, perisel: Perisel;
        with_mpi1sel, mpi1sel: Mpisel;
        with_mpi2sel, mpi2sel: Mpisel;
        with_ticksel, ticksel: Ticksel;
        with_lpsel, lpsel: Lpsel;
    }
}

impl Default for ClockMux {
    fn default() -> Self {
        Self::new()
    }
}
