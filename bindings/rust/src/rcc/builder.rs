//! A plan with the names that the HAL has for it.

use super::codes::{Dll, HclkPrescaler, Lpsel, Mpisel, PclkPrescaler, Rtcsel, Sysclk, Ticksel};
use super::mux::ClockMux;
use crate::plan::Plan;
use crate::refusal::Refusal;

/// A plan with the names of the HAL's `rcc::ConfigBuilder`; from and to a [`Plan`].
#[derive(Debug, Clone, Copy, PartialEq, Eq, Hash)]
#[must_use]
#[non_exhaustive]
pub struct ConfigBuilder {
    /// The core select.
    pub sys: Sysclk,
    /// Divides the core clock, which gives HCLK.
    pub hdiv: HclkPrescaler,
    /// Divides HCLK, which gives PCLK1.
    pub pdiv1: PclkPrescaler,
    /// Divides HCLK, which gives PCLK2.
    pub pdiv2: PclkPrescaler,
    /// DLL1, `None` where it is absent.
    pub dll1: Option<Dll>,
    /// DLL2, `None` where it is absent.
    pub dll2: Option<Dll>,
    /// Whether HRC48 is to be calibrated.
    pub hrc48_calibrate: bool,
    /// Whether USB is to get its 60 MHz.
    pub usb: bool,
    /// The other selects.
    pub mux: ClockMux,
}

impl ConfigBuilder {
    /// The default plan.
    pub const fn new() -> Self {
        Self::from_plan(Plan::DEFAULT)
    }

    /// For a change of the core clock: HXT48, no DLL, no USB. Its PCLK2 is HCLK, so it is refused
    /// until [`with_pdiv2`](Self::with_pdiv2) divides it.
    pub const fn sysclk() -> Self {
        Self {
            sys: Sysclk::Hxt48,
            hdiv: HclkPrescaler(1),
            pdiv1: PclkPrescaler::Div1,
            pdiv2: PclkPrescaler::Div1,
            dll1: None,
            dll2: None,
            hrc48_calibrate: false,
            usb: false,
            mux: ClockMux::new().with_mpi2sel(Mpisel::Peri),
        }
    }

    with! {
        with_sys, sys: Sysclk;
        with_hdiv, hdiv: HclkPrescaler;
        with_pdiv1, pdiv1: PclkPrescaler;
        with_pdiv2, pdiv2: PclkPrescaler;
        with_hrc48_calibrate, hrc48_calibrate: bool;
        with_usb, usb: bool;
        with_mux, mux: ClockMux;
    }

    /// With `dll1` present.
    pub const fn with_dll1(mut self, dll1: Dll) -> Self {
        self.dll1 = Some(dll1);
        self
    }

    /// With `dll2` present.
    pub const fn with_dll2(mut self, dll2: Dll) -> Self {
        self.dll2 = Some(dll2);
        self
    }

    /// Checks the plan. The HAL's `check` panics where this is refused.
    pub fn check(&self) -> Result<(), Refusal> {
        Plan::from(*self).check()
    }

    /// The plan, where it is accepted. It stands for the HAL's `Config`.
    pub fn checked(self) -> Result<Plan, Refusal> {
        self.check().map(|()| self.into())
    }

    const fn from_plan(plan: Plan) -> Self {
        Self {
            sys: plan.core,
            hdiv: HclkPrescaler(plan.hdiv),
            pdiv1: plan.pdiv1,
            pdiv2: plan.pdiv2,
            dll1: plan.dll1,
            dll2: plan.dll2,
            hrc48_calibrate: plan.calibrate,
            usb: plan.usb,
            mux: ClockMux {
                rtcsel: Rtcsel::Lrc10,
                wdtsel: plan.wdt,
                usbsel: plan.usb_source,
                perisel: plan.peripheral,
                mpi1sel: plan.mpi1,
                mpi2sel: plan.mpi2,
                ticksel: Ticksel::ClkRtc,
                lpsel: Lpsel::SelSys,
            },
        }
    }
}

impl Default for ConfigBuilder {
    fn default() -> Self {
        Self::new()
    }
}

impl From<Plan> for ConfigBuilder {
    fn from(plan: Plan) -> Self {
        Self::from_plan(plan)
    }
}

impl From<ConfigBuilder> for Plan {
    fn from(builder: ConfigBuilder) -> Self {
        Self {
            core: builder.sys,
            hdiv: builder.hdiv.0,
            pdiv1: builder.pdiv1,
            pdiv2: builder.pdiv2,
            dll1: builder.dll1,
            dll2: builder.dll2,
            calibrate: builder.hrc48_calibrate,
            usb: builder.usb,
            wdt: builder.mux.wdtsel,
            usb_source: builder.mux.usbsel,
            peripheral: builder.mux.perisel,
            mpi1: builder.mux.mpi1sel,
            mpi2: builder.mux.mpi2sel,
        }
    }
}
