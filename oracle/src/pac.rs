//! Stand-in for the register crate. Every field that the sources read or set
//! lies in a register of document 01; the few that do not are named here.

mod codes;
mod register;

use crate::world::{self, Kind};
use register::{Reg, Register, View, a, b, bc, c, peripheral, register};

pub mod hpsys_rcc {
    pub use super::codes::hpsys as vals;
}

pub mod lpsys_rcc {
    pub use super::codes::lpsys as vals;
}

pub mod hpsys_cfg {
    pub mod regs {
        crate::pac::register::memory_timing!(17);
    }
}

pub mod lpsys_cfg {
    pub mod regs {
        crate::pac::register::memory_timing!(31);
    }
}

use hpsys_rcc::vals::mux::{Mpisel, Perisel, Ticksel, Usbsel, Wdtsel};
use hpsys_rcc::vals::{Dllstg, Pdiv, Sysclk};
use lpsys_rcc::vals as lpsys;

// HPSYS_RCC

// A csr `modify` without a field set is init's restore of the flash selects.
register!(Csr else 5 {
    sel_sys, set_sel_sys: Sysclk = c(1);
    sel_mpi1, set_sel_mpi1: Mpisel = b(5);
    sel_mpi2, set_sel_mpi2: Mpisel = c(5);
    sel_peri, set_sel_peri: Perisel = c(6);
    sel_usbc, set_sel_usbc: Usbsel = c(7);
    sel_tick, set_sel_tick: Ticksel = c(9);
});

register!(Cfgr else 2 {
    hdiv, set_hdiv: u8 = a(2);
    pdiv1, set_pdiv1: Pdiv = b(2);
    pdiv2, set_pdiv2: Pdiv = c(2);
});

register!(Dllcr else 3 {
    en, set_en: bool = a(3);
    out_div2_en, set_out_div2_en: bool = b(3);
    stg, set_stg: Dllstg = c(3);
});

impl Dllcr {
    /// Always set together with the others, and not in the record.
    pub fn set_in_div2_en(&mut self, _on: bool) {}

    pub fn ready(&self) -> bool {
        world::poll(if self.0.index == 0 {
            Kind::Dll1
        } else {
            Kind::Dll2
        })
    }
}

register!(Usbcr else 8 {
    div, set_div: u8 = c(8);
});

register!(Hrccal1 else 20 {
    cal_length, set_cal_length: u16 = bc(20, 16);
    cal_en, set_cal_en: bool = c(21);
});

impl Hrccal1 {
    pub fn cal_done(&self) -> bool {
        world::poll(Kind::Calibration)
    }
}

/// The two counts of a measurement, taken from the answers by its last poll.
pub struct Hrccal2;

impl Hrccal2 {
    pub fn read(&self) -> Self {
        Self
    }
    pub fn hxt_cnt(&self) -> u16 {
        world::measured()[0]
    }
    pub fn hrc_cnt(&self) -> u16 {
        world::measured()[1]
    }
}

peripheral!(HPSYS_RCC: HpsysRcc {
    csr: Csr;
    cfgr: Cfgr;
    usbcr: Usbcr;
    hrccal1: Hrccal1;
});

impl HpsysRcc {
    pub const fn dllcr(&self, index: usize) -> Reg<Dllcr> {
        Reg::at(index)
    }
    pub const fn hrccal2(&self) -> Hrccal2 {
        Hrccal2
    }
}

// HPSYS_AON and LPSYS_AON

register!(Acr else 22 {
    hxt48_req, set_hxt48_req: bool = c(22);
});

impl Acr {
    pub fn hxt48_rdy(&self) -> bool {
        world::hxt48_ready(Kind::Hxt48)
    }
    pub fn hrc48_rdy(&self) -> bool {
        world::look(|head| head.hrc48_ready)
    }
}

register!(Issr else 33 {
    hp2lp_req, set_hp2lp_req: bool = c(33);
});

impl Issr {
    pub fn lp_active(&self) -> bool {
        world::poll(Kind::LpsysActive)
    }
}

pub struct Pmr;

impl Pmr {
    pub fn read(&self) -> Self {
        Self
    }
    pub fn mode(&self) -> u8 {
        world::look(|head| head.boot_mode)
    }
}

peripheral!(HPSYS_AON: HpsysAon {
    acr: Acr;
    issr: Issr;
});

impl HpsysAon {
    pub const fn pmr(&self) -> Pmr {
        Pmr
    }
}

register!(LpsysAcr else 32 {
    hxt48_req, set_hxt48_req: bool = c(32);
});

impl LpsysAcr {
    pub fn hxt48_rdy(&self) -> bool {
        world::hxt48_ready(Kind::LpsysHxt48)
    }
}

peripheral!(LPSYS_AON: LpsysAon {
    acr: LpsysAcr;
});

// HPSYS_CFG and LPSYS_CFG

register!(Cau2Cr else 11 {
    hpbg_en, set_hpbg_en: bool = b(11);
    hpbg_vddpsw_en, set_hpbg_vddpsw_en: bool = c(11);
});

register!(Syscr else 12 {
    ldo_vsel, set_ldo_vsel: bool = c(12);
});

peripheral!(HPSYS_CFG: HpsysCfg {
    cau2_cr: Cau2Cr;
    syscr: Syscr;
    ulpmcr: hpsys_cfg::regs::Ulpmcr;
});

register!(LpsysSyscr else 28 {
    ldo_vsel, set_ldo_vsel: bool = c(28);
});

peripheral!(LPSYS_CFG: LpsysCfg {
    syscr: LpsysSyscr;
    ulpmcr: lpsys_cfg::regs::Ulpmcr;
});

// PMUC

register!(Lrc32Cr else 23 {
    en, set_en: bool = c(23);
});

register!(PmucCr else 10 {
    sel_lpclk, set_sel_lpclk: Wdtsel = c(10);
});

register!(HxtCr1 else 24 {
    buf_dll_en, set_buf_dll_en: bool = c(24);
});

register!(HrcCr else 18 {
    clkhp_sel, set_clkhp_sel: u8 = b(18);
    clklp_sel, set_clklp_sel: u8 = c(18);
    freq_trim, set_freq_trim: u16 = bc(19, 10);
});

register!(BuckVout else 13 {
    vout, set_vout: u8 = c(13);
});

register!(HpsysVout else 14 {
    vout, set_vout: u8 = c(14);
});

register!(BuckCr2 else 15 {
    set_vout_m, set_set_vout_m: u8 = c(15);
});

register!(HpsysLdo else 16 {
    vref, set_vref: u8 = c(16);
});

register!(LpsysVout else 29 {
    vout, set_vout: u8 = c(29);
});

register!(LpsysLdo else 30 {
    vref, set_vref: u8 = c(30);
});

peripheral!(PMUC: Pmuc {
    lrc32_cr: Lrc32Cr;
    cr: PmucCr;
    hxt_cr1: HxtCr1;
    hrc_cr: HrcCr;
    buck_vout: BuckVout;
    hpsys_vout: HpsysVout;
    buck_cr2: BuckCr2;
    hpsys_ldo: HpsysLdo;
    lpsys_vout: LpsysVout;
    lpsys_ldo: LpsysLdo;
});

// LPSYS_RCC

register!(LpsysCsr else 25 {
    sel_sys, set_sel_sys: lpsys::Sysclk = c(25);
    sel_peri, set_sel_peri: lpsys::mux::Perisel = c(27);
});

register!(LpsysCfgr else 26 {
    hdiv1, set_hdiv1: lpsys::Hdiv = a(26);
    pdiv1, set_pdiv1: lpsys::Pdiv = b(26);
    pdiv2, set_pdiv2: lpsys::Pdiv = c(26);
    macdiv, set_macdiv: lpsys::Macdiv = b(34);
    macfreq, set_macfreq: u8 = c(34);
});

/// The resets of LPSYS. They are not in the record: nothing is stored.
pub struct Rstr1;

impl Rstr1 {
    pub fn read(&self) -> Self {
        Self
    }
    pub fn modify(&self, change: impl FnOnce(&mut Self)) {
        change(&mut Self);
    }
    pub fn set_lcpu(&mut self, _on: bool) {}
    pub fn set_mac(&mut self, _on: bool) {}
    pub fn set_rfc(&mut self, _on: bool) {}
    pub fn lcpu(&self) -> bool {
        false
    }
    pub fn mac(&self) -> bool {
        false
    }
    pub fn rfc(&self) -> bool {
        false
    }
}

peripheral!(LPSYS_RCC: LpsysRcc {
    csr: LpsysCsr;
    cfgr: LpsysCfgr;
});

impl LpsysRcc {
    pub const fn rstr1(&self) -> Rstr1 {
        Rstr1
    }
}
