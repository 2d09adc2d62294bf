//! The registers of a head.

use crate::numbered::numbered;

numbered! {
    /// A register of a head, with its number.
    ///
    /// Each has the three bytes a, b, c; a byte that is not named is 0. A byte that says on or
    /// request is 0 or 1. Of two fields in one byte the first is its high half. The codes of core
    /// select, flash, peripheral clock and USB source are those of a plan; flash has one more, 3.
    Register: u8 {
        /// c: core select.
        Sysclk = 1,
        /// a: hdiv; b: pdiv1, c: pdiv2, 0 to 7.
        HpsysCfgr = 2,
        /// a: on; b: half, 0 or 1; c: stage, 0 to 15.
        Dll1 = 3,
        /// As DLL1.
        Dll2 = 4,
        /// b: clock of flash 1; c: clock of flash 2.
        Flash = 5,
        /// c: peripheral clock.
        Peri = 6,
        /// c: USB source.
        UsbSource = 7,
        /// c: 0 to 7.
        UsbDivider = 8,
        /// 0.
        Tick = 9,
        /// c: low-power select: 0 LRC10, 1 LRC32.
        LowPower = 10,
        /// b: `hpbg_en` on; c: `hpbg_vddpsw_en` on.
        Hpbg = 11,
        /// c: 0 S, 1 D.
        HpsysSupply = 12,
        /// c: 0 to 15.
        BuckVout = 13,
        /// c: 0 to 15.
        HpsysVout = 14,
        /// c: 0 to 15.
        SetVoutM = 15,
        /// c: vref, 0 to 15.
        HpsysLdo = 16,
        /// b: `ram_rm` and `ram_ra`; c: `ram_wa` and `rom_rm`.
        HpsysTiming = 17,
        /// b: `clkhp_sel`, c: `clklp_sel`.
        HrcClockSelect = 18,
        /// b, c: a number of two bytes, 0 to 1023.
        HrcTrim = 19,
        /// b, c: a number of two bytes.
        HrcCalibrationLength = 20,
        /// c: on.
        HrcCalibrationOn = 21,
        /// c: request.
        Hxt48Request = 22,
        /// c: on.
        Lrc32On = 23,
        /// c: on.
        DllBufferOn = 24,
        /// c: LPSYS select: 0 HRC48, 1 HXT48.
        LpsysSysclk = 25,
        /// a: hdiv1; b: pdiv1, c: pdiv2, 0 to 7.
        LpsysCfgr = 26,
        /// c: LPSYS peripheral clock: 0 HRC48, 1 HXT48.
        LpsysPeri = 27,
        /// c: 0 D, 1 S.
        LpsysSupply = 28,
        /// c: 0 to 15.
        LpsysVout = 29,
        /// c: vref, 0 to 15.
        LpsysLdo = 30,
        /// As the HPSYS timing.
        LpsysTiming = 31,
        /// c: request.
        LpsysHxt48Request = 32,
        /// c: request.
        Hp2lpRequest = 33,
        /// b: macdiv, c: macfreq.
        LpsysMac = 34,
    }
}

impl Register {
    /// Where its bytes a, b, c are in the record of a head.
    pub(crate) const fn place(self) -> core::ops::Range<usize> {
        let a = 3 * self.number() as usize;
        a..a + 3
    }
}
