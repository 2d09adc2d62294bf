//! The calls on a head that set the clocks of its low-power system, LPSYS.

use crate::bytes;
use crate::call::Outcome;
use crate::head::Head;
use crate::journal::Journal;
use crate::numbered::numbered;
use crate::rcc::PclkPrescaler;
use crate::time::{Hertz, Megahertz};

numbered! {
    /// The source of an LPSYS clock.
    LpsysSource: u8 {
        /// The RC oscillator of 48 MHz.
        Hrc48 = 0,
        /// The crystal of 48 MHz.
        Hxt48 = 1,
    }
}

impl Head {
    /// Sets the LPSYS HCLK to a frequency, and its supply with it: an LPSYS request. The divider
    /// is 48 MHz / the request, rounded down, so 25 to 47 MHz give 48.
    ///
    /// Refusals: `LpsysRequest`; and `HclkUnreadable`, which keeps the two stores before the delay.
    ///
    /// ```
    /// use rikkovan::{Entry, Head, Hertz, Journal, Megahertz, Refusal, Register};
    ///
    /// // LPSYS at 48 MHz, supply S.
    /// let mut head = Head::from_bytes(&std::fs::read("../../examples/heads/d48.head")?)?;
    /// let mut journal = Journal::new();
    /// head.config_lpsys_hclk_mhz(Megahertz(20), &mut journal)?;
    /// let store = |register, value| Entry::Store { register, value };
    /// assert!(journal.iter().eq([
    ///     store(Register::LpsysLdo, 6),
    ///     store(Register::LpsysCfgr, 0x02_0000),
    ///     store(Register::LpsysTiming, 0x00_0162),
    ///     store(Register::LpsysSupply, 0),
    /// ]));
    /// assert_eq!(head.lpsys_clocks().hclk, Some(Hertz(24_000_000)));
    ///
    /// let refused = head.config_lpsys_hclk_mhz(Megahertz(49), &mut journal).unwrap_err();
    /// assert_eq!(refused.refusal, Refusal::LpsysRequest);
    /// # Ok::<(), Box<dyn std::error::Error>>(())
    /// ```
    pub fn config_lpsys_hclk_mhz(
        &mut self,
        frequency: Megahertz,
        journal: &mut Journal,
    ) -> Outcome {
        let Megahertz(mhz) = frequency;
        self.perform(journal, |head, words| {
            bytes::config_lpsys_hclk_mhz(head, mhz, words)
        })
    }

    /// Brings the LPSYS HCLK down to 24 MHz where it is above. Gives the LPSYS HCLK before the
    /// call.
    ///
    /// Refusal: `LpsysHclkUnreadable`.
    pub fn ensure_safe_lcpu_frequency(&mut self, journal: &mut Journal) -> Outcome<Hertz> {
        let outcome = self.call(journal, bytes::ensure_safe_lcpu_frequency);
        outcome.map(|done| done.map(Hertz))
    }

    /// Sets hdiv1; 0 divides by 1.
    pub fn set_lpsys_hdiv(&mut self, hdiv: u8, journal: &mut Journal) -> Outcome {
        self.perform(journal, |head, words| {
            bytes::set_lpsys_hdiv(head, hdiv, words)
        })
    }

    /// Sets hdiv1, pdiv1 and pdiv2.
    pub fn set_lpsys_div(
        &mut self,
        hdiv: u8,
        pdiv1: PclkPrescaler,
        pdiv2: PclkPrescaler,
        journal: &mut Journal,
    ) -> Outcome {
        let (pdiv1, pdiv2) = (pdiv1.number(), pdiv2.number());
        self.perform(journal, |head, words| {
            bytes::set_lpsys_div(head, hdiv, pdiv1, pdiv2, words)
        })
    }

    /// Sets macdiv and macfreq.
    pub fn config_lpsys_mac_clock(
        &mut self,
        macdiv: u8,
        macfreq: u8,
        journal: &mut Journal,
    ) -> Outcome {
        self.perform(journal, |head, words| {
            bytes::config_lpsys_mac_clock(head, macdiv, macfreq, words)
        })
    }

    /// Selects the clock of LPSYS.
    pub fn select_lpsys_sysclk(&mut self, source: LpsysSource, journal: &mut Journal) -> Outcome {
        self.perform(journal, |head, words| {
            bytes::select_lpsys_sysclk(head, source.number(), words)
        })
    }

    /// Selects the peripheral clock of LPSYS.
    pub fn select_lpsys_peri(&mut self, source: LpsysSource, journal: &mut Journal) -> Outcome {
        self.perform(journal, |head, words| {
            bytes::select_lpsys_peri(head, source.number(), words)
        })
    }

    /// Wakes the core of LPSYS; the wake count goes up by 1, from 255 to 0.
    ///
    /// Refusals: `Answers`; and `HclkUnreadable` and `AnswersRanOut`, which keep what was done so
    /// far.
    pub fn wake_lcpu(&mut self, journal: &mut Journal, answers: &[u16]) -> Outcome {
        self.perform(journal, |head, words| {
            bytes::wake_lcpu(head, words, answers)
        })
    }

    /// Cancels one wake: the wake count goes down by 1, from 0 to 255.
    pub fn cancel_lcpu_active_request(&mut self, journal: &mut Journal) -> Outcome {
        self.perform(journal, bytes::cancel_lcpu_active_request)
    }

    /// Makes HXT48 ready for both systems.
    ///
    /// Refusals: `Answers`; and `AnswersRanOut`, which keeps what was done so far.
    pub fn ensure_hxt48_ready(&mut self, journal: &mut Journal, answers: &[u16]) -> Outcome {
        self.perform(journal, |head, words| {
            bytes::ensure_hxt48_ready(head, words, answers)
        })
    }
}
