//! The frequencies that are read from a head.

use crate::time::Hertz;

/// The number of frequencies in [`Clocks`].
pub const CLOCKS: usize = 15;
/// The number of frequencies in [`LpsysClocks`].
pub const LPSYS_CLOCKS: usize = 6;

/// A struct of frequencies, from and to the numbers that the library has in their place.
macro_rules! frequencies {
    ($(#[$about:meta])* $name:ident: $count:ident {
        $($(#[$field_about:meta])* $field:ident,)*
    }) => {
        $(#[$about])*
        #[derive(Debug, Clone, Copy, PartialEq, Eq, Default)]
        pub struct $name {
            $($(#[$field_about])* pub $field: Option<Hertz>,)*
        }

        /// From Hz, 0 for none.
        impl From<[u32; $count]> for $name {
            fn from([$($field),*]: [u32; $count]) -> Self {
                Self {
                    $($field: ($field != 0).then_some(Hertz($field)),)*
                }
            }
        }

        /// In Hz, 0 for none.
        impl From<$name> for [u32; $count] {
            fn from(clocks: $name) -> Self {
                [$(clocks.$field.map_or(0, |Hertz(hertz)| hertz)),*]
            }
        }
    };
}

frequencies! {
    /// The 15 frequencies of a head, with the names of the HAL's `rcc::Clocks`. A frequency that
    /// does not read is `None`.
    Clocks: CLOCKS {
        /// The clock of the core select; none for DBL96.
        sysclk,
        /// SYSCLK / hdiv.
        hclk,
        /// PCLK1: HCLK / 2^pdiv1.
        pclk,
        /// HCLK / 2^pdiv2.
        pclk2,
        /// DLL1, none where it is off.
        dll1,
        /// DLL2, none where it is off.
        dll2,
        /// The peripheral clock: 48 MHz, ready or not.
        clk_peri,
        /// 24 MHz.
        clk_peri_div2,
        /// The USB source / USB divider.
        clk_usb,
        /// The watchdog clock: LRC10 or LRC32, by the low-power select.
        clk_wdt,
        /// LRC10.
        clk_rtc,
        /// The clock of flash 1.
        clk_mpi1,
        /// The clock of flash 2.
        clk_mpi2,
        /// The audio PLL: no register has it, so it reads as none.
        clk_aud_pll,
        /// The audio PLL / 16: none.
        clk_aud_pll_div16,
    }
}

frequencies! {
    /// The six frequencies of the low-power system, LPSYS. A frequency that does not read is
    /// `None`.
    LpsysClocks: LPSYS_CLOCKS {
        /// The clock of the LPSYS select.
        sysclk,
        /// LPSYS SYSCLK / hdiv1.
        hclk,
        /// LPSYS HCLK / 2^pdiv1.
        pclk1,
        /// LPSYS HCLK / 2^pdiv2.
        pclk2,
        /// The clock of the LPSYS peripheral select.
        peri,
        /// LPSYS HCLK / macdiv.
        mac,
    }
}
