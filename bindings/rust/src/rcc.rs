//! The HAL's names of what a plan is made of, and its [`ConfigBuilder`].
//!
//! Code that sets up clocks with `sifli_hal::rcc` reads the same with `rikkovan::rcc`. Numbers of
//! cases are those of `rikkovan.h`, which need not be the bits of the chip.
//!
//! ```
//! use rikkovan::Refusal;
//! use rikkovan::rcc::{ConfigBuilder, Dll, DllStage, PclkPrescaler, Sysclk};
//!
//! let builder = ConfigBuilder::sysclk()
//!     .with_sys(Sysclk::Dll1)
//!     .with_dll1(Dll::new().with_stg(DllStage::Mul6))
//!     .with_pdiv1(PclkPrescaler::Div2);
//! assert_eq!(builder.checked(), Err(Refusal::Pclk2));
//!
//! let plan = builder.with_pdiv2(PclkPrescaler::Div32).checked()?;
//! assert_eq!(ConfigBuilder::from(plan), builder.with_pdiv2(PclkPrescaler::Div32));
//! # Ok::<(), Refusal>(())
//! ```

/// A method for each field that gives the value with this field set.
macro_rules! with {
    ($($method:ident, $field:ident: $type:ty;)*) => {
        $(
            #[doc = concat!("With `", stringify!($field), "` set.")]
            pub const fn $method(mut self, $field: $type) -> Self {
                self.$field = $field;
                self
            }
        )*
    };
}

mod builder;
mod codes;
mod mux;

pub use builder::ConfigBuilder;
pub use codes::{
    Dll, DllStage, HclkPrescaler, Lpsel, Mpisel, PclkPrescaler, Perisel, Rtcsel, Sysclk, Ticksel,
    Usbsel, Wdtsel,
};
pub use mux::ClockMux;
