//! The values of fields, with the code numbers of document 01.

use super::register::Code;

/// Declares an enum of codes.
macro_rules! codes {
    ($name:ident { $($variant:ident = $code:literal),* $(,)? }) => {
        #[derive(Debug, Clone, Copy, PartialEq, Eq)]
        pub enum $name {
            $($variant = $code),*
        }

        #[allow(dead_code)]
        impl $name {
            /// # Panics
            ///
            /// Panics on a number that is not a code; a decoded record has none.
            pub const fn from_bits(bits: u8) -> Self {
                match bits {
                    $($code => Self::$variant,)*
                    _ => panic!(concat!("not a code of ", stringify!($name))),
                }
            }
            pub const fn to_bits(self) -> u8 {
                self as u8
            }
        }

        impl Code for $name {
            fn from_code(code: u32) -> Self {
                Self::from_bits(code as u8)
            }
            fn code(self) -> u32 {
                self as u32
            }
        }
    };
}

/// Declares a type of all bytes.
macro_rules! byte {
    ($name:ident) => {
        #[derive(Debug, Clone, Copy, PartialEq, Eq)]
        pub struct $name(u8);

        impl $name {
            pub const fn from_bits(bits: u8) -> Self {
                Self(bits)
            }
            pub const fn to_bits(self) -> u8 {
                self.0
            }
        }

        impl Code for $name {
            fn from_code(code: u32) -> Self {
                Self(code as u8)
            }
            fn code(self) -> u32 {
                self.0.into()
            }
        }
    };
}

pub mod hpsys {
    use super::Code;

    codes!(Sysclk {
        Hrc48 = 0,
        Hxt48 = 1,
        Dbl96 = 2,
        Dll1 = 3,
    });

    codes!(Pdiv {
        Div1 = 0,
        Div2 = 1,
        Div4 = 2,
        Div8 = 3,
        Div16 = 4,
        Div32 = 5,
        Div64 = 6,
        Div128 = 7,
    });

    codes!(Dllstg {
        Mul1 = 0,
        Mul2 = 1,
        Mul3 = 2,
        Mul4 = 3,
        Mul5 = 4,
        Mul6 = 5,
        Mul7 = 6,
        Mul8 = 7,
        Mul9 = 8,
        Mul10 = 9,
        Mul11 = 10,
        Mul12 = 11,
        Mul13 = 12,
        Mul14 = 13,
        Mul15 = 14,
        Mul16 = 15,
    });

    pub mod mux {
        use super::Code;

        codes!(Mpisel {
            Peri = 0,
            Dll1 = 1,
            Dll2 = 2,
            Reserved = 3,
        });

        codes!(Perisel {
            Hrc48 = 0,
            Hxt48 = 1,
        });

        codes!(Usbsel { Sysclk = 0, Dll2 = 1 });

        codes!(Wdtsel { Lrc10 = 0, Lrc32 = 1 });

        // Of the next three only the value that document 01 and the sources name.
        codes!(Ticksel { ClkRtc = 0 });
        codes!(Rtcsel { Lrc10 = 0 });
        codes!(Lpsel { SelSys = 0 });
    }
}

pub mod lpsys {
    use super::Code;

    codes!(Sysclk {
        Hrc48 = 0,
        Hxt48 = 1,
    });

    byte!(Hdiv);
    byte!(Pdiv);
    byte!(Macdiv);

    pub mod mux {
        use super::Code;

        codes!(Perisel {
            Hrc48 = 0,
            Hxt48 = 1,
        });
    }
}
