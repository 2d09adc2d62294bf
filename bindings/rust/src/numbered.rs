//! Enums whose cases have the numbers of `rikkovan.h`.

macro_rules! numbered {
    (
        $(#[$about:meta])*
        $name:ident: $type:ty {
            $($(#[$case_about:meta])* $case:ident = $number:literal,)*
        }
    ) => {
        $(#[$about])*
        #[derive(Debug, Clone, Copy, PartialEq, Eq, PartialOrd, Ord, Hash)]
        #[repr($type)]
        pub enum $name {
            $($(#[$case_about])* $case = $number,)*
        }

        impl $name {
            /// Every case, in the order of the numbers.
            pub const ALL: &'static [Self] = &[$(Self::$case),*];

            /// The number of this case in `rikkovan.h`.
            pub const fn number(self) -> $type {
                self as $type
            }

            /// The case with this number, if there is one.
            pub const fn from_number(number: $type) -> Option<Self> {
                match number {
                    $($number => Some(Self::$case),)*
                    _ => None,
                }
            }
        }
    };
}

/// The same, each with the words that C has for it.
macro_rules! worded {
    (
        $(#[$about:meta])*
        $name:ident: $type:ty {
            $($case:ident = $number:literal, $words:literal;)*
        }
    ) => {
        numbered! {
            $(#[$about])*
            $name: $type {
                $(#[doc = $words] $case = $number,)*
            }
        }

        impl $name {
            /// The case in words: one line, the same as in C.
            pub const fn words(self) -> &'static str {
                match self {
                    $(Self::$case => $words,)*
                }
            }
        }
    };
}

pub(crate) use {numbered, worded};
