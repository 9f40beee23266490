//! Stands in for bitflags 2: `bitflags! { pub struct Name: u32 { const A = 1; .. } }`, with the functions that the
//! carried Rust calls. `from_bits_truncate` drops every bit that no constant names, as bitflags does.
#![no_std]

#[macro_export]
macro_rules! bitflags {
    (
        $(#[$outer:meta])*
        $vis:vis struct $name:ident: $bits:ty {
            $( $(#[$inner:meta])* const $flag:ident = $value:expr; )*
        }
    ) => {
        $(#[$outer])*
        #[repr(transparent)]
        $vis struct $name($bits);

        impl $name {
            $( $(#[$inner])* pub const $flag: Self = Self($value); )*

            /// Every bit that a constant names.
            const NAMED: $bits = 0 $(| $value)*;

            #[must_use]
            pub const fn bits(&self) -> $bits {
                self.0
            }

            #[must_use]
            pub const fn from_bits_truncate(bits: $bits) -> Self {
                Self(bits & Self::NAMED)
            }

            #[must_use]
            pub const fn contains(&self, other: Self) -> bool {
                self.0 & other.0 == other.0
            }

            #[must_use]
            pub const fn union(self, other: Self) -> Self {
                Self(self.0 | other.0)
            }
        }
    };
}
