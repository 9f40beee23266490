//! Stands in for bitflagset: an enum of bit positions (`bitflag!`) and a set of them in one number (`bitflagset!`).
//! The element with value n is the bit 1 << n.
#![no_std]

#[macro_export]
macro_rules! bitflag {
    ($item:item) => {
        $item
    };
}

#[macro_export]
macro_rules! bitflagset {
    (
        $(#[$outer:meta])*
        $vis:vis struct $name:ident($bits:ty): $element:ty
    ) => {
        $(#[$outer])*
        $vis struct $name($bits);

        impl $name {
            #[must_use]
            pub const fn bits(&self) -> $bits {
                self.0
            }

            #[must_use]
            pub const fn from_bits_retain(bits: $bits) -> Self {
                Self(bits)
            }

            #[must_use]
            pub const fn from_element(element: $element) -> Self {
                Self(1 << element as $bits)
            }

            #[must_use]
            pub const fn from_slice(elements: &[$element]) -> Self {
                let mut bits = 0;
                let mut i = 0;
                while i < elements.len() {
                    bits |= 1 << elements[i] as $bits;
                    i += 1;
                }
                Self(bits)
            }

            #[must_use]
            pub const fn contains(&self, element: &$element) -> bool {
                self.0 & (1 << *element as $bits) != 0
            }
        }
    };
}
