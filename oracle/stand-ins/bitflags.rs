//! Stand-in for the crate `bitflags`: the macro of that name, with the few
//! functions that the controller calls.

/// Makes each named set of flags a struct over its bits.
#[macro_export]
macro_rules! bitflags {
    ($(
        $(#[$attribute:meta])*
        $visibility:vis struct $name:ident: $bits:ty {
            $(const $flag:ident = $value:expr;)*
        }
    )*) => {$(
        $(#[$attribute])*
        $visibility struct $name($bits);

        impl $name {
            $(pub const $flag: $name = $name($value);)*

            pub const fn empty() -> $name {
                $name(0)
            }

            pub const fn from_bits_retain(bits: $bits) -> $name {
                $name(bits)
            }

            pub const fn bits(&self) -> $bits {
                self.0
            }

            pub fn insert(&mut self, other: $name) {
                self.0 |= other.0;
            }

            pub fn toggle(&mut self, other: $name) {
                self.0 ^= other.0;
            }
        }

        impl ::std::ops::BitOr for $name {
            type Output = $name;

            fn bitor(self, other: $name) -> $name {
                $name(self.0 | other.0)
            }
        }
    )*};
}
