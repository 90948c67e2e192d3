//! The part of the `bitflags` macro that the real files use.

#[macro_export]
macro_rules! bitflags {
    ($(#[$meta:meta])* $vis:vis struct $name:ident : $int:ty {
        $( $(#[$cmeta:meta])* const $flag:ident = $value:expr; )*
    }) => {
        $(#[$meta])*
        $vis struct $name($int);

        #[allow(dead_code)]
        impl $name {
            $( $(#[$cmeta])* pub const $flag: $name = $name($value); )*

            /// The named flags of `bits`; the rest is dropped.
            pub const fn from_bits_truncate(bits: $int) -> Self {
                $name(bits & (0 $(| $value)*))
            }

            pub const fn bits(&self) -> $int {
                self.0
            }

            pub const fn contains(&self, other: $name) -> bool {
                self.0 & other.0 == other.0
            }
        }
    };
}
