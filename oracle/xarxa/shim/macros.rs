//! Shim of the macros of `src/fmt.rs` and `src/macros.rs`.

/// Logging is left behind, but its arguments are still looked at by the compiler.
macro_rules! trace {
    ($fmt:literal $(, $arg:expr)* $(,)?) => {{ let _ = ($(&$arg,)*); }};
}
macro_rules! warn {
    ($fmt:literal $(, $arg:expr)* $(,)?) => {{ let _ = ($(&$arg,)*); }};
}
macro_rules! unwrap {
    ($e:expr) => {
        $e.unwrap()
    };
}

/// An integer with names for some of its values.
macro_rules! open_enum {
    ($(#[$meta:meta])* pub enum $name:ident($int:ty) {
        $( $(#[$vmeta:meta])* $variant:ident = $value:expr ),+ $(,)?
    }) => {
        $(#[$meta])*
        #[derive(Debug, Clone, Copy, PartialEq, Eq, PartialOrd, Ord, Hash)]
        pub struct $name(pub $int);

        #[allow(non_upper_case_globals)]
        impl $name {
            $( $(#[$vmeta])* pub const $variant: $name = $name($value); )+
        }

        impl ::core::convert::From<$int> for $name {
            fn from(value: $int) -> Self {
                $name(value)
            }
        }

        impl ::core::convert::From<$name> for $int {
            fn from(value: $name) -> Self {
                value.0
            }
        }

        impl ::core::fmt::Display for $name {
            fn fmt(&self, f: &mut ::core::fmt::Formatter) -> ::core::fmt::Result {
                write!(f, "{:#x}", self.0)
            }
        }
    };
}

/// An index into one of the stack's slabs.
macro_rules! define_handle {
    ($(#[$meta:meta])* $name:ident($index:ty)) => {
        $(#[$meta])*
        #[derive(Debug, Clone, Copy, PartialEq, Eq)]
        pub struct $name($index);

        impl $name {
            pub(crate) fn new(index: usize) -> Self {
                $name(index.try_into().unwrap())
            }

            pub(crate) fn index(&self) -> usize {
                self.0.into()
            }
        }
    };
}
