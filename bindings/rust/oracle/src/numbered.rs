//! Enums whose variants stand for numbers of the header.

/// An enum with a number of the header for each variant.
macro_rules! numbered {
    ($(#[$about:meta])* $name:ident { $($(#[$of:meta])* $variant:ident = $number:path,)* }) => {
        $(#[$about])*
        #[derive(Clone, Copy, Debug, PartialEq, Eq, Hash)]
        pub enum $name {
            $($(#[$of])* $variant,)*
        }

        impl $name {
            /// Its number in the header.
            #[must_use]
            pub fn number(self) -> u64 {
                match self {
                    $($name::$variant => $number,)*
                }
            }

            /// The one with a number of the header.
            #[must_use]
            pub fn of(number: u64) -> Option<$name> {
                match number {
                    $($number => Some($name::$variant),)*
                    _ => None,
                }
            }

            /// All, in the order of the header.
            pub const ALL: &'static [$name] = &[$($name::$variant),*];
        }
    };
}

pub(crate) use numbered;
