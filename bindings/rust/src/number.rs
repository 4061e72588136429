//! Numbers that the compiler tells apart.

use std::fmt;

/// A number with a meaning, which is passed where a plain `u32` may be passed too.
macro_rules! number {
    ($(#[$about:meta])* $name:ident) => {
        $(#[$about])*
        #[derive(Clone, Copy, Debug, Default, PartialEq, Eq, PartialOrd, Ord, Hash)]
        pub struct $name(pub u32);

        impl From<u32> for $name {
            fn from(number: u32) -> $name {
                $name(number)
            }
        }

        impl From<$name> for u32 {
            fn from(name: $name) -> u32 {
                name.0
            }
        }

        impl fmt::Display for $name {
            fn fmt(&self, f: &mut fmt::Formatter<'_>) -> fmt::Result {
                self.0.fmt(f)
            }
        }
    };
}

number! {
    /// A client, by its number from 0.
    Client
}
number! {
    /// A robot, by its number from 0. (A [`Robot`](crate::Robot) is one at the opening.)
    RobotId
}
number! {
    /// A cell: row times the map's width, plus column, both from 0.
    Cell
}
