//! A stand-in for the crate nonmax: numbers of 32 or 16 bits that are never the greatest, so that `Option` of one needs no more room.
//! The number is kept as its complement, which is never 0.

use std::fmt::{Debug, Display, Formatter, Result as FmtResult};
use std::num::{NonZeroU16, NonZeroU32};

macro_rules! non_max {
    ($name:ident, $plain:ty, $kept:ty) => {
        #[derive(Clone, Copy, PartialEq, Eq)]
        pub struct $name($kept);

        impl TryFrom<$plain> for $name {
            type Error = ();
            fn try_from(number: $plain) -> Result<Self, ()> {
                <$kept>::new(!number).map($name).ok_or(())
            }
        }

        impl From<$name> for $plain {
            fn from(number: $name) -> $plain {
                !number.0.get()
            }
        }

        impl Default for $name {
            fn default() -> Self {
                $name(<$kept>::MAX)
            }
        }

        impl Debug for $name {
            fn fmt(&self, f: &mut Formatter<'_>) -> FmtResult {
                Debug::fmt(&<$plain>::from(*self), f)
            }
        }

        impl Display for $name {
            fn fmt(&self, f: &mut Formatter<'_>) -> FmtResult {
                Display::fmt(&<$plain>::from(*self), f)
            }
        }
    };
}

non_max!(NonMaxU32, u32, NonZeroU32);
non_max!(NonMaxU16, u16, NonZeroU16);
