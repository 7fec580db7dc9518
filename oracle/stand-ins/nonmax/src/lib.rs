//! Stand-in for the crate `nonmax`: just what offset-allocator uses.

use std::fmt;
use std::num::{NonZeroU16, NonZeroU32};

/// Why a number was not taken: it is the greatest of its type.
#[derive(Clone, Copy, Debug, PartialEq, Eq)]
pub struct Greatest;

macro_rules! nonmax {
    ($name:ident, $int:ident, $nonzero:ident) => {
        #[doc = concat!("Every `", stringify!($int), "` but the greatest.")]
        // Held with its bits flipped, so that the greatest would be 0 and
        // `Option` needs no room of its own, as with the true crate.
        #[derive(Clone, Copy, PartialEq, Eq)]
        pub struct $name($nonzero);

        impl TryFrom<$int> for $name {
            type Error = Greatest;

            fn try_from(value: $int) -> Result<Self, Greatest> {
                $nonzero::new(!value).map(Self).ok_or(Greatest)
            }
        }

        impl From<$name> for $int {
            fn from(value: $name) -> Self {
                !value.0.get()
            }
        }

        impl Default for $name {
            fn default() -> Self {
                Self($nonzero::MAX)
            }
        }

        impl fmt::Debug for $name {
            fn fmt(&self, f: &mut fmt::Formatter<'_>) -> fmt::Result {
                fmt::Debug::fmt(&$int::from(*self), f)
            }
        }

        impl fmt::Display for $name {
            fn fmt(&self, f: &mut fmt::Formatter<'_>) -> fmt::Result {
                fmt::Display::fmt(&$int::from(*self), f)
            }
        }
    };
}

nonmax!(NonMaxU32, u32, NonZeroU32);
nonmax!(NonMaxU16, u16, NonZeroU16);

#[cfg(test)]
mod tests {
    use super::*;

    #[test]
    fn holds_every_u16_but_the_greatest() {
        for value in 0..u16::MAX {
            assert_eq!(NonMaxU16::try_from(value).map(u16::from), Ok(value));
        }
        assert_eq!(NonMaxU16::try_from(u16::MAX), Err(Greatest));
    }

    #[test]
    fn holds_u32_up_to_the_greatest() {
        for value in [0, 1, u32::MAX / 2, u32::MAX - 1] {
            assert_eq!(NonMaxU32::try_from(value).map(u32::from), Ok(value));
        }
        assert_eq!(NonMaxU32::try_from(u32::MAX), Err(Greatest));
    }

    #[test]
    fn default_is_0_and_option_is_no_larger() {
        assert_eq!(u32::from(NonMaxU32::default()), 0);
        assert_eq!(u16::from(NonMaxU16::default()), 0);
        assert_eq!(size_of::<Option<NonMaxU32>>(), size_of::<u32>());
        assert_eq!(size_of::<Option<NonMaxU16>>(), size_of::<u16>());
    }
}
