//! A stand-in for the crate log: a `debug!` that does nothing.

#[macro_export]
macro_rules! debug {
    ($($anything:tt)*) => {
        ()
    };
}
