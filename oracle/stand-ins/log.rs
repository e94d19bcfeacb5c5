//! Stand-in for the crate `log`: nothing is logged.

/// Does nothing.
#[macro_export]
macro_rules! debug {
    ($($text:tt)*) => {};
}
