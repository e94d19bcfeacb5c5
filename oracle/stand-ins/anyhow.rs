//! Stand-in for the crate `anyhow`: the error type that every
//! `std::error::Error` turns into, `Result` and `bail!`. Names and meaning are
//! those of the real crate.

use std::error;
use std::fmt;

/// Any error, kept as it was raised.
pub struct Error(Box<dyn error::Error + Send + Sync>);

/// The result of a function that raises any error.
pub type Result<T> = std::result::Result<T, Error>;

impl Error {
    /// An error that is only a text.
    pub fn msg(text: String) -> Error {
        Error(text.into())
    }

    /// The error that was raised, where it is an `E`.
    pub fn downcast_ref<E: error::Error + 'static>(&self) -> Option<&E> {
        self.0.downcast_ref()
    }
}

impl<E: error::Error + Send + Sync + 'static> From<E> for Error {
    fn from(error: E) -> Error {
        Error(error.into())
    }
}

impl fmt::Display for Error {
    fn fmt(&self, f: &mut fmt::Formatter<'_>) -> fmt::Result {
        self.0.fmt(f)
    }
}

/// Leaves the function with an error that is only a text.
#[macro_export]
macro_rules! bail {
    ($($text:tt)*) => {
        return ::std::result::Result::Err($crate::Error::msg(::std::format!($($text)*)))
    };
}
