//! An error that is a message, its macro, and the result that carries it.

use std::fmt;

pub type Result<T, E = Error> = std::result::Result<T, E>;

pub struct Error(String);

impl Error {
    /// The error with the given message.
    pub fn msg(message: String) -> Self {
        Error(message)
    }
}

impl fmt::Debug for Error {
    /// The message, unquoted.
    fn fmt(&self, f: &mut fmt::Formatter<'_>) -> fmt::Result {
        f.write_str(&self.0)
    }
}

/// The error whose message is formatted from the arguments.
#[macro_export]
macro_rules! anyhow {
    ($($message:tt)*) => { $crate::Error::msg(::std::format!($($message)*)) };
}
