//! Stand-in for csx's error type, which is not among the published files
//! at hand: the variants that the files name, and no more.

/// Errors of the files.
#[derive(Debug)]
pub enum Error {
    /// Malformed file contents.
    Format(String),
    /// A value outside its domain.
    Invalid(String),
    /// A file that cannot be read.
    Io(std::io::Error),
    /// A syntax error in an expression.
    Parse {
        /// The expression.
        expr: String,
        /// Byte offset of the error.
        pos: usize,
        /// What is wrong.
        msg: String,
    },
    /// A name without a value in an expression.
    UnknownVariable(String),
}

impl From<std::io::Error> for Error {
    fn from(e: std::io::Error) -> Self {
        Error::Io(e)
    }
}

/// Result with [`Error`].
pub type Result<T> = core::result::Result<T, Error>;
