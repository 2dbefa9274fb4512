//! Stand-in for src/errors.rs: the one error that the text gives.

#[derive(Debug, PartialEq, Eq)]
pub enum Error {
    /// A refused configuration change, in words.
    ConfChangeError(String),
}

pub type Result<T> = std::result::Result<T, Error>;
