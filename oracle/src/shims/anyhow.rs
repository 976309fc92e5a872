//! The one thing that the original takes from `anyhow`.

/// Why a number did not fit.
#[derive(Debug)]
pub struct Error(pub String);

pub type Result<T> = std::result::Result<T, Error>;
