//! Stand-in for `serde_json`: a JSON value that is never looked into.

use std::fmt;

#[derive(Clone, Debug, Default, PartialEq, Eq)]
pub struct Value;

#[derive(Clone, Debug, PartialEq, Eq)]
pub struct Error(pub String);

impl fmt::Display for Error {
    fn fmt(&self, f: &mut fmt::Formatter<'_>) -> fmt::Result {
        f.write_str(&self.0)
    }
}

impl std::error::Error for Error {}
