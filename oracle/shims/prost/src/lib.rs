//! Stands in for `prost`: version 0.11 whole, and `UnknownEnumValue`, which came with 0.13.
pub use real::*;

use std::fmt;

/// A number that no case of an enumeration has.
#[derive(Clone, Copy, Debug, PartialEq, Eq)]
pub struct UnknownEnumValue(pub i32);

impl fmt::Display for UnknownEnumValue {
    fn fmt(&self, f: &mut fmt::Formatter<'_>) -> fmt::Result {
        write!(f, "unknown enumeration value {}", self.0)
    }
}

impl std::error::Error for UnknownEnumValue {}
