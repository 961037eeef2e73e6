//! Stands in for `snafu`: version 0.7 whole, but its `location!` names `Location` without a path
//! and so fails where that name isn't imported.
pub use real::*;

#[macro_export]
macro_rules! location {
    () => {
        $crate::Location::new(file!(), line!(), column!())
    };
}
