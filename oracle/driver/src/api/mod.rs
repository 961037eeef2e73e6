//! As in the published crate: the settings.
pub mod config;
