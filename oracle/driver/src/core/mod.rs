//! As in the published crate: the membership core. Each file is published text; `inspect` is the oracle's own.
pub mod detection;
pub mod disseminate;
pub mod member;
pub mod message;
pub mod node;
pub mod transport;
pub mod types;
pub mod utils;
