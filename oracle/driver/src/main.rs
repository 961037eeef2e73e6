//! The oracle: the published swim-rs as judge of the port.
//! `api`, `core` and `error` are published text; the rest is what it lacks (`pb`) and what drives it (`driver`).

// The published core is built whole, and the driver does not call all of it.
#[allow(dead_code)]
mod api;
#[allow(dead_code)]
mod core;
mod driver;
#[allow(dead_code)]
mod error;
mod pb;

// The names the published code expects at the root of its crate.
pub use pb::gossip::{Event, NodeDeceased, NodeJoined, NodeRecovered, NodeSuspected};
pub use pb::NodeState;

use std::process::ExitCode;

fn main() -> ExitCode {
    let arguments: Vec<String> = std::env::args().skip(1).collect();
    driver::main(&arguments)
}
