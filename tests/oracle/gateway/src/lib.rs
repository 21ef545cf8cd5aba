//! The Rust gateway's book, compiled from its own source (see build.rs), with a stand-in for its
//! `risk` module. The source's log lines name variables that the stand-in `tracing` does not read.

pub mod risk;

include!(concat!(env!("OUT_DIR"), "/modules.rs"));

pub use turbojet::fields::{CompactString, Decimal};

/// The places of the source that log: file, line and function.
pub const LOG_SITES: &[(&str, u32, &str)] = include!(concat!(env!("OUT_DIR"), "/sites.rs"));
