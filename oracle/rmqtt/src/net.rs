//! Stand-in for rmqtt/src/net.rs, which isn't in docs/src: only the error type,
//! which is a guess from its use.

pub use anyhow::Error;
pub type Result<T, E = Error> = std::result::Result<T, E>;
