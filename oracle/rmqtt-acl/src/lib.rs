//! The original plugin of docs/src, built where it stands. `skip` keeps cargo
//! fmt from rewriting it.

#[path = "../../../docs/src/rmqtt-plugins/rmqtt-acl/src/lib.rs"]
#[rustfmt::skip]
mod plugin;

pub use plugin::{exposed, register};
