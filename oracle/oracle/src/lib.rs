//! The original Rust, asked. Nothing here decides about access but `section47`, which
//! says what a filter takes in per-client matching where a level of the text begins with
//! `$`: every other answer is one of `Topic`, `TopicTree`, `Rule`, `AclHandler::hook` or
//! `AuthInfo`, or for a line of JSON serde_json's.

pub mod cases;
pub mod clients;
pub mod decide;
pub mod events;
pub mod generate;
pub mod inputs;
pub mod json;
pub mod matching;
pub mod perclient;
pub mod questions;
pub mod record;
pub mod rules;
pub mod section47;

pub use tokio::runtime::Runtime;

/// One thread, so that the plugin's spawned task runs only while it is awaited.
pub fn runtime() -> Runtime {
    tokio::runtime::Builder::new_current_thread().build().expect("a runtime")
}
