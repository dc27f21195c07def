//! Stand-in for the crate `rmqtt`: acl, topic and trie are the original files
//! of docs/src; every other module holds as much as those and the plugin use.
//! `skip` keeps cargo fmt from rewriting the originals.

#[path = "../../../docs/src/rmqtt/src/acl.rs"]
#[rustfmt::skip]
pub mod acl;
#[path = "../../../docs/src/rmqtt/src/topic.rs"]
#[rustfmt::skip]
pub mod topic;
#[path = "../../../docs/src/rmqtt/src/trie.rs"]
#[rustfmt::skip]
pub mod trie;

pub mod codec;
pub mod context;
pub mod hook;
pub mod net;
pub mod plugin;
pub mod session;
pub mod types;
pub mod utils;

pub use net::{Error, Result};
pub use rmqtt_macros as macros;

/// Stand-in for rmqtt's `register!`, which the plugin calls once. Beside a
/// public `register` it hands out the plugin's configuration, so that its rows
/// can be read, and the items of the plugin's private module `config`.
#[macro_export]
macro_rules! register {
    ($new:path) => {
        pub async fn register(
            scx: $crate::context::ServerContext,
            name: &str,
        ) -> $crate::Result<(
            Box<dyn $crate::plugin::Plugin>,
            std::sync::Arc<tokio::sync::RwLock<config::PluginConfig>>,
        )> {
            let plugin = $new(scx, name).await?;
            let cfg = plugin.cfg.clone();
            Ok((Box::new(plugin), cfg))
        }

        pub mod exposed {
            pub use super::config::*;
        }
    };
}
