//! Stand-in for rmqtt/src/plugin.rs, which isn't in docs/src: the two traits, a
//! guess from the methods that the plugin implements.

use async_trait::async_trait;

use crate::Result;

pub trait PackageInfo {
    fn name(&self) -> &str;
}

#[async_trait]
pub trait Plugin: PackageInfo + Send + Sync {
    async fn init(&mut self) -> Result<()>;
    async fn get_config(&self) -> Result<serde_json::Value>;
    async fn load_config(&mut self) -> Result<()>;
    async fn start(&mut self) -> Result<()>;
    async fn stop(&mut self) -> Result<bool>;
}
