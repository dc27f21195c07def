//! Stand-in for rmqtt/src/hook.rs, which isn't in docs/src: the hooks that the
//! plugin registers, their parameters and results, guesses from their use.

use async_trait::async_trait;

use crate::session::Session;
use crate::types::{
    AuthResult, ConnectInfo, Publish, PublishAclResult, Reason, Subscribe, SubscribeAclResult,
};

pub type Priority = u32;
pub type Proceed = bool;
pub type ReturnType = (Proceed, Option<HookResult>);

#[derive(Clone, Copy, Debug, PartialEq, Eq)]
pub enum Type {
    ClientConnected,
    ClientDisconnected,
    ClientAuthenticate,
    ClientSubscribeCheckAcl,
    MessagePublishCheckAcl,
}

#[derive(Clone, Debug)]
pub enum Parameter<'a> {
    /// Not asked: the plugin's match ends in an arm for all other hooks.
    BeforeStartup,
    ClientConnected(&'a Session),
    ClientDisconnected(&'a Session, Reason),
    ClientAuthenticate(&'a ConnectInfo),
    ClientSubscribeCheckAcl(&'a Session, &'a Subscribe),
    MessagePublishCheckAcl(&'a Session, &'a Publish),
}

#[derive(Clone, Debug)]
pub enum HookResult {
    AuthResult(AuthResult),
    SubscribeAclResult(SubscribeAclResult),
    PublishAclResult(PublishAclResult),
}

#[async_trait]
pub trait Handler: Sync + Send {
    async fn hook(&self, param: &Parameter, acc: Option<HookResult>) -> ReturnType;
}

#[async_trait]
pub trait Register: Sync + Send {
    async fn add_priority(&self, typ: Type, priority: Priority, handler: Box<dyn Handler>);
    async fn start(&self);
}
