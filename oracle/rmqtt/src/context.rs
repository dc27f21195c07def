//! Stand-in for rmqtt/src/context.rs, which isn't in docs/src: the plugin's
//! configuration as one JSON value, and the handlers that the plugin registers.

use std::sync::{Arc, Mutex};

use async_trait::async_trait;

use crate::hook::{Handler, Priority, Register, Type};
use crate::Result;

type Handlers = Arc<Mutex<Vec<(Type, Arc<dyn Handler>)>>>;

#[derive(Clone)]
pub struct ServerContext {
    pub plugins: Plugins,
    pub extends: Extends,
}

impl ServerContext {
    pub fn new(config: serde_json::Value) -> Self {
        ServerContext { plugins: Plugins { config }, extends: Extends::default() }
    }
}

#[derive(Clone)]
pub struct Plugins {
    config: serde_json::Value,
}

impl Plugins {
    pub fn read_config<T: serde::de::DeserializeOwned>(&self, _name: &str) -> Result<T> {
        Ok(serde_json::from_value(self.config.clone())?)
    }

    pub fn read_config_default<T: serde::de::DeserializeOwned>(&self, name: &str) -> Result<T> {
        self.read_config(name)
    }
}

#[derive(Clone, Default)]
pub struct Extends {
    hook_mgr: HookMgr,
}

impl Extends {
    pub fn hook_mgr(&self) -> &HookMgr {
        &self.hook_mgr
    }
}

#[derive(Clone, Default)]
pub struct HookMgr {
    handlers: Handlers,
}

impl HookMgr {
    pub fn register(&self) -> Box<dyn Register> {
        Box::new(HookRegister { handlers: self.handlers.clone() })
    }

    /// The handler of a hook; the plugin registers exactly one for each.
    pub fn handler(&self, typ: Type) -> Arc<dyn Handler> {
        let handlers = self.handlers.lock().unwrap();
        let mut found = handlers.iter().filter(|(t, _)| *t == typ).map(|(_, h)| h.clone());
        let handler = found.next().expect("a registered handler");
        assert!(found.next().is_none(), "one handler a hook");
        handler
    }
}

struct HookRegister {
    handlers: Handlers,
}

#[async_trait]
impl Register for HookRegister {
    async fn add_priority(&self, typ: Type, _priority: Priority, handler: Box<dyn Handler>) {
        self.handlers.lock().unwrap().push((typ, Arc::from(handler)));
    }

    async fn start(&self) {}
}
