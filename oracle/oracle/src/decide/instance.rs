//! One whole plugin (`AclPlugin::new` and `init`) over a rule list, asked
//! through the handlers that it registers.

use std::sync::Arc;

use rmqtt::context::ServerContext;
use rmqtt::hook::{Handler, Parameter, Type};
use rmqtt::plugin::Plugin;
use rmqtt::session::Session;
use rmqtt::topic::{Level, Topic};
use rmqtt::trie::TopicTree;
use rmqtt::types::{ClientId, ExtraAttrs, Id, Reason};
use rmqtt_acl::exposed::PluginConfig;
use serde_json::{json, Value};
use tokio::sync::RwLock;

use super::question::{Answer, Kind, Question};

/// What a session keeps, among it the plugin's notes.
pub type Attrs = Arc<RwLock<ExtraAttrs>>;

/// What the tables of a rule hold, sorted.
#[derive(Clone, Debug, PartialEq, Eq)]
pub struct Rows {
    /// Filter and owner.
    pub owned: Vec<(String, String)>,
    pub fixed: Vec<String>,
    pub eqs: Vec<String>,
}

impl Rows {
    pub fn json(&self) -> Value {
        json!({ "owned": self.owned, "static": self.fixed, "eqs": self.eqs })
    }
}

pub struct Instance {
    scx: ServerContext,
    _plugin: Box<dyn Plugin>,
    cfg: Arc<RwLock<PluginConfig>>,
}

impl Instance {
    /// Panics if one of the rules is no rule.
    pub async fn new(rules: &[Value], disconnect: bool) -> Instance {
        let scx = ServerContext::new(json!({ "disconnect_if_pub_rejected": disconnect, "rules": rules }));
        let (mut plugin, cfg) = rmqtt_acl::register(scx.clone(), "rmqtt-acl").await.expect("rules");
        plugin.init().await.expect("init");
        Instance { scx, _plugin: plugin, cfg }
    }

    pub fn handler(&self, hook: Type) -> Arc<dyn Handler> {
        self.scx.extends.hook_mgr().handler(hook)
    }

    /// Returns once the filling task has ended: it holds a clone of `attrs`, of
    /// which the caller has the only other one.
    pub async fn connected(&self, id: &Id, attrs: &Attrs) {
        let session = Session::new(id.clone(), attrs.clone(), None, None);
        let param = Parameter::ClientConnected(&session);
        let (proceed, result) = self.handler(Type::ClientConnected).hook(&param, None).await;
        assert!(proceed && result.is_none());
        drop(session);
        while Arc::strong_count(attrs) > 1 {
            tokio::task::yield_now().await;
        }
    }

    pub async fn disconnected(&self, id: &Id, attrs: &Attrs) {
        let session = Session::new(id.clone(), attrs.clone(), None, None);
        let param = Parameter::ClientDisconnected(&session, Reason::Unknown);
        let (proceed, result) = self.handler(Type::ClientDisconnected).hook(&param, None).await;
        assert!(proceed && result.is_none());
    }

    pub async fn ask(&self, q: &Question) -> Answer {
        let (proceed, result) = match q.kind {
            Kind::Connect => {
                let info = q.connect_info();
                let param = Parameter::ClientAuthenticate(&info);
                self.handler(Type::ClientAuthenticate).hook(&param, q.acc()).await
            }
            Kind::Subscribe => {
                let (session, subscribe) = (q.session(), q.subscribe());
                let param = Parameter::ClientSubscribeCheckAcl(&session, &subscribe);
                self.handler(Type::ClientSubscribeCheckAcl).hook(&param, q.acc()).await
            }
            Kind::Publish => {
                let (session, publish) = (q.session(), q.publish());
                let param = Parameter::MessagePublishCheckAcl(&session, &publish);
                self.handler(Type::MessagePublishCheckAcl).hook(&param, q.acc()).await
            }
        };
        assert!(!proceed);
        q.answer(result)
    }

    /// Of each of the first `n` rules.
    pub async fn rows(&self, n: usize) -> Vec<Rows> {
        let mut out = Vec::new();
        for rule in self.cfg.read().await.rules().iter().take(n) {
            let mut filters = Vec::new();
            collect(&*rule.topics.tree.read().await, &mut Vec::new(), &mut filters);
            filters.sort();
            let mut eqs: Vec<String> = rule.topics.eqs.iter().map(|e| e.clone()).collect();
            eqs.sort();
            let fixed = filters.iter().filter(|(_, owner)| owner.is_none()).map(|(f, _)| f.clone()).collect();
            let owned = filters.into_iter().filter_map(|(f, owner)| Some((f, owner?))).collect();
            out.push(Rows { owned, fixed, eqs });
        }
        out
    }
}

/// Every filter of a tree with its owner.
fn collect(
    node: &TopicTree<Option<ClientId>>,
    path: &mut Vec<Level>,
    out: &mut Vec<(String, Option<String>)>,
) {
    for owner in node.values() {
        out.push((Topic::from(path.clone()).to_string(), owner.as_ref().map(|o| o.to_string())));
    }
    for (level, child) in node.children() {
        path.push(level.clone());
        collect(child, path, out);
        path.pop();
    }
}
