//! The three questions on a rule list, with the whole answer: `AclHandler::hook`'s, as
//! `decide::Machine` asks it.

pub mod generate;
pub mod sample;
pub mod short;

use rmqtt::types::{ClientId, Id, Password, QoS, RemoteAddr, UserName};
use serde_json::Value;
pub use tokio::runtime::Runtime;

use crate::decide::{Answer, Decided, Kind, Machine, Question};
use crate::generate::LIMIT;
use crate::rules::Client;

/// Bytes of a rule text, at most.
pub const ROOM: usize = 32_768;

/// Rules, each a line, and whether a refused publish disconnects.
#[derive(Clone, Debug)]
pub struct List {
    pub lines: Vec<Vec<u8>>,
    /// Does LF end the last line too?
    pub ends: bool,
    pub disconnect: bool,
}

impl List {
    pub fn text(&self) -> Vec<u8> {
        let mut text = self.lines.join(&b'\n');
        if self.ends && !self.lines.is_empty() {
            text.push(b'\n');
        }
        text
    }

    pub fn size(&self) -> usize {
        self.lines.iter().map(|line| line.len() + 1).sum()
    }

    /// What serde_json reads. Panics if one of the lines isn't JSON.
    pub fn values(&self) -> Vec<Value> {
        self.lines.iter().map(|line| serde_json::from_slice(line).expect("a rule")).collect()
    }

    /// The plugin over the list. Panics if one of the lines is no rule.
    pub fn machine(&self, runtime: &Runtime) -> Machine {
        runtime.block_on(Machine::new(&self.values(), self.disconnect))
    }
}

/// Who asks what. A connect looks at no topic and no QoS, and its protocol is given; only a
/// subscribe looks at the QoS.
#[derive(Clone, Debug)]
pub struct Asked {
    pub kind: Kind,
    pub earlier: u64,
    pub client: Client,
    pub topic: String,
    pub qos: u64,
}

/// A whole answer.
#[derive(Clone, Copy, Debug, PartialEq, Eq, Hash)]
pub enum Reply {
    /// By document 01's number, 1 or 2. Nothing like it is in the Rust.
    Refused(u32),
    Kept(u64),
    Connects {
        rule: usize,
        superuser: bool,
    },
    Subscribes {
        rule: usize,
        qos: u64,
    },
    Publishes {
        rule: usize,
    },
    NotAuthorized {
        rule: usize,
        disconnect: Option<bool>,
    },
    UnspecifiedError {
        rule: usize,
    },
}

impl Reply {
    /// As the port packs it: crates/mqtt_acl/specs/Answers.antt.
    pub fn number(self) -> u32 {
        let (value, what) = match self {
            Reply::Refused(number) => (number as usize, 0),
            Reply::Kept(code) => (code as usize, 1),
            Reply::Connects { rule, superuser } => (rule, 2 + superuser as u32),
            Reply::Subscribes { rule, qos } => (rule, 4 + qos as u32),
            Reply::Publishes { rule } => (rule, 7),
            Reply::NotAuthorized { rule, disconnect: None } => (rule, 8),
            Reply::NotAuthorized { rule, disconnect: Some(disconnect) } => (rule, 9 + disconnect as u32),
            Reply::UnspecifiedError { rule } => (rule, 11),
        };
        16 * value as u32 + what
    }
}

impl Asked {
    /// "1 id or name over 64, password over 128, address over 45, topic over 256. 2 earlier
    /// code over 4 (connect) or over 2, subscribe's QoS over 2."
    fn refused(&self) -> Option<u32> {
        let Client { id, name, password, address, .. } = &self.client;
        let connect = self.kind == Kind::Connect;
        let long = id.len() > 64
            || name.get().is_some_and(|t| t.len() > 64)
            || password.get().is_some_and(|t| t.len() > 128)
            || address.get().is_some_and(|t| t.len() > 45)
            || !connect && self.topic.len() > LIMIT;
        let out = self.earlier > if connect { 4 } else { 2 } || self.kind == Kind::Subscribe && self.qos > 2;
        match (long, out) {
            (true, _) => Some(1),
            (false, true) => Some(2),
            (false, false) => None,
        }
    }

    fn question(&self) -> Question {
        let Client { id, name, password, address, protocol } = &self.client;
        let id = Id::new(
            address.get().map(|text| RemoteAddr::new(text)),
            ClientId::from(id.as_str()),
            name.get().map(|name| UserName::from(name.as_str())),
        );
        let qos = [QoS::AtMostOnce, QoS::AtLeastOnce, QoS::ExactlyOnce][self.qos.min(2) as usize];
        Question {
            kind: self.kind,
            earlier: self.earlier,
            id,
            password: password.get().map(|p| Password::from(p.clone())),
            protocol: protocol.get().copied(),
            topic: self.topic.clone(),
            qos,
        }
    }

    /// The judge: document 01's numbers, else the plugin.
    pub fn judge(&self, machine: &Machine, runtime: &Runtime) -> Reply {
        if let Some(number) = self.refused() {
            return Reply::Refused(number);
        }
        let Decided { answer, rule } = runtime.block_on(machine.ask(&self.question()));
        let Some(rule) = rule else { return Reply::Kept(self.earlier) };
        match (self.kind, answer) {
            (Kind::Connect, Answer::Allow) => Reply::Connects { rule, superuser: false },
            (Kind::Connect, Answer::Super) => Reply::Connects { rule, superuser: true },
            (Kind::Connect, Answer::NotAuthorized) => Reply::NotAuthorized { rule, disconnect: None },
            // The machine has held the granted QoS against the asked one.
            (Kind::Subscribe, Answer::Allow) => Reply::Subscribes { rule, qos: self.qos },
            (Kind::Subscribe, Answer::Unspecified) => Reply::UnspecifiedError { rule },
            (Kind::Publish, Answer::Allow) => Reply::Publishes { rule },
            (Kind::Publish, Answer::NotAuthorized) => Reply::NotAuthorized { rule, disconnect: Some(false) },
            (Kind::Publish, Answer::Drop) => Reply::NotAuthorized { rule, disconnect: Some(true) },
            other => panic!("{other:?}"),
        }
    }

    pub fn size(&self) -> usize {
        self.client.size() + self.topic.len()
    }
}
