//! Per-client rules and expiry, asked of `Rule::try_from` and `AuthInfo` of acl.rs, and where
//! document 01 is narrower. Where a level of the asked topic begins with `$`, section 4.7 says which
//! filters take it, and acl.rs the rest.

pub mod generate;
pub mod sample;
pub mod short;

use std::future::Future;
use std::pin::pin;
use std::task::{Context, Poll, Waker};
use std::time::Duration;

use bytestring::ByteString;
use rmqtt::acl::{AuthInfo, Rule};
use rmqtt::codec::types::Protocol;
use rmqtt::codec::v3;
use rmqtt::codec::v5::SubscribeAckReason;
use rmqtt::hook::{HookResult, ReturnType};
use rmqtt::types::{CodecPublish, ConnectInfo, Id, QoS, Subscribe, SubscriptionOptions};
use serde_json::Value;

use crate::generate::LIMIT;
use crate::json::{self, judge as judge_json};
use crate::matching::{has_dollar, Both};
use crate::rules::{Lent, LINE};
use crate::section47;

/// Document 01: bytes of an id or a name, of a text of rules, and lines, at most.
const ID: usize = 64;
pub const TEXT: usize = 32_768;
pub const LINES: usize = 256;

/// Who asks what, by which rules.
#[derive(Clone, Debug, PartialEq, Eq, PartialOrd, Ord)]
pub struct Asked {
    pub superuser: bool,
    pub id: String,
    pub name: Lent<String>,
    /// Rules, each a line.
    pub rules: Vec<u8>,
    /// A subscribe looks at no retain and no disconnect flag.
    pub publish: bool,
    pub qos: u64,
    pub retain: bool,
    pub disconnect: bool,
    pub topic: String,
}

/// A whole answer.
#[derive(Clone, Copy, Debug, PartialEq, Eq)]
pub enum Reply {
    /// By document 01's number, with the line. `intended`: the Rust refuses nothing.
    Refused {
        number: u64,
        line: usize,
        intended: bool,
    },
    Subscribes {
        rule: usize,
        qos: u64,
    },
    Publishes {
        rule: usize,
    },
    NotAuthorized {
        rule: usize,
        disconnect: Option<bool>,
    },
    NoDecision,
}

impl Reply {
    /// As the port packs it: crates/mqtt_acl/specs/Clients.antt.
    pub fn number(self) -> u64 {
        let (value, what) = match self {
            Reply::Refused { number, line, .. } => (number as usize + 256 * line, 0),
            Reply::Subscribes { rule, qos } => (rule, 4 + qos),
            Reply::Publishes { rule } => (rule, 7),
            Reply::NotAuthorized { rule, disconnect: None } => (rule, 8),
            Reply::NotAuthorized { rule, disconnect: Some(disconnect) } => (rule, 9 + disconnect as u64),
            Reply::NoDecision => (0, 12),
        };
        16 * value as u64 + what
    }
}

/// The future's result; nothing in acl.rs waits.
fn ready<T>(future: impl Future<Output = T>) -> T {
    match pin!(future).poll(&mut Context::from_waker(Waker::noop())) {
        Poll::Ready(result) => result,
        Poll::Pending => panic!("it waits"),
    }
}

/// The lines of a text: LF ends a line, the last may lack it.
pub fn lines(text: &[u8]) -> Vec<&[u8]> {
    let mut lines: Vec<&[u8]> = text.split(|b| *b == b'\n').collect();
    if lines.last().is_some_and(|line| line.is_empty()) {
        lines.pop();
    }
    lines
}

/// A line's rule, or document 01's number and whether the Rust reads a rule all the same.
fn line_rule(line: &[u8], client: &ConnectInfo) -> Result<Rule, (u64, bool)> {
    let value: Option<Value> = serde_json::from_slice(line).ok();
    let rule = value.as_ref().and_then(|v| Rule::try_from((v, client)).ok());
    let reads = rule.is_some();
    match judge_json(line) {
        _ if line.len() > LINE => Err((1, reads)),
        json::Judged::Document { longest } if longest > LIMIT => Err((1, reads)),
        json::Judged::Document { .. } if filled(&value.unwrap(), client) > LIMIT => Err((7, reads)),
        json::Judged::Document { .. } => rule.ok_or((6, false)),
        _ => Err((5, reads)),
    }
}

/// Is the line a rule to the client `g7` with the name `a`?
fn is_rule(line: &[u8]) -> bool {
    line_rule(line, &connect_info("g7", Some("a"))).is_ok()
}

fn connect_info(id: &str, name: Option<&str>) -> ConnectInfo {
    let name = name.map(ByteString::from);
    let id = Id::new(None, ByteString::from(id), name.clone());
    ConnectInfo::V3(id, Box::new(v3::Connect { protocol: Protocol(4), username: name, password: None }))
}

/// The bytes of the rule's topic as the Rust fills it; 0 where something else makes it no rule. Behind
/// `eq ` the Rust takes the filled text for what it is, filter or not.
fn filled(value: &Value, client: &ConnectInfo) -> usize {
    let mut value = value.clone();
    match value.get_mut("topic") {
        Some(Value::String(topic)) if topic.starts_with("eq ") => (),
        Some(Value::String(topic)) if !topic.is_empty() => topic.insert_str(0, "eq "),
        _ => return 0,
    }
    let rule = Rule::try_from((&value, client)).ok();
    rule.and_then(|rule| rule.topic.eq_topic_filter).map_or(0, |text| text.len())
}

/// The rule as section 4.7 matches: in place of its filter it has the topic as an exact name where the filter
/// takes it, else nothing, which hits no topic.
fn by_section47(rule: &Rule, topic: &str) -> Rule {
    let mut rule = rule.clone();
    if let Some(filter) = rule.topic.topic_filter.take() {
        rule.topic.eq_topic_filter = section47::takes(&filter.to_string(), topic).then(|| topic.into());
    }
    rule
}

impl Asked {
    fn connect_info(&self) -> ConnectInfo {
        connect_info(&self.id, self.name.get().map(|name| name.as_str()))
    }

    /// "1 id, name or topic as above, text over 32,768 (line 0), then over 256 lines (line 257). 2 QoS
    /// over 2": nothing like it is in the Rust.
    fn refused(&self, lines: usize) -> Option<(u64, usize)> {
        let long = self.id.len() > ID
            || self.name.get().is_some_and(|name| name.len() > ID)
            || self.topic.len() > LIMIT
            || self.rules.len() > TEXT;
        match () {
            _ if long => Some((1, 0)),
            _ if lines > LINES => Some((1, LINES + 1)),
            _ if self.qos > 2 => Some((2, 0)),
            _ => None,
        }
    }

    /// `AuthInfo`'s answer by these rules.
    fn asked_of(&self, rules: &[Rule]) -> Option<ReturnType> {
        let auth = AuthInfo { superuser: self.superuser, expire_at: None, rules: rules.to_vec() };
        let topic = ByteString::from(self.topic.as_str());
        let qos = QoS::try_from(self.qos as u8).expect("a QoS");
        if self.publish {
            let publish = CodecPublish { retain: self.retain, qos, topic };
            return ready(auth.publish_acl(&publish, self.disconnect));
        }
        let subscribe = Subscribe { topic_filter: topic, opts: SubscriptionOptions::new(qos) };
        ready(auth.subscribe_acl(&subscribe))
    }

    /// The same as a whole answer, which `rule` decides.
    fn reply(&self, result: Option<ReturnType>, rule: usize) -> Reply {
        let Some((proceed, result)) = result else { return Reply::NoDecision };
        assert!(!proceed);
        match (self.publish, result) {
            (false, Some(HookResult::SubscribeAclResult(r))) => match r.success() {
                Some(qos) => Reply::Subscribes { rule, qos: u64::from(qos.value()) },
                None => {
                    assert_eq!(r.ack_reason, SubscribeAckReason::NotAuthorized);
                    Reply::NotAuthorized { rule, disconnect: None }
                }
            },
            (true, Some(HookResult::PublishAclResult(r))) if r.is_allow() => Reply::Publishes { rule },
            (true, Some(HookResult::PublishAclResult(r))) => {
                Reply::NotAuthorized { rule, disconnect: Some(r.0.disconnect) }
            }
            other => panic!("answered {other:?}"),
        }
    }

    /// The rules, or the refusal of the question or of the first line that has one.
    fn read(&self) -> Result<Vec<Rule>, Reply> {
        let lines = lines(&self.rules);
        if let Some((number, line)) = self.refused(lines.len()) {
            return Err(Reply::Refused { number, line, intended: true });
        }
        let client = self.connect_info();
        let refusal = |i: usize| move |(number, intended)| Reply::Refused { number, line: i + 1, intended };
        lines.iter().enumerate().map(|(i, line)| line_rule(line, &client).map_err(refusal(i))).collect()
    }

    /// `AuthInfo`'s whole answer by these rules. The rule that decides is the last of the least number of
    /// first rules that decide, 0 for a superuser.
    fn decided(&self, rules: &[Rule]) -> Reply {
        let all = self.asked_of(rules);
        let decides = |k: &usize| self.asked_of(&rules[..*k]).is_some();
        let rule = (0..=rules.len()).find(decides).unwrap_or(0);
        self.reply(all, rule)
    }

    /// The judge: document 01's numbers, else acl.rs, by its own matching and by section 4.7's.
    pub fn judge(&self) -> Both<Reply> {
        let dollar = has_dollar(&self.topic);
        let rules = match self.read() {
            Ok(rules) => rules,
            Err(refused) => return Both { rust: refused, section47: refused, dollar },
        };
        let by_section47: Vec<Rule> = rules.iter().map(|rule| by_section47(rule, &self.topic)).collect();
        Both { rust: self.decided(&rules), section47: self.decided(&by_section47), dollar }
    }

    pub fn size(&self) -> usize {
        self.id.len() + self.name.value.len() + self.rules.len() + self.topic.len()
    }
}

/// When credentials expire, if they do, and now; seconds and nanoseconds.
#[derive(Clone, Copy, Debug, PartialEq, Eq, PartialOrd, Ord)]
pub struct Times {
    pub expiry: Lent<(u64, u64)>,
    pub now: (u64, u64),
}

/// `AuthInfo::is_expired` at that time: the clock is the stand-in's. None: 2 by document 01.
pub fn expired(times: &Times) -> Option<bool> {
    let time = |(seconds, nanos): (u64, u64)| match nanos {
        0..=999_999_999 => Some(Duration::new(seconds, nanos as u32)),
        _ => None,
    };
    let expire_at = times.expiry.get().map(|expiry| time(*expiry).ok_or(()));
    let (Some(now), Ok(expire_at)) = (time(times.now), expire_at.transpose()) else { return None };
    rmqtt::utils::set_now(now);
    Some(AuthInfo { superuser: false, expire_at, rules: vec![] }.is_expired())
}

/// As the port packs it.
pub fn expiry_number(expired: Option<bool>) -> u64 {
    match expired {
        None => 32,
        Some(expired) => 13 + expired as u64,
    }
}
