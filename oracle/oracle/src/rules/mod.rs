//! Rules of the plugin, asked of `Rule::try_from` and `Rule::hit`, and where
//! document 01 is narrower.

pub mod generate;
pub mod sample;
pub mod short;

use std::net::IpAddr;

use rmqtt::types::{ClientId, Id, Password, RemoteAddr, UserName};
use rmqtt_acl::exposed::{Access, Rule, User};
use serde_json::Value;

use crate::generate::LIMIT;
use crate::json::{self, judge as judge_json};

/// Document 01: bytes of a line, topics of a rule, at most.
pub const LINE: usize = 2_048;
pub const TOPICS: usize = 64;

#[derive(Clone, Copy, Debug, PartialEq, Eq)]
pub enum Verdict {
    /// A rule to both.
    Rule,
    /// A rule to neither. Document 01's number: 1 too long, 5 not its JSON, 6 not a rule.
    Refused(u8),
    /// A rule to the original only: a number that isn't written as a plain u64.
    Number,
    /// .. more than 8 brackets open at once.
    Deep,
    /// .. a line, a string or an array of topics over its limit.
    Long,
    /// .. an LF in it: not one line.
    LineFeed,
}

impl Verdict {
    /// What the port must answer.
    pub fn number(self) -> u8 {
        match self {
            Verdict::Rule => 0,
            Verdict::Refused(number) => number,
            Verdict::Number | Verdict::Deep | Verdict::LineFeed => 5,
            Verdict::Long => 1,
        }
    }
}

pub struct Judged {
    pub verdict: Verdict,
    /// The rule that the original reads.
    rule: Option<Rule>,
}

/// The judge. serde_json and the original say whether the line is a rule, document
/// 01's limits and its narrower JSON which of its numbers comes first.
pub fn judge(line: &[u8]) -> Judged {
    let value: Option<Value> = serde_json::from_slice(line).ok();
    let rule = value.as_ref().and_then(|v| Rule::try_from(v).ok());
    let topics = value.as_ref().and_then(|v| v.get(3)?.as_array());
    let narrower = match judge_json(line) {
        _ if line.len() > LINE => Verdict::Long,
        json::Judged::Refused => Verdict::Refused(5),
        json::Judged::Number => Verdict::Number,
        json::Judged::Deep => Verdict::Deep,
        json::Judged::LineFeed => Verdict::LineFeed,
        json::Judged::Document { longest } if longest > LIMIT => Verdict::Long,
        json::Judged::Document { .. } if topics.is_some_and(|t| t.len() > TOPICS) => Verdict::Long,
        json::Judged::Document { .. } => Verdict::Rule,
    };
    let verdict = match (narrower, &rule) {
        (narrower, Some(_)) => narrower,
        (Verdict::Rule, None) => Verdict::Refused(6),
        (narrower, None) => Verdict::Refused(narrower.number()),
    };
    Judged { verdict, rule }
}

/// A value that may be absent; then what the port is lent all the same.
#[derive(Clone, Copy, Debug, PartialEq, Eq, PartialOrd, Ord)]
pub struct Lent<T> {
    pub given: bool,
    pub value: T,
}

impl<T> Lent<T> {
    pub fn get(&self) -> Option<&T> {
        self.given.then_some(&self.value)
    }
}

/// Who asks. The Rust's passwords are bytes, its other texts UTF-8. An address has at
/// most 45 bytes.
#[derive(Clone, Debug, PartialEq, Eq, PartialOrd, Ord)]
pub struct Client {
    pub id: String,
    pub name: Lent<String>,
    pub password: Lent<Vec<u8>>,
    pub address: Lent<String>,
    pub protocol: Lent<u8>,
}

impl Client {
    pub fn size(&self) -> usize {
        self.id.len() + self.name.value.len() + self.password.value.len() + self.address.value.len()
    }
}

#[derive(Clone, Copy, Debug, PartialEq, Eq)]
pub enum Identity {
    Differs,
    Agrees,
    Superuser,
    /// The line is a rule to neither.
    NoRule,
    /// The line is a rule to the original only.
    RustOnly,
    /// The rule lists an address, and the client's is a text that no address prints as,
    /// and agrees (true: as a superuser): only the stand-in for `SocketAddr` can hold it.
    NoAddress(bool),
}

impl Identity {
    /// What the port must answer.
    pub fn number(self) -> u8 {
        match self {
            Identity::Differs => 0,
            Identity::Agrees | Identity::NoAddress(false) => 1,
            Identity::Superuser | Identity::NoAddress(true) => 2,
            Identity::NoRule | Identity::RustOnly => 3,
        }
    }
}

impl Judged {
    /// `Rule::hit` with the arguments that `AclHandler::hook` hands it.
    pub fn identity(&self, client: &Client) -> Identity {
        let rule = match (self.verdict, &self.rule) {
            (Verdict::Rule, Some(rule)) => rule,
            (_, Some(_)) => return Identity::RustOnly,
            (_, None) => return Identity::NoRule,
        };
        let address = client.address.get();
        let id = Id::new(
            address.map(|text| RemoteAddr::new(text)),
            ClientId::from(client.id.as_str()),
            client.name.get().map(|name| UserName::from(name.as_str())),
        );
        let password = client.password.get().map(|p| Password::from(p.clone()));
        let allow = matches!(rule.access, Access::Allow);
        let (hit, superuser) = rule.hit(&id, password.as_ref(), client.protocol.get().copied(), allow);
        let lists_address = rule.users.iter().any(|user| matches!(user, User::Ipaddr(_)));
        match (hit, superuser) {
            (false, _) => Identity::Differs,
            (true, flag) if lists_address && !address.is_some_and(|a| is_printed(a)) => {
                Identity::NoAddress(flag)
            }
            (true, false) => Identity::Agrees,
            (true, true) => Identity::Superuser,
        }
    }
}

/// Is it what an address prints as?
pub(crate) fn is_printed(text: &str) -> bool {
    text.parse::<IpAddr>().is_ok_and(|ip| ip.to_string() == text)
}
