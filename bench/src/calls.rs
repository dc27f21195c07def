//! The calls that take texts alone: matches, lines, rules, a client's own rules.

use std::str::FromStr;

use rmqtt::acl::{self, AuthInfo};
use rmqtt::hook::HookResult;
use rmqtt::topic::Topic;
use rmqtt_acl::exposed::Rule;
use serde_json::Value;

use crate::inputs::{inputs, Input};
use crate::measure::{repeat, Row};
use crate::questions::ready;

/// The calls of a row that has no store.
pub struct Calls {
    kind: String,
    inputs: Vec<Input>,
}

impl Calls {
    pub fn new(kind: &str, size: &str, yes: bool) -> Calls {
        Calls { kind: kind.into(), inputs: inputs(size, yes) }
    }
}

fn checked(text: &str) -> Topic {
    Topic::from_str(text).unwrap_or_else(|_| Topic::from(Vec::new()))
}

/// Is the value a rule that means the client?
fn hits(value: &Value, i: &Input) -> bool {
    Rule::try_from(value).is_ok_and(|rule| rule.hit(&i.id, None, Some(4), true).0)
}

/// Does one of the client's own rules allow?
fn port_allows(i: &Input) -> bool {
    let client = port::clients::Owner {
        superuser: false,
        id: i.client.as_bytes(),
        name: (true, i.name.as_bytes()),
        rules: i.own.text.as_bytes(),
    };
    port::clients::publish(client, 0, false, true, i.text.as_bytes()) % 16 == 7
}

fn rust_allows(i: &Input, rules: Option<Vec<acl::Rule>>) -> bool {
    let Some(rules) = rules else { panic!("a rule is refused") };
    let auth = AuthInfo { superuser: false, expire_at: None, rules };
    match ready(auth.publish_acl(&i.own.publish, true)) {
        Some((false, Some(HookResult::PublishAclResult(result)))) => result.is_allow(),
        None => false,
        _ => panic!("no answer"),
    }
}

fn read_rules(i: &Input) -> Option<Vec<acl::Rule>> {
    let rule = |line: &String| {
        let value: Value = serde_json::from_slice(line.as_bytes()).ok()?;
        acl::Rule::try_from((&value, &i.own.connect)).ok()
    };
    i.own.lines.iter().map(rule).collect()
}

fn converted_rules(i: &Input) -> Option<Vec<acl::Rule>> {
    i.own.values.iter().map(|value| acl::Rule::try_from((value, &i.own.connect)).ok()).collect()
}

fn agrees(i: &Input) -> bool {
    let (name, none) = ((true, i.name.as_bytes()), (false, &[][..]));
    port::identity(i.rule.as_bytes(), i.client.as_bytes(), name, none, none, (true, 4)) == 1
}

impl Row for Calls {
    fn run(&mut self, side: &str, n: usize) -> usize {
        let inputs = &self.inputs;
        match (self.kind.as_str(), side) {
            (_, "none") => repeat(inputs, n, |_| true),
            ("V", "port") => repeat(inputs, n, |i| port::valid_filter(i.checked.as_bytes())),
            ("V", "rust") => repeat(inputs, n, |i| Topic::from_str(&i.checked).is_ok()),
            ("T", "port") => repeat(inputs, n, |i| port::tree_match(i.filter.as_bytes(), i.text.as_bytes())),
            ("T", "rust") => repeat(inputs, n, |i| i.tree.is_match(&checked(&i.text))),
            ("P" | "P-parsed", "port") => {
                repeat(inputs, n, |i| port::plain_match(i.filter.as_bytes(), i.text.as_bytes()))
            }
            ("P", "rust") => repeat(inputs, n, |i| {
                Topic::from_str(&i.filter).is_ok_and(|topic| topic.matches_str(&i.text))
            }),
            ("P-parsed", "rust") => repeat(inputs, n, |i| i.topic.matches_str(&i.text)),
            ("J", "port") => repeat(inputs, n, |i| port::is_document(i.line.as_bytes())),
            ("J", "rust") => {
                repeat(inputs, n, |i| serde_json::from_slice::<Value>(i.line.as_bytes()).is_ok())
            }
            ("R" | "R-parsed", "port") => repeat(inputs, n, agrees),
            ("R", "rust") => repeat(inputs, n, |i| {
                serde_json::from_slice(i.rule.as_bytes()).is_ok_and(|value| hits(&value, i))
            }),
            ("R-parsed", "rust") => repeat(inputs, n, |i| hits(&i.value, i)),
            ("C-10" | "C-parsed", "port") => repeat(inputs, n, port_allows),
            ("C-10", "rust") => repeat(inputs, n, |i| rust_allows(i, read_rules(i))),
            ("C-parsed", "rust") => repeat(inputs, n, |i| rust_allows(i, converted_rules(i))),
            (kind, side) => panic!("no such call: {kind} {side}"),
        }
    }

    fn sides(&self) -> &'static [&'static str] {
        &["port", "rust"]
    }

    fn check(&mut self, yes: bool) {
        for side in self.sides() {
            let n = self.inputs.len();
            assert_eq!(self.run(side, n), if yes { n } else { 0 }, "{} {side}", self.kind);
        }
    }
}
