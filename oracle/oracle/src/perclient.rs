//! Per-client rules and expiry, answered by `Rule::try_from` and `AuthInfo`, whose matching is the Rust's.

use std::time::Duration;

use bytestring::ByteString;
use rmqtt::acl::{AuthInfo, Rule};
use rmqtt::codec::types::Protocol;
use rmqtt::codec::v3;
use rmqtt::codec::v5::SubscribeAckReason;
use rmqtt::hook::HookResult;
use rmqtt::types::{CodecPublish, ConnectInfo, Id, QoS, Subscribe, SubscriptionOptions};
use serde_json::Value;

/// Answers one case, a JSON object. With `now` and perhaps `expiry`, each
/// seconds and nanoseconds, the answer is `expired` or `valid`. Else:
///   rules       texts, each one rule
///   id, name    the client's; without a name it has none
///   op, topic   `subscribe` or `publish`
///   qos, retain, superuser, disconnect
/// and the answer is `allow`, `deny` or `none` with the deciding rule, from 1,
/// or 0; `badjson` or `bad` with the first text that isn't JSON or no rule.
/// `full` adds the granted QoS or the disconnect flag.
pub async fn run(line: &str, full: bool) -> String {
    let case: Value = serde_json::from_str(line).expect("a case is JSON");
    if let Some(now) = time(&case["now"]) {
        rmqtt::utils::set_now(now);
        let auth = AuthInfo { superuser: false, expire_at: time(&case["expiry"]), rules: vec![] };
        return if auth.is_expired() { "expired" } else { "valid" }.into();
    }
    let rules = match read_rules(&case) {
        Ok(rules) => rules,
        Err(refusal) => return refusal,
    };
    let (answer, value) = ask(&case, &rules).await;
    let rule = if answer == "none" { 0 } else { deciding(&case, &rules).await };
    format!("{answer} {rule}{}", if full { &value } else { "" })
}

/// The least number of first rules that decide: 0 for a superuser.
async fn deciding(case: &Value, rules: &[Rule]) -> usize {
    let all = ask(case, rules).await;
    for k in 0..=rules.len() {
        let first = ask(case, &rules[..k]).await;
        if first.0 != "none" {
            assert_eq!(first, all, "the deciding beginning answers as the full list");
            return k;
        }
    }
    unreachable!("all rules decide")
}

fn read_rules(case: &Value) -> Result<Vec<Rule>, String> {
    let client = connect_info(case);
    let mut rules = Vec::new();
    for (i, rule) in case["rules"].as_array().expect("rules").iter().enumerate() {
        let rule: Value = serde_json::from_str(rule.as_str().expect("a rule's text"))
            .map_err(|_| format!("badjson {}", i + 1))?;
        rules.push(Rule::try_from((&rule, &client)).map_err(|_| format!("bad {}", i + 1))?);
    }
    Ok(rules)
}

fn connect_info(case: &Value) -> ConnectInfo {
    let name = case["name"].as_str().map(ByteString::from);
    let id = Id::new(None, ByteString::from(text(case, "id")), name.clone());
    ConnectInfo::V3(id, Box::new(v3::Connect { protocol: Protocol(4), username: name, password: None }))
}

/// The word, and its QoS or disconnect flag.
async fn ask(case: &Value, rules: &[Rule]) -> (&'static str, String) {
    let auth = AuthInfo { superuser: flag(case, "superuser"), expire_at: None, rules: rules.to_vec() };
    let topic = ByteString::from(text(case, "topic"));
    let qos = case["qos"].as_u64().unwrap_or(0);
    let qos = QoS::try_from(u8::try_from(qos).expect("a QoS")).expect("a QoS");
    let result = match text(case, "op") {
        "subscribe" => {
            let subscribe = Subscribe { topic_filter: topic, opts: SubscriptionOptions::new(qos) };
            auth.subscribe_acl(&subscribe).await
        }
        "publish" => {
            let publish = CodecPublish { retain: flag(case, "retain"), qos, topic };
            auth.publish_acl(&publish, flag(case, "disconnect")).await
        }
        op => panic!("unknown op {op}"),
    };
    let Some((proceed, result)) = result else { return ("none", String::new()) };
    assert!(!proceed);
    match result {
        Some(HookResult::SubscribeAclResult(r)) => match r.success() {
            Some(qos) => ("allow", format!(" qos={}", qos.value())),
            None => {
                assert_eq!(r.ack_reason, SubscribeAckReason::NotAuthorized);
                ("deny", String::new())
            }
        },
        Some(HookResult::PublishAclResult(r)) if r.is_allow() => ("allow", String::new()),
        Some(HookResult::PublishAclResult(r)) => ("deny", format!(" disconnect={}", r.0.disconnect)),
        other => panic!("answered {other:?}"),
    }
}

fn text<'a>(case: &'a Value, key: &str) -> &'a str {
    case[key].as_str().unwrap_or_else(|| panic!("{key} is a text"))
}

fn flag(case: &Value, key: &str) -> bool {
    case[key].as_bool().unwrap_or(false)
}

fn time(v: &Value) -> Option<Duration> {
    let nanos = u32::try_from(v[1].as_u64()?).expect("nanoseconds");
    Some(Duration::new(v[0].as_u64()?, nanos))
}
