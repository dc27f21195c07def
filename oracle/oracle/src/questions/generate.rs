//! Random rule lists, all of rules, and questions that they might agree with.

use serde_json::Value;

use super::{Asked, List};
use crate::decide::Kind;
use crate::generate::{filter, text, Random};
use crate::json::generate::damaged as damaged_bytes;
use crate::matching;
use crate::rules::generate::{client, elements, line, odd_case};
use crate::rules::{judge, Client, Verdict};

const NAMES: &[&str] = &["a", "bo", "", "é", "%u", "g7"];
const ADDRESSES: &[&str] = &["127.0.0.1", "1.2.3.4", "::1", "::0001"];
const PROTOCOLS: &[&str] = &["3", "4", "5", "260", "0"];

pub(crate) fn quoted(text: &str) -> String {
    Value::from(text).to_string()
}

/// `all`, everybody, or an object of few values, so that clients often agree.
fn users(r: &mut Random) -> String {
    match r.below(100) {
        0..=29 => return quoted(&odd_case(r, "all")),
        30..=36 => return "{}".into(),
        // The flag counts beside a user only.
        37..=49 => {
            let password = if r.percent(30) { ",\"password\":\"a\"" } else { "" };
            return format!("{{\"user\":{}{password},\"superuser\":true}}", quoted(r.pick(NAMES)));
        }
        _ => (),
    }
    let mut members = Vec::new();
    if r.percent(60) {
        members.push(format!("\"user\":{}", quoted(r.pick(NAMES))));
        if r.percent(40) {
            members.push(format!("\"password\":{}", quoted(r.pick(NAMES))));
        }
    }
    if r.percent(45) {
        members.push(format!("\"superuser\":{}", r.pick(&["true", "true", "false", "1"])));
    }
    if r.percent(15) {
        members.push(format!("\"clientid\":{}", quoted(r.pick(NAMES))));
    }
    if r.percent(15) {
        members.push(format!("\"ipaddr\":{}", quoted(r.pick(ADDRESSES))));
    }
    if r.percent(15) {
        members.push(format!("\"protocol\":{}", r.pick(PROTOCOLS)));
    }
    format!("{{{}}}", members.join(","))
}

/// A valid filter, mostly a short one.
pub(crate) fn valid(r: &mut Random) -> String {
    if r.percent(25) {
        return r.pick(&["#", "+", "+/#", "a/#", "$SYS/#", "a/+", "/", "a"]).into();
    }
    loop {
        let text = filter(r);
        if text.len() <= 60 && matching::filter(&text).is_some() {
            return text;
        }
    }
}

/// A static filter or eq, or a template of either.
pub(crate) fn topic(r: &mut Random) -> String {
    let mut text = valid(r);
    if r.percent(25) {
        let place = r.pick(&["%c", "%u", "%c/%u"]);
        text = if r.percent(50) { format!("{place}/{text}") } else { format!("a/{place}") };
    }
    if r.percent(30) {
        return format!("{{\"eq\":{}}}", quoted(&text));
    }
    quoted(&text)
}

/// A rule of few values, with topics such as these.
pub(crate) fn own_rule(r: &mut Random, topic: impl Fn(&mut Random) -> String) -> Vec<u8> {
    let mut out = vec![r.pick(&["\"allow\"", "\"deny\""]).into(), users(r)];
    if r.percent(85) {
        let word = r.pick(&["all", "connect", "publish", "subscribe", "pubsub", "pubsub"]);
        out.push(quoted(&odd_case(r, word)));
        match r.below(100) {
            0..=24 => (),
            25..=32 => out.push("[]".into()),
            _ => {
                let topics: Vec<String> = (0..1 + r.below(4)).map(|_| topic(r)).collect();
                out.push(format!("[{}]", topics.join(",")));
            }
        }
    }
    format!("[{}]", out.join(",")).into()
}

/// A rule to both: of few values, or one of those that R and I are asked of.
fn rule(r: &mut Random) -> Vec<u8> {
    let any = r.percent(20);
    loop {
        let line = if any {
            let elements = elements(r);
            line(r, &elements)
        } else {
            own_rule(r, topic)
        };
        if judge(&line).verdict == Verdict::Rule {
            return line;
        }
    }
}

/// 0 to 8 rules, now and then many.
pub fn list(r: &mut Random) -> List {
    let most = match r.below(1000) {
        0 => 256,
        1..=19 => 9 + r.below(40),
        _ => r.below(9),
    };
    let mut list = List { lines: Vec::new(), ends: r.percent(50), disconnect: r.percent(50) };
    while list.lines.len() < most {
        // In a long list few rules agree, so that a late one can decide.
        let few = most > 8 && r.percent(90);
        let line = if few { br#"["deny",{"user":"x"},"pubsub",["x"]]"#.to_vec() } else { rule(r) };
        if list.size() + line.len() >= super::ROOM {
            break;
        }
        list.lines.push(line);
    }
    list
}

/// The list's text with one line damaged.
pub fn damaged(r: &mut Random, list: &List) -> Vec<u8> {
    let mut list = list.clone();
    if !list.lines.is_empty() {
        let at = r.below(list.lines.len());
        list.lines[at] = damaged_bytes(r, &list.lines[at]);
    }
    list.text()
}

/// The rule's topics, each with what would have to match.
fn topics_of(line: &[u8]) -> Vec<(bool, String)> {
    let value: Value = serde_json::from_slice(line).unwrap_or_default();
    let of = |t: &Value| match t {
        Value::String(text) => Some((false, text.clone())),
        other => Some((true, other.get("eq")?.as_str()?.to_owned())),
    };
    let topics = value.get(3).and_then(|v| v.as_array());
    topics.map_or(Vec::new(), |topics| topics.iter().filter_map(of).collect())
}

/// A text that follows a topic of the rule, a template also as it would be filled; or any.
fn topic_for(r: &mut Random, line: &[u8], id: &str, name: &str) -> String {
    let topics = topics_of(line);
    if topics.is_empty() || r.percent(5) {
        let any = filter(r);
        return text(r, &any);
    }
    let (eq, mut own) = topics[r.below(topics.len())].clone();
    if r.percent(60) {
        own = own.replace("%c", id).replace("%u", name);
    }
    if eq && r.percent(70) {
        return own;
    }
    text(r, &own)
}

/// A question that a rule of the list might agree with; `cast` may change who asks.
pub(crate) fn asked(r: &mut Random, list: &List, cast: impl Fn(&mut Random, &mut Client)) -> Asked {
    let kind = [Kind::Connect, Kind::Subscribe, Kind::Publish][r.below(3)];
    let line = match list.lines.len() {
        0 => b"[]".as_slice(),
        n => &list.lines[r.below(n)],
    };
    let mut client = client(r, line);
    cast(r, &mut client);
    let mut topic = topic_for(r, line, &client.id, &client.name.value);
    if kind == Kind::Connect {
        client.protocol.given = true;
        topic.clear();
    }
    let earlier = match (r.below(100), kind) {
        (0..=79, _) => r.below(2) as u64,
        (80..=85, _) => 2,
        (86..=97, Kind::Connect) => 2 + r.below(3) as u64,
        (86..=97, _) => 1 + r.below(2) as u64,
        (98, _) => 3 + r.below(4) as u64,
        _ => r.next_u64(),
    };
    let qos = if r.percent(98) { r.below(3) as u64 } else { 3 << r.below(62) };
    Asked { kind, earlier, client, topic, qos }
}

/// What is asked on the opened store.
pub fn questions(r: &mut Random, list: &List) -> Vec<Asked> {
    (0..24).map(|_| asked(r, list, |_, _| ())).collect()
}
