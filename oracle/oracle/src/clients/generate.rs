//! Random per-client rules, each place now and then with what doesn't belong there; damaged copies;
//! clients and topics that they might take; and times.

use serde_json::Value;

use super::{is_rule, lines, Asked, Times, LINES, TEXT};
use crate::generate::{filter, pad, text, with_dollar, Random, LIMIT};
use crate::json::generate::damaged;
use crate::rules::{Lent, LINE};

const PERMISSIONS: &[&str] =
    &[r#""Allow""#, r#""all""#, r#""""#, r#""deny ""#, "null", "5", "[]", r#"["allow"]"#];
const ACTIONS: &[&str] =
    &[r#""pubsub""#, r#""All""#, r#""""#, "null", "true", r#"{"all":1}"#, r#""connect""#];
#[rustfmt::skip]
const QOS: &[&str] = &[
    "0", "1", "2", "0", "1", "2", "256", "257", "258", "512", "65538", "18446744073709551360", "18446744073709551362",
];
const NO_QOS: &[&str] = &["3", "255", "259", "18446744073709551615"];
/// Dropped from an array, refused as the whole value.
const NO_NUMBERS: &[&str] = &[r#""x""#, r#""0""#, "null", "true", "[0]", "{}", "[]", r#"{"qos":0}"#];
/// Read by serde_json, but not as a u64.
const OTHER_NUMBERS: &[&str] = &["0.0", "-1", "1e0", "-0", "18446744073709551616"];
const RETAINS: &[&str] = &["true", "false", "true", "false", "null", "0", "1", r#""true""#, "[]", "{}"];
#[rustfmt::skip]
const LEVELS: &[&str] = &[
    "a", "b", "g7", "bo", "", "+", "+", "$SYS", "$x", "$", "${username}", "${username}", "${clientid}", "${clientid}",
    "${ipaddr}", "${protocol}", "${user${username}name}", "${client${username}id}", "${${username}}", "${clientid",
    "{clientid}", "${ClientId}", "a${clientid}b", "${clientid}${username}", "${username}${username}", "a+", "#a", "é", "%c",
];
/// More wildcards, for topics with a level that begins with `$`.
const WILD: &[&str] = &["a", "g7", "", "+", "+", "+", "$x", "${clientid}"];
const NAMES: &[&str] = &[
    "",
    "a",
    "bo",
    "+",
    "#",
    "a/b",
    "${clientid}",
    "${username}",
    "$x",
    "eq a",
    "clientid",
    "é",
    "${",
    "/",
    "id}",
];

fn quoted(text: &str) -> String {
    Value::from(text).to_string()
}

/// One to four of these levels, and `#` behind so many of a hundred.
fn levels(r: &mut Random, some: &[&str], hash: usize) -> String {
    let mut levels: Vec<&str> = (0..1 + r.below(4)).map(|_| r.pick(some)).collect();
    if r.percent(hash) {
        levels.push("#");
    }
    levels.join("/")
}

/// A topic as it is configured.
fn topic(r: &mut Random) -> String {
    let mut topic = match r.below(100) {
        0..=2 => String::new(),
        3..=17 => filter(r),
        18..=22 => {
            let piece = r.pick(&["${username}", "${clientid}", "${username}/", "${clientid}${username}/"]);
            piece.repeat(1 + r.below(12)) + r.pick(&["", "", "a", "#", "+a"])
        }
        23..=26 => pad(r.pick(LEVELS), LIMIT - 12 + r.below(14)),
        27..=29 => "#".into(),
        30..=46 => levels(r, WILD, 50),
        _ => levels(r, LEVELS, 25),
    };
    match r.below(100) {
        0..=24 => topic.insert_str(0, "eq "),
        25..=29 => topic.insert_str(0, r.pick(&["eq", "EQ ", "eq\t", "eq  ", " eq "])),
        _ => (),
    }
    topic
}

fn qos(r: &mut Random) -> String {
    let number = |r: &mut Random| match r.below(100) {
        0..=7 => r.pick(NO_QOS),
        8..=19 => r.pick(NO_NUMBERS),
        20..=21 => r.pick(OTHER_NUMBERS),
        _ => r.pick(QOS),
    };
    if r.percent(50) {
        return number(r).into();
    }
    let numbers: Vec<&str> = (0..r.below(5)).map(|_| number(r)).collect();
    format!("[{}]", numbers.join(","))
}

/// One rule: its members in any order, some of them twice or left out, and others among them.
pub fn rule(r: &mut Random) -> Vec<u8> {
    if r.percent(2) {
        return r.pick(&["[]", "null", "{}", "5", "\"allow\"", "", "[{}]", " "]).into();
    }
    let odd = r.percent(12);
    let mut members = Vec::new();
    let word = |r: &mut Random, odd: bool, others: &[&str], words: &[&str]| {
        if odd && r.percent(25) {
            r.pick(others).to_string()
        } else {
            quoted(r.pick(words))
        }
    };
    for name in ["permission", "action", "qos", "retain", "topic"] {
        let times = match (name, r.below(100)) {
            ("qos" | "retain", 0..=49) => 0,
            (_, 0..=1) => 0,
            (_, 97..=99) => 2,
            _ => 1,
        };
        for _ in 0..times {
            let value = match name {
                "permission" => word(r, odd, PERMISSIONS, &["allow", "deny"]),
                "action" => word(r, odd, ACTIONS, &["all", "publish", "subscribe"]),
                "qos" => qos(r),
                "retain" => r.pick(RETAINS).into(),
                _ if odd && r.percent(10) => r.pick(&["null", "5", "[]", r#"["a"]"#, "{}"]).into(),
                _ => quoted(&topic(r)),
            };
            members.push(format!("{}:{value}", quoted(name)));
        }
    }
    if r.percent(10) {
        let long = "x".repeat(LIMIT - 1 + r.below(3));
        let string = quoted(&long);
        let value = r.pick(&["null", "0", "[[[[[[[]]]]]]]", "[[[[[[[[]]]]]]]]", "-1", "\"allow\"", &string]);
        members.push(format!("{}:{value}", quoted(r.pick(&["x", "Topic", "", "qos ", "topi", &long]))));
    }
    for last in (1..members.len()).rev() {
        members.swap(last, r.below(last + 1));
    }
    let mut line = format!("{{{}}}", members.join(",")).into_bytes();
    if r.percent(1) {
        line.resize(line.len().max(LINE - 1 + r.below(3)), b' ');
    }
    line
}

fn client_text(r: &mut Random) -> String {
    match r.below(100) {
        0 => "x".repeat(63 + r.below(3)),
        1..=8 => pad("é", 20 + r.below(45)),
        _ => r.pick(NAMES).into(),
    }
}

/// A text that follows the topic of one of the lines, filled or as it is configured; or any. One of four has
/// a `$` more.
fn topic_for(r: &mut Random, rules: &[u8], id: &str, name: &str) -> String {
    let lines = lines(rules);
    let own = match lines.len() {
        0 => None,
        n => serde_json::from_slice::<Value>(lines[r.below(n)]).ok(),
    };
    let own = own.as_ref().and_then(|v| v.get("topic")?.as_str());
    let Some(own) = own.filter(|_| !r.percent(8)) else {
        let any = filter(r);
        return text(r, &any);
    };
    let (eq, own) = own.strip_prefix("eq ").map_or((false, own), |rest| (true, rest));
    let own = match r.percent(85) {
        true => own.replace("${username}", name).replace("${clientid}", id),
        false => own.to_string(),
    };
    if eq && r.percent(75) {
        return own;
    }
    let topic = text(r, &own);
    match r.percent(25) {
        true => with_dollar(r, &topic),
        false => topic,
    }
}

/// A rule to a client with the name `a`.
fn right_rule(r: &mut Random) -> Vec<u8> {
    loop {
        let line = rule(r);
        if is_rule(&line) {
            return line;
        }
    }
}

/// A list of rules, 0 to 4, of most lists all right; now and then with a line damaged, or very many lines.
fn rules(r: &mut Random) -> Vec<u8> {
    let right = r.percent(80);
    let mut lines: Vec<Vec<u8>> =
        (0..r.below(5)).map(|_| if right { right_rule(r) } else { rule(r) }).collect();
    if r.percent(15) && !lines.is_empty() {
        let at = r.below(lines.len());
        lines[at] = damaged(r, &lines[at]);
    }
    if r.below(2_000) == 0 {
        let line = lines.pop().unwrap_or_default();
        lines = vec![line; LINES - 1 + r.below(3)];
    }
    let mut text = lines.join(&b'\n');
    if r.percent(50) && !text.is_empty() {
        text.push(b'\n');
    }
    if r.below(2_000) == 0 {
        text.resize(text.len().max(TEXT - 1 + r.below(3)), b' ');
    }
    text
}

fn asked(r: &mut Random, rules: Vec<u8>) -> Asked {
    let (id, name) = (client_text(r), client_text(r));
    let topic = topic_for(r, &rules, &id, &name);
    Asked {
        superuser: r.percent(6),
        id,
        name: Lent { given: r.percent(85), value: name },
        rules,
        publish: r.percent(60),
        qos: if r.percent(98) { r.below(3) as u64 } else { 3 << r.below(62) },
        retain: r.percent(50),
        disconnect: r.percent(50),
        topic,
    }
}

/// Questions about one list of rules.
pub fn questions(r: &mut Random) -> Vec<Asked> {
    let rules = rules(r);
    (0..4).map(|_| asked(r, rules.clone())).collect()
}

/// An expiry about as early as now, or any.
pub fn times(r: &mut Random) -> Times {
    let mut seconds = [r.next_u64(), r.below(3) as u64, u64::MAX, 1_700_000_000][r.below(4)];
    let nanos = |r: &mut Random| match r.below(100) {
        0..=4 => 1_000_000_000 << r.below(34),
        5..=19 => 999_999_999 + r.below(2) as u64,
        20..=39 => r.below(3) as u64,
        _ => r.below(1_000_000_000) as u64,
    };
    let now = (seconds, nanos(r));
    match r.below(10) {
        0..=1 => seconds = seconds.wrapping_add(1),
        2..=3 => seconds = seconds.wrapping_sub(1),
        4 => seconds = r.next_u64(),
        _ => (),
    }
    let value = match r.below(10) {
        0..=1 => now,
        2..=3 => (seconds, now.1.saturating_sub(1)),
        4..=5 => (seconds, now.1 + 1),
        _ => (seconds, nanos(r)),
    };
    Times { expiry: Lent { given: r.percent(90), value }, now }
}
