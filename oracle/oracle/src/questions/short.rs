//! All lists of up to two rules of a few parts, with all questions of a few values.

use super::{Asked, List};
use crate::decide::Kind;
use crate::rules::{Client, Lent};

const ACCESS: &[&str] = &[r#""allow""#, r#""deny""#];
const USERS: &[&str] = &[
    r#""all""#,
    r#"{"user":"b","superuser":true}"#,
    r#"{"clientid":"c","ipaddr":"1.2.3.4","superuser":true}"#,
];
const CONTROL: &[&str] = &[r#""all""#, r#""connect""#, r#""publish""#, r#""subscribe""#, r#""pubsub""#];
const TOPICS: &[&str] =
    &["", ",[]", r#",["a/+"]"#, r##",[{"eq":"a/#"}]"##, r#",["a/%c"]"#, r##",["b",{"eq":"a/%c"},"+/#"]"##];

/// A static filter takes it; an eq is it; neither.
const ASKED: &[&str] = &["a/c", "a/#", "b"];

fn rules() -> Vec<Vec<u8>> {
    let mut out = Vec::new();
    for access in ACCESS {
        for users in USERS {
            for control in CONTROL {
                for topics in TOPICS {
                    out.push(format!("[{access},{users},{control}{topics}]").into_bytes());
                }
            }
        }
    }
    out
}

/// Each with either flag in turn.
pub fn lists() -> Vec<List> {
    let rules = rules();
    let mut lists = vec![vec![]];
    lists.extend(rules.iter().map(|rule| vec![rule.clone()]));
    for first in &rules {
        lists.extend(rules.iter().map(|second| vec![first.clone(), second.clone()]));
    }
    let list = |(i, lines)| List { lines, ends: i % 3 == 0, disconnect: i % 2 == 0 };
    lists.into_iter().enumerate().map(list).collect()
}

pub fn questions() -> Vec<Asked> {
    let mut out = Vec::new();
    for name in ["b", "a"] {
        let text = |text: &str| Lent { given: true, value: text.to_owned() };
        let client = Client {
            id: "c".into(),
            name: text(name),
            password: Lent { given: false, value: b"b".to_vec() },
            address: text("1.2.3.4"),
            protocol: Lent { given: true, value: 4 },
        };
        let asked = |kind, earlier, topic: &str, qos| {
            let (client, topic) = (client.clone(), topic.to_owned());
            Asked { kind, earlier, client, topic, qos }
        };
        out.extend([0, 1, 2, 3, 4].map(|earlier| asked(Kind::Connect, earlier, "", 0)));
        for (i, topic) in ASKED.iter().enumerate() {
            out.push(asked(Kind::Subscribe, i as u64, topic, i as u64));
            out.push(asked(Kind::Subscribe, 0, topic, 2 - i as u64));
            out.push(asked(Kind::Publish, i as u64, topic, 0));
            out.push(asked(Kind::Publish, 0, topic, 0));
        }
    }
    out
}
