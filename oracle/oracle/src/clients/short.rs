//! All rules of a few parts, each asked by a few clients.

use super::Asked;
use crate::rules::Lent;

const PERMISSIONS: &[&str] = &[r#""allow""#, r#""deny""#, r#""Allow""#];
const ACTIONS: &[&str] = &[r#""all""#, r#""publish""#, r#""subscribe""#, r#""Publish""#];
const QOS: &[&str] = &["", "0", "257", "3", "[]", "[0,2]", r#"["x"]"#, r#"[1,"x"]"#, "null"];
const RETAINS: &[&str] = &["", "true", "false", "null"];
const TOPICS: &[&str] = &[
    r#""a/+""#,
    r#""eq a/+""#,
    r##""${username}/#""##,
    r#""${clientid}""#,
    r#""${username}/${clientid}""#,
    r#""${client${username}id}""#,
    r#""eq ${username}""#,
    r#""eq ""#,
    r#""eq""#,
    r##""#""##,
    r##""+/#""##,
    r##""$x/#""##,
    r#""eq a/$x""#,
    r#""a#""#,
    r#""""#,
    "5",
];
const PARTS: [&[&str]; 5] = [PERMISSIONS, ACTIONS, QOS, RETAINS, TOPICS];

/// The n-th rule.
pub fn rule(mut n: usize) -> Option<Vec<u8>> {
    let mut members = Vec::new();
    for (name, values) in ["permission", "action", "qos", "retain", "topic"].iter().zip(PARTS) {
        let value = values[n % values.len()];
        n /= values.len();
        if !value.is_empty() {
            members.push(format!("\"{name}\":{value}"));
        }
    }
    (n == 0).then(|| format!("{{{}}}", members.join(",")).into())
}

const NAMES: &[Option<&str>] = &[None, Some("a"), Some("${clientid}"), Some("")];
const CHECKED: &[&str] = &["a/+", "a/g7", "${clientid}", "g7/g7", "", "a", "a/$x", "$x/a", "$x"];

/// Subscribes and publishes of four clients with the id `g7`.
pub fn questions(rules: &[u8]) -> Vec<Asked> {
    let mut out = Vec::new();
    for name in NAMES {
        for topic in CHECKED {
            for n in 0..6u64 {
                out.push(Asked {
                    superuser: false,
                    id: "g7".into(),
                    name: Lent { given: name.is_some(), value: name.unwrap_or("a").into() },
                    rules: rules.into(),
                    publish: n % 3 != 0,
                    qos: n / 3,
                    retain: n % 3 == 1,
                    disconnect: n == 2,
                    topic: topic.to_string(),
                });
            }
        }
    }
    out
}
