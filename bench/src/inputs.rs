//! The inputs: filters and texts of three sizes, each with texts that match and
//! texts that don't. Both matches give them the same answer. And rule lines with
//! these filters.

use std::str::FromStr;

use rmqtt::codec::types::Protocol;
use rmqtt::codec::v3;
use rmqtt::topic::Topic;
use rmqtt::trie::TopicTree;
use rmqtt::types::{ClientId, CodecPublish, ConnectInfo, Id, QoS, UserName};
use serde_json::Value;

pub struct Input {
    pub filter: String,
    pub text: String,
    /// For V: the filter itself, or with one byte more, which makes it invalid.
    pub checked: String,
    /// For J: a rule, or with another bracket at its end.
    pub line: String,
    /// For R: the rule and its value, and who asks: one whom it means, or another.
    pub rule: String,
    pub value: Value,
    pub client: &'static str,
    pub name: &'static str,
    pub id: Id,
    pub topic: Topic,
    pub tree: TopicTree<Option<u8>>,
    /// For C: the client's rules, as lines, as one text and as values, and its CONNECT.
    pub own: Own,
}

pub struct Own {
    pub lines: Vec<String>,
    pub text: String,
    pub values: Vec<Value>,
    pub connect: ConnectInfo,
    pub publish: CodecPublish,
}

/// Per-client rules that don't decide: by their action, their topic, their QoS.
const OWN_OTHERS: [&str; 3] = [
    r#"{"permission":"deny","action":"subscribe","topic":"eq public/${username}/log"}"#,
    r##"{"permission":"allow","action":"publish","topic":"home/${clientid}/#","retain":false}"##,
    r#"{"permission":"deny","action":"all","qos":[1,2],"topic":"shop/+/bench/${clientid}/set"}"#,
];

impl Own {
    /// Ten rules, of which the last has the filter.
    fn new(filter: &str, text: &str, id: &Id, name: &str) -> Own {
        let last = format!("{{\"permission\":\"allow\",\"action\":\"all\",\"topic\":\"{filter}\"}}");
        let lines: Vec<String> =
            OWN_OTHERS.iter().cycle().take(9).map(|line| line.to_string()).chain([last]).collect();
        let username = Some(UserName::from(name));
        let connect = v3::Connect { protocol: Protocol(4), username, password: None };
        Own {
            text: lines.join("\n"),
            values: lines.iter().map(|line| serde_json::from_str(line).expect("a rule")).collect(),
            lines,
            connect: ConnectInfo::V3(id.clone(), Box::new(connect)),
            publish: CodecPublish { retain: false, qos: QoS::AtMostOnce, topic: text.into() },
        }
    }
}

impl Input {
    fn new(filter: &str, text: &str, rule: String, answer: bool) -> Input {
        let topic = Topic::from_str(filter).expect("a filter");
        let mut tree = TopicTree::default();
        tree.insert(&topic, None);
        let (client, name) = ("g7", if answer { "bo" } else { "al" });
        let id = Id::new(None, ClientId::from(client), Some(UserName::from(name)));
        Input {
            filter: filter.into(),
            text: text.into(),
            checked: if answer { filter.into() } else { format!("{filter}+") },
            line: if answer { rule.clone() } else { format!("{}}}", &rule[..rule.len() - 1]) },
            value: serde_json::from_str(&rule).expect("a value"),
            rule,
            client,
            name,
            own: Own::new(filter, text, &id, name),
            id,
            topic,
            tree,
        }
    }
}

/// Filter, a text that matches, and one that doesn't, by its end.
const SHORT: [[&str; 3]; 4] = [
    ["bench/g7/set", "bench/g7/set", "bench/g7/get"],
    ["bench/+/set", "bench/g7/set", "bench/g7/get"],
    ["bench/g7/#", "bench/g7/on", "bench/g70/on"],
    ["+/g7/start", "bench/g7/start", "bench/g7/starts"],
];

const TYPICAL: [[&str; 3]; 4] = [
    [
        "shop/berlin/bench07/generator3/sweep",
        "shop/berlin/bench07/generator3/sweep",
        "shop/berlin/bench07/generator3/level",
    ],
    [
        "shop/+/bench07/+/sweep/frequency",
        "shop/berlin/bench07/generator3/sweep/frequency",
        "shop/berlin/bench07/generator3/sweep/amplitude",
    ],
    [
        "shop/berlin/bench07/generator3/#",
        "shop/berlin/bench07/generator3/sweep/step",
        "shop/berlin/bench07/generator4/sweep/step",
    ],
    [
        "+/hamburg/bench11/analyser/trace",
        "shop/hamburg/bench11/analyser/trace",
        "shop/hamburg/bench11/analyser/traces",
    ],
];

/// 256 bytes in 16 levels: as it stands, with wildcards, and with another end.
fn long() -> [[String; 3]; 3] {
    let levels: Vec<String> = (0..16).map(|n| format!("level-{n:02}-of-16x")).collect();
    let text = format!("{}.", levels.join("/"));
    assert_eq!(text.len(), 256);
    let other = format!("{}!", &text[..text.len() - 1]);
    let plus = text.replace("level-03-of-16x", "+").replace("level-11-of-16x", "+");
    let hash = format!("{}#", &text[..text.find("level-15").expect("the last level")]);
    let earlier = other.replace("level-14", "level-41");
    [[text.clone(), text.clone(), other.clone()], [plus, text.clone(), other], [hash, text, earlier]]
}

/// A rule of about 60 bytes, of twice as many, and of 2,048, with many topics.
fn line(size: &str, filter: &str) -> String {
    let rule = |topics: &str| format!("[\"allow\",{{\"user\":\"bo\"}},\"publish\",[{topics}]]");
    match size {
        "short" => rule(&format!("\"{filter}\",\"a/%c\"")),
        "typical" => rule(&format!("\"{filter}\",{{\"eq\":\"{filter}\"}}")),
        _ => {
            let topics = TYPICAL.map(|[filter, ..]| format!("\"{filter}\"")).join(",");
            let line = rule(&format!("{},\"{}\"", vec![topics; 13].join(","), "a/".repeat(69)));
            assert_eq!(line.len(), 2_048);
            line
        }
    }
}

/// Filters of a size, each with a text that matches and one that doesn't.
pub fn texts(size: &str) -> Vec<[String; 3]> {
    match size {
        "short" => SHORT.map(|texts| texts.map(String::from)).into(),
        "typical" => TYPICAL.map(|texts| texts.map(String::from)).into(),
        "long" => long().into(),
        other => panic!("no inputs of size {other}"),
    }
}

pub fn inputs(size: &str, answer: bool) -> Vec<Input> {
    let pick = |[filter, yes, no]: [String; 3]| {
        Input::new(&filter, if answer { &yes } else { &no }, line(size, &filter), answer)
    };
    let inputs: Vec<Input> = texts(size).into_iter().map(pick).collect();
    for i in &inputs {
        assert_eq!(i.topic.matches_str(&i.text), answer, "{} on {}", i.filter, i.text);
        assert_eq!(Topic::from_str(&i.checked).is_ok(), answer, "{}", i.checked);
        assert_eq!(serde_json::from_str::<Value>(&i.line).is_ok(), answer, "{}", i.line);
    }
    inputs
}
