//! The sample's questions on stores straight from opening: `Q`, question, word and digit of
//! the answer, earlier code, client id, name, password, address, protocol, topic, QoS or
//! disconnect flag, rules. The rules have `|` between them, in place of LF. Optional values
//! are written as with `I`, but the protocol is a digit. Of a connect the topic and what
//! stands behind it are empty.

use std::collections::HashMap;

use serde_json::Value;

use super::{generate, Asked, List, Reply, Runtime};
use crate::decide::Kind;
use crate::generate::{is_readable, Random};
use crate::rules::sample::field;
use crate::rules::{is_printed, Client, Lent};
use crate::runtime;

/// Lines of each question and answer, with rules up to this number.
const EACH: usize = 8;
const RULES: usize = 3;
/// Lines of the same rules, and bytes of their text, at most.
const OF_ONE: usize = 3;
const SHORT: usize = 300;
const SEED: u64 = 1;

/// Document 01's example.
const EXAMPLE: [&str; 2] =
    [r#"["allow",{"user":"bo"},"publish",["bench/%c/set"]]"#, r#"["deny","all","pubsub"]"#];

impl Reply {
    /// As `decide` prints it, but for the code that is kept and the QoS.
    fn said(self) -> (String, usize) {
        let (word, digit) = match self {
            Reply::Refused(number) => ("error", number as usize),
            Reply::Kept(code) => ("kept", code as usize),
            Reply::Connects { rule, superuser: true } => ("super", rule),
            Reply::Connects { rule, .. } | Reply::Publishes { rule } => ("allow", rule),
            Reply::Subscribes { rule, qos } => return (format!("allow-qos{qos}"), rule),
            Reply::NotAuthorized { rule, disconnect: Some(true) } => ("drop", rule),
            Reply::NotAuthorized { rule, .. } | Reply::UnspecifiedError { rule } => ("refuse", rule),
        };
        (word.into(), digit)
    }
}

/// All of the questions and answers that are wanted: a kept code of connect, a rule that
/// allows, or one that refuses, or none.
fn wanted() -> HashMap<(Kind, Reply), usize> {
    let mut all = vec![(Kind::Subscribe, Reply::Kept(2)), (Kind::Publish, Reply::Kept(2))];
    all.extend([3, 4].map(|code| (Kind::Connect, Reply::Kept(code))));
    for rule in 0..=RULES {
        all.push((Kind::Connect, Reply::NotAuthorized { rule, disconnect: None }));
        all.push((Kind::Subscribe, Reply::UnspecifiedError { rule }));
        let refused =
            |disconnect| (Kind::Publish, Reply::NotAuthorized { rule, disconnect: Some(disconnect) });
        all.extend([true, false].map(refused));
        if rule > 0 {
            all.extend([true, false].map(|superuser| (Kind::Connect, Reply::Connects { rule, superuser })));
            all.extend([0, 1, 2].map(|qos| (Kind::Subscribe, Reply::Subscribes { rule, qos })));
            all.push((Kind::Publish, Reply::Publishes { rule }));
        }
    }
    all.into_iter().map(|one| (one, EACH)).collect()
}

#[derive(Default)]
struct Sample {
    lines: Vec<Vec<u8>>,
    /// Lines of the same rules.
    rules: HashMap<Vec<u8>, usize>,
    left: HashMap<(Kind, Reply), usize>,
}

impl Sample {
    /// Adds the questions that are still wanted and that a person can read. In half of the
    /// answers of one kind the deciding rule has topics, unless it is a connect's.
    fn add(&mut self, runtime: &Runtime, list: &List, questions: &[Asked]) {
        let machine = list.machine(runtime);
        for asked in questions.iter().filter(|asked| is_plain(asked)) {
            let reply = asked.judge(&machine, runtime);
            let (_, rule) = reply.said();
            let Some(line) = line(list, asked, reply) else { continue };
            let Some(left) = self.left.get_mut(&(asked.kind, reply)) else { continue };
            let used = self.rules.entry(list.text()).or_default();
            let is_last = *left == 0 || *used == OF_ONE;
            let any = asked.kind == Kind::Connect || *left > EACH / 2 || matches!(reply, Reply::Kept(_));
            if is_last || self.lines.contains(&line) || !any && rule > 0 && !has_topics(&list.lines[rule - 1])
            {
                continue;
            }
            *left -= 1;
            *used += 1;
            self.lines.push(line);
        }
    }
}

fn has_topics(line: &[u8]) -> bool {
    let value: Value = serde_json::from_slice(line).expect("a rule");
    value.get(3).is_some()
}

/// All of them: the same bytes each time.
pub fn sample() -> Vec<u8> {
    let runtime = runtime();
    let mut sample = Sample { left: wanted(), ..Sample::default() };
    let (list, questions) = example();
    sample.add(&runtime, &list, &questions);
    let mut r = Random::new(SEED);
    while sample.left.values().any(|n| *n > 0) {
        let list = generate::list(&mut r);
        let questions = generate::questions(&mut r, &list);
        if list.size() <= SHORT {
            sample.add(&runtime, &list, &questions);
        }
    }
    sample.lines.extend(limits(&runtime));
    sample.lines.concat()
}

/// Who asks in the example and at the limits.
fn client() -> Client {
    Client {
        id: "g7".into(),
        name: Lent { given: true, value: "bo".into() },
        password: Lent { given: false, value: Vec::new() },
        address: Lent { given: false, value: String::new() },
        protocol: Lent { given: true, value: 4 },
    }
}

fn example() -> (List, Vec<Asked>) {
    let lines = EXAMPLE.map(|rule| rule.as_bytes().to_vec()).to_vec();
    let asked = |kind, topic: &str| Asked { kind, earlier: 0, client: client(), topic: topic.into(), qos: 0 };
    let questions = vec![asked(Kind::Connect, ""), asked(Kind::Publish, "bench/g7/set")];
    (List { lines, ends: true, disconnect: true }, questions)
}

/// Each limit and one past it, and one past two. Past it, the answer is document 01's.
fn limits(runtime: &Runtime) -> Vec<Vec<u8>> {
    let list = List { lines: vec![br#"["allow","all"]"#.to_vec()], ends: true, disconnect: true };
    let machine = list.machine(runtime);
    let mut questions = Vec::new();
    for past in [0, 1] {
        let text = |n: usize| "x".repeat(n + past);
        let given = |n| Lent { given: true, value: text(n) };
        let mut ask = |kind, client, topic: String, earlier, qos| {
            questions.push(Asked { kind, earlier, client, topic, qos });
        };
        let password = Lent { given: true, value: text(128).into_bytes() };
        ask(Kind::Connect, Client { id: text(64), ..client() }, String::new(), 0, 0);
        ask(Kind::Connect, Client { name: given(64), ..client() }, String::new(), 0, 0);
        ask(Kind::Connect, Client { password, ..client() }, String::new(), 0, 0);
        ask(Kind::Connect, Client { address: given(45), ..client() }, String::new(), 0, 0);
        ask(Kind::Connect, client(), String::new(), 4 + past as u64, 0);
        ask(Kind::Subscribe, client(), text(256), 0, 2);
        ask(Kind::Subscribe, client(), "x".into(), 2 + past as u64, 0);
        ask(Kind::Subscribe, client(), "x".into(), 0, 2 + past as u64);
        ask(Kind::Publish, client(), text(256), 0, 0);
        ask(Kind::Publish, client(), "x".into(), 2 + past as u64, 0);
        ask(Kind::Publish, client(), text(256), 2 + past as u64, 0);
    }
    let judged = |asked: &Asked| line(&list, asked, asked.judge(&machine, runtime)).expect("readable");
    questions.iter().map(judged).collect()
}

/// Codes and protocol are digits, and no stand-in answers for an address.
fn is_plain(asked: &Asked) -> bool {
    let Client { address, protocol, .. } = &asked.client;
    asked.earlier <= 9 && protocol.value <= 9 && address.get().map_or(true, |text| is_printed(text))
}

/// The line, if a person can read it.
fn line(list: &List, asked: &Asked, reply: Reply) -> Option<Vec<u8>> {
    let Asked { kind, earlier, client, topic, qos } = asked;
    let (word, digit) = reply.said();
    let (question, last) = match kind {
        Kind::Connect => ("connect", String::new()),
        Kind::Subscribe => ("subscribe", qos.to_string()),
        Kind::Publish => ("publish", u8::from(list.disconnect).to_string()),
    };
    let protocol = Lent { given: client.protocol.given, value: client.protocol.value.to_string() };
    let rules = list.text();
    if rules.contains(&b'|') {
        return None;
    }
    let rules = rules.iter().map(|b| if *b == b'\n' { b'|' } else { *b }).collect();
    let fields = [
        b"Q".to_vec(),
        question.into(),
        word.into(),
        digit.to_string().into(),
        earlier.to_string().into(),
        client.id.clone().into(),
        field(&client.name),
        field(&client.password),
        field(&client.address),
        field(&protocol),
        topic.clone().into(),
        last.into(),
        rules,
    ];
    let readable = |f: &Vec<u8>| std::str::from_utf8(f).is_ok_and(is_readable);
    fields.iter().all(readable).then(|| [fields.join(&b'\t'), b"\n".to_vec()].concat())
}
