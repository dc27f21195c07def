//! The program `decide` of document 01, answered by the plugin.

mod event;
mod instance;
mod logged;
mod question;

use std::collections::BTreeMap;
use std::fmt::Write;

use rmqtt::types::Id;
use rmqtt_acl::exposed::Rule;
use serde_json::{json, Value};

pub use event::{read, Event as LineEvent};
pub use instance::{Attrs, Instance, Rows};
pub use question::{Answer, Kind, Question};

/// Where the plugin keeps the notes of a session (its `CACHE_KEY`).
const NOTES: &str = "$SYS/ACL-CACHE-MAP";

#[derive(Clone, Copy, Default)]
pub struct Options {
    /// After each event a line more: the rows of each rule and the notes of each session.
    pub dump: bool,
    /// Hold the rule's number against the plugin's log, the lists against each other.
    pub check: bool,
    /// Refused publishes don't carry the disconnect flag; in `decide` they do.
    pub no_disconnect: bool,
}

/// The plugin over the full rule list, and, since the Rust doesn't tell which
/// rule decided, over its beginnings.
pub struct Machine {
    full: Instance,
    /// `plain[k]`: the first k rules, for k below their number.
    plain: Vec<Instance>,
    /// `open[k]`: the first k rules, then `["allow","all"]`.
    open: Vec<Instance>,
    attrs: BTreeMap<u64, Attrs>,
}

/// What the full list answers, and the rule that decides, 0 if none agrees. No number
/// where the earlier answer is kept.
pub struct Decided {
    pub answer: Answer,
    pub rule: Option<usize>,
}

impl Machine {
    /// Panics if one of the rules is no rule.
    pub async fn new(rules: &[Value], disconnect: bool) -> Machine {
        let (mut plain, mut open) = (Vec::new(), Vec::new());
        for k in 0..=rules.len() {
            if k < rules.len() {
                plain.push(Instance::new(&rules[..k], disconnect).await);
            }
            let mut list = rules[..k].to_vec();
            list.push(json!(["allow", "all"]));
            open.push(Instance::new(&list, disconnect).await);
        }
        Machine { full: Instance::new(rules, disconnect).await, plain, open, attrs: BTreeMap::new() }
    }

    /// The session's notes are those of the full list, since a later rule's
    /// note can clear an earlier rule's row.
    pub async fn connected(&mut self, session: u64, id: &Id) {
        self.full.connected(id, self.attrs.entry(session).or_default()).await;
        for list in self.plain.iter().chain(&self.open) {
            list.connected(id, &Attrs::default()).await;
        }
    }

    pub async fn disconnected(&mut self, session: u64, id: &Id) {
        let attrs = self.attrs.entry(session).or_default();
        for list in self.plain.iter().chain(&self.open).chain([&self.full]) {
            list.disconnected(id, attrs).await;
        }
    }

    pub fn ended(&mut self, session: u64) {
        self.attrs.remove(&session);
    }

    pub async fn ask(&self, q: &Question) -> Decided {
        logged::take();
        let got = self.full.ask(q).await;
        let logged = logged::take();
        // Kept: not even a list that allows everything allows.
        if self.open[0].ask(q).await != Answer::Allow {
            let earlier = match (q.kind, q.earlier) {
                (Kind::Connect, 3) => Answer::BadName,
                _ => Answer::NotAuthorized,
            };
            assert_eq!(got, earlier);
            return Decided { answer: got, rule: None };
        }
        let rule = self.deciding(q, got).await;
        if logged::started() && q.kind != Kind::Connect {
            assert_eq!(logged.map_or(0, |index| index + 1), rule, "the index in the plugin's log");
        }
        Decided { answer: got, rule: Some(rule) }
    }

    /// The least k such that the first k rules answer alike with and without
    /// `["allow","all"]` after them: then the k-th decides. 0 if there is none.
    async fn deciding(&self, q: &Question, got: Answer) -> usize {
        for k in 1..self.open.len() {
            let plain = self.plain.get(k).unwrap_or(&self.full).ask(q).await;
            if plain == self.open[k].ask(q).await {
                assert_eq!(plain, got, "the deciding beginning answers as the full list");
                return k;
            }
        }
        0
    }

    /// Of each rule of the full list.
    pub async fn rows(&self) -> Vec<Rows> {
        self.full.rows(self.plain.len()).await
    }

    /// Of each session that has any, in the order in which they came, with repeats.
    pub async fn notes(&self) -> Vec<(u64, Vec<String>)> {
        let mut out = Vec::new();
        for (session, attrs) in &self.attrs {
            notes(attrs).await.into_iter().for_each(|texts| out.push((*session, texts)));
        }
        out
    }

    async fn dump(&self) -> Value {
        let rows = self.rows().await;
        if logged::started() {
            for (k, list) in self.open.iter().enumerate() {
                assert_eq!(list.rows(k).await, rows[..k], "the beginnings hold the same rows");
            }
        }
        let notes =
            self.notes().await.into_iter().map(|(session, texts)| (session.to_string(), json!(texts)));
        let rows: Vec<Value> = rows.iter().map(Rows::json).collect();
        json!({ "rules": rows, "notes": notes.collect::<serde_json::Map<_, _>>() })
    }
}

/// The plugin's notes of a session.
pub async fn notes(attrs: &Attrs) -> Option<Vec<String>> {
    attrs.read().await.get::<Vec<String>>(NOTES).cloned()
}

/// The word of `decide` for an answer that isn't kept.
pub fn word(kind: Kind, answer: Answer) -> &'static str {
    match (kind, answer) {
        (_, Answer::Allow) => "allow",
        (Kind::Connect, Answer::Super) => "super",
        (Kind::Connect, Answer::NotAuthorized) => "refuse",
        (Kind::Subscribe, Answer::Unspecified) => "refuse",
        (Kind::Publish, Answer::NotAuthorized) => "refuse",
        (Kind::Publish, Answer::Drop) => "drop",
        other => panic!("{other:?}"),
    }
}

/// LF ends a line; the last may lack it; the empty text is zero lines.
pub fn lines(text: &[u8]) -> Vec<&[u8]> {
    let mut lines: Vec<&[u8]> = text.split(|b| *b == b'\n').collect();
    if lines.last().is_some_and(|l| l.is_empty()) {
        lines.pop();
    }
    lines
}

/// Document 01's 5 and 6 with the line; its limits aren't tested.
fn read_rules(lines: &[&[u8]]) -> Result<Vec<Value>, String> {
    let mut rules = Vec::new();
    for (i, line) in lines.iter().enumerate() {
        let rule = serde_json::from_slice(line).map_err(|_| format!("0 error 5 {}\n", i + 1))?;
        Rule::try_from(&rule).map_err(|_| format!("0 error 6 {}\n", i + 1))?;
        rules.push(rule);
    }
    Ok(rules)
}

/// What the program `decide` writes for this input.
pub async fn run(input: &[u8], options: Options) -> String {
    if options.check {
        logged::start();
    }
    let lines = lines(input);
    let end = lines.iter().position(|l| l.is_empty()).unwrap_or(lines.len());
    let rules = match read_rules(&lines[..end]) {
        Ok(rules) => rules,
        Err(refusal) => return refusal,
    };
    let mut machine = Machine::new(&rules, !options.no_disconnect).await;
    let mut out = String::new();
    for (i, line) in lines.iter().skip(end + 1).enumerate() {
        let (word, number) = step(&mut machine, line).await;
        writeln!(out, "{} {word} {number}", i + 1).expect("a String");
        if options.dump {
            writeln!(out, "{}", machine.dump().await).expect("a String");
        }
    }
    out
}

async fn step(machine: &mut Machine, line: &[u8]) -> (&'static str, usize) {
    match read(line) {
        Err(number) => return ("error", number as usize),
        Ok(LineEvent::Ask(q)) => {
            let Decided { answer, rule } = machine.ask(&q).await;
            return rule.map_or(("kept", 0), |rule| (word(q.kind, answer), rule));
        }
        Ok(LineEvent::Connected(session, id)) => machine.connected(session, &id).await,
        Ok(LineEvent::Disconnected(session, id)) => machine.disconnected(session, &id).await,
        Ok(LineEvent::Ended(session)) => machine.ended(session),
    }
    ("done", 0)
}
