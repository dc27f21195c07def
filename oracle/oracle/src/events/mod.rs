//! Histories: events on a rule list, with questions in between. What an event does is
//! `AclHandler::hook`'s, as `decide::Machine` drives it.

pub mod generate;
pub mod short;

use std::fmt;

use rmqtt::types::{ClientId, Id, UserName};
use serde_json::Value;

use crate::decide::{notes, Attrs, Decided, Instance, Machine, Question, Rows};
use crate::generate::LIMIT;
use crate::questions::{Asked, List, Reply, Runtime};
use crate::rules::Lent;

#[derive(Clone, Debug)]
pub enum Event {
    Connected { session: u64, id: String, name: Lent<String> },
    Disconnected { session: u64, id: String },
    Ended { session: u64 },
}

impl Event {
    pub fn connected(session: u64, id: &Id) -> Event {
        let name = id.username.as_ref().map(|name| name.to_string());
        let name = Lent { given: name.is_some(), value: name.unwrap_or_default() };
        Event::Connected { session, id: id.client_id.to_string(), name }
    }

    pub fn disconnected(session: u64, id: &Id) -> Event {
        Event::Disconnected { session, id: id.client_id.to_string() }
    }
}

#[derive(Clone, Debug)]
pub enum Step {
    Event(Event),
    Ask(Asked),
}

/// R, F, E, N: the bytes for the rule text and the rows that each table has room for.
#[derive(Clone, Copy, Debug)]
pub struct Room {
    pub bytes: u64,
    pub filters: u64,
    pub eqs: u64,
    pub notes: u64,
}

#[derive(Clone, Debug)]
pub struct History {
    pub list: List,
    pub room: Room,
    pub steps: Vec<Step>,
}

impl History {
    pub fn size(&self) -> usize {
        self.list.size() + self.steps.iter().map(Step::size).sum::<usize>()
    }
}

impl Step {
    fn size(&self) -> usize {
        1 + match self {
            Step::Event(Event::Connected { id, name, .. }) => id.len() + name.value.len(),
            Step::Event(Event::Disconnected { id, .. }) => id.len(),
            Step::Event(Event::Ended { .. }) => 0,
            Step::Ask(asked) => asked.size(),
        }
    }
}

/// Used rows.
#[derive(Clone, Debug, Default, PartialEq, Eq)]
pub struct Tables {
    /// Rule from 0, text, owner.
    pub filters: Vec<(usize, Vec<u8>, Vec<u8>)>,
    /// Rule, text.
    pub eqs: Vec<(usize, Vec<u8>)>,
    /// Session, text.
    pub notes: Vec<(u64, Vec<u8>)>,
}

impl Tables {
    /// As the Rust tells them: it has no order but that of the notes of one session.
    pub fn sorted(mut self) -> Tables {
        self.filters.sort();
        self.eqs.sort();
        self.notes.sort_by_key(|(session, _)| *session);
        self
    }

    /// Of the filters those with an owner; the notes without repeats, which no answer depends on.
    fn told(filters: &[Rows], eqs: &[Rows], notes: &[(u64, Vec<String>)]) -> Tables {
        let mut out = Tables::default();
        for (rule, rows) in filters.iter().enumerate() {
            out.filters.extend(rows.owned.iter().map(|(f, owner)| (rule, bytes(f), bytes(owner))));
        }
        for (rule, rows) in eqs.iter().enumerate() {
            out.eqs.extend(rows.eqs.iter().map(|text| (rule, bytes(text))));
        }
        for (session, texts) in notes {
            add(&mut out.notes, texts.iter().map(|text| (*session, bytes(text))));
        }
        out.sorted()
    }
}

/// Rule, filter and owner; rule and eq; session and note.
impl fmt::Display for Tables {
    fn fmt(&self, f: &mut fmt::Formatter<'_>) -> fmt::Result {
        let filter = |(rule, text, owner): &(usize, Vec<u8>, Vec<u8>)| {
            format!("{rule} {} {}", text.escape_ascii(), owner.escape_ascii())
        };
        let filters: Vec<String> = self.filters.iter().map(filter).collect();
        let eqs: Vec<String> =
            self.eqs.iter().map(|(n, text)| format!("{n} {}", text.escape_ascii())).collect();
        let notes: Vec<String> =
            self.notes.iter().map(|(n, text)| format!("{n} {}", text.escape_ascii())).collect();
        write!(f, "{} | {} | {}", filters.join(", "), eqs.join(", "), notes.join(", "))
    }
}

fn bytes(text: &str) -> Vec<u8> {
    text.as_bytes().to_vec()
}

/// Present rows aren't added again.
fn add<Row: PartialEq>(rows: &mut Vec<Row>, new: impl IntoIterator<Item = Row>) {
    for row in new {
        if !rows.contains(&row) {
            rows.push(row);
        }
    }
}

/// How many rows there are with these.
fn with<Row: PartialEq + Clone>(rows: &[Row], new: &[Row]) -> u64 {
    (rows.len() + new.iter().filter(|row| !rows.contains(row)).count()) as u64
}

fn client(id: &str, name: Option<&String>) -> Id {
    Id::new(None, ClientId::from(id), name.map(|name| UserName::from(name.as_str())))
}

/// Does the plugin take the topic for a template?
fn is_template(topic: &Value) -> bool {
    let text = topic.get("eq").unwrap_or(topic).as_str();
    text.is_some_and(|text| text.contains("%u") || text.contains("%c"))
}

/// The plugin over a list, and what its tables hold now.
pub struct Judge {
    machine: Machine,
    /// The rules without their static topics: over these all eqs are filled ones.
    templates: Vec<Value>,
    filled: Instance,
    /// The full list's eqs before the first event.
    fixed: Vec<Vec<String>>,
    now: Tables,
}

impl Judge {
    /// Panics if one of the lines is no rule.
    pub fn new(list: &List, runtime: &Runtime) -> Judge {
        let mut templates = list.values();
        let topics = templates.iter_mut().filter_map(|rule| rule.get_mut(3)?.as_array_mut());
        topics.for_each(|topics| topics.retain(is_template));
        let machine = list.machine(runtime);
        let filled = runtime.block_on(Instance::new(&templates, list.disconnect));
        let fixed = runtime.block_on(machine.rows()).into_iter().map(|rows| rows.eqs).collect();
        Judge { machine, templates, filled, fixed, now: Tables::default() }
    }

    pub fn now(&self) -> &Tables {
        &self.now
    }

    /// What a connected alone leaves: that of a plugin which has seen nothing else.
    async fn alone(&self, session: u64, id: &Id) -> Tables {
        let (plugin, attrs) = (Instance::new(&self.templates, false).await, Attrs::default());
        plugin.connected(id, &attrs).await;
        let rows = plugin.rows(self.templates.len()).await;
        Tables::told(&rows, &rows, &[(session, notes(&attrs).await.unwrap_or_default())])
    }

    /// Document 01's number, 0 if the event is done. The Rust has no such refusal: 7 to 10 are
    /// counted from what it would hold.
    pub fn refusal(&self, event: &Event, room: Room, runtime: &Runtime) -> u32 {
        let (session, id, name) = match event {
            Event::Connected { session, id, name } => (session, id.as_str(), name.get()),
            Event::Disconnected { session, id } => (session, id.as_str(), None),
            Event::Ended { session } => (session, "", None),
        };
        if id.len() > 64 || name.is_some_and(|name| name.len() > 64) {
            return 1;
        }
        if *session > 255 {
            return 2;
        }
        let Event::Connected { .. } = event else { return 0 };
        let new = runtime.block_on(self.alone(*session, &client(id, name)));
        let long = |text: &Vec<u8>| text.len() > LIMIT;
        // A filter row's text is a note's too.
        match &self.now {
            _ if new.notes.iter().any(|(_, text)| long(text)) || new.eqs.iter().any(|(_, t)| long(t)) => 7,
            now if with(&now.filters, &new.filters) > room.filters => 8,
            now if with(&now.eqs, &new.eqs) > room.eqs => 9,
            now if with(&now.notes, &new.notes) > room.notes => 10,
            _ => 0,
        }
    }

    /// Runs an event that isn't refused. Has it changed a table?
    pub fn run(&mut self, event: &Event, runtime: &Runtime) -> bool {
        let now = runtime.block_on(async {
            match event {
                Event::Connected { session, id, name } => {
                    let id = client(id, name.get());
                    self.machine.connected(*session, &id).await;
                    self.filled.connected(&id, &Attrs::default()).await;
                }
                Event::Disconnected { session, id } => {
                    self.machine.disconnected(*session, &client(id, None)).await
                }
                Event::Ended { session } => self.machine.ended(*session),
            }
            self.tables().await
        });
        let changed = now != self.now;
        self.now = now;
        changed
    }

    async fn tables(&self) -> Tables {
        let full = self.machine.rows().await;
        let filled = self.filled.rows(self.templates.len()).await;
        for ((full, filled), fixed) in full.iter().zip(&filled).zip(&self.fixed) {
            let mut eqs = filled.eqs.clone();
            add(&mut eqs, fixed.iter().cloned());
            eqs.sort();
            assert_eq!(full.eqs, eqs, "the full list holds the static eqs and the filled ones");
        }
        Tables::told(&full, &filled, &self.machine.notes().await)
    }

    pub fn decide(&self, question: &Question, runtime: &Runtime) -> Decided {
        runtime.block_on(self.machine.ask(question))
    }

    pub fn ask(&self, asked: &Asked, runtime: &Runtime) -> Reply {
        asked.judge(&self.machine, runtime)
    }
}
