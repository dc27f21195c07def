//! Random rule lists, mostly of templates, and histories of few clients and sessions, so that
//! they meet.

use super::{Event, History, Room, Step};
use crate::generate::Random;
use crate::questions::generate::{asked, own_rule, quoted, topic, valid};
use crate::questions::{List, ROOM};
use crate::rules::{judge, Client, Lent, Verdict};

/// 64 bytes, the most that document 01 takes; with a slash, so that it fills two levels.
const LONG: &str = "0123456789abcdef0123456789abcdef/0123456789abcdef0123456789abcde";
const IDS: &[&str] = &["a", "b", "g7", "+", "#", "a/b", "%u", "%c", "%u%u", "$x", "", "é", "a+", "+/#", LONG];
const NAMES: &[&str] = &["a", "b", "bo", "+", "#", "a/b", "b/#", "%u", "%c", "$x", "", "é", "#/a", LONG];
/// Some are no filter whatever fills them, some only by what fills them.
#[rustfmt::skip]
const TEMPLATES: &[&str] = &[
    "%c", "%u", "%c/%u", "a/%c", "a/%u", "%u/#", "%c/#", "+/%c", "%u/+", "a/%c/%u/b", "/%c", "%u/", "%c%c", "%u%c",
    "$%c", "$SYS/%u", "$SYS/%c/#", "%%cu", "%%uc", "a+%u", "#/%c", "a%u", "%c#",
];
const STATIC: &[&str] = &["a", "b", "a/b", "a/a", "+", "#", "$x", "+/#"];

/// A template whose filled text has about as many bytes as the limit.
fn long(r: &mut Random) -> String {
    match r.below(3) {
        0 => "%c".repeat(3 + r.below(3)),
        1 => format!("{}/%u", "p".repeat(250 + r.below(4))),
        _ => format!("{}/%c", "p".repeat(189 + r.below(4))),
    }
}

fn event_topic(r: &mut Random) -> String {
    let text = match r.below(100) {
        0..=54 => r.pick(TEMPLATES).into(),
        55..=64 => format!("{}/{}", r.pick(&["%c", "%u"]), valid(r)),
        65..=69 => long(r),
        70..=84 => r.pick(STATIC).into(),
        _ => return topic(r),
    };
    if r.percent(35) {
        return format!("{{\"eq\":{}}}", quoted(&text));
    }
    quoted(&text)
}

/// 0 to 5 rules, now and then more; nearly always one has a template.
fn list(r: &mut Random) -> List {
    let most = if r.percent(4) { 6 + r.below(8) } else { r.below(6) };
    let mut list = List { lines: Vec::new(), ends: r.percent(50), disconnect: r.percent(50) };
    while list.lines.len() < most {
        let line = own_rule(r, event_topic);
        if judge(&line).verdict == Verdict::Rule {
            list.lines.push(line);
        }
    }
    let filled = list.lines.iter().any(|line| line.contains(&b'%'));
    if filled || r.percent(3) {
        return list;
    }
    self::list(r)
}

/// Few rows, so that a table is soon full; those of `decide`; now and then the most.
fn room(r: &mut Random, list: &List) -> Room {
    let rows = |r: &mut Random, decide| match r.below(1000) {
        0..=299 => 1 + r.below(3) as u64,
        300..=549 => 4 + r.below(9) as u64,
        550..=997 => decide,
        _ => 4_096,
    };
    let text = list.text().len();
    let bytes = match r.below(10) {
        0..=1 => text.max(1),
        _ if text <= 2_048 => 2_048,
        _ => ROOM,
    };
    Room { bytes: bytes as u64, filters: rows(r, 64), eqs: rows(r, 32), notes: rows(r, 64) }
}

/// Who takes part.
struct Cast {
    ids: Vec<String>,
    names: Vec<String>,
    sessions: Vec<u64>,
}

fn one(r: &mut Random, texts: &[String]) -> String {
    texts[r.below(texts.len())].clone()
}

impl Cast {
    fn new(r: &mut Random) -> Cast {
        let mut some = |words| (0..1 + r.below(3)).map(|_| r.pick(words).into()).collect();
        let (ids, names) = (some(IDS), some(NAMES));
        let sessions = (0..1 + r.below(3)).map(|_| [0, 1, 2, 255][r.below(4)]).collect();
        Cast { ids, names, sessions }
    }

    /// So many that the tables of `decide` fill up.
    fn crowd() -> Cast {
        let some = |letter| (0..40).map(|n| format!("{letter}{n}")).collect();
        Cast { ids: some('i'), names: some('n'), sessions: (0..20).collect() }
    }

    /// Now and then one byte too long.
    fn id(&self, r: &mut Random) -> String {
        if r.percent(1) {
            "i".repeat(65)
        } else {
            one(r, &self.ids)
        }
    }

    fn name(&self, r: &mut Random) -> Lent<String> {
        let value = if r.percent(2) { "n".repeat(65) } else { one(r, &self.names) };
        Lent { given: r.percent(75), value }
    }

    /// Now and then one past the last, also one that would wrap to 1.
    fn session(&self, r: &mut Random) -> u64 {
        if r.percent(1) {
            return [256, 65_537, u64::MAX][r.below(3)];
        }
        self.sessions[r.below(self.sessions.len())]
    }

    fn event(&self, r: &mut Random) -> Event {
        let (session, id) = (self.session(r), self.id(r));
        match r.below(100) {
            0..=56 => Event::Connected { session, id, name: self.name(r) },
            57..=87 => Event::Disconnected { session, id },
            _ => Event::Ended { session },
        }
    }

    /// Mostly one of those who take part asks.
    fn takes(&self, r: &mut Random, client: &mut Client) {
        if r.percent(85) {
            client.id = self.id(r);
        }
        if r.percent(60) {
            client.name = self.name(r);
        }
    }
}

pub fn history(r: &mut Random) -> History {
    let list = list(r);
    let room = room(r, &list);
    let (cast, events) =
        if r.percent(2) { (Cast::crowd(), 80 + r.below(80)) } else { (Cast::new(r), 4 + r.below(16)) };
    let mut steps = Vec::new();
    for _ in 0..events {
        steps.push(Step::Event(cast.event(r)));
        for _ in 0..r.below(4) {
            steps.push(Step::Ask(asked(r, &list, |r, client| cast.takes(r, client))));
        }
    }
    History { list, room, steps }
}
