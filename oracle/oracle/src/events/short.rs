//! All histories of up to three events of a few, on a few lists, with tables of one row, of two
//! and of many; after each event the same questions.

use super::{Event, History, Room, Step};
use crate::decide::Kind;
use crate::questions::{Asked, List};
use crate::rules::{Client, Lent};

const LISTS: &[&[&str]] = &[
    &[r#"["allow","all","pubsub",["%c"]]"#],
    &[r#"["allow","all","all",["%u"]]"#],
    &[r#"["allow",{"user":"+"},"publish",["a/%u",{"eq":"%c"}]]"#, r#"["deny","all","connect",["%c/%u"]]"#],
    &[r##"["deny","all","pubsub",["+a%u","#"]]"##, r#"["allow","all","pubsub",["%c","%u",{"eq":"%u"}]]"#],
];
const ROOMS: [[u64; 3]; 4] = [[1, 1, 1], [2, 1, 3], [3, 2, 2], [64, 32, 64]];
const IDS: [&str; 2] = ["a", "+"];

fn lent(given: bool, value: &str) -> Lent<String> {
    Lent { given, value: value.into() }
}

fn events() -> Vec<Event> {
    let mut out = vec![Event::Ended { session: 0 }, Event::Ended { session: 1 }];
    for id in IDS {
        for session in [0, 1] {
            out.push(Event::Disconnected { session, id: id.into() });
            for name in [lent(false, "a"), lent(true, "a"), lent(true, "+")] {
                out.push(Event::Connected { session, id: id.into(), name });
            }
        }
    }
    out
}

fn questions() -> Vec<Step> {
    let mut out = Vec::new();
    for (i, id) in IDS.into_iter().enumerate() {
        for topic in ["a", "+", "a/+"] {
            let client = Client {
                id: id.into(),
                name: lent(topic != "+", "+"),
                password: Lent { given: false, value: Vec::new() },
                address: lent(false, ""),
                protocol: Lent { given: true, value: 4 },
            };
            let kind = if i == 0 { Kind::Publish } else { Kind::Subscribe };
            out.push(Step::Ask(Asked { kind, earlier: 0, client, topic: topic.into(), qos: 0 }));
        }
    }
    out
}

/// How many there are of three events each. A history's beginnings are compared with it, so that
/// the shorter ones need none of their own.
pub fn histories() -> usize {
    LISTS.len() * ROOMS.len() * events().len().pow(3)
}

pub fn history(n: usize) -> History {
    let (events, questions) = (events(), questions());
    let digit = |place: u32| n / events.len().pow(place) % events.len();
    let rest = n / events.len().pow(3);
    let lines = LISTS[rest % LISTS.len()].iter().map(|line| line.as_bytes().to_vec()).collect();
    let [filters, eqs, notes] = ROOMS[rest / LISTS.len() % ROOMS.len()];
    let mut steps = Vec::new();
    for place in 0..3 {
        steps.push(Step::Event(events[digit(place)].clone()));
        steps.extend(questions.iter().cloned());
    }
    let list = List { lines, ends: true, disconnect: n.is_multiple_of(3) };
    History { list, room: Room { bytes: 256, filters, eqs, notes }, steps }
}
