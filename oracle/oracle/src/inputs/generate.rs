//! Random inputs of `decide`: the rules and steps of a history, written as lines, some of them
//! damaged or at a limit; and the pieces in which an input is handed over.

use serde_json::Value;

use crate::decide::Kind;
use crate::events::generate::history;
use crate::events::{Event, Step};
use crate::generate::{pad, Random};
use crate::json::generate::{damaged as damaged_bytes, line as document};
use crate::questions::Asked;
use crate::rules::generate::{damaged as damaged_rule, elements, line as rule_line};
use crate::rules::{Lent, LINE};

/// Bytes of the rules, at most.
const ROOM: usize = 2_048;
/// Bytes that a pipe hands over at once, at most.
const PIECE: usize = 4_096;

#[rustfmt::skip]
const WORDS: &[&str] = &[
    "connect", "subscribe", "publish", "connected", "disconnected", "ended", "Connect", "PUBLISH", "publish ",
    "", "ende", "endeds", "connecte", "unsubscribe", "null", "\u{0}", "con\u{0}nect", "publi\u{17f}h",
];
/// Of other types, out of range, too deep, not document 01's JSON; no value at all.
#[rustfmt::skip]
const VALUES: &[&str] = &[
    "null", "true", "false", "0", "1", "2", "3", "4", "5", "7", "255", "256", "257", "260", "65537", "4294967296",
    "4294967297", "18446744073709551615", "18446744073709551616", "-0", "-1", "1.0", "1e0", "00", "01", "\"\"",
    "\"0\"", "\"a\"", "\"a/b\"", "[]", "{}", "[1]", "[\"a\"]", "{\"eq\":\"a\"}",
    "[[[[[[[]]]]]]]", "[[[[[[[[]]]]]]]]", "[[[[[{\"a\":{\"a\":0}}]]]]]", "[[[[[{\"a\":{\"a\":[]}}]]]]]",
    "\"\\ud800\"", "\"\\udc00\\ud800\"", "\"\t\"", "\"\\x\"", "nul", "", "\u{feff}0",
];

/// A string of JSON: as it is, or with characters escaped.
fn string(r: &mut Random, text: &str, escapes: usize) -> Vec<u8> {
    let mut out = String::from("\"");
    for c in text.chars() {
        let must = matches!(c, '"' | '\\' | '\0'..='\x1f');
        if c == '/' && r.percent(escapes) {
            out += "\\/";
        } else if must || r.percent(escapes) {
            let mut units = [0; 2];
            for unit in c.encode_utf16(&mut units) {
                out += &if r.percent(50) { format!("\\u{unit:04x}") } else { format!("\\u{unit:04X}") };
            }
        } else {
            out.push(c);
        }
    }
    (out + "\"").into()
}

/// Each element of a step's line.
fn parts(r: &mut Random, step: &Step, escapes: usize) -> Vec<Vec<u8>> {
    let number = |n: u64| n.to_string().into_bytes();
    let given = |r: &mut Random, text: &Lent<String>| match text.get() {
        Some(text) => string(r, text, escapes),
        None => b"null".to_vec(),
    };
    let mut out = Vec::new();
    match step {
        Step::Event(Event::Connected { session, id, name }) => {
            out = vec![string(r, "connected", escapes), number(*session), string(r, id, escapes)];
            out.push(given(r, name));
        }
        Step::Event(Event::Disconnected { session, id }) => {
            out = vec![string(r, "disconnected", escapes), number(*session), string(r, id, escapes)];
        }
        Step::Event(Event::Ended { session }) => {
            out.extend([string(r, "ended", escapes), number(*session)]);
        }
        Step::Ask(Asked { kind, earlier, client, topic, .. }) => {
            let word = match kind {
                Kind::Connect => "connect",
                Kind::Subscribe => "subscribe",
                Kind::Publish => "publish",
            };
            out.push(string(r, word, escapes));
            out.push(if *earlier == 0 && r.percent(10) { b"null".to_vec() } else { number(*earlier) });
            out.push(string(r, &client.id, escapes));
            out.push(given(r, &client.name));
            let password = String::from_utf8_lossy(&client.password.value).into_owned();
            out.push(given(r, &Lent { given: client.password.given, value: password }));
            out.push(given(r, &client.address));
            let protocol = client.protocol.get().map(|n| number(*n as u64));
            out.push(protocol.unwrap_or(b"null".to_vec()));
            if *kind != Kind::Connect {
                out.push(string(r, topic, escapes));
            }
        }
    }
    out
}

/// A text of a question with as many bytes as it may have, or one more or less.
fn at_limit(r: &mut Random, step: &mut Step) {
    let Step::Ask(asked) = step else { return };
    let long = |r: &mut Random, most: usize| "x".repeat(most - 1 + r.below(3));
    let client = &mut asked.client;
    match r.below(5) {
        0 => client.id = long(r, 64),
        1 => client.name = Lent { given: true, value: long(r, 64) },
        2 => client.password = Lent { given: true, value: long(r, 128).into() },
        3 => client.address = Lent { given: true, value: long(r, 45) },
        _ => asked.topic = pad(&asked.topic, 255 + r.below(3)),
    }
}

/// One element of another type, left out, doubled or swapped; another word; one more.
fn reshaped(r: &mut Random, parts: &mut Vec<Vec<u8>>) {
    let (a, b) = (r.below(parts.len()), r.below(parts.len()));
    match r.below(12) {
        0 => drop(parts.remove(a)),
        1 => parts.swap(a, b),
        2 => parts.insert(a, parts[b].clone()),
        3 => parts.push(r.pick(VALUES).into()),
        4..=5 => parts[0] = Value::from(r.pick(WORDS)).to_string().into(),
        6 => parts.truncate(a),
        _ => parts[a] = r.pick(VALUES).into(),
    }
}

fn blank(r: &mut Random, blanks: usize, out: &mut Vec<u8>) {
    while r.percent(blanks) {
        out.push(b" \t\r"[r.below(3)]);
    }
}

fn joined(r: &mut Random, parts: &[Vec<u8>], blanks: usize) -> Vec<u8> {
    let mut out = Vec::new();
    blank(r, blanks, &mut out);
    out.push(b'[');
    for (i, part) in parts.iter().enumerate() {
        if i > 0 {
            out.push(b',');
        }
        blank(r, blanks, &mut out);
        out.extend(part);
        blank(r, blanks, &mut out);
    }
    out.push(b']');
    blank(r, blanks, &mut out);
    out
}

/// About as many bytes as a line may have, by blanks somewhere or by a string.
fn stretched(r: &mut Random, line: &mut Vec<u8>) {
    let size = LINE - 1 + r.below(3);
    let Some(missing) = size.checked_sub(line.len()) else { return };
    match r.below(3) {
        0 => line.extend(vec![b' '; missing]),
        1 => drop(line.splice(0..0, vec![b'\t'; missing])),
        _ => {
            let at = line.iter().position(|b| *b == b'"').map_or(line.len(), |at| at + 1);
            drop(line.splice(at..at, vec![b'x'; missing]));
        }
    }
}

/// The line of a step; `faults` of a hundred are damaged or at a limit.
fn line(r: &mut Random, step: &Step, faults: usize, blanks: usize, escapes: usize) -> Vec<u8> {
    let fault = if r.percent(faults) { r.below(20) } else { usize::MAX };
    let mut step = step.clone();
    if fault < 6 {
        at_limit(r, &mut step);
    }
    let mut parts = parts(r, &step, escapes);
    if (6..13).contains(&fault) {
        reshaped(r, &mut parts);
    }
    let mut line = joined(r, &parts, blanks);
    match fault {
        13..=14 => line = damaged_bytes(r, &line),
        15..=16 => stretched(r, &mut line),
        17 => {
            line = [b"".as_slice(), b" ", b"\r", b"\t \r", b"7", b"\"connect\"", b"{}", b"[]", b"null"]
                [r.below(9)]
            .into()
        }
        18 => line = document(r),
        19 => line.extend(b"]"),
        _ => (),
    }
    line
}

/// A rule's line damaged; too many lines; more bytes than there is room for, or just as many; a limit.
fn damaged_rules(r: &mut Random, lines: &mut Vec<Vec<u8>>) {
    let at = r.below(lines.len() + 1);
    let any = elements(r);
    match r.below(12) {
        0..=2 if at < lines.len() => lines[at] = damaged_bytes(r, &lines[at]),
        3..=5 => lines.insert(at, damaged_rule(r, &any)),
        6 => lines.insert(at, rule_line(r, &any)),
        7 => lines.insert(at, [b" ".as_slice(), b"\r", b"7", b"{}", b"[]", b"\"allow\""][r.below(6)].into()),
        8 => *lines = vec![b"7".to_vec(); 255 + r.below(3)],
        9 => {
            let topics = vec!["\"a\""; 63 + r.below(3)].join(",");
            lines.insert(at, format!("[\"allow\",\"all\",\"all\",[{topics}]]").into());
        }
        10 => {
            let text = "x".repeat(255 + r.below(3));
            lines.insert(at, format!("[\"allow\",{{\"user\":\"{text}\"}}]").into());
        }
        _ => {
            let size = lines.iter().map(|line| line.len() + 1).sum::<usize>();
            let missing = (ROOM - 1 + r.below(3)).checked_sub(size);
            if let (Some(missing), Some(last)) = (missing, lines.last_mut()) {
                last.extend(vec![b' '; missing]);
            }
        }
    }
}

pub fn input(r: &mut Random) -> Vec<u8> {
    let history = history(r);
    let mut rules = history.list.lines;
    if r.percent(10) {
        damaged_rules(r, &mut rules);
    } else {
        while rules.iter().map(|line| line.len() + 1).sum::<usize>() > ROOM {
            rules.pop();
        }
    }
    let faults = [0, 10, 25, 60][r.below(4)];
    let (blanks, escapes) = ([0, 0, 10, 30][r.below(4)], [0, 0, 10, 50][r.below(4)]);
    let events: Vec<Vec<u8>> =
        history.steps.iter().map(|step| line(r, step, faults, blanks, escapes)).collect();
    let end: &[u8] = if r.percent(10) { b"\r\n" } else { b"\n" };
    let mut out = Vec::new();
    rules.iter().for_each(|line| out.extend([line, end].concat()));
    out.extend(match r.below(100) {
        0 => b"".as_slice(),
        1 => b"\r\n",
        2..=3 => b"\n\n",
        _ => b"\n",
    });
    events.iter().for_each(|line| out.extend([line, end].concat()));
    match r.below(100) {
        0..=19 => drop(out.pop()),
        20..=23 => out.truncate(r.below(out.len() + 1)),
        24..=25 => out = damaged_bytes(r, &out),
        _ => (),
    }
    out
}

/// The sizes of the pieces in which so many bytes are handed over, each at most what a pipe hands
/// over at once; none: as the pipe takes them.
pub fn pieces(r: &mut Random, length: usize) -> Vec<usize> {
    let most = [0, 0, 0, 1, 2, 7, 61, 997, PIECE - 1, PIECE][r.below(10)];
    let even = r.percent(50);
    let (mut out, mut left) = (Vec::new(), length);
    while most > 0 && left > 0 {
        let size = if even { most } else { 1 + r.below(most) };
        out.push(size.min(left));
        left -= size.min(left);
    }
    out
}
