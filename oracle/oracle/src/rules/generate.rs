//! Random rules by document 01's grammar, each place now and then with what doesn't
//! belong there; damaged copies; and clients that they might mean.

use serde_json::Value;

use super::short::{ACCESS, CONTROL, TOPICS, USERS};
use super::{Client, Lent, LINE};
use crate::generate::{filter, pad, scalar, Random, LIMIT};
use crate::json::generate::damaged as damaged_bytes;

const WORDS_ACCESS: &[&str] = &["allow", "deny"];
const WORDS_CONTROL: &[&str] = &["all", "connect", "publish", "subscribe", "pubsub"];
const NAMES: &[&str] = &["", "a", "bo", "g7", "c", "é", "温", "%u", "all", "A", "a\"\\/", "b\0", "\u{7f}"];
const ADDRESSES: &[&str] = &["127.0.0.1", "1.2.3.4", "::1", "::0001", "01.2.3.4", "fe80::1", "", "x"];
#[rustfmt::skip]
const NUMBERS: &[&str] = &[
    "0", "3", "4", "5", "255", "256", "259", "260", "261", "65540", "18446744073709551615", "18446744073709551364",
];
/// Read by serde_json, but not as a u64.
const OTHER_NUMBERS: &[&str] = &["4.0", "-0", "-1", "4e0", "18446744073709551616"];
const OTHER_TYPES: &[&str] = &["null", "true", "false", "5", "0", "[]", "{}", "[\"a\"]", "\"\"", "\"true\""];
const MEMBERS: &[&str] = &["user", "password", "superuser", "clientid", "ipaddr", "protocol"];

/// The elements of a rule's array, as they are written.
pub type Elements = Vec<Vec<u8>>;

/// A text as a string: some of its characters escaped, if `escapes` of a hundred.
fn string(r: &mut Random, text: &str, escapes: usize) -> Vec<u8> {
    let mut out = vec![b'"'];
    for c in text.chars() {
        if c < ' ' || c == '"' || c == '\\' || r.percent(escapes) {
            for unit in c.encode_utf16(&mut [0; 2]) {
                let digits = if r.percent(50) { format!("{unit:04x}") } else { format!("{unit:04X}") };
                out.extend(b"\\u");
                out.extend(digits.bytes());
            }
        } else {
            out.extend(c.encode_utf8(&mut [0; 4]).bytes());
        }
    }
    out.push(b'"');
    out
}

/// Each letter in either case, or the word as it is.
pub(crate) fn odd_case(r: &mut Random, word: &str) -> String {
    if r.percent(40) {
        return word.into();
    }
    word.chars().map(|c| if r.percent(50) { c.to_ascii_uppercase() } else { c }).collect()
}

fn word(r: &mut Random, words: &[&str], others: &[&str]) -> Vec<u8> {
    if r.percent(4) {
        return r.pick(others).into();
    }
    let word = r.pick(words);
    let word = odd_case(r, word);
    string(r, &word, 3)
}

/// A short text, one of any scalars, or one about as long as the limit.
fn text(r: &mut Random) -> String {
    match r.below(100) {
        0..=1 => pad("", LIMIT - 1 + r.below(3)),
        2..=14 => (0..1 + r.below(4)).map(|_| scalar(r)).collect(),
        _ => r.pick(NAMES).into(),
    }
}

fn member(r: &mut Random, name: &str) -> Vec<u8> {
    if r.percent(8) {
        return r.pick(OTHER_TYPES).into();
    }
    if r.percent(1) {
        return r.pick(OTHER_NUMBERS).into();
    }
    match name {
        "protocol" => r.pick(NUMBERS).into(),
        "superuser" => r.pick(&["true", "true", "false"]).into(),
        "ipaddr" => {
            let address = r.pick(ADDRESSES);
            string(r, address, 2)
        }
        _ => {
            let text = text(r);
            string(r, &text, 5)
        }
    }
}

/// `all`, or an object of some members, in any order, some of them twice.
fn users(r: &mut Random) -> Vec<u8> {
    match r.below(100) {
        0..=14 => return word(r, &["all"], USERS),
        15..=19 => return r.pick(USERS).into(),
        20..=23 => return b"{}".to_vec(),
        _ => (),
    }
    let mut names: Vec<&str> = MEMBERS.iter().copied().filter(|_| r.percent(45)).collect();
    // Only then can the flag count.
    if r.percent(30) {
        names.retain(|name| !["clientid", "ipaddr", "protocol"].contains(name));
    }
    if r.percent(12) {
        names.push(r.pick(MEMBERS));
    }
    if r.percent(10) {
        names.push(r.pick(&["", "User", "x", "name", "user ", "eq"]));
    }
    for last in (1..names.len()).rev() {
        if r.percent(50) {
            names.swap(last, r.below(last + 1));
        }
    }
    let mut out = vec![b'{'];
    for (i, name) in names.into_iter().enumerate() {
        if i > 0 {
            out.push(b',');
        }
        out.extend(string(r, name, 1));
        blank(r, &mut out);
        out.push(b':');
        blank(r, &mut out);
        out.extend(member(r, name));
    }
    out.push(b'}');
    out
}

/// A filter, now and then with a placeholder in it.
fn topic_text(r: &mut Random) -> String {
    let mut text = filter(r);
    while r.percent(25) {
        let place = r.pick(&["%c", "%u", "%", "%C", "%%c"]);
        text = if r.percent(50) { format!("{text}{place}") } else { format!("{place}{text}") };
    }
    text
}

fn topic(r: &mut Random) -> Vec<u8> {
    if r.percent(3) {
        return r.pick(OTHER_TYPES).into();
    }
    let text = topic_text(r);
    let text = string(r, &text, 2);
    if r.percent(70) {
        return text;
    }
    let other = r.pick(&["", "\"x\":1,", "\"eq\":5,", "\"Eq\":\"a\","]);
    let behind = if r.percent(4) { ",\"eq\":null" } else { "" };
    [b"{", other.as_bytes(), b"\"eq\":", &text, behind.as_bytes(), b"}"].concat()
}

fn topics(r: &mut Random) -> Vec<u8> {
    if r.percent(10) {
        return r.pick(&TOPICS[1..]).into();
    }
    let mut list: Vec<Vec<u8>> = match r.below(100) {
        // About as many as the limit.
        0..=3 => (0..63 + r.below(3)).map(|_| r.pick(&["\"a\"", "\"#\"", "\"%c\""]).into()).collect(),
        _ => (0..r.below(4)).map(|_| topic(r)).collect(),
    };
    if r.percent(1) {
        list.push(r.pick(OTHER_NUMBERS).into());
    }
    [b"[".to_vec(), list.join(&b','), b"]".to_vec()].concat()
}

/// Behind the topics: ignored, unless it isn't document 01's JSON.
fn extra(r: &mut Random) -> Vec<u8> {
    match r.below(20) {
        0 => r.pick(OTHER_NUMBERS).into(),
        1..=3 => {
            let depth = 7 + r.below(2);
            format!("{}{}", "[".repeat(depth), "]".repeat(depth)).into()
        }
        4 => {
            let text = text(r);
            string(r, &text, 5)
        }
        _ => r.pick(OTHER_TYPES).into(),
    }
}

/// A rule; two of three or so are.
pub fn elements(r: &mut Random) -> Elements {
    let mut out = vec![word(r, WORDS_ACCESS, ACCESS), users(r)];
    if r.percent(90) {
        out.push(word(r, WORDS_CONTROL, &CONTROL[1..]));
        if r.percent(80) {
            out.push(topics(r));
            while r.percent(20) {
                out.push(extra(r));
            }
        }
    }
    out
}

fn blank(r: &mut Random, out: &mut Vec<u8>) {
    while r.percent(4) {
        out.push(b" \t\r"[r.below(3)]);
    }
}

/// The elements as a line; now and then of about as many bytes as a line may have.
pub fn line(r: &mut Random, elements: &Elements) -> Vec<u8> {
    let mut out = Vec::new();
    blank(r, &mut out);
    out.push(b'[');
    for (i, element) in elements.iter().enumerate() {
        if i > 0 {
            out.push(b',');
        }
        blank(r, &mut out);
        out.extend(element);
        blank(r, &mut out);
    }
    out.push(b']');
    if r.percent(2) {
        let size = LINE - 1 + r.below(3);
        out.resize(out.len().max(size), b' ');
    }
    out
}

/// The rule with an element dropped, doubled, or swapped with another; or its line with
/// a byte dropped, doubled, changed or put in.
pub fn damaged(r: &mut Random, elements: &Elements) -> Vec<u8> {
    let mut elements = elements.clone();
    let (a, b) = (r.below(elements.len()), r.below(elements.len()));
    match r.below(10) {
        0 => drop(elements.remove(a)),
        1 => elements.swap(a, b),
        2 => elements.insert(a, elements[b].clone()),
        3 => elements[a] = extra(r),
        4 => {
            let mut line = line(r, &elements);
            let at = r.below(line.len());
            line.insert(at, line[at]);
            return line;
        }
        5 => {
            let mut line = line(r, &elements);
            line.remove(r.below(line.len()));
            return line;
        }
        _ => {
            let line = line(r, &elements);
            return damaged_bytes(r, &line);
        }
    }
    line(r, &elements)
}

/// At most so many bytes, in whole characters.
fn cut(mut text: String, most: usize) -> String {
    while text.len() > most {
        text.pop();
    }
    text
}

/// The rule's own text, another text of the rule, one a little off, or any.
fn asked(r: &mut Random, own: usize, users: &Value, name: &str) -> String {
    let of = |name: &str| users.get(name).and_then(|v| v.as_str()).map(String::from);
    if let (true, Some(text)) = (r.percent(own), of(name)) {
        return text;
    }
    let other = r.pick(MEMBERS);
    match (r.below(4), of(name), of(other)) {
        (0, Some(text), _) => {
            let mut chars: Vec<char> = text.chars().collect();
            match (r.below(3), chars.pop()) {
                (0, _) | (_, None) => (),
                (1, Some(c)) => chars.extend([c, 'a']),
                (_, Some(c)) => chars.push(if c.is_ascii_lowercase() { c.to_ascii_uppercase() } else { 'a' }),
            }
            chars.into_iter().collect()
        }
        (1, _, Some(text)) => text,
        (2, ..) if name == "ipaddr" => r.pick(ADDRESSES).into(),
        _ => text(r),
    }
}

/// A client. One of two takes nearly all from the rule, if the line is one; the others
/// each value with one half.
pub fn client(r: &mut Random, line: &[u8]) -> Client {
    let value: Value = serde_json::from_slice(line).unwrap_or_default();
    let users = value.get(1).unwrap_or(&Value::Null);
    let own = if r.percent(50) { 95 } else { 50 };
    let lent = |r: &mut Random, value| Lent { given: r.percent(own.max(75)), value };
    let id = asked(r, own, users, "clientid");
    let name = asked(r, own, users, "user");
    let name = lent(r, name);
    let mut password = asked(r, own, users, "password").into_bytes();
    if r.percent(4) {
        password.push([0, 0x80, 0xc3, 0xff][r.below(4)]);
    }
    let password = Lent { given: r.percent(own.max(75)), value: password };
    let address = cut(asked(r, own, users, "ipaddr"), 45);
    let address = lent(r, address);
    let listed = users.get("protocol").and_then(|v| v.as_u64());
    let protocol = match listed {
        Some(n) if r.percent(own) => n as u8,
        _ => [0, 3, 4, 5, 255][r.below(5)],
    };
    Client { id, name, password, address, protocol: Lent { given: r.percent(own.max(75)), value: protocol } }
}
