//! An event line of the program `decide`. Its refusals (5, 1, 2) are document
//! 01's; nothing like them is in the Rust.

use bytestring::ByteString;
use rmqtt::types::{Id, Password, QoS, RemoteAddr};
use serde_json::Value;

use super::question::{Kind, Question};

pub enum Event {
    Connected(u64, Id),
    Disconnected(u64, Id),
    Ended(u64),
    Ask(Question),
}

const TOO_LONG: u32 = 1;
const OUT_OF_RANGE: u32 = 2;
const MALFORMED: u32 = 5;

pub fn read(line: &[u8]) -> Result<Event, u32> {
    if line.len() > 2048 {
        return Err(MALFORMED);
    }
    let v: Value = serde_json::from_slice(line).map_err(|_| MALFORMED)?;
    let a = v.as_array().ok_or(MALFORMED)?;
    match (a.first().and_then(Value::as_str), a.len()) {
        (Some("connected"), 4) => {
            let (session, id, name) = (number(&a[1])?, text(&a[2])?, optional(&a[3])?);
            within(Some(id), 64)?;
            within(name, 64)?;
            Ok(Event::Connected(in_range(session, 255)?, client(id, name, None)))
        }
        (Some("disconnected"), 3) => {
            let (session, id) = (number(&a[1])?, text(&a[2])?);
            within(Some(id), 64)?;
            Ok(Event::Disconnected(in_range(session, 255)?, client(id, None, None)))
        }
        (Some("ended"), 2) => Ok(Event::Ended(in_range(number(&a[1])?, 255)?)),
        (Some("connect"), 7) => question(Kind::Connect, a),
        (Some("subscribe"), 8) => question(Kind::Subscribe, a),
        (Some("publish"), 8) => question(Kind::Publish, a),
        _ => Err(MALFORMED),
    }
}

fn question(kind: Kind, a: &[Value]) -> Result<Event, u32> {
    let connect = kind == Kind::Connect;
    let earlier = if a[1].is_null() { 0 } else { number(&a[1])? };
    let id = text(&a[2])?;
    let (name, password, address) = (optional(&a[3])?, optional(&a[4])?, optional(&a[5])?);
    let protocol = match &a[6] {
        Value::Null if !connect => None,
        v => Some(u8::try_from(number(v)?).map_err(|_| MALFORMED)?),
    };
    let topic = if connect { "" } else { text(&a[7])? };
    within(Some(id), 64)?;
    within(name, 64)?;
    within(password, 128)?;
    within(address, 45)?;
    within(Some(topic), 256)?;
    Ok(Event::Ask(Question {
        kind,
        earlier: in_range(earlier, if connect { 4 } else { 2 })?,
        id: client(id, name, address),
        password: password.map(|p| Password::from(p.to_owned())),
        protocol,
        topic: topic.to_owned(),
        qos: QoS::AtMostOnce,
    }))
}

fn client(id: &str, name: Option<&str>, address: Option<&str>) -> Id {
    Id::new(address.map(RemoteAddr::new), ByteString::from(id), name.map(ByteString::from))
}

fn text(v: &Value) -> Result<&str, u32> {
    v.as_str().ok_or(MALFORMED)
}

fn optional(v: &Value) -> Result<Option<&str>, u32> {
    match v {
        Value::Null => Ok(None),
        v => text(v).map(Some),
    }
}

fn number(v: &Value) -> Result<u64, u32> {
    v.as_u64().ok_or(MALFORMED)
}

fn within(t: Option<&str>, most: usize) -> Result<(), u32> {
    match t {
        Some(t) if t.len() > most => Err(TOO_LONG),
        _ => Ok(()),
    }
}

fn in_range(n: u64, most: u64) -> Result<u64, u32> {
    if n > most {
        return Err(OUT_OF_RANGE);
    }
    Ok(n)
}
