//! The sample's rule lines: `R`, document 01's number or 0 for a rule, and the line,
//! which is all behind the second TAB and may hold any byte but LF. Behind them clients:
//! `I`, answer, client id, name, password, address, protocol, and such a line. The four
//! before it are optional: `=` stands before a given value, `-` before what is lent all
//! the same. The protocol is one byte.

use std::collections::HashSet;

use super::short::{ACCESS, CONTROL, RULES, TOPICS, USERS};
use super::{generate, judge, Client, Identity, Lent, LINE, TOPICS as MOST};
use crate::generate::{Random, LIMIT};

/// Lines of each of document 01's numbers, at least.
const EACH: usize = 40;
const NUMBERS: [u8; 4] = [0, 1, 5, 6];
/// Clients of each answer.
const CLIENTS: usize = 30;
const ANSWERS: usize = 4;
/// A random line is at most so long.
const SHORT: usize = 600;
const SEED: u64 = 1;

#[derive(Default)]
struct Sample {
    lines: Vec<u8>,
    seen: HashSet<Vec<u8>>,
    counts: [usize; NUMBERS.len()],
}

impl Sample {
    fn add(&mut self, line: impl AsRef<[u8]>) {
        let line = line.as_ref();
        assert!(!line.contains(&b'\n') && line.len() <= 4_000);
        if self.seen.insert(line.to_vec()) {
            let place = place(line);
            self.counts[place] += 1;
            self.lines.extend([b"R\t", NUMBERS[place].to_string().as_bytes(), b"\t", line, b"\n"].concat());
        }
    }

    /// The same, as long as its number has fewer than `EACH` lines.
    fn fill(&mut self, line: Vec<u8>) {
        if line.len() <= SHORT && !line.contains(&b'\n') && self.counts[place(&line)] < EACH {
            self.add(line);
        }
    }
}

/// Which of `NUMBERS` is the line's.
fn place(line: &[u8]) -> usize {
    let number = judge(line).verdict.number();
    NUMBERS.iter().position(|n| *n == number).expect("one of document 01's numbers")
}

/// All of them: the same bytes each time.
pub fn sample() -> Vec<u8> {
    let mut sample = Sample::default();
    RULES.iter().for_each(|line| sample.add(line));
    places(&mut sample);
    limits(&mut sample);
    let mut r = Random::new(SEED);
    while sample.counts.iter().any(|n| *n < EACH) {
        let elements = generate::elements(&mut r);
        sample.fill(generate::line(&mut r, &elements));
        sample.fill(generate::damaged(&mut r, &elements));
    }
    [sample.lines, clients()].concat()
}

/// Clients of random rules, but for those where document 01 or a stand-in answers. Half of
/// those who differ, or more, would agree if all that they lend were given.
fn clients() -> Vec<u8> {
    let (mut lines, mut seen, mut counts) = (Vec::new(), HashSet::new(), [0; ANSWERS]);
    let mut r = Random::new(SEED);
    while counts.iter().any(|n| *n < CLIENTS) {
        let elements = generate::elements(&mut r);
        let line = generate::line(&mut r, &elements);
        let client = generate::client(&mut r, &line);
        let judged = judge(&line);
        let identity = judged.identity(&client);
        let fields = fields(&client);
        if matches!(identity, Identity::RustOnly | Identity::NoAddress(_))
            || line.len() > SHORT
            || line.contains(&b'\n')
            || fields.iter().any(|f| f.contains(&b'\t') || f.contains(&b'\n'))
        {
            continue;
        }
        let lent = judged.identity(&all_given(&client)) != identity;
        if identity == Identity::Differs && !lent && counts[0] >= CLIENTS / 2 {
            continue;
        }
        let asked = [fields.join(&b'\t'), line].join(&b'\t');
        let answer = identity.number();
        let count = &mut counts[usize::from(answer)];
        if *count < CLIENTS && seen.insert(asked.clone()) {
            *count += 1;
            lines.extend([b"I\t", answer.to_string().as_bytes(), b"\t", &asked, b"\n"].concat());
        }
    }
    lines
}

fn all_given(client: &Client) -> Client {
    let mut client = client.clone();
    client.name.given = true;
    client.password.given = true;
    client.address.given = true;
    client.protocol.given = true;
    client
}

fn fields(client: &Client) -> [Vec<u8>; 5] {
    let protocol = Lent { given: client.protocol.given, value: [client.protocol.value] };
    [
        client.id.clone().into(),
        field(&client.name),
        field(&client.password),
        field(&client.address),
        field(&protocol),
    ]
}

pub(crate) fn field(value: &Lent<impl AsRef<[u8]>>) -> Vec<u8> {
    [if value.given { b"=" } else { b"-" }, value.value.as_ref()].concat()
}

/// Each value of each place, with the other places right.
fn places(sample: &mut Sample) {
    ACCESS.iter().for_each(|access| sample.add(format!("[{access},\"all\"]")));
    USERS.iter().for_each(|users| sample.add(format!("[\"allow\",{users}]")));
    USERS.iter().for_each(|users| sample.add(format!("[\"deny\",{users},\"all\",[]]")));
    CONTROL[1..].iter().for_each(|control| sample.add(format!("[\"deny\",\"all\",{control}]")));
    TOPICS[1..].iter().for_each(|topics| sample.add(format!("[\"allow\",\"all\",\"all\",{topics}]")));
}

/// Each limit, a byte or an element less and one more; and which number comes first.
fn limits(sample: &mut Sample) {
    let behind = |text: &str| format!("[\"deny\",\"all\",\"all\",[],{text}]");
    for size in [LIMIT - 1, LIMIT, LIMIT + 1] {
        let text = "é".repeat(size / 2) + &"x".repeat(size % 2);
        sample.add(format!("[\"allow\",{{\"clientid\":\"{text}\"}}]"));
        sample.add(format!("[\"allow\",\"all\",\"publish\",[{{\"eq\":\"{text}\"}}]]"));
        sample.add(format!("[\"allow\",{{\"{text}\":0}}]"));
        sample.add(behind(&format!("\"{text}\"")));
        sample.add(format!("[\"{text}\"]"));
        sample.add(behind(&format!("\"{text}\",-0")));
        sample.add(format!("[\"allow\",\"{text}\""));
    }
    for count in [MOST - 1, MOST, MOST + 1] {
        let topics = vec!["\"a\""; count - 1].join(",");
        for last in ["\"a/#\"", "{\"eq\":\"a#\"}", "5", "\"a#\"", "4.0"] {
            sample.add(format!("[\"allow\",\"all\",\"all\",[{topics},{last}]]"));
        }
        sample.add(format!("[\"all\",\"all\",\"all\",[{topics},{topics}]]"));
    }
    for size in [LINE, LINE + 1] {
        for line in [r#"["deny","all"]"#, r#"["deny","any"]"#, r#"["deny","all""#] {
            sample.add(format!("{line:size$}"));
        }
    }
    for depth in [7, 8] {
        sample.add(behind(&format!("{}{}", "[".repeat(depth), "]".repeat(depth))));
        sample.add(format!("[\"deny\",{}{}]", "[".repeat(depth), "]".repeat(depth)));
    }
    for number in ["4.0", "-0", "-1", "4e0", "18446744073709551615", "18446744073709551616"] {
        sample.add(format!("[\"allow\",{{\"protocol\":{number}}}]"));
        sample.add(behind(number));
    }
}
