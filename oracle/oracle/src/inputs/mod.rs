//! Whole inputs of the program `decide`: what it has to write. The words are those of
//! `AclHandler::hook`, as `decide::Machine` drives it; the refusals of rules, of lines and of
//! events are document 01's, found as for R, J and E.

pub mod fixed;
pub mod generate;

use std::fmt::Write;

use crate::decide::{lines, read, word, Decided, LineEvent};
use crate::events::{Event, Judge, Room};
use crate::json;
use crate::questions::{List, Runtime};
use crate::rules;

/// "R 2,048, F 64, E 32, N 64".
const ROOM: Room = Room { bytes: 2_048, filters: 64, eqs: 32, notes: 64 };
const RULES: usize = 256;
const MALFORMED: u32 = 5;

/// What is said of a line, or of the rules.
#[derive(Clone, Copy, Debug, PartialEq, Eq)]
pub enum Said {
    /// The word, and the deciding rule from 1, or 0.
    Word(&'static str, usize),
    Error(u32),
    /// Error 5 of a line that is too long, or that serde_json reads and document 01 doesn't.
    Beyond(Beyond),
}

#[derive(Clone, Copy, Debug, PartialEq, Eq)]
pub enum Beyond {
    Length,
    Numbers,
    Depth,
}

/// What is right for an input.
#[derive(Clone, Debug)]
pub enum Judged {
    /// Refused rules: the number and the line, 0 if none.
    Refused(u32, usize),
    /// What is said of each line behind the empty one.
    Lines(Vec<Said>),
}

impl Judged {
    /// What the program has to write.
    pub fn output(&self) -> String {
        let said = match self {
            Judged::Refused(number, line) => return format!("0 error {number} {line}\n"),
            Judged::Lines(said) => said,
        };
        let mut out = String::new();
        for (i, said) in said.iter().enumerate() {
            match said {
                Said::Word(word, rule) => writeln!(out, "{} {word} {rule}", i + 1),
                Said::Error(number) => writeln!(out, "{} error {number}", i + 1),
                Said::Beyond(_) => writeln!(out, "{} error {MALFORMED}", i + 1),
            }
            .expect("a String");
        }
        out
    }
}

/// The rules' refusal: "1 text over R (line 0), then over 256 lines (line 257). Then the first
/// faulty line".
fn refusal(text: &[u8], lines: &[&[u8]]) -> Option<Judged> {
    if text.len() as u64 > ROOM.bytes {
        return Some(Judged::Refused(1, 0));
    }
    if lines.len() > RULES {
        return Some(Judged::Refused(1, RULES + 1));
    }
    let numbers = lines.iter().map(|line| rules::judge(line).verdict.number() as u32);
    let first = numbers.enumerate().find(|(_, number)| *number != 0);
    first.map(|(line, number)| Judged::Refused(number, line + 1))
}

/// The judge. The rules are all bytes before the first empty line.
pub fn judge(input: &[u8], runtime: &Runtime) -> Judged {
    let lines = lines(input);
    let end = lines.iter().position(|line| line.is_empty()).unwrap_or(lines.len());
    let (rules, events) = (&lines[..end], lines.get(end + 1..).unwrap_or_default());
    let length = rules.iter().map(|line| line.len() + 1).sum::<usize>().min(input.len());
    if let Some(refused) = refusal(&input[..length], rules) {
        return refused;
    }
    let rules = rules.iter().map(|line| line.to_vec()).collect();
    let list = List { lines: rules, ends: true, disconnect: true };
    let mut judge = Judge::new(&list, runtime);
    Judged::Lines(events.iter().map(|line| said(&mut judge, line, runtime)).collect())
}

/// What is said of one line: 5 where it is no line of document 01's JSON, then what `read` refuses.
fn said(judge: &mut Judge, line: &[u8], runtime: &Runtime) -> Said {
    match json::judge(line) {
        _ if line.len() > rules::LINE => return Said::Beyond(Beyond::Length),
        // A line of an input holds no LF.
        json::Judged::Refused | json::Judged::LineFeed => return Said::Error(MALFORMED),
        json::Judged::Number => return Said::Beyond(Beyond::Numbers),
        json::Judged::Deep => return Said::Beyond(Beyond::Depth),
        json::Judged::Document { .. } => (),
    }
    let event = match read(line) {
        Err(number) => return Said::Error(number),
        Ok(LineEvent::Ask(question)) => {
            let Decided { answer, rule } = judge.decide(&question, runtime);
            return rule.map_or(Said::Word("kept", 0), |rule| Said::Word(word(question.kind, answer), rule));
        }
        Ok(LineEvent::Connected(session, id)) => Event::connected(session, &id),
        Ok(LineEvent::Disconnected(session, id)) => Event::disconnected(session, &id),
        Ok(LineEvent::Ended(session)) => Event::Ended { session },
    };
    match judge.refusal(&event, ROOM, runtime) {
        0 => {
            judge.run(&event, runtime);
            Said::Word("done", 0)
        }
        number => Said::Error(number),
    }
}
