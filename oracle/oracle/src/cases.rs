//! Questions about filters and matching, and the documents' examples of them.

use std::fmt;

use crate::matching::{self, has_dollar, Both};

#[derive(Clone, Copy, Debug, PartialEq, Eq, PartialOrd, Ord, Hash)]
pub enum Kind {
    /// Is it a valid filter?
    V,
    /// Tree match: the plugin's.
    T,
    /// Plain match: that of per-client rules.
    P,
}

pub const KINDS: [Kind; 3] = [Kind::V, Kind::T, Kind::P];

#[derive(Clone, Debug, PartialEq, Eq, Hash)]
pub struct Case {
    pub kind: Kind,
    pub filter: String,
    /// The checked text; empty for V.
    pub text: String,
}

impl Case {
    pub fn new(kind: Kind, filter: &str, text: &str) -> Case {
        Case { kind, filter: filter.into(), text: text.into() }
    }

    /// The Rust's answer; none for T and P of a text that is no filter.
    pub fn rust(&self) -> Option<bool> {
        let filter = matching::filter(&self.filter);
        match self.kind {
            Kind::V => Some(filter.is_some()),
            Kind::T => Some(matching::tree(&filter?).is_match(&matching::checked(&self.text))),
            Kind::P => Some(filter?.matches_str(&self.text)),
        }
    }

    /// What is right: the Rust's answer, or for P that of section 4.7 where it decides.
    pub fn answer(&self) -> Option<bool> {
        match self.kind {
            Kind::P => Some(self.plain()?.answer()),
            _ => self.rust(),
        }
    }

    /// The plain match; none of a text that is no filter.
    pub fn plain(&self) -> Option<Both<bool>> {
        let topic = matching::filter(&self.filter)?;
        Some(matching::plain(&self.filter, &topic, &self.text, has_dollar(&self.text)))
    }

    pub fn size(&self) -> usize {
        self.filter.len() + self.text.len()
    }
}

/// The fields of a line, without the answer: `V`, text; or `T`, filter, text.
impl fmt::Display for Case {
    fn fmt(&self, f: &mut fmt::Formatter<'_>) -> fmt::Result {
        match self.kind {
            Kind::V => write!(f, "V\t{}", self.filter),
            kind => write!(f, "{kind:?}\t{}\t{}", self.filter, self.text),
        }
    }
}

pub fn word(answer: bool) -> &'static str {
    if answer {
        "yes"
    } else {
        "no"
    }
}

/// The documents' examples of valid and invalid filters.
pub const FILTERS: &[(&str, bool)] = &[
    // Document 01: the empty text is one Blank.
    ("", true),
    ("+a", false),
    ("a#", false),
    ("#/a", false),
    // MQTT 4.7.1 and 4.7.3
    ("#", true),
    ("sport/tennis/#", true),
    ("sport/tennis#", false),
    ("sport/tennis/#/ranking", false),
    ("+", true),
    ("+/tennis/#", true),
    ("sport/+/player1", true),
    ("sport+", false),
    ("/", true),
    ("/finance", true),
    ("Accounts payable", true),
    ("$SYS/monitor/+", true),
];

/// An example of matching.
struct Match {
    filter: &'static str,
    text: &'static str,
    tree: bool,
    plain: bool,
    /// What the Rust says for P.
    rust: bool,
}

/// T's answer and P's, which are the Rust's.
const fn same(filter: &'static str, text: &'static str, tree: bool, plain: bool) -> Match {
    Match { filter, text, tree, plain, rust: plain }
}

/// The same, where the Rust's P is the other by its own rule for levels that begin with `$`.
const fn apart(filter: &'static str, text: &'static str, tree: bool, plain: bool) -> Match {
    Match { filter, text, tree, plain, rust: !plain }
}

/// The documents' examples of matching, P's as document 02 has them.
const MATCHES: &[Match] = &[
    // Document 01, marked examples. `#/a` is no filter, so T gives it no levels.
    same("#", "#/a", true, true),
    same("#", "$SYS/a", false, false),
    apart("a/#", "a/$b", true, true),
    apart("+", "$SYS/a/b", false, false),
    same("+/b", "$SYS/b", false, false),
    same("a/+", "a/#", true, true),
    same("a/+", "a/", true, true),
    same("a/+", "a", false, false),
    // Document 02, b: a generator's start, and its steps, which the Rust doesn't pass.
    same("bench/g7/#", "bench/g7/start", true, true),
    apart("bench/g7/#", "bench/g7/$step", true, true),
    // No levels come before T's `$` rule. P tests no text.
    same("#", "$SYS/a#", true, false),
    same("#", "$a+", true, false),
    same("+", "a#", false, true),
    same("+", "a+", false, true),
    // P's `$` rule is for the first level and a leading wildcard.
    apart("+", "$", false, false),
    apart("+/#", "$", false, false),
    apart("+/#", "$x/y", false, false),
    same("$a/#", "$a", true, true),
    apart("$a/#", "$a/$b", true, true),
    // Later levels have none.
    same("#", "a/$b", true, true),
    same("a/#", "a/b/$c", true, true),
    apart("/#", "/$", true, true),
    same("a/+", "a/$", true, true),
    same("$SYS/+", "$SYS/$a", true, true),
    apart("/+/", "/$/", true, true),
    // `+` takes one level, also one that begins with `$`.
    apart("/+", "/$/", false, false),
    apart("+/+", "a/$b/c", false, false),
    // MQTT 4.7.1.2
    same("sport/tennis/player1/#", "sport/tennis/player1", true, true),
    same("sport/tennis/player1/#", "sport/tennis/player1/ranking", true, true),
    same("sport/tennis/player1/#", "sport/tennis/player1/score/wimbledon", true, true),
    same("sport/#", "sport", true, true),
    // MQTT 4.7.1.3
    same("sport/tennis/+", "sport/tennis/player1", true, true),
    same("sport/tennis/+", "sport/tennis/player2", true, true),
    same("sport/tennis/+", "sport/tennis/player1/ranking", false, false),
    same("sport/+", "sport", false, false),
    same("sport/+", "sport/", true, true),
    same("+/+", "/finance", true, true),
    same("/+", "/finance", true, true),
    same("+", "/finance", false, false),
    // MQTT 4.7.2
    same("#", "$SYS", false, false),
    same("#", "$SYS/monitor/Clients", false, false),
    same("+/monitor/Clients", "$SYS/monitor/Clients", false, false),
    same("$SYS/#", "$SYS/", true, true),
    same("$SYS/#", "$SYS/monitor/Clients", true, true),
    same("$SYS/monitor/+", "$SYS/monitor/Clients", true, true),
    // MQTT 4.7.3
    same("ACCOUNTS", "Accounts", false, false),
    same("Accounts payable", "Accounts payable", true, true),
    same("/finance", "finance", false, false),
    same("finance", "finance/", false, false),
    same("/", "/", true, true),
    same("\u{e9}", "e\u{301}", false, false),
];

/// A case with the answer that its document gives, and the Rust's.
pub struct Example {
    pub case: Case,
    pub answer: bool,
    pub rust: bool,
}

pub fn examples() -> Vec<Example> {
    let mut out = Vec::new();
    for (filter, valid) in FILTERS {
        out.push(Example { case: Case::new(Kind::V, filter, ""), answer: *valid, rust: *valid });
    }
    for Match { filter, text, tree, plain, rust } in MATCHES {
        out.push(Example { case: Case::new(Kind::T, filter, text), answer: *tree, rust: *tree });
        out.push(Example { case: Case::new(Kind::P, filter, text), answer: *plain, rust: *rust });
    }
    out
}
