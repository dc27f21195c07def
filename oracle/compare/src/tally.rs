//! How many cases of each kind and answer were compared, and what differs.

use std::fmt;
use std::ops::Range;

use oracle::cases::{word, Case, Kind};
use oracle::clients;
use oracle::decide::Kind as QuestionKind;
use oracle::events::{Event, History, Step};
use oracle::inputs::{Judged as JudgedInput, Said};
use oracle::json::{judge, Judged};
use oracle::matching::Both;
use oracle::questions::{self, List, Reply};
use oracle::rules::{self, Client, Identity, Verdict};

use crate::histories::Judged as JudgedStep;

/// The rows of the table: kind and what is judged. Intended are answers no to
/// a line that serde_json reads, or the plugin takes for a rule, and document 01
/// doesn't; and an address that only document 01 can have. By 4.7 are answers of
/// plain matching where a level of the text begins with `$`: the Rust gives the
/// same, or, by 4.7 alone, another.
const ROWS: [(&str, &str); 130] = [
    ("V", "yes"),
    ("V", "no"),
    ("T", "yes"),
    ("T", "no"),
    ("P", "yes"),
    ("P", "no"),
    ("P", "by 4.7: yes"),
    ("P", "by 4.7: no"),
    ("P", "by 4.7 alone: yes"),
    ("P", "by 4.7 alone: no"),
    ("J", "yes"),
    ("J", "no"),
    ("J", "intended: numbers"),
    ("J", "intended: depth"),
    ("J", "intended: LF"),
    ("L", "yes"),
    ("L", "no"),
    ("R", "yes"),
    ("R", "no: 1, too long"),
    ("R", "no: 5, not JSON"),
    ("R", "no: 6, no rule"),
    ("R", "intended: numbers"),
    ("R", "intended: depth"),
    ("R", "intended: lengths"),
    ("R", "intended: LF"),
    ("I", "differs"),
    ("I", "agrees"),
    ("I", "superuser"),
    ("I", "no rule"),
    ("I", "intended: line"),
    ("I", "intended: address"),
    ("O", "opened"),
    ("O", "a line refused"),
    ("Q", "connect: allow"),
    ("Q", "connect: superuser"),
    ("Q", "connect: refused"),
    ("Q", "connect: no rule"),
    ("Q", "connect: kept"),
    ("Q", "subscribe: allow"),
    ("Q", "subscribe: refused"),
    ("Q", "subscribe: no rule"),
    ("Q", "subscribe: kept"),
    ("Q", "publish: allow"),
    ("Q", "publish: refused"),
    ("Q", "publish: dropped"),
    ("Q", "publish: no rule"),
    ("Q", "publish: kept"),
    ("Q", "intended: 1, too long"),
    ("Q", "intended: 2, range"),
    ("E", "connected: rows added"),
    ("E", "connected: none added"),
    ("E", "disconnected: rows go"),
    ("E", "disconnected: none go"),
    ("E", "ended: notes go"),
    ("E", "ended: none go"),
    ("E", "intended: event, 1"),
    ("E", "intended: event, 2"),
    ("E", "intended: event, 7"),
    ("E", "intended: event, 8"),
    ("E", "intended: event, 9"),
    ("E", "intended: event, 10"),
    ("E", "connect: allow"),
    ("E", "connect: superuser"),
    ("E", "connect: refused"),
    ("E", "connect: no rule"),
    ("E", "connect: kept"),
    ("E", "subscribe: allow"),
    ("E", "subscribe: refused"),
    ("E", "subscribe: no rule"),
    ("E", "subscribe: kept"),
    ("E", "publish: allow"),
    ("E", "publish: refused"),
    ("E", "publish: dropped"),
    ("E", "publish: no rule"),
    ("E", "publish: kept"),
    ("E", "intended: 1, too long"),
    ("E", "intended: 2, range"),
    ("C", "subscribe: allow"),
    ("C", "subscribe: refused"),
    ("C", "subscribe: no rule"),
    ("C", "publish: allow"),
    ("C", "publish: refused"),
    ("C", "publish: dropped"),
    ("C", "publish: no rule"),
    ("C", "by 4.7, subscribe: allow"),
    ("C", "by 4.7, subscribe: refused"),
    ("C", "by 4.7, subscribe: no rule"),
    ("C", "by 4.7, publish: allow"),
    ("C", "by 4.7, publish: refused"),
    ("C", "by 4.7, publish: dropped"),
    ("C", "by 4.7, publish: no rule"),
    ("C", "by 4.7 alone, subscribe: allow"),
    ("C", "by 4.7 alone, subscribe: refused"),
    ("C", "by 4.7 alone, subscribe: no rule"),
    ("C", "by 4.7 alone, publish: allow"),
    ("C", "by 4.7 alone, publish: refused"),
    ("C", "by 4.7 alone, publish: dropped"),
    ("C", "by 4.7 alone, publish: no rule"),
    ("C", "superuser"),
    ("C", "no: 1, too long"),
    ("C", "no: 5, not JSON"),
    ("C", "no: 6, no rule"),
    ("C", "no: 7, filled"),
    ("C", "intended: 1, 2"),
    ("C", "intended: 5"),
    ("C", "intended: 7"),
    ("X", "expired"),
    ("X", "valid"),
    ("X", "intended: 2"),
    ("W", "input, as it comes"),
    ("W", "input, in pieces"),
    ("W", "rules: error 1"),
    ("W", "rules: error 5"),
    ("W", "rules: error 6"),
    ("W", "line: done"),
    ("W", "line: kept"),
    ("W", "line: allow"),
    ("W", "line: super"),
    ("W", "line: refuse"),
    ("W", "line: drop"),
    ("W", "line: error 1"),
    ("W", "line: error 2"),
    ("W", "line: error 5"),
    ("W", "line: error 7"),
    ("W", "line: error 8"),
    ("W", "line: error 9"),
    ("W", "line: error 10"),
    ("W", "intended: 5, length"),
    ("W", "intended: 5, numbers"),
    ("W", "intended: 5, depth"),
];

/// The first row of a kind.
const fn first(kind: u8) -> usize {
    let mut row = 0;
    while ROWS[row].0.as_bytes()[0] != kind {
        row += 1;
    }
    row
}

const PLAIN: usize = first(b'P');
const DOCUMENTS: usize = first(b'J');
const WITHIN: usize = first(b'L');
const RULES: usize = first(b'R');
const IDENTITIES: usize = first(b'I');
const OPENINGS: usize = first(b'O');
const QUESTIONS: usize = first(b'Q');
const EVENTS: usize = first(b'E');
/// Questions in between.
const IN_BETWEEN: usize = EVENTS + 12;
const CLIENTS: usize = first(b'C');
/// The decisions, of each decider.
const DECISIONS: usize = 7;
const EXPIRY: usize = first(b'X');
const INPUTS: usize = first(b'W');
/// What is said of their lines.
const SAID: usize = INPUTS + 5;
const WORDS: [&str; 6] = ["done", "kept", "allow", "super", "refuse", "drop"];
const ERRORS: [u32; 7] = [1, 2, 5, 7, 8, 9, 10];

const ASKED: &str = "only valid filters are asked";

/// So many differences of a row of Q, E or W are reduced, on each processor: it takes its time.
const REDUCED: u64 = 20;

/// A case that differs.
enum Asked {
    /// The port's answer last.
    Match(Case, bool),
    Document(Vec<u8>),
    Within(Vec<u8>, usize),
    /// The port's answer last.
    Rule(Vec<u8>, u8),
    Identity(Vec<u8>, Client, u8),
    /// The judge's answer, then the port's.
    Open(Vec<u8>, u32, u32),
    Question(List, questions::Asked, Reply, u32),
    /// With what is said of its last step.
    History(History, String),
    Client(clients::Asked, u64),
    Times(clients::Times, u64),
    /// With the sizes of its pieces, and what is said of it.
    Input(Vec<u8>, Vec<usize>, String),
}

impl Asked {
    /// The smallest is the least in this order.
    fn order(&self) -> (usize, &[u8], &[u8]) {
        match self {
            Asked::Match(case, _) => (case.size(), case.filter.as_bytes(), case.text.as_bytes()),
            Asked::Document(line) | Asked::Within(line, _) | Asked::Rule(line, _) => (line.len(), line, &[]),
            Asked::Identity(line, client, _) => (line.len() + client.size(), line, client.id.as_bytes()),
            Asked::Open(text, ..) => (text.len(), text, &[]),
            Asked::Question(list, asked, ..) => {
                (list.size() + asked.size(), asked.topic.as_bytes(), asked.client.id.as_bytes())
            }
            Asked::History(history, said) => (history.size(), said.as_bytes(), &[]),
            Asked::Client(asked, _) => (asked.size(), &asked.rules, asked.topic.as_bytes()),
            Asked::Times(..) => (0, &[], &[]),
            Asked::Input(input, ..) => (input.len(), input, &[]),
        }
    }
}

/// Compared cases by row.
pub struct Tally {
    cases: [u64; ROWS.len()],
    differences: [u64; ROWS.len()],
    /// Of each row the smallest case that differs.
    smallest: [Option<Asked>; ROWS.len()],
}

impl Default for Tally {
    fn default() -> Tally {
        Tally {
            cases: [0; ROWS.len()],
            differences: [0; ROWS.len()],
            smallest: std::array::from_fn(|_| None),
        }
    }
}

impl Tally {
    /// Counts one case of V or T.
    #[inline]
    pub fn count(&mut self, kind: Kind, filter: &str, text: &str, rust: bool, port: bool) {
        let row = 2 * kind as usize + !rust as usize;
        self.cases[row] += 1;
        if rust != port {
            self.differ(row, Asked::Match(Case::new(kind, filter, text), port));
        }
    }

    /// Counts one case of P. Section 4.7's answer must be the Rust's wherever that tells it: the plain match
    /// where no level begins with `$`, the tree match, `tree`, where the text is a valid filter.
    #[inline]
    pub fn count_plain(
        &mut self,
        filter: &str,
        text: &str,
        judged: Both<bool>,
        tree: Option<bool>,
        port: bool,
    ) {
        let row = PLAIN + 2 * decider(judged) + !judged.answer() as usize;
        self.cases[row] += 1;
        let sound = judged.is_sound() && tree.is_none_or(|tree| tree == judged.section47);
        if judged.answer() != port || !sound {
            self.differ(row, Asked::Match(Case::new(Kind::P, filter, text), port));
        }
    }

    /// Counts one line of J.
    pub fn count_document(&mut self, line: &[u8], judged: Judged, port: bool) {
        let row = DOCUMENTS
            + match judged {
                Judged::Document { .. } => 0,
                Judged::Refused => 1,
                Judged::Number => 2,
                Judged::Deep => 3,
                Judged::LineFeed => 4,
            };
        self.cases[row] += 1;
        if judged.is_document() != port {
            self.differ(row, Asked::Document(line.into()));
        }
    }

    /// Counts one line of L.
    pub fn count_within(&mut self, line: &[u8], most: usize, rust: bool, port: bool) {
        let row = WITHIN + !rust as usize;
        self.cases[row] += 1;
        if rust != port {
            self.differ(row, Asked::Within(line.into(), most));
        }
    }

    /// Counts one line of R.
    pub fn count_rule(&mut self, line: &[u8], verdict: Verdict, port: u8) {
        let row = RULES
            + match verdict {
                Verdict::Rule => 0,
                Verdict::Refused(1) => 1,
                Verdict::Refused(5) => 2,
                Verdict::Refused(_) => 3,
                Verdict::Number => 4,
                Verdict::Deep => 5,
                Verdict::Long => 6,
                Verdict::LineFeed => 7,
            };
        self.cases[row] += 1;
        if verdict.number() != port {
            self.differ(row, Asked::Rule(line.into(), port));
        }
    }

    /// Counts one question of I.
    pub fn count_identity(&mut self, line: &[u8], client: &Client, rust: Identity, port: u8) {
        let row = IDENTITIES
            + match rust {
                Identity::Differs => 0,
                Identity::Agrees => 1,
                Identity::Superuser => 2,
                Identity::NoRule => 3,
                Identity::RustOnly => 4,
                Identity::NoAddress(_) => 5,
            };
        self.cases[row] += 1;
        if rust.number() != port {
            self.differ(row, Asked::Identity(line.into(), client.clone(), port));
        }
    }

    /// Counts one opening. `as_meant`: the store has the bytes that it should have.
    pub fn count_open(&mut self, text: &[u8], judged: u32, port: u32, as_meant: bool) {
        let row = OPENINGS + (judged != 0) as usize;
        self.cases[row] += 1;
        if judged != port || !as_meant {
            self.differ(row, Asked::Open(text.into(), judged, port));
        }
    }

    /// Counts one question of Q; of the first that differ `reduce` makes small ones.
    pub fn count_question(
        &mut self,
        kind: QuestionKind,
        rust: Reply,
        port: u32,
        reduce: impl FnOnce() -> (List, questions::Asked, Reply, u32),
    ) {
        let row = QUESTIONS + answer_row(kind, rust);
        self.cases[row] += 1;
        if rust.number() != port && self.differences[row] < REDUCED {
            let (list, asked, rust, port) = reduce();
            self.differ(row, Asked::Question(list, asked, rust, port));
        } else if rust.number() != port {
            self.differences[row] += 1;
        }
    }

    /// Counts one step of a history, with what is right for it.
    pub fn count_step(
        &mut self,
        step: &Step,
        judged: JudgedStep,
        differs: bool,
        reduce: impl FnOnce() -> Option<(History, String)>,
    ) {
        let row = match (step, judged) {
            (Step::Ask(asked), JudgedStep::Answer(reply)) => IN_BETWEEN + answer_row(asked.kind, reply),
            (Step::Event(event), JudgedStep::Done(changed)) => EVENTS + done_row(event) + !changed as usize,
            (Step::Event(_), JudgedStep::Refused(number @ 1..=2)) => EVENTS + 5 + number as usize,
            (Step::Event(_), JudgedStep::Refused(number)) => EVENTS + 1 + number as usize,
            other => panic!("{other:?}"),
        };
        self.cases[row] += 1;
        match differs.then(|| (self.differences[row] < REDUCED).then(reduce).flatten()) {
            Some(Some((history, said))) => self.differ(row, Asked::History(history, said)),
            Some(None) => self.differences[row] += 1,
            None => (),
        }
    }

    /// Counts one question of C; of the first that differ `reduce` makes small ones.
    pub fn count_client(
        &mut self,
        asked: &clients::Asked,
        judged: Both<clients::Reply>,
        port: u64,
        reduce: impl FnOnce() -> (clients::Asked, u64),
    ) {
        let row = CLIENTS + client_row(asked, judged);
        self.cases[row] += 1;
        let differs = judged.answer().number() != port || !judged.is_sound();
        if differs && self.differences[row] < REDUCED {
            let (asked, port) = reduce();
            self.differ(row, Asked::Client(asked, port));
        } else if differs {
            self.differences[row] += 1;
        }
    }

    /// Counts one input, and its lines. A difference is the input's.
    pub fn count_input(
        &mut self,
        judged: &JudgedInput,
        in_pieces: bool,
        differs: bool,
        reduce: impl FnOnce() -> (Vec<u8>, Vec<usize>, String),
    ) {
        let row = INPUTS + in_pieces as usize;
        self.cases[row] += 1;
        match judged {
            JudgedInput::Refused(number, _) => self.cases[INPUTS + 2 + place(&[1, 5, 6], number)] += 1,
            JudgedInput::Lines(said) => said.iter().for_each(|said| self.cases[SAID + said_row(said)] += 1),
        }
        if differs && self.differences[row] < REDUCED {
            let (input, pieces, said) = reduce();
            self.differ(row, Asked::Input(input, pieces, said));
        } else if differs {
            self.differences[row] += 1;
        }
    }

    /// Counts one expiry of X.
    pub fn count_expiry(&mut self, times: &clients::Times, rust: Option<bool>, port: u64) {
        let row = EXPIRY + rust.map_or(2, |expired| !expired as usize);
        self.cases[row] += 1;
        if clients::expiry_number(rust) != port {
            self.differ(row, Asked::Times(*times, port));
        }
    }

    #[cold]
    fn differ(&mut self, row: usize, asked: Asked) {
        self.differences[row] += 1;
        self.keep(row, asked);
    }

    fn keep(&mut self, row: usize, asked: Asked) {
        let kept = &mut self.smallest[row];
        if kept.as_ref().is_none_or(|k| asked.order() < k.order()) {
            *kept = Some(asked);
        }
    }

    pub fn add(&mut self, other: Tally) {
        for row in 0..ROWS.len() {
            self.cases[row] += other.cases[row];
            self.differences[row] += other.differences[row];
        }
        for (row, asked) in other.smallest.into_iter().enumerate() {
            asked.into_iter().for_each(|asked| self.keep(row, asked));
        }
    }

    /// What W has covered, if it was asked.
    pub fn covered(&self) -> Option<String> {
        let sum = |rows: Range<usize>| grouped(self.cases[rows].iter().sum());
        let met = |row: &usize| self.cases[*row] > 0;
        let errors = SAID + WORDS.len();
        let (words, errors) = (SAID..errors, errors..errors + ERRORS.len());
        met(&INPUTS).then(|| {
            format!(
                "W: {} inputs, {} with refused rules; {} lines; {} of {} words, {} of {} errors",
                sum(INPUTS..INPUTS + 2),
                sum(INPUTS + 2..SAID),
                sum(SAID..ROWS.len()),
                words.filter(met).count(),
                WORDS.len(),
                errors.filter(met).count(),
                ERRORS.len()
            )
        })
    }

    /// The row's cases and differences, by its kind and answer.
    pub fn row(&self, kind: &str, answer: &str) -> (u64, u64) {
        let row = place(&ROWS, &(kind, answer));
        (self.cases[row], self.differences[row])
    }

    /// All rows, each by its kind and answer.
    pub fn rows() -> impl Iterator<Item = (&'static str, &'static str)> {
        ROWS.into_iter()
    }

    pub fn total(&self) -> u64 {
        self.cases.iter().sum()
    }

    pub fn differences(&self) -> u64 {
        self.differences.iter().sum()
    }
}

/// The row of an answer, among those of questions.
fn answer_row(kind: QuestionKind, rust: Reply) -> usize {
    match (kind, rust) {
        (_, Reply::Connects { superuser, .. }) => superuser as usize,
        (QuestionKind::Connect, Reply::NotAuthorized { rule, .. }) => 2 + (rule == 0) as usize,
        (QuestionKind::Connect, Reply::Kept(_)) => 4,
        (_, Reply::Subscribes { .. }) => 5,
        (_, Reply::UnspecifiedError { rule }) => 6 + (rule == 0) as usize,
        (QuestionKind::Subscribe, Reply::Kept(_)) => 8,
        (_, Reply::Publishes { .. }) => 9,
        (_, Reply::NotAuthorized { rule: 0, .. }) => 12,
        (_, Reply::NotAuthorized { disconnect, .. }) => 10 + (disconnect == Some(true)) as usize,
        (_, Reply::Kept(_)) => 13,
        (_, Reply::Refused(number)) => 13 + number as usize,
    }
}

/// Who decides an answer of plain matching: the Rust, 4.7, or 4.7 alone.
fn decider<T: Copy + PartialEq>(judged: Both<T>) -> usize {
    match judged.dollar {
        false => 0,
        true => 1 + judged.is_apart() as usize,
    }
}

/// The row of an answer, among those of per-client questions: decisions by their decider, then the others.
fn client_row(asked: &clients::Asked, judged: Both<clients::Reply>) -> usize {
    use clients::Reply::{NoDecision, NotAuthorized, Publishes, Refused, Subscribes};
    let by = decider(judged);
    let (by, row) = match judged.answer() {
        Subscribes { rule: 0, .. } | Publishes { rule: 0 } => (3, 0),
        Subscribes { .. } => (by, 0),
        Publishes { .. } => (by, 3),
        NotAuthorized { disconnect: None, .. } => (by, 1),
        NotAuthorized { disconnect: Some(disconnect), .. } => (by, 4 + disconnect as usize),
        NoDecision => (by, 2 + 4 * asked.publish as usize),
        Refused { number, intended: false, .. } => (3, [1, 1, 1, 1, 1, 2, 3, 4][number as usize]),
        Refused { number, intended: true, .. } => (3, [5, 5, 5, 5, 5, 6, 6, 7][number as usize]),
    };
    DECISIONS * by + row
}

/// The row of an event that has changed a table, among those of events; the next is of one that hasn't.
fn done_row(event: &Event) -> usize {
    match event {
        Event::Connected { .. } => 0,
        Event::Disconnected { .. } => 2,
        Event::Ended { .. } => 4,
    }
}

fn place<T: PartialEq>(all: &[T], one: &T) -> usize {
    all.iter().position(|other| other == one).expect("a row of the table")
}

/// The row of what is said of a line of `decide`, among those.
fn said_row(said: &Said) -> usize {
    match said {
        Said::Word(word, _) => place(&WORDS, word),
        Said::Error(number) => WORDS.len() + place(&ERRORS, number),
        Said::Beyond(why) => WORDS.len() + ERRORS.len() + *why as usize,
    }
}

/// The table, then each smallest difference in full.
impl fmt::Display for Tally {
    fn fmt(&self, f: &mut fmt::Formatter<'_>) -> fmt::Result {
        let mut line = |kind: &str, answer: &str, cases: &str, differences: &str| {
            writeln!(f, "{kind:4}  {answer:32}  {cases:>14}  {differences:>11}")
        };
        line("kind", "answer", "cases", "differences")?;
        for (row, (kind, answer)) in ROWS.iter().enumerate() {
            line(kind, answer, &grouped(self.cases[row]), &grouped(self.differences[row]))?;
        }
        self.smallest.iter().flatten().try_for_each(|asked| asked.fmt(f))
    }
}

impl fmt::Display for Asked {
    fn fmt(&self, f: &mut fmt::Formatter<'_>) -> fmt::Result {
        let rust = match self {
            Asked::Match(case, port) => return fmt_match(f, case, *port),
            Asked::Document(line) => {
                writeln!(f, "\ndifference, J: line b\"{}\"", line.escape_ascii())?;
                writeln!(f, "  judged: {:?}", judge(line))?;
                judge(line).is_document()
            }
            Asked::Within(line, most) => {
                writeln!(f, "\ndifference, L: at most {most} bytes, line b\"{}\"", line.escape_ascii())?;
                writeln!(f, "  judged: {:?}", judge(line))?;
                judge(line).is_within(*most)
            }
            Asked::Rule(line, port) => {
                writeln!(f, "\ndifference, R: line b\"{}\"", line.escape_ascii())?;
                let verdict = rules::judge(line).verdict;
                return fmt_judged(f, verdict, verdict.number() as u32, *port as u32);
            }
            Asked::Identity(line, client, port) => {
                writeln!(f, "\ndifference, I: line b\"{}\"", line.escape_ascii())?;
                writeln!(f, "  {client:?}")?;
                let judged = rules::judge(line).identity(client);
                return fmt_judged(f, judged, judged.number() as u32, *port as u32);
            }
            Asked::Open(text, number, port) => {
                writeln!(f, "\ndifference, O: text b\"{}\"", text.escape_ascii())?;
                return writeln!(f, "  the judge answers {number}, the port {port}; or a byte of the store");
            }
            Asked::Question(list, asked, rust, port) => return fmt_question(f, list, asked, *rust, *port),
            Asked::History(history, said) => return fmt_history(f, history, said),
            Asked::Client(asked, port) => {
                writeln!(f, "\ndifference, C: rules b\"{}\"", asked.rules.escape_ascii())?;
                writeln!(f, "  {asked:?}")?;
                let judged = asked.judge();
                let number = judged.answer().number();
                return writeln!(f, "  judged: {judged:?}; the judge answers {number}, the port {port}");
            }
            Asked::Times(times, port) => {
                let number = clients::expiry_number(clients::expired(times));
                return writeln!(
                    f,
                    "\ndifference, X: {times:?}: the judge answers {number}, the port {port}"
                );
            }
            Asked::Input(input, pieces, said) => {
                writeln!(f, "\ndifference, W: input b\"{}\", pieces {pieces:?}", input.escape_ascii())?;
                return writeln!(f, "  {said}");
            }
        };
        writeln!(f, "  the judge answers {}, the port {}", word(rust), word(!rust))
    }
}

fn fmt_match(f: &mut fmt::Formatter<'_>, case: &Case, port: bool) -> fmt::Result {
    writeln!(f, "\ndifference, {:?}: filter {:?}", case.kind, case.filter)?;
    if case.kind != Kind::V {
        writeln!(f, "  text {:?}", case.text)?;
    }
    if case.kind == Kind::P {
        let tree = Case { kind: Kind::T, ..case.clone() }.rust().expect(ASKED);
        writeln!(f, "  judged: {:?}; the Rust's tree match: {}", case.plain().expect(ASKED), word(tree))?;
    }
    let judged = case.answer().expect(ASKED);
    writeln!(f, "  the judge answers {}, the port {}", word(judged), word(port))
}

fn fmt_judged(f: &mut fmt::Formatter<'_>, judged: impl fmt::Debug, number: u32, port: u32) -> fmt::Result {
    writeln!(f, "  judged: {judged:?}; the judge answers {number}, the port {port}")
}

fn fmt_question(
    f: &mut fmt::Formatter<'_>,
    list: &List,
    asked: &questions::Asked,
    rust: Reply,
    port: u32,
) -> fmt::Result {
    writeln!(f, "\ndifference, Q: disconnect {}, rules", list.disconnect)?;
    list.lines.iter().try_for_each(|line| writeln!(f, "  {}", line.escape_ascii()))?;
    writeln!(f, "  {asked:?}")?;
    fmt_judged(f, rust, rust.number(), port)
}

fn fmt_history(f: &mut fmt::Formatter<'_>, history: &History, said: &str) -> fmt::Result {
    let History { list, room, steps } = history;
    writeln!(f, "\ndifference, E: disconnect {}, {room:?}, rules", list.disconnect)?;
    list.lines.iter().try_for_each(|line| writeln!(f, "  {}", line.escape_ascii()))?;
    steps.iter().try_for_each(|step| writeln!(f, "  {step:?}"))?;
    writeln!(f, "{said}")
}

/// 1234567 as 1,234,567.
pub fn grouped(n: u64) -> String {
    let digits = n.to_string();
    let mut out = String::new();
    for (i, digit) in digits.chars().enumerate() {
        if i > 0 && (digits.len() - i).is_multiple_of(3) {
            out.push(',');
        }
        out.push(digit);
    }
    out
}
