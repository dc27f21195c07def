//! The table: its kinds, the rows of each, and how a row is printed.

use oracle::decide::Kind;

use crate::calls::Calls;
use crate::events::Events;
use crate::lists::Floor;
use crate::measure::{collected, make_counted, time, Row};
use crate::questions::Questions;

pub const KINDS: [&str; 25] = [
    "V", "T", "P", "P-parsed", "J", "R", "R-parsed", "C-10", "C-parsed", "floor", "Q-2", "N-10", "S-10",
    "Q-10", "N-256u", "S-256", "Q-256", "Q-256u", "Q-64r", "Q-256r", "Q-4096r", "Q-4096w", "E-2", "E-32",
    "E-63",
];

/// The stores that have a floor of their own.
const STORES: [&str; 6] = ["10", "64r", "256", "256u", "256r", "4096r"];

/// What the original does in each kind, for the reader of the table.
const LEGEND: &str = "\
V         valid filter: Topic::from_str
T         tree match: Topic::from_str of the text, then a tree with one filter, built beforehand
P         plain match: Topic::from_str of the filter, then matches_str
P-parsed  plain match: matches_str of a filter that was parsed beforehand
J         a line of JSON: serde_json::from_slice::<Value>
R         a rule line and its users: serde_json::from_slice, Rule::try_from, then Rule::hit
R-parsed  a rule line and its users: Rule::try_from of a value that was parsed beforehand, then Rule::hit
C-10      may a client publish, the last of its own 10 rules or none decides: serde_json::from_slice and
          Rule::try_from of each line (acl.rs), then AuthInfo::publish_acl
C-parsed  the same with values that were parsed beforehand

The rest are calls on a store, and AclHandler::hook, with rules that were read beforehand. The port has to
read all of the lent store in each call. Its floor is one plain scan of the store's bytes and one reading of
each rule; `of floor` is the port's call as a multiple of it, timed in the same rounds. The goal is at most 2
for the questions on the stores 10, 256 and 256u.

floor     the two parts of the floor, by store; the Rust has no such thing
Q, N, S   may a client publish, connect, subscribe? The first rule of the store decides, the last, or none:
  -2      two rules on the store of decide (R 2,048, F 64, E 32, N 64), filters of three sizes; last or none
  -10     ten rules on the store of decide
  -256    256 rules of 8 filters, R 32,768; the rules differ by their topics
  -256u   the same, where they differ by their users
  -64r    ten rules on the store of decide, all rows used (64 filter rows, 32 eq rows, 64 notes), all of the
          last rule: the first client's row decides, the last client's, or none
  -256r   the same with 256 rules of 8 filters, R 32,768
  -4096r  ten rules, 4,096 rows in each table, all used, whose texts are equal in their first 6 or 7 bytes
  -4096w  the same with texts that are equal in their first 250 bytes
E-2       events of one more client on the store of decide, ten rules, with the rows of two clients: a filter
          row and a note each, and eq rows of up to 32 names; the task that the hook spawns is awaited:
  present connected, of a client whose rows are there; each time the hook gets a session without notes, since
          it notes a text again though it is there
  gone    disconnected, of a client whose note is there and whose row isn't
  ended   end of a session without notes; no hook has it, the broker drops what it keeps with a session
  cycle   connected, disconnected, ended: they leave all as it was. Three calls, three times the floor
E-32      the same, with 32 clients: half of the rows
E-63      the same, with 63 clients: the one more takes the last rows";

const HEAD: &str =
    "                         ns a call                        instructions a call              of floor
kind      size     answer       port      Rust     ratio         port      Rust     ratio       ns  instr.";

/// The rows of a kind: the size of the inputs, which rule decides, or the event; and the answer.
fn rows(kind: &str) -> Vec<(&'static str, &'static str)> {
    match kind.split_once('-') {
        Some((_, "4096w")) => vec![("last", "yes")],
        Some(("E", _)) => ["present", "gone", "ended", "cycle"].map(|event| (event, "done")).into(),
        Some(("Q" | "N" | "S", list)) if list != "2" => {
            vec![("first", "yes"), ("last", "yes"), ("none", "no")]
        }
        _ if kind == "floor" => {
            STORES.into_iter().flat_map(|store| [(store, "scan"), (store, "read")]).collect()
        }
        _ => {
            ["short", "typical", "long"].into_iter().flat_map(|size| [(size, "yes"), (size, "no")]).collect()
        }
    }
}

pub fn row(kind: &str, size: &str, answer: &str) -> Box<dyn Row> {
    let yes = answer == "yes";
    match kind.split_once('-') {
        Some(("Q", "2")) => Box::new(Questions::by_size(size, yes)),
        Some(("Q", list @ ("64r" | "256r"))) => Box::new(Questions::by_row(list, 64, size)),
        Some(("Q", list @ ("4096r" | "4096w"))) => Box::new(Questions::by_row(list, 4_096, size)),
        Some(("Q", list)) => Box::new(Questions::by_rule(Kind::Publish, list, size)),
        Some(("N", list)) => Box::new(Questions::by_rule(Kind::Connect, list, size)),
        Some(("S", list)) => Box::new(Questions::by_rule(Kind::Subscribe, list, size)),
        Some(("E", clients)) => Box::new(Events::new(clients.parse().expect("a number"), size)),
        _ if kind == "floor" => Box::new(Floor::new(size, answer)),
        _ => Box::new(Calls::new(kind, size, yes)),
    }
}

/// For callgrind: the counted calls of all rows of a kind.
pub fn count(kind: &str) {
    for (size, answer) in rows(kind) {
        make_counted(&mut *row(kind, size, answer));
    }
}

/// Instructions of a call of each side, without the loop, from what callgrind
/// has counted.
fn instructions(row: &dyn Row, counted: &mut impl Iterator<Item = f64>) -> Vec<f64> {
    let mut next = || counted.next().expect("as many as are counted");
    let none = next();
    row.sides().iter().map(|_| (next() - none) / row.counted() as f64).collect()
}

fn print_row(kind: &str, size: &str, answer: &str, counted: &mut impl Iterator<Item = f64>) {
    let mut row = row(kind, size, answer);
    row.check(answer != "no");
    let (ns, instructions) = (time(&mut *row), instructions(&*row, counted));
    let of = |values: &[f64], side| row.sides().iter().position(|s| *s == side).map(|i| values[i]);
    let ratio = |values: &[f64], side| Some(of(values, "port")? / of(values, side)?);
    let mut line = format!("{kind:8}  {size:7}  {answer:4}");
    for (values, decimals) in [(&ns, 1), (&instructions, 0)] {
        line += &cell(of(values, "port"), 13, decimals);
        line += &cell(of(values, "rust"), 10, decimals);
        line += &cell(ratio(values, "rust"), 10, 2);
    }
    line += &(cell(ratio(&ns, "floor"), 9, 2) + &cell(ratio(&instructions, "floor"), 8, 2));
    println!("{}", line.trim_end());
}

/// A number, from 10,000 on a whole one, or as much of nothing.
fn cell(value: Option<f64>, width: usize, decimals: usize) -> String {
    let Some(value) = value else { return " ".repeat(width) };
    let decimals = if value < 10_000.0 { decimals } else { 0 };
    format!("{value:width$.decimals$}")
}

pub fn print(kinds: &[&str]) -> Result<(), String> {
    if let Some(kind) = kinds.iter().find(|kind| !KINDS.contains(kind)) {
        return Err(format!("no kind {kind}; there are {}", KINDS.join(" ")));
    }
    println!("{LEGEND}\n");
    println!("{HEAD}");
    for kind in kinds {
        let mut counted = collected(&["--counts", kind])?.into_iter();
        for (size, answer) in rows(kind) {
            print_row(kind, size, answer, &mut counted);
        }
    }
    Ok(())
}
