//! docs/COMPARISON.md, whole: the text of page.md, what was compared, and the table. Each count is
//! of the run that writes it.

use std::path::Path;
use std::process::Command;
use std::time::Instant;

use crate::tally::{grouped, Tally};
use crate::{Options, LENGTH, LONGER};

const TEXT: &str = include_str!("../page.md");
const ROOT: &str = concat!(env!("CARGO_MANIFEST_DIR"), "/../..");

/// The table's lines: the kind, what is judged, and the rows of the tally.
#[rustfmt::skip]
const LINES: &[(&str, &str, &[&str])] = &[
    ("V", "yes; no", &["yes", "no"]),
    ("T", "yes; no", &["yes", "no"]),
    ("P", "yes; no", &["yes", "no"]),
    ("P by 4.7: a level of the text begins with `$`", "yes; no", &["by 4.7: yes", "by 4.7: no"]),
    ("P by 4.7, meant: the Rust's is the other answer", "no; yes", &["by 4.7 alone: yes", "by 4.7 alone: no"]),
    ("J, is it a document", "yes; no", &["yes", "no"]),
    ("J, meant: numbers that document 01 leaves out; over 8 brackets", "yes",
        &["intended: numbers", "intended: depth"]),
    ("J, meant: an LF inside the line", "yes", &["intended: LF"]),
    ("L, and no decoded string over a length", "yes; no", &["yes", "no"]),
    ("R", "a rule", &["yes"]),
    ("R", "no rule; by number 1, 5, 6", &["no: 1, too long", "no: 5, not JSON", "no: 6, no rule"]),
    ("R, meant: numbers, depth and lengths that document 01 refuses", "a rule",
        &["intended: numbers", "intended: depth", "intended: lengths"]),
    ("R, meant: an LF inside the line", "a rule", &["intended: LF"]),
    ("I", "differs", &["differs"]),
    ("I", "agrees; with the flag", &["agrees", "superuser"]),
    ("I", "no rule", &["no rule"]),
    ("I, meant: a line that document 01 refuses", "a rule", &["intended: line"]),
    ("I, an address that no address prints as, by the stand-in", "agrees", &["intended: address"]),
    ("O", "every line a rule; the store's bytes", &["opened"]),
    ("O", "refused, by number and line; the store as it was", &["a line refused"]),
    ("Q, connect", "allow; with the superuser flag", &["connect: allow", "connect: superuser"]),
    ("Q, connect", "not authorized by a rule; no rule agrees; kept",
        &["connect: refused", "connect: no rule", "connect: kept"]),
    ("Q, subscribe", "allow, with the QoS", &["subscribe: allow"]),
    ("Q, subscribe", "unspecified error by a rule; no rule agrees; kept",
        &["subscribe: refused", "subscribe: no rule", "subscribe: kept"]),
    ("Q, publish", "allow", &["publish: allow"]),
    ("Q, publish", "not authorized by a rule; with the disconnect flag",
        &["publish: refused", "publish: dropped"]),
    ("Q, publish", "no rule agrees, either flag; kept", &["publish: no rule", "publish: kept"]),
    ("Q, meant: over a length; a code or QoS out of range", "it has no such refusal",
        &["intended: 1, too long", "intended: 2, range"]),
    ("E, connected", "rows or notes added; none", &["connected: rows added", "connected: none added"]),
    ("E, disconnected", "rows go; none", &["disconnected: rows go", "disconnected: none go"]),
    ("E, ended", "notes go; none", &["ended: notes go", "ended: none go"]),
    ("E, meant: refused by 1; 2; 7", "it has no such refusal",
        &["intended: event, 1", "intended: event, 2", "intended: event, 7"]),
    ("E, meant: refused by 8; 9; 10", "it has no such refusal",
        &["intended: event, 8", "intended: event, 9", "intended: event, 10"]),
    ("E, connect in between", "allow; with the superuser flag", &["connect: allow", "connect: superuser"]),
    ("E, connect", "not authorized by a rule; no rule agrees; kept",
        &["connect: refused", "connect: no rule", "connect: kept"]),
    ("E, subscribe", "allow, with the QoS", &["subscribe: allow"]),
    ("E, subscribe", "unspecified error by a rule; no rule agrees; kept",
        &["subscribe: refused", "subscribe: no rule", "subscribe: kept"]),
    ("E, publish", "allow", &["publish: allow"]),
    ("E, publish", "not authorized by a rule; with the disconnect flag",
        &["publish: refused", "publish: dropped"]),
    ("E, publish", "no rule agrees, either flag; kept", &["publish: no rule", "publish: kept"]),
    ("E, meant: a question over a length; out of range", "it has no such refusal",
        &["intended: 1, too long", "intended: 2, range"]),
    ("C, subscribe", "allow, with the QoS; not authorized; no decision",
        &["subscribe: allow", "subscribe: refused", "subscribe: no rule"]),
    ("C, publish", "allow; not authorized; with the disconnect flag; no decision",
        &["publish: allow", "publish: refused", "publish: dropped", "publish: no rule"]),
    ("C by 4.7: a level of the topic begins with `$`; subscribe", "allow, with the QoS; not authorized; no decision",
        &["by 4.7, subscribe: allow", "by 4.7, subscribe: refused", "by 4.7, subscribe: no rule"]),
    ("C by 4.7, publish", "allow; not authorized; with the disconnect flag; no decision",
        &["by 4.7, publish: allow", "by 4.7, publish: refused", "by 4.7, publish: dropped", "by 4.7, publish: no rule"]),
    ("C by 4.7, meant: subscribe is allowed; not authorized; no decision", "another answer or rule",
        &["by 4.7 alone, subscribe: allow", "by 4.7 alone, subscribe: refused", "by 4.7 alone, subscribe: no rule"]),
    ("C by 4.7, meant: publish is allowed; not authorized; with the disconnect flag; no decision", "another answer or rule",
        &["by 4.7 alone, publish: allow", "by 4.7 alone, publish: refused", "by 4.7 alone, publish: dropped",
            "by 4.7 alone, publish: no rule"]),
    ("C, either", "a superuser is allowed", &["superuser"]),
    ("C", "a line doesn't convert; by number 1, 5, 6, 7",
        &["no: 1, too long", "no: 5, not JSON", "no: 6, no rule", "no: 7, filled"]),
    ("C, meant: over a length or lines, QoS 3 (1, 2); a number or depth (5); filled over 256 (7)",
        "the line converts, where it is asked", &["intended: 1, 2", "intended: 5", "intended: 7"]),
    ("X", "expired; valid", &["expired", "valid"]),
    ("X, meant: nanoseconds over 999,999,999 (2)", "can't be asked", &["intended: 2"]),
    ("W, input", "as the pipe takes it; in pieces", &["input, as it comes", "input, in pieces"]),
    ("W, rules refused", "by 1; 5; 6", &["rules: error 1", "rules: error 5", "rules: error 6"]),
    ("W, line", "`done`; `kept`", &["line: done", "line: kept"]),
    ("W, line", "`allow`; `super`", &["line: allow", "line: super"]),
    ("W, line", "`refuse`; `drop`", &["line: refuse", "line: drop"]),
    ("W, line", "error 1; 2; 5", &["line: error 1", "line: error 2", "line: error 5"]),
    ("W, line", "error 7; 8; 9; 10", &["line: error 7", "line: error 8", "line: error 9", "line: error 10"]),
    ("W, line, meant: error 5", "over 2,048 bytes; numbers and depth that document 01 leaves out",
        &["intended: 5, length", "intended: 5, numbers", "intended: 5, depth"]),
];

fn rows() -> impl Iterator<Item = (&'static str, &'static str)> {
    LINES.iter().flat_map(|(kind, _, answers)| answers.iter().map(|answer| (&kind[..1], *answer)))
}

/// What oracle/facts says now.
fn facts() -> Result<String, String> {
    let said = Command::new(format!("{ROOT}/oracle/facts")).output().map_err(|e| format!("facts: {e}"))?;
    match said.status.success() {
        true => Ok(String::from_utf8_lossy(&said.stdout).trim_end().to_string()),
        false => Err(String::from_utf8_lossy(&said.stderr).into_owned()),
    }
}

/// A page that is to be written: what `run` saw before it built anything.
pub struct Page {
    compared: String,
    begin: Instant,
}

impl Page {
    /// Refused, before anything is compared, where the page wouldn't be of all kinds, of this tree's
    /// library and program, or wouldn't have each row of the tally once, in its order.
    pub fn new(options: &Options) -> Result<Page, String> {
        if options.only.is_some() || options.length != LENGTH {
            return Err("--write goes with neither --only nor --length".into());
        }
        if ["MQTT_ACL_LIB", "DECIDE"].iter().any(|name| std::env::var_os(name).is_some()) {
            return Err("--write goes with no other library or program".into());
        }
        assert!(rows().eq(Tally::rows()), "the page has not each row once");
        let compared = std::env::var("COMPARED").map_err(|_| "--write is for oracle/run")?;
        let page = Page { compared, begin: Instant::now() };
        page.unchanged()?;
        Ok(page)
    }

    fn unchanged(&self) -> Result<(), String> {
        match facts()? == self.compared {
            true => Ok(()),
            false => Err("the code, oracle/ or the kit has changed since the run began: no page".into()),
        }
    }

    /// Writes it.
    pub fn write(&self, options: &Options, tally: &Tally) -> Result<(), String> {
        self.unchanged()?;
        let page = self.text(options, tally)?;
        let path = Path::new(ROOT).join("docs/COMPARISON.md");
        std::fs::write(path, page).map_err(|e| format!("docs/COMPARISON.md: {e}"))
    }

    fn text(&self, options: &Options, tally: &Tally) -> Result<String, String> {
        let standing =
            TEXT.replace("{texts}", &(LENGTH + LONGER).to_string()).replace("{pairs}", &LENGTH.to_string());
        let [crates, oracle, state, kit] = self.compared.lines().collect::<Vec<_>>()[..] else {
            return Err(format!("facts: {}", self.compared));
        };
        let hash = |line: &str| format!("`{}`", line.split(' ').next_back().unwrap_or_default());
        let state = match state {
            "committed" => "as committed",
            _ => "had changes that weren't committed; the trees are of them as they were",
        };
        let Options { seconds, seed, .. } = options;
        let facts = [
            ("code of the library and `decide`, crates/replays/data, git tree", hash(crates)),
            ("oracle/, git tree", hash(oracle)),
            ("these files", state.into()),
            ("kit", kit.trim_start_matches("kit ").into()),
            ("date", today()?),
            ("seed", seed.to_string()),
            ("seconds of random inputs", grouped(*seconds)),
            ("seconds in all", grouped(self.begin.elapsed().as_secs())),
            ("cases in all", grouped(tally.total())),
            ("differences, but for those meant", grouped(tally.differences())),
        ];
        let facts: String = facts.iter().map(|(name, value)| format!("| {name} | {value} |\n")).collect();
        let table: String = LINES.iter().map(|line| table_line(line, tally)).collect();
        Ok(format!(
            "{standing}\n## The run\n\n`oracle/run {seconds} --seed {seed} --write`. While `oracle/facts` prints the two trees, the \
             page is of what is here.\n\n| | |\n|---|---|\n{facts}\n\
             | kind | judged | cases | differences |\n|---|---|---|---|\n{table}"
        ))
    }
}

fn table_line((what, answer, rows): &(&str, &str, &[&str]), tally: &Tally) -> String {
    let counts: Vec<(u64, u64)> = rows.iter().map(|row| tally.row(&what[..1], row)).collect();
    let cases: Vec<String> = counts.iter().map(|(cases, _)| grouped(*cases)).collect();
    let differences: u64 = counts.iter().map(|(_, differences)| differences).sum();
    let differences = match (what.contains("meant"), differences) {
        (true, 0) if counts.iter().all(|(cases, _)| *cases == 0) => "none came".into(),
        (true, 0) => "all, as meant".into(),
        (true, n) => format!("{} not as meant", grouped(n)),
        (false, n) => grouped(n),
    };
    format!("| {what} | {answer} | {} | {differences} |\n", cases.join("; "))
}

fn today() -> Result<String, String> {
    let said = Command::new("date").args(["-u", "+%F"]).output().map_err(|e| format!("date: {e}"))?;
    Ok(String::from_utf8_lossy(&said.stdout).trim_end().to_string())
}

#[cfg(test)]
mod tests {
    use super::*;

    /// Each row of the tally once, in its order; so no count is left out or told twice.
    #[test]
    fn each_row_once() {
        assert!(rows().eq(Tally::rows()));
    }

    /// Files that aren't committed are told; so are differences.
    #[test]
    fn told() {
        let options = Options { seconds: 2_000, seed: 5, length: LENGTH, only: None, write: true };
        let page = |state: &str| {
            let compared = format!("crates c0\noracle 04\n{state}\nkit k 1");
            Page { compared, begin: Instant::now() }.text(&options, &Tally::default()).unwrap()
        };
        assert!(page("committed").contains("| these files | as committed |\n| kit | k 1 |"));
        assert!(page("changed").contains(
            "crates/replays/data, git tree | `c0` |\n| oracle/, git tree | `04` |\n| these files | had changes"
        ));
        let mut tally = Tally::default();
        tally.count(oracle::cases::Kind::V, "a", "", true, false);
        tally.count_document(b"0\n", oracle::json::Judged::LineFeed, true);
        let both = |rust, section47, dollar| oracle::matching::Both { rust, section47, dollar };
        // The matcher of section 4.7 parts from the Rust where it mustn't, and where it may.
        tally.count_plain("a", "a", both(true, false, false), Some(true), true);
        tally.count_plain("/#", "/$", both(false, true, true), Some(true), true);
        let line = |n: usize| table_line(&LINES[n], &tally);
        assert_eq!(line(0), "| V | yes; no | 1; 0 | 1 |\n");
        assert_eq!(line(2), "| P | yes; no | 1; 0 | 1 |\n");
        let meant = "| P by 4.7, meant: the Rust's is the other answer | no; yes | 1; 0 | all, as meant |\n";
        assert_eq!(line(4), meant);
        assert_eq!(line(7), "| J, meant: an LF inside the line | yes | 1 | 1 not as meant |\n");
        assert_eq!(line(12), "| R, meant: an LF inside the line | a rule | 0 | none came |\n");
    }

    /// The standing text has no count of a run.
    #[test]
    fn no_counts_in_the_text() {
        let digits = |word: &str| word.bytes().filter(u8::is_ascii_digit).count();
        assert!(TEXT.split_whitespace().all(|word| digits(word) < 4) && !TEXT.contains("million"));
    }
}
