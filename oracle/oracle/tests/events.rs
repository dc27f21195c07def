//! The judge of events, by examples.

use oracle::events::{Event, Judge, Room};
use oracle::questions::{List, Runtime};
use oracle::rules::Lent;
use oracle::runtime;

struct Play {
    judge: Judge,
    runtime: Runtime,
}

impl Play {
    fn new(rules: &[&str]) -> Play {
        let lines = rules.iter().map(|rule| rule.as_bytes().to_vec()).collect();
        let runtime = runtime();
        Play { judge: Judge::new(&List { lines, ends: true, disconnect: true }, &runtime), runtime }
    }

    fn run(&mut self, event: Event) -> bool {
        self.judge.run(&event, &self.runtime)
    }

    fn refusal(&self, event: Event, [filters, eqs, notes]: [u64; 3]) -> u32 {
        self.judge.refusal(&event, Room { bytes: 256, filters, eqs, notes }, &self.runtime)
    }

    fn rows(&self) -> String {
        self.judge.now().to_string()
    }
}

fn connected(session: u64, id: &str, name: &str) -> Event {
    Event::Connected { session, id: id.into(), name: Lent { given: name != "-", value: name.into() } }
}

fn disconnected(session: u64, id: &str) -> Event {
    Event::Disconnected { session, id: id.into() }
}

#[test]
fn a_row_goes_by_a_note_that_it_matches() {
    let mut play = Play::new(&[r#"["allow","all","publish",["%u"]]"#]);
    assert!(play.run(connected(1, "g", "a")) && play.run(connected(2, "g", "+")));
    assert_eq!(play.rows(), "0 + g, 0 a g |  | 1 a, 2 +");
    assert!(play.run(disconnected(2, "g")));
    assert_eq!(play.rows(), "0 a g |  | 1 a, 2 +");
    assert!(play.run(connected(2, "g", "+")) && play.run(disconnected(1, "g")));
    assert_eq!(play.rows(), " |  | 1 a, 2 +");
    assert!(!play.run(disconnected(1, "h")) && play.run(Event::Ended { session: 1 }));
    assert_eq!(play.rows(), " |  | 2 +");
}

#[test]
fn every_rule_is_filled_and_notes_have_no_repeats() {
    let rules = [
        r#"["deny",{"user":"x"},"connect",["%c","a+%u"]]"#,
        r#"["allow","all","all",[{"eq":"a"},{"eq":"%u"},"%c"]]"#,
    ];
    let mut play = Play::new(&rules);
    assert!(play.run(connected(0, "%u", "a")));
    assert_eq!(play.rows(), "0 a %u, 1 a %u | 1 a | 0 a, 0 a+a");
    assert!(!play.run(connected(0, "%u", "a")));
    assert!(play.run(connected(0, "b", "-")));
    assert_eq!(play.rows(), "0 a %u, 0 b b, 1 a %u, 1 b b | 1 , 1 a | 0 a, 0 a+a, 0 b, 0 a+");
}

#[test]
fn refusals_are_counted() {
    let rules = [r#"["allow","all","all",["%c","%u",{"eq":"%c"},{"eq":"%u"},"+%u"]]"#];
    let mut play = Play::new(&rules);
    let event = || connected(1, "a", "b");
    let long = "i".repeat(65);
    assert_eq!(play.refusal(connected(256, &long, "b"), [9; 3]), 1);
    assert_eq!(play.refusal(connected(1, "a", &long), [9; 3]), 1);
    assert_eq!(play.refusal(connected(256, "a", "b"), [9; 3]), 2);
    assert_eq!(play.refusal(Event::Ended { session: 65_537 }, [9; 3]), 2);
    assert_eq!(
        [[1, 1, 1], [2, 1, 1], [2, 2, 2], [2, 2, 3]].map(|room| play.refusal(event(), room)),
        [8, 9, 10, 0]
    );
    assert!(play.run(event()));
    assert_eq!(play.refusal(event(), [2, 2, 3]), 0);
    assert_eq!(play.refusal(connected(2, "a", "b"), [2, 2, 5]), 10);
    assert_eq!(play.refusal(disconnected(1, "a"), [2, 2, 3]), 0);
}

#[test]
fn a_text_is_refused_by_its_filled_length() {
    let template = |n: usize| format!(r#"["deny","all","all",[{{"eq":"{}%u"}}]]"#, "p".repeat(n));
    let refusal = |n, name| Play::new(&[&template(n)]).refusal(connected(0, "", name), [9; 3]);
    assert_eq!((refusal(254, "ab"), refusal(254, "abc"), refusal(253, "-")), (0, 7, 0));
}
