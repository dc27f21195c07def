//! The sample: answers of the Rust, document 01's where it is narrower or gives a number, and section 4.7's in
//! per-client matching where a level begins with `$`; a line each, for a program to replay.

use std::collections::{HashMap, HashSet};

use crate::cases::{examples, word, Case, Kind, KINDS};
use crate::clients;
use crate::generate::{self, is_readable, pad, Random, LIMIT};
use crate::json;
use crate::matching;
use crate::questions;
use crate::rules;

/// Lines of each kind and answer.
const EACH: usize = 670;
const SEED: u64 = 1;

#[derive(Default)]
struct Sample {
    lines: String,
    seen: HashSet<Case>,
    counts: HashMap<(Kind, bool), usize>,
}

impl Sample {
    /// Adds a case that isn't there yet and that a person can read.
    fn add(&mut self, case: Case) {
        let Some(answer) = case.answer() else { return };
        if is_readable(&case.filter) && is_readable(&case.text) && self.seen.insert(case.clone()) {
            self.lines += &format!("{case}\t{}\n", word(answer));
            *self.counts.entry((case.kind, answer)).or_default() += 1;
        }
    }

    /// The same, as long as its kind and answer have fewer than `EACH` lines.
    fn fill(&mut self, case: Case) {
        if case.answer().is_some_and(|answer| self.count(case.kind, answer) < EACH) {
            self.add(case);
        }
    }

    fn count(&self, kind: Kind, answer: bool) -> usize {
        self.counts.get(&(kind, answer)).copied().unwrap_or(0)
    }

    fn is_full(&self) -> bool {
        KINDS.iter().all(|k| [true, false].iter().all(|a| self.count(*k, *a) >= EACH))
    }
}

/// The whole sample: the same bytes each time. Filters and matching come first, then rules
/// and their clients, per-client questions, questions last.
pub fn sample() -> Vec<u8> {
    let matches = matches().into_bytes();
    let rules = [json::sample::sample(), rules::sample::sample()].concat();
    [matches, rules, clients::sample::sample(), questions::sample::sample()].concat()
}

fn matches() -> String {
    let mut sample = Sample::default();
    examples().into_iter().for_each(|example| sample.add(example.case));
    short(&mut sample);
    long(&mut sample);
    let mut r = Random::new(SEED);
    while !sample.is_full() {
        let filter = generate::filter(&mut r);
        let text = generate::text(&mut r, &filter);
        sample.fill(Case::new(Kind::V, &filter, ""));
        sample.fill(Case::new(Kind::V, &text, ""));
        sample.fill(Case::new(Kind::T, &filter, &text));
        sample.fill(Case::new(Kind::P, &filter, &text));
    }
    sample.lines
}

/// All texts up to three bytes, all pairs up to two.
fn short(sample: &mut Sample) {
    for text in generate::all_texts(3) {
        sample.add(Case::new(Kind::V, &text, ""));
    }
    let texts = generate::all_texts(2);
    for filter in texts.iter().filter(|f| matching::filter(f).is_some()) {
        for text in &texts {
            sample.add(Case::new(Kind::T, filter, text));
            sample.add(Case::new(Kind::P, filter, text));
        }
    }
}

/// Around the limit, one byte apart; `é` and `€` take two bytes and three.
fn long(sample: &mut Sample) {
    for size in [LIMIT - 1, LIMIT, LIMIT + 1] {
        let texts = [
            "x".repeat(size),
            "/".repeat(size),
            pad("b/$c", size),
            pad(&"é/€/".repeat(30), size),
            pad("b/a#", size),
        ];
        for text in &texts {
            assert_eq!(text.len(), size);
            sample.add(Case::new(Kind::V, text, ""));
            let first = text.split('/').next().expect("a level");
            let below = format!("{first}/#");
            let filters = [text, "#", "+", &below, &pad("+/$c", size), &pad("b/$d", size)];
            for filter in filters.into_iter().filter(|f| f.len() <= LIMIT + 1) {
                sample.add(Case::new(Kind::T, filter, text));
                sample.add(Case::new(Kind::P, filter, text));
            }
        }
    }
}
