//! oracle-case-probe
//!
//! Is the original's `to_lowercase` the same as ignoring ASCII case, for the
//! words of a rule? Every word, every place, every Unicode scalar there instead
//! of a letter or between two, through `Rule::try_from`.

use rmqtt_acl::exposed::Rule;
use serde_json::{json, Value};

/// The element of the rule, and its words.
const WORDS: &[(usize, &[&str])] =
    &[(0, &["allow", "deny"]), (1, &["all"]), (2, &["all", "connect", "publish", "subscribe", "pubsub"])];

fn scalars() -> impl Iterator<Item = char> {
    '\0'..=char::MAX
}

/// The number of texts with this beginning and end that are tried, and that differ.
fn probe(element: usize, words: &[&str], begin: &str, end: &str) -> (u64, u64) {
    let mut rule = json!(["allow", "all", "all"]);
    let (mut tried, mut differ) = (0, 0);
    for c in scalars() {
        let text = format!("{begin}{c}{end}");
        let ascii = words.iter().any(|w| w.eq_ignore_ascii_case(&text));
        rule[element] = Value::String(text);
        tried += 1;
        if Rule::try_from(&rule).is_ok() != ascii {
            differ += 1;
            println!("differs: {rule}");
        }
    }
    (tried, differ)
}

fn main() {
    let lowered = scalars().filter(|c| !c.is_ascii() && c.to_lowercase().all(|l| l.is_ascii()));
    println!("not ASCII, but ASCII in lower case: {:?}", lowered.collect::<Vec<_>>());
    let (mut tried, mut differ) = (0, 0);
    for (element, words) in WORDS {
        for word in *words {
            for at in 0..=word.len() {
                let between = probe(*element, words, &word[..at], &word[at..]);
                let instead = match word.get(at + 1..) {
                    Some(end) => probe(*element, words, &word[..at], end),
                    None => (0, 0),
                };
                tried += between.0 + instead.0;
                differ += between.1 + instead.1;
            }
        }
    }
    println!("{tried} texts, {differ} differences");
}
