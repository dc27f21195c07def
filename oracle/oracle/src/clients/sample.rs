//! The sample's per-client questions: `C`, answer, superuser, publish, QoS, retain, disconnect, client id,
//! name, topic, rule. A flag is `=` for true, `-` for false; the QoS is one byte behind `=`; before the name
//! stands `=`, or `-` where it is absent but lent all the same. The rule, at most one, is all behind the last
//! TAB. The answer is three characters: what is answered, the rule or the number, and the line, each added
//! to `0`.

use std::collections::{HashMap, HashSet};

use super::{generate, Asked, Reply};
use crate::generate::Random;
use crate::rules::Lent;

/// Questions of each answer to a subscribe and to a publish.
const EACH: usize = 8;
/// So many answers have some: a subscribe's QoS, refusals by a rule, a superuser, no decision, six numbers.
const ANSWERS: usize = 25;
/// A line is at most so long but for refusals by length.
const SHORT: usize = 400;
const SEED: u64 = 1;

/// Topics with a level that begins with `$`: a rule's topic and the one that is asked.
const STEPS: &[(&str, &str)] = &[
    ("bench/g7/#", "bench/g7/$step"),
    ("bench/${clientid}/#", "bench/g7/$step"),
    ("bench/+/#", "bench/g7/$step"),
    ("+/g7/+", "bench/g7/$step"),
    ("bench/+/$step/a", "bench/g7/$step/a"),
    ("bench/+/+/a", "bench/g7/$step/a"),
    ("$step/#", "$step/$g7"),
    ("eq $step", "$step"),
    ("bench/g7/+", "bench/g7/$step/a"),
    ("+/#", "$step/g7"),
    ("+", "$SYS/a/b"),
    ("#", "$step"),
    ("+/b", "$SYS/b"),
];

/// The client `g7` publishes and subscribes in turn, by one rule each, which allows or denies.
fn steps() -> impl Iterator<Item = Asked> {
    STEPS.iter().enumerate().map(|(n, (rule, topic))| {
        let permission = if n % 4 < 2 { "allow" } else { "deny" };
        let rule = format!(r#"{{"permission":"{permission}","action":"all","topic":"{rule}"}}"#);
        Asked {
            superuser: false,
            id: "g7".into(),
            name: Lent { given: false, value: "bo".into() },
            rules: rule.into(),
            publish: n % 2 == 0,
            qos: 0,
            retain: false,
            disconnect: true,
            topic: topic.to_string(),
        }
    })
}

#[derive(Default)]
struct Sample {
    lines: Vec<u8>,
    seen: HashSet<Vec<u8>>,
    counts: HashMap<(bool, u64), usize>,
}

impl Sample {
    /// Adds a question that isn't there yet, as long as its answer has fewer than `EACH`; most have a rule.
    fn add(&mut self, asked: Asked) {
        let Some(line) = recorded(&asked) else { return };
        let count = self.counts.entry((asked.publish, asked.judge().answer().number())).or_insert(0);
        let most = if asked.rules.is_empty() { EACH / 4 } else { EACH };
        if *count < most && self.seen.insert(line.clone()) {
            *count += 1;
            self.lines.extend(line);
        }
    }

    fn is_full(&self) -> bool {
        self.counts.len() >= ANSWERS && self.counts.values().all(|n| *n >= EACH)
    }
}

/// All of them: the same bytes each time.
pub fn sample() -> Vec<u8> {
    let mut sample = Sample::default();
    steps().for_each(|asked| sample.add(asked));
    let mut r = Random::new(SEED);
    while !sample.is_full() {
        generate::questions(&mut r).into_iter().for_each(|asked| sample.add(asked));
    }
    sample.lines
}

fn recorded(asked: &Asked) -> Option<Vec<u8>> {
    let flag = |flag: bool| if flag { b"=".to_vec() } else { b"-".to_vec() };
    let answer = asked.judge().answer();
    let number = answer.number();
    let packed = [number % 16, number / 16 % 256, number / 4_096].map(|n| b'0' + n as u8);
    let fields = [
        b"C".to_vec(),
        packed.to_vec(),
        flag(asked.superuser),
        flag(asked.publish),
        vec![b'=', u8::try_from(asked.qos).ok()?],
        flag(asked.retain),
        flag(asked.disconnect),
        asked.id.clone().into_bytes(),
        [flag(asked.name.given), asked.name.value.clone().into_bytes()].concat(),
        asked.topic.clone().into_bytes(),
    ];
    let tabs = fields.iter().any(|f| f.contains(&b'\t') || f.contains(&b'\n'));
    let long = asked.size() > SHORT && !matches!(answer, Reply::Refused { number: 1 | 7, .. });
    if tabs || long || asked.size() > 3_000 || asked.rules.contains(&b'\n') {
        return None;
    }
    Some([fields.join(&b'\t'), asked.rules.clone()].join(&b'\t').into_iter().chain([b'\n']).collect())
}
