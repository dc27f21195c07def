//! The sample's lines of JSON: `J` or `L`, the answer, and the line, which is all
//! behind the second TAB and may hold any byte but LF.

use std::collections::HashSet;

use super::lines::{BEHIND, BYTES, CHARACTERS, DOCUMENTS, OTHERS, RICH};
use super::short::{shortened, with_byte};
use super::{generate, judge, DEPTH};
use crate::cases::word;
use crate::generate::{Random, LIMIT};

/// So many damages of one line, and so many random lines.
const DAMAGED: usize = 100;
const RANDOM: usize = 20;
/// A random line is at most so long.
const SHORT: usize = 200;
const SEED: u64 = 1;

#[derive(Default)]
struct Sample {
    lines: Vec<u8>,
    seen: HashSet<Vec<u8>>,
}

impl Sample {
    fn add(&mut self, kind: &str, line: &[u8], answer: bool) {
        assert!(!line.contains(&b'\n') && line.len() <= 4_000);
        let line = [kind.as_bytes(), b"\t", word(answer).as_bytes(), b"\t", line, b"\n"].concat();
        if self.seen.insert(line.clone()) {
            self.lines.extend(line);
        }
    }

    /// Is it a document?
    fn document(&mut self, line: impl AsRef<[u8]>) {
        let line = line.as_ref();
        self.add("J", line, judge(line).is_document());
    }

    /// Is it one without a decoded string over the limit?
    fn within(&mut self, line: impl AsRef<[u8]>) {
        let line = line.as_ref();
        self.add("L", line, judge(line).is_within(LIMIT));
    }
}

/// All of them: the same bytes each time.
pub fn sample() -> Vec<u8> {
    let mut sample = Sample::default();
    DOCUMENTS.iter().chain(RICH).chain(OTHERS).for_each(|line| sample.document(line));
    BYTES.iter().for_each(|line| sample.document(line));
    escapes(&mut sample);
    depths(&mut sample);
    damages(&mut sample);
    lengths(&mut sample);
    random(&mut sample);
    sample.lines
}

/// Each control character raw, each byte after a backslash that means something,
/// and each form of a surrogate that has no other.
fn escapes(sample: &mut Sample) {
    for byte in (0..32).filter(|b| *b != b'\n') {
        sample.document([b'"', b'a', byte, b'"']);
    }
    for byte in *b"\"/\\abcefnrtuvx0N\t" {
        sample.document([b'"', b'\\', byte, b'"']);
    }
    for unit in ["d800", "DBFF", "dc00", "DFFF"] {
        for rest in BEHIND {
            sample.document(format!("\"\\u{unit}{rest}\""));
        }
    }
}

/// Brackets around the limit: arrays, objects, both, and beside others.
fn depths(sample: &mut Sample) {
    for depth in [DEPTH - 1, DEPTH, DEPTH + 1] {
        let arrays = |inner: &str, n: usize| format!("{}{inner}{}", "[".repeat(n), "]".repeat(n));
        let objects = |inner: &str, n: usize| format!("{}{inner}{}", "{\"a\":".repeat(n), "}".repeat(n));
        sample.document(arrays("", depth));
        sample.document(arrays("0", depth));
        sample.document(objects("null", depth));
        sample.document(objects("{}", depth - 1));
        sample.document(arrays(&objects("\"[{[{[{[{[{\"", depth - 4), 4));
        sample.document(format!("[\"allow\",\"all\",\"all\",[],{}]", arrays("", depth - 1)));
        sample.document(format!("{{\"a\":{},\"a\":0}}", arrays("", depth - 1)));
        sample.document("[".repeat(depth));
    }
    sample.document(format!("[{}]", vec!["[]"; 40].join(",")));
    sample.document(format!("{}{}", "[".repeat(200), "]".repeat(200)));
}

/// One rich line, cut at each place, and with bytes left out, replaced, put in.
fn damages(sample: &mut Sample) {
    let line = RICH[0].as_bytes();
    shortened(line)[..line.len()].iter().for_each(|line| sample.document(line));
    const PUT: &[u8] = b"]\"\\,:0u}[{ 1-\x00\xff\x80\xc3a.e\r";
    let mut r = Random::new(SEED);
    for n in 0..DAMAGED {
        let at = r.below(line.len());
        let [replaced, inserted] = with_byte(line, at, PUT[r.below(PUT.len())]);
        match n % 3 {
            0 => sample.document(&shortened(line)[line.len() + at]),
            1 => sample.document(replaced),
            _ => sample.document(inserted),
        }
    }
}

/// So many bytes decoded, of this character as written; the rest are `x`.
fn text(character: &str, size: usize, bytes: usize) -> String {
    format!("\"{}{}\"", character.repeat(bytes / size), "x".repeat(bytes % size))
}

/// Strings of a byte less than the limit, of the limit, and of a byte more.
fn lengths(sample: &mut Sample) {
    for bytes in [LIMIT - 1, LIMIT, LIMIT + 1] {
        for (character, size) in CHARACTERS {
            sample.within(text(character, size, bytes));
        }
        let long = text("b/", 2, bytes);
        sample.within(format!("[\"deny\",\"all\",\"all\",[],{long}]"));
        sample.within(format!("{{{long}:0}}"));
        sample.within(format!("{{{long}:0,{long}:1}}"));
        sample.within(format!("{{\"a\":{long},\"a\":\"b\"}}"));
        sample.within(format!("{{\"a\":{{{long}:0}},\"a\":\"b\"}}"));
        sample.within(format!("[[[[[[[[{long}]]]]]]]]"));
        sample.within(format!("[[[[[[[[[{long}]]]]]]]]]"));
        sample.within(format!("[{long},-0]"));
        sample.within(format!("[{long}"));
        sample.document(format!("[\"allow\",{{\"user\":{long}}}]"));
        sample.within(format!("[{}]", vec![text("c", 1, bytes); 3].join(",")));
    }
    let blanks = format!("[{}0]", " ".repeat(2_045));
    sample.within(blanks);
    sample.document(text("z", 1, 3_000));
    DOCUMENTS.iter().step_by(3).chain(OTHERS.iter().step_by(9)).for_each(|line| sample.within(line));
}

/// Random lines, each with a damaged copy.
fn random(sample: &mut Sample) {
    let mut r = Random::new(SEED);
    let mut n = 0;
    while n < RANDOM {
        let line = generate::line(&mut r);
        if line.len() <= SHORT {
            sample.document(&line);
            sample.document(generate::damaged(&mut r, &line));
            n += 1;
        }
    }
}
