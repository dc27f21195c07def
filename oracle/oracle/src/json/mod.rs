//! Lines of JSON, asked of serde_json, and where document 01 is narrower.

pub mod generate;
pub mod lines;
pub mod reading;
pub mod sample;
pub mod short;

use serde_json::Value;

use reading::Reading;

/// Document 01: brackets open at once, at most.
pub const DEPTH: usize = 8;

#[derive(Clone, Copy, Debug, PartialEq, Eq)]
pub enum Judged {
    /// A document of document 01; its longest decoded string, member names included.
    Document { longest: usize },
    /// serde_json refuses it.
    Refused,
    /// serde_json reads it, with a number that isn't written as a plain u64.
    Number,
    /// serde_json reads it, with more than `DEPTH` brackets open at once.
    Deep,
    /// serde_json reads it, with an LF as a blank. "LF ends a line": what holds one isn't one line.
    LineFeed,
}

/// The judge. Where several restrictions apply the LF counts, then the number.
pub fn judge(line: &[u8]) -> Judged {
    if serde_json::from_slice::<Value>(line).is_err() {
        return Judged::Refused;
    }
    // serde_json refuses an LF in a string, so this one is outside.
    if line.contains(&b'\n') {
        return Judged::LineFeed;
    }
    let Reading { depth, plain, longest } = serde_json::from_slice(line).expect("a Value was read");
    match (plain, depth <= DEPTH) {
        (false, _) => Judged::Number,
        (true, false) => Judged::Deep,
        (true, true) => Judged::Document { longest },
    }
}

impl Judged {
    pub fn is_document(self) -> bool {
        matches!(self, Judged::Document { .. })
    }

    /// A document without a decoded string of more bytes.
    pub fn is_within(self, most: usize) -> bool {
        matches!(self, Judged::Document { longest } if longest <= most)
    }
}
