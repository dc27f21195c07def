//! oracle-match
//!
//! Lines `V`, text; `T` or `P`, filter, text, with a TAB between the fields. An
//! answer that follows is ignored. Writes each line with the Rust's answer: yes,
//! no, or invalid for T and P where the filter isn't one. P is the Rust's own at
//! every text, also where section 4.7 judges the port (document 02, b).

use std::io::{self, BufRead, Write};

use oracle::cases::{word, Case, Kind};

fn read(line: &str) -> Option<Case> {
    let mut fields = line.split('\t');
    match fields.next()? {
        "V" => Some(Case::new(Kind::V, fields.next()?, "")),
        "T" => Some(Case::new(Kind::T, fields.next()?, fields.next()?)),
        "P" => Some(Case::new(Kind::P, fields.next()?, fields.next()?)),
        _ => None,
    }
}

fn main() -> io::Result<()> {
    let mut out = io::BufWriter::new(io::stdout());
    for line in io::stdin().lock().lines() {
        let line = line?;
        let case = read(&line).ok_or_else(|| io::Error::other(format!("not a question: {line}")))?;
        writeln!(out, "{case}\t{}", case.rust().map_or("invalid", word))?;
    }
    out.flush()
}
