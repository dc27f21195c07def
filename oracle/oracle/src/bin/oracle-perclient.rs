//! oracle-perclient [--full]
//!
//! Cases of `perclient::run`, one a line, to their answers: the Rust's own, also
//! where section 4.7 judges the port (document 02, b).

use std::io::{self, BufRead, Write};

fn main() -> io::Result<()> {
    let full = std::env::args().any(|a| a == "--full");
    let runtime = oracle::runtime();
    let mut out = io::BufWriter::new(io::stdout());
    for line in io::stdin().lock().lines() {
        writeln!(out, "{}", runtime.block_on(oracle::perclient::run(&line?, full)))?;
    }
    out.flush()
}
