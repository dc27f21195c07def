//! oracle-record
//!
//! Writes the sample of answers (`record::sample`).

use std::io::{self, Write};

fn main() -> io::Result<()> {
    io::stdout().write_all(&oracle::record::sample())
}
