//! oracle-decide [--dump] [--check] [--no-disconnect] [--batch]
//!
//! Reads what the program `decide` of document 01 reads, and writes what it
//! writes, as the plugin of docs/src answers. The options are those of
//! `decide::Options`. With --batch each line of input is a JSON string, the
//! input of one run, and each line of output a JSON string, its output.

use std::io::{self, BufRead, Read, Write};

use oracle::decide::{run, Options};

fn main() -> io::Result<()> {
    let given = |option: &str| std::env::args().any(|a| a == option);
    let options =
        Options { dump: given("--dump"), check: given("--check"), no_disconnect: given("--no-disconnect") };
    let runtime = oracle::runtime();
    let mut out = io::BufWriter::new(io::stdout());
    if given("--batch") {
        for line in io::stdin().lock().lines() {
            let input: String = serde_json::from_str(&line?)?;
            let output = runtime.block_on(run(input.as_bytes(), options));
            writeln!(out, "{}", serde_json::to_string(&output)?)?;
        }
    } else {
        let mut input = Vec::new();
        io::stdin().lock().read_to_end(&mut input)?;
        out.write_all(runtime.block_on(run(&input, options)).as_bytes())?;
    }
    out.flush()
}
