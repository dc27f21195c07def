//! compare [SECONDS] [--seed N] [--length N] [--only KIND] [--write]
//!
//! Compares the port's exported functions with the original Rust: V, whether a
//! text is a valid filter; T, the tree match; P, the plain match, with section 4.7
//! of MQTT where a level of the text begins with `$`. First all texts over
//! `a $ + # /`, for T and P up to the length, for V three longer; then random ones
//! for a seventh of SECONDS. With serde_json: J, whether a line is a document; L,
//! whether its strings are within a limit. First all short lines, then random ones
//! for a seventh. With the plugin: R, whether a line is
//! a rule; I, whether it means a client. First all combinations of a rule's parts,
//! then random ones for a seventh. And O, opening a store for a rule text; Q, the
//! three questions on it. First all short lists, then random ones for a seventh.
//! And E, histories: events on a store, and the three questions in between. First
//! all short ones, then random ones for a seventh. With acl.rs, and 4.7's matching
//! as in P: C, the per-client questions, first of all rules of a few parts, then
//! random ones for a seventh; X, expiry, ten million times. And W, whole inputs of the program `decide`: first those
//! of the program `replays` and some that are always asked, then random ones for a seventh.
//! With --only the phases that name the kind. With --write docs/COMPARISON.md is written, whole,
//! from this run; not where the code, oracle/ or the kit changed meanwhile. Exit status 1 if
//! anything differs, 2 if it can't be written.

mod clients;
mod histories;
mod inputs;
mod page;
mod phases;
mod store;
mod tally;

use std::process::ExitCode;
use std::time::{Duration, Instant};

use page::Page;
use tally::{grouped, Tally};

/// All pairs of T and P have texts up to this length, if no other is asked for; all texts of V are up to so
/// much longer.
const LENGTH: usize = 7;
const LONGER: usize = 3;

struct Options {
    seconds: u64,
    seed: u64,
    length: usize,
    only: Option<String>,
    write: bool,
}

fn options() -> Result<Options, String> {
    let mut options = Options { seconds: 60, seed: 1, length: LENGTH, only: None, write: false };
    let mut args = std::env::args().skip(1);
    let number = |arg: Option<String>| -> Result<u64, String> {
        let arg = arg.ok_or("a number is missing")?;
        arg.parse().map_err(|_| format!("not a number: {arg}"))
    };
    while let Some(arg) = args.next() {
        match arg.as_str() {
            "--seed" => options.seed = number(args.next())?,
            "--only" => options.only = args.next(),
            "--length" => options.length = number(args.next())? as usize,
            "--write" => options.write = true,
            _ => options.seconds = number(Some(arg))?,
        }
    }
    Ok(options)
}

/// Runs the phase, unless only a kind is asked that it doesn't name.
fn phase(only: &Option<String>, name: &str, all: &mut Tally, run: impl FnOnce() -> Tally) {
    let mut kinds = name.split([',', ' ']);
    if only.as_ref().is_some_and(|only| kinds.all(|kind| kind != only)) {
        return;
    }
    let begin = Instant::now();
    let tally = run();
    let seconds = begin.elapsed().as_secs_f64();
    println!("{name}: {} cases, {seconds:.1} s", grouped(tally.total()));
    all.add(tally);
}

fn main() -> ExitCode {
    let begun = options().and_then(|options| {
        let page = options.write.then(|| Page::new(&options)).transpose()?;
        Ok((options, page))
    });
    let (options, page) = match begun {
        Ok(begun) => begun,
        Err(error) => {
            eprintln!("compare [SECONDS] [--seed N] [--length N] [--only KIND] [--write]: {error}");
            return ExitCode::from(2);
        }
    };
    let all = compared(&options);
    println!("\n{all}");
    all.covered().into_iter().for_each(|covered| println!("{covered}"));
    if let Some(Err(error)) = page.map(|page| page.write(&options, &all)) {
        eprintln!("{error}");
        return ExitCode::from(2);
    }
    if all.differences() == 0 {
        ExitCode::SUCCESS
    } else {
        ExitCode::FAILURE
    }
}

/// All phases, one after the other.
fn compared(options: &Options) -> Tally {
    let Options { seconds, seed, length, only, .. } = options;
    let (seconds, seed, length) = (*seconds, *seed, *length);
    let mut all = Tally::default();
    let phase = |name: &str, all: &mut Tally, run: &dyn Fn() -> Tally| phase(only, name, all, run);
    let longer = length + LONGER;
    phase(&format!("V, all texts up to {longer} bytes"), &mut all, &|| phases::short_filters(longer));
    phase(&format!("T and P, all pairs up to {length} bytes"), &mut all, &|| phases::short_pairs(length));
    phase("J and L, all short lines", &mut all, &phases::short_lines);
    phase("J and L, all damages of a few lines", &mut all, &phases::damaged_lines);
    phase("R, all combinations of a few parts", &mut all, &phases::short_rules);
    phase("R and I, all combinations of a few users and clients", &mut all, &phases::short_identities);
    phase("R and I, all damages of a few rules", &mut all, &phases::damaged_rules);
    phase("O and Q, all lists of up to two rules of a few parts", &mut all, &phases::short_questions);
    phase("E, all histories of up to three events of a few", &mut all, &phases::short_histories);
    phase("C, all rules of a few parts", &mut all, &clients::short);
    phase("W, the inputs of replays", &mut all, &inputs::replayed);
    phase("W, inputs at limits, cut and in two pieces", &mut all, &inputs::always);
    let part = || Instant::now() + Duration::from_secs(seconds) / 7;
    phase(&format!("V, T and P, random, seed {seed}"), &mut all, &|| phases::random(seed, part()));
    phase(&format!("J and L, random, seed {seed}"), &mut all, &|| phases::random_lines(seed, part()));
    phase(&format!("R and I, random, seed {seed}"), &mut all, &|| phases::random_rules(seed, part()));
    phase(&format!("O and Q, random, seed {seed}"), &mut all, &|| phases::random_questions(seed, part()));
    phase(&format!("E, random, seed {seed}"), &mut all, &|| phases::random_histories(seed, part()));
    phase(&format!("C, random, seed {seed}"), &mut all, &|| clients::random(seed, part()));
    phase(&format!("X, random, seed {seed}"), &mut all, &|| clients::expiries(seed));
    phase(&format!("W, random, seed {seed}"), &mut all, &|| inputs::random(seed, part()));
    all
}
