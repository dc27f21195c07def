//! bench                                  the table, instructions by callgrind
//! bench --only KIND..                    these kinds
//! bench --count KIND SIZE ANSWER SIDE N  exactly N calls, to count or profile
//! bench --counts KIND                    what the table has callgrind count

mod calls;
mod clients;
mod events;
mod inputs;
mod lists;
mod measure;
mod questions;
mod table;

use std::process::ExitCode;

fn main() -> ExitCode {
    let args: Vec<String> = std::env::args().skip(1).collect();
    let args: Vec<&str> = args.iter().map(String::as_str).collect();
    let result = match args[..] {
        [] => table::print(&table::KINDS),
        ["--only", ref kinds @ ..] => table::print(kinds),
        ["--count", kind, size, answer, side, n] => match n.parse() {
            Ok(n) => {
                table::row(kind, size, answer).run(side, n);
                Ok(())
            }
            Err(_) => Err(format!("not a number: {n}")),
        },
        ["--counts", kind] => {
            table::count(kind);
            Ok(())
        }
        _ => Err("bench [--only KIND.. | --count KIND SIZE ANSWER SIDE N | --counts KIND]".into()),
    };
    match result {
        Ok(()) => ExitCode::SUCCESS,
        Err(error) => {
            eprintln!("{error}");
            ExitCode::FAILURE
        }
    }
}
