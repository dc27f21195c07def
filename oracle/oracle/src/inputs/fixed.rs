//! Inputs that are always asked: document 01's example cut at each byte, without each, and in
//! two pieces; limits; one with many lines.

use crate::json::short::shortened;

/// Document 01's.
const EXAMPLE: &[u8] = include_bytes!("../../../cases/example.txt");

const RULE: &str = "[\"allow\",\"all\",\"all\",[\"%c\"]]\n";

/// A rule text of so many bytes, the LF of its last line included, then a question.
fn of_rules(size: usize) -> Vec<u8> {
    let blanks = " ".repeat(size - RULE.len());
    format!("{blanks}{RULE}\n[\"connect\",0,\"a\",null,null,null,4]\n").into()
}

/// A line of so many bytes, and one behind it; with `last` neither that one nor the LF.
fn of_line(size: usize, last: bool) -> Vec<u8> {
    let line = "[\"ended\",1]";
    let blanks = " ".repeat(size - line.len());
    let rest = if last { "" } else { "\n[\"ended\",1]\n" };
    format!("{RULE}\n{line}{blanks}{rest}").into()
}

/// So many rules, then a question.
fn of_lines(rule: &str, count: usize) -> Vec<u8> {
    format!("{}\n[\"connect\",0,\"a\",null,null,null,4]\n", format!("{rule}\n").repeat(count)).into()
}

/// More lines of output than fit into any buffer of the program, with numbers of up to five digits.
fn of_many() -> Vec<u8> {
    let lines =
        ["[\"connected\",1,\"a\",null]", "[\"publish\",0,\"a\",null,null,null,4,\"a\"]", "", "[\"ended\",1]"];
    let lines: Vec<&str> = lines.iter().cycle().take(10_050).copied().collect();
    format!("{RULE}\n{}", lines.join("\n")).into()
}

/// With the sizes of the pieces in which it is handed over; none: as the pipe takes it.
pub fn inputs() -> Vec<(Vec<u8>, Vec<usize>)> {
    let mut whole = vec![Vec::new(), b"\n".to_vec(), b"\n\n".to_vec(), b"\r\n".to_vec(), b" \n".to_vec()];
    whole.extend(shortened(EXAMPLE));
    for size in [2_047, 2_048, 2_049, 4_095, 4_096, 4_097, 70_000] {
        whole.extend([of_rules(size), of_line(size, false), of_line(size, true)]);
    }
    for count in [0, 1, 136, 255, 256, 257, 258] {
        whole.extend([of_lines("[\"deny\",\"all\"]", count), of_lines("7", count)]);
    }
    whole.push(of_many());
    let mut out: Vec<_> = whole.into_iter().map(|input| (input, Vec::new())).collect();
    let halves = (1..EXAMPLE.len()).map(|at| (EXAMPLE.to_vec(), vec![at, EXAMPLE.len() - at]));
    out.extend(halves);
    out
}
