//! The judge of whole inputs, by examples; the answers are document 01's.

use oracle::inputs::judge;
use oracle::runtime;

fn output(input: &str) -> String {
    judge(input.as_bytes(), &runtime()).output()
}

const ALLOW: &str = "[\"allow\",\"all\"]\n";

/// What is said of one line behind an allow for all.
fn said(line: &str) -> String {
    output(&format!("{ALLOW}\n{line}\n")).trim_start_matches("1 ").trim_end().into()
}

#[test]
fn example() {
    let (input, right) = (include_str!("../../cases/example.txt"), include_str!("../../cases/example.out"));
    assert_eq!(output(input), right);
}

#[test]
fn rules() {
    assert_eq!(output(""), "");
    assert_eq!(output("\n"), "");
    assert_eq!(output("\n\n"), "1 error 5\n");
    assert_eq!(output(ALLOW), "");
    assert_eq!(output("7\n\n"), "0 error 6 1\n");
    assert_eq!(output(&format!("{ALLOW}\r\n\n")), "0 error 5 2\n");
    assert_eq!(output(&"7\n".repeat(257)), "0 error 1 257\n");
    assert_eq!(output(&"7\n".repeat(1_025)), "0 error 1 0\n");
    assert_eq!(output(&format!("{}{ALLOW}", " ".repeat(2_048 - ALLOW.len()))), "");
    assert_eq!(output(&format!("{}{ALLOW}", " ".repeat(2_049 - ALLOW.len()))), "0 error 1 0\n");
}

#[test]
fn lines() {
    assert_eq!(said("[\"connect\",0,\"a\",null,null,null,4]"), "allow 1");
    assert_eq!(said("[\"connect\",null,\"a\",null,null,null,4]\r"), "allow 1");
    assert_eq!(said("[\"connect\",4,\"a\",null,null,null,255]"), "kept 0");
    assert_eq!(said("[\"connect\",0,\"a\",null,null,null,256]"), "error 5");
    assert_eq!(said("[\"connect\",0,\"a\",null,null,null,null]"), "error 5");
    assert_eq!(said("[\"connect\",5,\"a\",null,null,null,4]"), "error 2");
    assert_eq!(said("[\"publish\",-0,\"a\",null,null,null,4,\"t\"]"), "error 5");
    assert_eq!(said("[\"publish\",0,\"a\",null,null,null,null,\"t\"]"), "allow 1");
    assert_eq!(said("[\"publ\\u0069sh\",0,\"a\",null,null,null,null,\"t\"]"), "allow 1");
    assert_eq!(said("[\"Publish\",0,\"a\",null,null,null,null,\"t\"]"), "error 5");
    assert_eq!(said("[\"ended\",null]"), "error 5");
    assert_eq!(said("[\"ended\",256]"), "error 2");
    let long = "i".repeat(65);
    assert_eq!(said(&format!("[\"connected\",256,\"{long}\",null]")), "error 1");
    assert_eq!(said(&format!("[\"connected\",256,\"{long}\",7]")), "error 5");
    let ended = "[\"ended\",1]";
    assert_eq!(said(&format!("{ended}{}", " ".repeat(2_048 - ended.len()))), "done 0");
    assert_eq!(said(&format!("{ended}{}", " ".repeat(2_049 - ended.len()))), "error 5");
}
