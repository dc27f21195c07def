//! The original answers as the documents' examples say, but in per-client matching by its own rule for
//! levels that begin with `$`.

use oracle::cases::{examples, Example};
use oracle::decide::{self, Options};
use oracle::perclient;

#[test]
fn examples_of_matching() {
    for Example { case, answer, rust } in examples() {
        assert_eq!(case.rust(), Some(rust), "{case}");
        assert_eq!(case.answer(), Some(answer), "{case}");
    }
}

#[test]
fn example_of_decide() {
    let input = include_bytes!("../../cases/example.txt");
    let options = Options { check: true, ..Options::default() };
    let output = oracle::runtime().block_on(decide::run(input, options));
    assert_eq!(output, include_str!("../../cases/example.out"));
}

#[test]
fn per_client_rules() {
    let ask = |case: &str| oracle::runtime().block_on(perclient::run(case, true));
    let start = r#"{"id":"g7","op":"publish","disconnect":true,"rules":["#;
    let deny = r#""{\"permission\":\"deny\",\"action\":\"all\",\"topic\":\"bench/${clientid}/#\"}""#;
    assert_eq!(ask(&format!(r#"{start}{deny}],"topic":"bench/g7/start"}}"#)), "deny 1 disconnect=true");
    assert_eq!(ask(&format!(r#"{start}{deny}],"topic":"bench/g7/$step"}}"#)), "none 0");
    assert_eq!(ask(&format!(r#"{start}{deny}],"topic":"b","superuser":true}}"#)), "allow 0");
    assert_eq!(ask(&format!(r#"{start}"5"],"topic":"b"}}"#)), "bad 1");
    assert_eq!(ask(&format!(r#"{start}{deny},"["],"topic":"b"}}"#)), "badjson 2");
}

#[test]
fn expiry() {
    let ask = |case: &str| oracle::runtime().block_on(perclient::run(case, false));
    assert_eq!(ask(r#"{"now":[5,1],"expiry":[5,0]}"#), "expired");
    assert_eq!(ask(r#"{"now":[5,0],"expiry":[5,0]}"#), "valid");
    assert_eq!(ask(r#"{"now":[5,0],"expiry":null}"#), "valid");
}
