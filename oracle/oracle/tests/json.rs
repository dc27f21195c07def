//! The judge of lines: serde_json's answer with document 01's restrictions.

use oracle::generate::Random;
use oracle::json::lines::{DOCUMENTS, OTHERS, RICH};
use oracle::json::reading::Reading;
use oracle::json::{generate, judge, Judged};
use serde_json::Value;

#[test]
fn lines_by_hand() {
    for line in DOCUMENTS.iter().chain(RICH) {
        assert!(judge(line.as_bytes()).is_document(), "{line}");
    }
    for line in OTHERS {
        assert!(!judge(line.as_bytes()).is_document(), "{line}");
    }
}

#[test]
fn restrictions() {
    let document = |longest| Judged::Document { longest };
    for (line, judged) in [
        ("18446744073709551615", document(0)),
        ("18446744073709551616", Judged::Number),
        ("-0", Judged::Number),
        ("1E5", Judged::Number),
        ("1e-400", Judged::Number),
        ("1e400", Judged::Refused),
        ("00", Judged::Refused),
        ("[[[[[[[[]]]]]]]]", document(0)),
        ("[[[[[[[[[]]]]]]]]]", Judged::Deep),
        ("[[[[[[[[[-0]]]]]]]]]", Judged::Number),
        // Overridden members count too.
        (r#"{"a":-1,"a":1}"#, Judged::Number),
        (r#"{"a":[[[[[[[[]]]]]]]],"a":1}"#, Judged::Deep),
        (r#"{"a":"long","a":1}"#, document(4)),
        (r#"{"\u00e9\uD834\uDD1E":1}"#, document(6)),
        // "LF ends a line": what holds one isn't one line, wherever it is.
        ("0\n", Judged::LineFeed),
        ("\n[0,\n-1]", Judged::LineFeed),
        ("\n", Judged::Refused),
        ("1\n2", Judged::Refused),
        ("\"\n\"", Judged::Refused),
        (r#""\n""#, document(1)),
    ] {
        assert_eq!(judge(line.as_bytes()), judged, "{line}");
    }
}

/// Of the lines with an LF most are read by serde_json: there it is a blank.
#[test]
fn line_feeds() {
    let mut r = Random::new(1);
    let (mut lines, mut read) = (0, 0);
    for _ in 0..20_000 {
        let line = generate::line(&mut r);
        let Some(with) = generate::with_line_feed(&mut r, &line) else { continue };
        assert!(with.contains(&b'\n') && !judge(&with).is_document());
        lines += 1;
        read += (judge(&with) == Judged::LineFeed) as usize;
    }
    assert!(lines > 1_500 && 2 * read > lines, "{lines} {read}");
}

/// Depth, plain numbers and longest string, taken from the value.
fn measure(value: &Value) -> (usize, bool, usize) {
    let all = |values: &mut dyn Iterator<Item = &Value>| {
        let inner = values.map(measure).fold((0, true, 0), |a, b| (a.0.max(b.0), a.1 && b.1, a.2.max(b.2)));
        (inner.0 + 1, inner.1, inner.2)
    };
    match value {
        Value::Null | Value::Bool(_) => (0, true, 0),
        Value::Number(n) => (0, n.is_u64(), 0),
        Value::String(s) => (0, true, s.len()),
        Value::Array(elements) => all(&mut elements.iter()),
        Value::Object(members) => {
            let (depth, plain, longest) = all(&mut members.values());
            (depth, plain, members.keys().map(String::len).fold(longest, usize::max))
        }
    }
}

/// Without members of the same name a reading measures the value.
#[test]
fn readings_measure_values() {
    let mut r = Random::new(1);
    for _ in 0..20_000 {
        let Ok(value) = serde_json::from_slice::<Value>(&generate::line(&mut r)) else { continue };
        let line = serde_json::to_vec(&value).expect("a line");
        let Reading { depth, plain, longest } = serde_json::from_slice(&line).expect("a line");
        let read_again = serde_json::from_slice(&line).expect("a line");
        assert_eq!((depth, plain, longest), measure(&read_again), "{value}");
    }
}
