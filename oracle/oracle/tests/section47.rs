//! The matcher of section 4.7: its own examples, what P's rule turns on, and the Rust wherever that tells
//! the answer. And the random cases have a level that begins with `$` in each place, with each answer.

use std::collections::HashMap;

use oracle::cases::{Case, Kind};
use oracle::clients::{self, Reply};
use oracle::generate::{self, Random};
use oracle::matching::{checked, filter, has_dollar, plain, tree, Both};
use oracle::section47::takes;

/// Filter, what it takes, and what it doesn't.
type Example = (&'static str, &'static [&'static str], &'static [&'static str]);

fn hold(examples: &[Example]) {
    for (filter, taken, others) in examples {
        taken.iter().for_each(|text| assert!(takes(filter, text), "{filter} on {text}"));
        others.iter().for_each(|text| assert!(!takes(filter, text), "{filter} on {text}"));
    }
}

#[test]
fn examples_of_the_section() {
    hold(&[
        (
            "sport/tennis/player1/#",
            &["sport/tennis/player1", "sport/tennis/player1/ranking", "sport/tennis/player1/score/wimbledon"],
            &["sport/tennis/player10", "sport/tennis", "sport/tennis/player2/ranking"],
        ),
        ("sport/#", &["sport", "sport/", "sport/tennis/player1"], &["sports", "", "/sport"]),
        ("#", &["sport", "/", "sport/tennis/player1"], &["$SYS", "$SYS/monitor/Clients"]),
        (
            "sport/tennis/+",
            &["sport/tennis/player1", "sport/tennis/player2", "sport/tennis/"],
            &["sport/tennis/player1/ranking", "sport/tennis"],
        ),
        ("sport/+", &["sport/"], &["sport", "sport/tennis/player1"]),
        ("sport/+/player1", &["sport/tennis/player1"], &["sport/tennis/player10", "sport/player1"]),
        ("+/tennis/#", &["sport/tennis", "sport/tennis/player1"], &["tennis", "sport/golf/tennis"]),
        ("+/+", &["/finance"], &["finance", "/finance/"]),
        ("/+", &["/finance"], &["finance"]),
        ("+", &["finance"], &["/finance"]),
        ("+/monitor/Clients", &["a/monitor/Clients"], &["$SYS/monitor/Clients"]),
        ("$SYS/#", &["$SYS", "$SYS/", "$SYS/monitor/Clients"], &["SYS/monitor", "$SYSTEM"]),
        ("$SYS/monitor/+", &["$SYS/monitor/Clients"], &["$SYS/monitor"]),
        ("ACCOUNTS", &["ACCOUNTS"], &["Accounts"]),
        ("Accounts payable", &["Accounts payable"], &["Accounts"]),
        ("/finance", &["/finance"], &["finance", "/finance/"]),
        ("/", &["/"], &["", "//"]),
    ]);
}

#[test]
fn dollar() {
    hold(&[
        ("bench/g7/#", &["bench/g7/$step", "bench/g7/start"], &["$bench/g7/step"]),
        ("a/#", &["a/$b", "a/$b/$c"], &["$a/b"]),
        ("+", &["a", "a+", ""], &["$SYS/a/b", "$", "$a"]),
        ("+/b", &["a/b"], &["$SYS/b", "$/b"]),
        ("#", &["a/$b", "a#", "/$"], &["$a+", "$"]),
        ("a/+", &["a/$", "a/$b", "a/+"], &["$a/b", "a/$/"]),
        ("+/#", &["a/$b", "/$"], &["$", "$x/y"]),
        ("+/+", &["a/$b"], &["$a/b", "a/$b/c"]),
        ("$a/#", &["$a", "$a/$b"], &["$", "$ab"]),
        ("$/+", &["$/$", "$/a"], &["$", "a/$"]),
        ("/#", &["/$", ""], &["$", "$/"]),
        ("/+/", &["/$/", "/a/"], &["/$", "/$/a"]),
        ("/+", &["/$"], &["/$/", "$"]),
    ]);
}

#[test]
fn as_the_rust() {
    let texts = generate::all_texts(4);
    for f in &texts {
        let Some(topic) = filter(f) else { continue };
        let tree = tree(&topic);
        for text in &texts {
            let judged = plain(f, &topic, text, has_dollar(text));
            assert!(judged.is_sound(), "{f} on {text}");
            let levels = checked(text);
            assert!(levels.is_empty() || tree.is_match(&levels) == judged.section47, "{f} on {text}");
        }
    }
}

/// Where a level of the text begins with `$`: the first, another, the last of several.
fn places(text: &str) -> Vec<&'static str> {
    let last = text.matches('/').count();
    let place = |(n, level): (usize, &str)| match n {
        _ if !level.starts_with('$') => None,
        0 => Some("first"),
        n if n == last => Some("last"),
        _ => Some("middle"),
    };
    text.split('/').enumerate().filter_map(place).collect()
}

/// What P's rule looks at in a filter.
fn shape(filter: &str) -> &'static str {
    match filter.find(['+', '#']) {
        Some(0) => "leading wildcard",
        Some(_) if filter.starts_with('$') => "$, wildcard",
        Some(_) => "wildcard",
        None => "none",
    }
}

#[test]
fn pairs_reached() {
    let (mut r, mut counts) = (Random::new(1), HashMap::new());
    for _ in 0..20_000 {
        let f = generate::filter(&mut r);
        let text = generate::text(&mut r, &f);
        let Some(judged) = Case::new(Kind::P, &f, &text).plain() else { continue };
        for place in places(&text) {
            *counts.entry((place, shape(&f), judged.answer())).or_insert(0) += 1;
            *counts.entry((place, "apart", judged.is_apart())).or_insert(0) += 1;
        }
    }
    for place in ["first", "middle", "last"] {
        for shape in ["leading wildcard", "$, wildcard", "wildcard", "none", "apart"] {
            for answer in [true, false] {
                // By the rule itself, or by an equal first level.
                let never = answer && place == "first" && ["leading wildcard", "wildcard"].contains(&shape);
                let count = counts.get(&(place, shape, answer)).copied().unwrap_or(0);
                assert!(if never { count == 0 } else { count >= 20 }, "{place}, {shape}, {answer}: {count}");
            }
        }
    }
}

#[test]
fn questions_reached() {
    let (mut r, mut counts) = (Random::new(1), HashMap::new());
    for asked in (0..20_000).flat_map(|_| clients::generate::questions(&mut r)) {
        let judged: Both<Reply> = asked.judge();
        assert!(judged.is_sound(), "{asked:?}");
        let answer = match judged.answer() {
            Reply::Refused { .. } => continue,
            Reply::Subscribes { rule, .. } | Reply::Publishes { rule } if rule > 0 => "allow",
            Reply::NotAuthorized { .. } => "refused",
            _ => "none",
        };
        for place in places(&asked.topic) {
            *counts.entry((place, asked.publish, answer, judged.is_apart())).or_insert(0) += 1;
        }
    }
    assert_eq!(counts.len(), 3 * 2 * 3 * 2);
    assert!(counts.values().all(|count| *count >= 20), "{counts:?}");
}
