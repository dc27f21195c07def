//! The judge of rules: the original's answer with document 01's restrictions.

use oracle::generate::Random;
use oracle::json::generate::with_line_feed;
use oracle::rules::short::{rule, users, RULES};
use oracle::rules::{generate, judge, Client, Identity, Lent, Verdict};

#[test]
fn rules_by_hand() {
    for line in RULES {
        assert_eq!(judge(line.as_bytes()).verdict, Verdict::Rule, "{line}");
    }
    let text = |n: usize| format!(r#"["allow","all","all",["{}"]]"#, "a".repeat(n));
    let topics = |n: usize| format!(r#"["allow","all","all",[{}]]"#, vec!["\"a\""; n].join(","));
    let line = |n: usize| format!("{:n$}", r#"["allow","all"]"#);
    for (line, verdict) in [
        // Numbers and depths that serde_json reads and document 01 refuses; templates that are no filters; members of other kinds.
        (r#"["allow",{"protocol":4.0}]"#.to_string(), Verdict::Number),
        (r#"["allow","all","all",[],-1]"#.into(), Verdict::Number),
        (r#"["deny",-0]"#.into(), Verdict::Refused(5)),
        (r#"["allow","all","all",[],[[[[[[[[]]]]]]]]]"#.into(), Verdict::Deep),
        (r#"["allow","all","all",[],[[[[[[[]]]]]]]]"#.into(), Verdict::Rule),
        (r##"["allow","all","publish",["a#%c"]]"##.into(), Verdict::Rule),
        (r##"["allow","all","publish",["a#"]]"##.into(), Verdict::Refused(6)),
        (r#"["allow",{"user":5,"password":7}]"#.into(), Verdict::Rule),
        (r#"["allow",{"user":"b","password":null}]"#.into(), Verdict::Refused(6)),
        (r#"["deny",{"user":"b","password":null}]"#.into(), Verdict::Rule),
        (r#"["allow","all",null]"#.into(), Verdict::Refused(6)),
        (r#"["allow","all","all",null]"#.into(), Verdict::Refused(6)),
        ("[".into(), Verdict::Refused(5)),
        // An LF as a blank; the length comes first.
        ("[\"allow\",\n\"all\"]".into(), Verdict::LineFeed),
        ("[\"allow\",\n\"al\"]".into(), Verdict::Refused(5)),
        (line(2_048) + "\n", Verdict::Long),
        // The limits, and the order of the numbers.
        (text(256), Verdict::Rule),
        (text(257), Verdict::Long),
        (topics(64), Verdict::Rule),
        (topics(65), Verdict::Long),
        (topics(65).replace("\"a\"]]", "5]]"), Verdict::Refused(1)),
        (line(2_048), Verdict::Rule),
        (line(2_049), Verdict::Long),
        (line(2_049).replace(']', " "), Verdict::Refused(1)),
    ] {
        assert_eq!(judge(line.as_bytes()).verdict, verdict, "{line}");
    }
}

/// The lines of the sample that were judged by hand.
#[test]
fn judged_lines() {
    for line in include_str!("../../judged.tsv").lines() {
        let [_, number, rule] = line.splitn(3, '\t').collect::<Vec<_>>()[..] else { panic!("{line}") };
        assert_eq!(judge(rule.as_bytes()).verdict.number().to_string(), number, "{rule}");
    }
}

#[test]
fn identities_by_hand() {
    let client = Client {
        id: "g".into(),
        name: Lent { given: true, value: "bo".into() },
        password: Lent { given: false, value: "p".into() },
        address: Lent { given: true, value: "::0001".into() },
        protocol: Lent { given: true, value: 4 },
    };
    for (line, identity) in [
        (r#"["allow",{}]"#, Identity::Agrees),
        (r#"["allow",{"user":"bo","superuser":true}]"#, Identity::Superuser),
        (r#"["deny",{"user":"bo","superuser":true,"password":"p"}]"#, Identity::Agrees),
        (r#"["allow",{"user":"bo","password":"p"}]"#, Identity::Differs),
        (r#"["allow",{"clientid":"g","user":"bo","superuser":true}]"#, Identity::Agrees),
        (r#"["allow",{"protocol":260}]"#, Identity::Agrees),
        (r#"["allow",{"ipaddr":"::0001"}]"#, Identity::NoAddress(false)),
        (r#"["allow",{"ipaddr":"::1"}]"#, Identity::Differs),
        (r#"["allow",{"protocol":4.0}]"#, Identity::RustOnly),
        (r#"["allow"]"#, Identity::NoRule),
    ] {
        assert_eq!(judge(line.as_bytes()).identity(&client), identity, "{line}");
    }
}

/// The random lines have enough of each.
#[test]
fn random_rules() {
    let mut r = Random::new(1);
    let mut counts = [0; 8];
    for _ in 0..20_000 {
        let elements = generate::elements(&mut r);
        let mut lines = vec![generate::line(&mut r, &elements), generate::damaged(&mut r, &elements)];
        lines.extend(with_line_feed(&mut r, &lines[0]));
        for line in lines {
            let verdict = judge(&line).verdict;
            counts[match verdict {
                Verdict::Rule => 0,
                Verdict::Refused(1) => 1,
                Verdict::Refused(5) => 2,
                Verdict::Refused(_) => 3,
                Verdict::Number => 4,
                Verdict::Deep => 5,
                Verdict::Long => 6,
                Verdict::LineFeed => 7,
            }] += 1;
        }
    }
    assert!(counts.iter().all(|n| *n > 20), "{counts:?}");
    assert!((0..).map_while(rule).count() > 100_000 && (0..).map_while(users).count() > 10_000);
}
