//! The judge of per-client questions and of expiry, by examples.

use oracle::clients::{expired, Asked, Reply, Times};
use oracle::rules::Lent;

/// The client `g7` subscribes with QoS 0.
fn asked(name: Option<&str>, rules: &str, topic: &str) -> Asked {
    Asked {
        superuser: false,
        id: "g7".into(),
        name: Lent { given: name.is_some(), value: name.unwrap_or("bo").into() },
        rules: rules.into(),
        publish: false,
        qos: 0,
        retain: false,
        disconnect: true,
        topic: topic.into(),
    }
}

/// An allow rule with these members behind its permission and action.
fn allow(members: &str) -> String {
    format!("{{\"permission\":\"allow\",\"action\":\"all\",{members}}}")
}

fn topic(topic: &str) -> String {
    allow(&format!("\"topic\":\"{topic}\""))
}

fn refused(number: u64, line: usize, intended: bool) -> Reply {
    Reply::Refused { number, line, intended }
}

const ALLOWED: Reply = Reply::Subscribes { rule: 1, qos: 0 };

#[test]
fn filling() {
    let judge = |name, rule: &str, text| asked(name, &topic(rule), text).judge().answer();
    assert_eq!(judge(Some("${clientid}"), "${username}", "${clientid}"), ALLOWED);
    assert_eq!(judge(Some("${clientid}"), "${username}", "g7"), Reply::NoDecision);
    assert_eq!(judge(Some("${clientid}"), "${username}/${clientid}", "g7/g7"), ALLOWED);
    assert_eq!(judge(Some(""), "${client${username}id}", "${clientid}"), ALLOWED);
    assert_eq!(judge(None, "${username}", "bo"), refused(6, 1, false));
    assert_eq!(judge(Some("#"), "eq a${username}", "a#"), ALLOWED);
    assert_eq!(judge(Some("#"), "a${username}", "a#"), refused(6, 1, false));
    assert_eq!(judge(Some("eq a"), "${username}", "a"), Reply::NoDecision);
}

#[test]
fn numbers() {
    let of = |rules: &str| asked(Some("bo"), rules, "a").judge().answer();
    assert_eq!(of(&allow(r#""qos":[0.0],"topic":"a""#)), refused(5, 1, true));
    assert_eq!(of(&allow(r#""qos":0.0,"topic":"a""#)), refused(5, 1, false));
    assert_eq!(of(&allow(r#""topic":"a","x":[[[[[[[[]]]]]]]]"#)), refused(5, 1, true));
    assert_eq!(of(&allow(r#""qos":259,"topic":"a""#)), refused(6, 1, false));
    assert_eq!(of(&allow(r#""qos":["x"],"topic":"a""#)), Reply::NoDecision);
    assert_eq!(of(&topic(&"a".repeat(256))), Reply::NoDecision);
    assert_eq!(of(&topic(&"a".repeat(257))), refused(1, 1, true));
    let name = "b".repeat(64);
    let filled = |rule: &str| asked(Some(&name), &topic(rule), "a").judge().answer();
    let rule = "${username}".repeat(4);
    assert_eq!(filled(&rule), Reply::NoDecision);
    assert_eq!(filled(&format!("{rule}a")), refused(7, 1, true));
    assert_eq!(filled(&format!("{rule}#")), refused(7, 1, false));
    let two = [topic("a"), topic("a#")].join("\n");
    assert_eq!(of(&two), refused(6, 2, false));
    assert_eq!(Asked { superuser: true, ..asked(None, &two, "a") }.judge().answer(), refused(6, 2, false));
    assert_eq!(Asked { qos: 3, ..asked(None, &two, "a") }.judge().answer(), refused(2, 0, true));
    assert_eq!(asked(None, &"\n".repeat(257), "a").judge().answer(), refused(1, 257, true));
}

#[test]
fn decisions() {
    let rules = ["b", "a"].map(topic).join("\n") + "\n";
    assert_eq!(asked(None, &rules, "a").judge().answer(), Reply::Subscribes { rule: 2, qos: 0 });
    let publish = |disconnect, retain| {
        let deny = topic("a").replace("allow", "deny").replace("{", "{\"retain\":true,");
        Asked { publish: true, disconnect, retain, ..asked(None, &deny, "a") }.judge().answer()
    };
    assert_eq!(publish(true, true), Reply::NotAuthorized { rule: 1, disconnect: Some(true) });
    assert_eq!(publish(false, true), Reply::NotAuthorized { rule: 1, disconnect: Some(false) });
    assert_eq!(publish(true, false), Reply::NoDecision);
    let one = Asked { superuser: true, ..asked(None, "", "a") };
    assert_eq!(one.judge().answer(), Reply::Subscribes { rule: 0, qos: 0 });
}

/// Section 4.7's answer decides, beside it the Rust's own.
#[test]
fn dollar() {
    let of = |rules: &str, text| {
        let judged = asked(None, rules, text).judge();
        assert!(judged.dollar);
        (judged.answer(), judged.rust)
    };
    let (allowed, none) = (ALLOWED, Reply::NoDecision);
    assert_eq!(of(&topic("bench/${clientid}/#"), "bench/g7/$step"), (allowed, none));
    assert_eq!(of(&topic("bench/g7/+"), "bench/g7/$step"), (allowed, allowed));
    assert_eq!(of(&topic("bench/g7/+"), "bench/g7/$step/a"), (none, allowed));
    assert_eq!(of(&topic("+"), "$SYS/a/b"), (none, allowed));
    assert_eq!(of(&topic("+/b"), "$SYS/b"), (none, none));
    assert_eq!(of(&topic("eq bench/g7/$step"), "bench/g7/$step"), (allowed, allowed));
    assert_eq!(of(&topic("eq bench/g7/#"), "bench/g7/$step"), (none, none));
    let two = ["+/#", "$x/#"].map(topic).join("\n");
    assert_eq!(of(&two, "$x/a"), (Reply::Subscribes { rule: 2, qos: 0 }, allowed));
    assert_eq!(of(&allow(r##""qos":1,"topic":"a/#""##), "a/$b"), (none, none));
    assert_eq!(of(&topic("a/#/b"), "a/$b"), (refused(6, 1, false), refused(6, 1, false)));
    let one = Asked { superuser: true, ..asked(None, "", "$a") };
    assert_eq!(one.judge().answer(), Reply::Subscribes { rule: 0, qos: 0 });
}

#[test]
fn times() {
    let at = |expiry: Option<(u64, u64)>, now| {
        expired(&Times { expiry: Lent { given: expiry.is_some(), value: expiry.unwrap_or((0, 0)) }, now })
    };
    assert_eq!(at(Some((5, 7)), (5, 7)), Some(false));
    assert_eq!(at(Some((5, 7)), (5, 8)), Some(true));
    assert_eq!(at(Some((5, 7)), (4, 9)), Some(false));
    assert_eq!(at(None, (5, 7)), Some(false));
    assert_eq!(at(None, (5, 1_000_000_000)), None);
}
