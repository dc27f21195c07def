//! Rules by hand, and all combinations of their parts.

use super::{Client, Lent};

/// Rules for every single damage: together they have each word and each member.
#[rustfmt::skip]
pub const RULES: &[&str] = &[
    r#"["allow",{"user":"b","password":"p","superuser":true},"publish",["b/%c","+/#"]]"#,
    r#"["deny",{"clientid":"c","ipaddr":"1.2.3.4","protocol":260},"subscribe",[{"eq":"a#"}]]"#,
    r#"["Allow","ALL","PubSub",["\u0023","$S/+"],{"x":[0]}]"#,
    r#" [ "deny" , { } , "connect" , [ ] ] "#,
    r#"["allow","all"]"#,
];

/// Values of each place. The first of control and topics is none at all.
#[rustfmt::skip]
pub const ACCESS: &[&str] = &[
    r#""allow""#, r#""deny""#, r#""Allow""#, r#""DENY""#, r#""\u0041LLO\u0057""#, r#""all""#, r#""""#, r#""allow ""#,
    r#""allo""#, r#""den\u0079""#, r#""deny\u0000""#, "\"\u{ff41}llow\"", "null", "true", "1", r#"["allow"]"#, "{}",
];
#[rustfmt::skip]
pub const USERS: &[&str] = &[
    r#""all""#, r#""ALL""#, r#""a\u006cL""#, r#""""#, r#""al""#, r#""alle""#, r#""deny""#, "null", "true", "false", "0", "[]",
    r#"["all"]"#, "{}", r#"{"all":"all"}"#, r#"{"user":"b"}"#, r#"{"user":5}"#, r#"{"user":null,"password":7}"#,
    r#"{"user":"b","password":7}"#, r#"{"user":"b","password":null}"#, r#"{"user":"b","password":"p","password":[]}"#,
    r#"{"user":"b","password":[],"password":"p"}"#, r#"{"user":"b","user":5,"password":{}}"#,
    r#"{"password":false,"user":"b"}"#, r#"{"User":"b","password":7}"#, r#"{"protocol":18446744073709551615}"#,
    r#"{"us\u0065r":"b","passwor\u0064":0}"#, r#"{"clientid":[],"ipaddr":{},"protocol":"4"}"#,
];
#[rustfmt::skip]
pub const CONTROL: &[&str] = &[
    "", r#""all""#, r#""connect""#, r#""publish""#, r#""subscribe""#, r#""pubsub""#, r#""PUBSUB""#, r#""Connec\u0054""#,
    r#""""#, r#""allow""#, r#""pub""#, r#""pubsubs""#, "\"pub\u{17f}ub\"", "\"publ\u{130}sh\"", "\"publ\u{131}sh\"", "null",
    "true", "0", r#"["all"]"#, "{}",
];
#[rustfmt::skip]
pub const TOPICS: &[&str] = &[
    "", "[]", r#"["a"]"#, r#"[""]"#, r##"["#"]"##, r##"["a#"]"##, r##"["#/a"]"##, r#"["+a"]"#, r#"["a/+/b"]"#, r#"["+","a+"]"#,
    r##"["a#%c"]"##, r##"["%u#"]"##, r##"["#%C"]"##, r##"["#%"]"##, r##"["#/%\u0063"]"##, r##"[{"eq":"a#"}]"##,
    r#"[{"eq":"%c"}]"#, r#"[{"eq":5}]"#, r#"[{"eq":null}]"#, r#"[{"eq":["a"]}]"#, r#"[{}]"#, r#"[{"EQ":"a"}]"#,
    r#"[{"eq":"a","eq":1}]"#, r#"[{"eq":1,"eq":"a"}]"#, r#"[{"e\u0071":"","x":1}]"#, r#"["a",5]"#, r#"["a",null]"#, "[[]]",
    r#"[["a"]]"#, r#"["a",true]"#, r#""a""#, r#""all""#, "null", "true", "0", "{}", r#"{"eq":"a"}"#,
];
/// What comes behind the fourth element.
const BEHIND: &[&str] = &["", ",null", ",\"x\",[[{}]]"];

/// The n-th combination of all that stands above; none past the last.
pub fn rule(n: usize) -> Option<Vec<u8>> {
    let mut n = n;
    let mut one = |values: &[&'static str]| {
        let value = values[n % values.len()];
        n /= values.len();
        value
    };
    let (behind, topics, control) = (one(BEHIND), one(TOPICS), one(CONTROL));
    let (users, access) = (one(USERS), one(ACCESS));
    if n > 0 {
        return None;
    }
    let comma = |value: &str| if value.is_empty() { String::new() } else { format!(",{value}") };
    Some(format!("[{access},{users}{}{}{behind}]", comma(control), comma(topics)).into())
}

/// Members of the users' object, with each of their values; the first is no member.
#[rustfmt::skip]
const MEMBERS: [(&str, &[&str]); 6] = [
    ("user", &["", "\"a\"", "\"\"", "5", "null"]),
    ("password", &["", "\"p\"", "\"\"", "7", "null"]),
    ("superuser", &["", "true", "false", "\"true\"", "1", "null"]),
    ("clientid", &["", "\"c\"", "5"]),
    ("ipaddr", &["", "\"1.2.3.4\"", "\"::0001\"", "[]"]),
    ("protocol", &["", "4", "260", "256", "\"4\"", "true"]),
];

/// The n-th rule of two accesses and all combinations of the members.
pub fn users(n: usize) -> Option<Vec<u8>> {
    let access = ["allow", "Deny"][n % 2];
    let mut n = n / 2;
    let mut members = Vec::new();
    for (name, values) in MEMBERS {
        let value = values[n % values.len()];
        n /= values.len();
        if !value.is_empty() {
            members.push(format!("\"{name}\":{value}"));
        }
    }
    (n == 0).then(|| format!("[\"{access}\",{{{}}}]", members.join(",")).into())
}

/// All clients of these values. An absent one lends what would agree.
pub fn clients() -> Vec<Client> {
    let texts = |own: &str, others: &[&str]| -> Vec<Lent<String>> {
        let given = others.iter().chain([&own]).map(|t| Lent { given: true, value: t.to_string() });
        given.chain([Lent { given: false, value: own.into() }]).collect()
    };
    let mut out = Vec::new();
    for id in ["c", ""] {
        for name in texts("a", &["", "b"]) {
            for password in texts("p", &["", "q"]) {
                for address in texts("1.2.3.4", &["::0001"]) {
                    for protocol in [(true, 4), (true, 0), (false, 4)] {
                        out.push(Client {
                            id: id.into(),
                            name: name.clone(),
                            password: Lent { given: password.given, value: password.value.clone().into() },
                            address: address.clone(),
                            protocol: Lent { given: protocol.0, value: protocol.1 },
                        });
                    }
                }
            }
        }
    }
    out
}
