//! Lines by hand: of each limit and each class of error.

/// A plugin rule with something of everything, a per-client rule, and others.
#[rustfmt::skip]
pub const RICH: &[&str] = &[
    concat!("[\"allow\",{\"user\":\"b\\u00f6\\uD834\\udd1e\",\"protocol\":4 },\t\"pubsub\",[\"b/%c/é€𝄞\",",
        "{\"eq\":\"\\\"\\\\\\/\\b\\n\"}]\r,[null,true,false,0,18446744073709551615]]"),
    r#"{"permission":"allow","action":"all","qos":[0,1,2],"retain":false,"topic":"bench/${clientid}/#"}"#,
    r#"{"a":1,"a":{"b":[],"c":{}},"":"","a":"\u0061"}"#,
    r#"[[[[[[[[]]]]]],[[[[{"x":[]}]]]],{"a":{"b":{"c":{"d":{"e":0}}}}}]]"#,
    r#" [ 0 , 18446744073709551614 , 18446744073709551615 , { "n" : 10 } ] "#,
];

/// Lines that document 01 reads.
#[rustfmt::skip]
pub const DOCUMENTS: &[&str] = &[
    r#"["allow",{"user":"bo"},"publish",["bench/%c/set"]]"#,
    r#"["deny","all","pubsub"]"#,
    r#"["publish",0,"g7","bo",null,null,4,"bench/g7/set"]"#,
    r#"["connected",1,"g7","bo"]"#,
    r#"{"permission":"deny","action":"all","topic":"${username}/#"}"#,
    r#"{"user":"a","user":1}"#,
    r#"{"a":{"a":{"a":[]}},"a":null,"a":""}"#,
    "null", "true", "false", "[]", "{}", "\"\"", "[0]", "[[],[],{}]", "{\"\":0}",
    "0", "9", "10", "9223372036854775808", "18446744073709551609", "18446744073709551614",
    "18446744073709551615",
    "  null", "\tnull\r", "\r[\t]\r ", "[\r0\t, 1 ]", "{ \"a\"\t:\r0 , \"b\" : { } }",
    "\"\u{7f}\"", "\"\u{80}\u{7ff}\u{800}\u{ffff}\u{10000}\u{10ffff}\"", "\"\u{d7ff}\u{e000}\"", "\"\u{feff}\"",
    r#""\"\\\/\b\f\n\r\t""#, r#""\u0000\u001f\u000A""#, r#""\u00e9\u00E9\uABCD\uabcd\ufFfF""#,
    r#""\ud800\udc00\uDBFF\uDFFF\uD834\udd1E""#, r#""\ud7ff\ue000""#,
];

/// Lines that it doesn't.
#[rustfmt::skip]
pub const OTHERS: &[&str] = &[
    "", " ", "\t\r",
    // Numbers; serde_json reads some of them, but not as a u64.
    "-0", "-1", "1.0", "0.5", "1e0", "1e5", "1E5", "1E+5", "1e-5", "18446744073709551616",
    "18446744073709551620", "18446744073709551700", "20000000000000000000", "99999999999999999999",
    "184467440737095516150", "18446744073709551615.0", "18446744073709551615e0", "36893488147419103232",
    r#"["allow",{"protocol":4.0}]"#, r#"["allow","all","all",[],-1]"#, r#"{"a":-1,"a":1}"#, r#"{"a":1,"a":1e0}"#,
    "-", "--1", "+0", "00", "01", "[00]", "018446744073709551615", "1.", ".5", "1e", "1e400", "0x10", "1_000",
    "1 0", "NaN", "Infinity", "\u{661}",
    // Words.
    "nul", "nulll", "Null", "NULL", "tru", "truefalse", "True", "fals", "False", "n", "t", "f", "a", "undefined",
    // Behind the value.
    "null null", "0 0", "[] []", "{}{}", "0,", "null\0", "null//", "\"a\"b",
    // Brackets, commas, colons.
    ",", ":", "[", "]", "{", "}", "[[]", "[]]", "{}}", "[}", "{]", "[{]}", "[,]", "[0,]", "[,0]", "[0,,0]", "[0 0]",
    "[0:0]", "[\"a\":0]", "(0)", "[0", "[0,", "{,}", "{\"a\":0,}", "{,\"a\":0}", "{\"a\"}", "{\"a\",0}", "{\"a\" 0}",
    "{\"a\"::0}", "{\"a\":}", "{\"a\":0 \"b\":0}", "{\"a\":0;\"b\":0}", "{\"a\":0:0}", "{\"a\"", "{\"a\":", "{\"a\":0",
    "{\"a\":0,",
    // Member names.
    "{:0}", "{0:0}", "{a:0}", "{null:0}", "{[]:0}", "{'a':0}", "{\"a\u{0}\":0}", "{\"a\tb\":0}", "{\"a\\x\":0}",
    // Strings.
    "\"", "\"a", "a\"", "\"\"\"", "\"\\\"", "\"\\", "'a'", "\"\\x41\"", "\"\\'\"", "\"\\0\"", "\"\\U0041\"",
    "\"\\u\"", "\"\\u1\"", "\"\\u12\"", "\"\\u123\"", "\"\\u123g\"", "\"\\ug123\"", "\"\\u+123\"", "\"\\u 123\"",
    "\"\\u12",
    // A byte-order mark, what else is blank in Unicode, comments, and letters.
    "\u{feff}", "\u{feff}null", "null\u{feff}", "\u{a0}null", "\u{2028}null", "\u{85}null", "\u{b}null",
    "\u{c}null", "\0", "/**/null", "#", "é", "[é]",
];

/// Bytes on both sides of each boundary of UTF-8: cut, overlong, surrogates, too
/// large, or just right.
#[rustfmt::skip]
pub const BYTES: &[&[u8]] = &[
    b"\"\x80\"", b"\"\xbf\"", b"\"\xc0\x80\"", b"\"\xc0\xaf\"", b"\"\xc1\xbf\"", b"\"\xc2\x80\"", b"\"\xc2\"",
    b"\"\xc2a\"", b"\"\xc2\xc0\"", b"\"\xdf\xbf\"",
    b"\"\xe0\x80\x80\"", b"\"\xe0\x9f\xbf\"", b"\"\xe0\xa0\x80\"", b"\"\xe2\x82\"", b"\"\xe2\x82", b"\"\xe2(\xa1\"",
    b"\"\xed\x9f\xbf\"", b"\"\xed\xa0\x80\"", b"\"\xed\xaf\xbf\"", b"\"\xed\xb0\x80\"", b"\"\xed\xbf\xbf\"",
    b"\"\xed\xa0\x80\xed\xb0\x80\"", b"\"\xee\x80\x80\"", b"\"\xef\xbf\xbf\"",
    b"\"\xf0\x80\x80\x80\"", b"\"\xf0\x8f\xbf\xbf\"", b"\"\xf0\x90\x80\x80\"", b"\"\xf0\x9d\x84\"",
    b"\"\xf4\x8f\xbf\xbf\"", b"\"\xf4\x90\x80\x80\"", b"\"\xf5\x80\x80\x80\"", b"\"\xf8\x88\x80\x80\x80\"",
    b"\"\xfe\"", b"\"\xff\"", b"{\"\xff\":0}", b"\xff", b"[\xc3\xa9]", b"null\x80", b"\xef\xbb\xbfnull",
];

/// What comes behind a surrogate.
#[rustfmt::skip]
pub const BEHIND: [&str; 11] =
    ["", "a", "\\", "\\n", "\\u", "\\u0041", "\\ud800", "\\uDC00", "\\udfff", "\\ue000", "\\udbff"];

/// A character as written, and its size.
#[rustfmt::skip]
pub const CHARACTERS: [(&str, usize); 11] = [
    ("y", 1), ("é", 2), ("€", 3), ("𝄞", 4), ("\\n", 1), ("\\u0000", 1), ("\\u007f", 1), ("\\u0080", 2),
    ("\\u07FF", 2), ("\\u0800", 3), ("\\uD834\\uDD1e", 4),
];
