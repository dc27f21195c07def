//! Random lines: documents, some of them with what JSON or document 01 refuses,
//! and damaged copies.

use crate::generate::{scalar, Random, LIMIT};

/// Some bytes over the longest line of document 01.
const MOST: usize = 2_200;

#[rustfmt::skip]
const NAMES: &[&str] = &[
    "user", "clientid", "ipaddr", "protocol", "password", "superuser", "eq", "permission", "action", "qos",
    "retain", "topic", "", "a", "x y", "\\u0061", "\\/", "é", "\\ud83d\\uDE00",
];
const ACCESS: &[&str] = &["allow", "deny", "Allow", "DENY", "none", "\\u0061llow"];
const CONTROL: &[&str] = &["all", "connect", "publish", "subscribe", "pubsub", "PubSub", "x"];
const TOPICS: &[&str] =
    &["bench/%c/set", "#", "+/%u", "$SYS/#", "eq a/+", "a/${clientid}/#", "${username}", "é/€"];
const CLIENT_RULE: [&str; 6] = ["permission", "action", "topic", "qos", "retain", "qos"];
const ESCAPES: &[&str] = &["\\\"", "\\\\", "\\/", "\\b", "\\f", "\\n", "\\r", "\\t"];

#[rustfmt::skip]
const PLAIN: &[&str] = &[
    "0", "1", "2", "4", "10", "260", "9007199254740993", "9223372036854775807", "9223372036854775808",
    "18446744073709551599", "18446744073709551609", "18446744073709551610", "18446744073709551614",
    "18446744073709551615",
];
#[rustfmt::skip]
const OTHER_NUMBERS: &[&str] = &[
    // serde_json reads these, but not as a u64.
    "-0", "-1", "1.0", "0.5", "1e5", "1E5", "1E+5", "1e-400", "0e0", "-0.0", "18446744073709551616",
    "18446744073709551620", "18446744073709551700", "99999999999999999999", "184467440737095516150",
    "-9223372036854775808", "100000000000000000000000000000", "123456789012345678901e2",
    // And refuses these.
    "00", "01", "-", "+1", "1.", ".5", "1e", "1e+", "1.e1", "-01", "1e400", "0x1", "1_0", "NaN", "Infinity",
];
/// What may not stand in a string.
#[rustfmt::skip]
const NO_CHARACTERS: &[&[u8]] = &[
    b"\\ud800", b"\\uDFFF", b"\\uD834\\u0041", b"\\uD834\\n", b"\\uD834x", b"\\ud834\\ud834", b"\\x41", b"\\'",
    b"\\u12g4", b"\\u+123", b"\\U0041", b"\\", b"\0", b"\t", b"\r", b"\x1f", b"\x80", b"\xc0\xaf", b"\xc1\xbf",
    b"\xc3", b"\xe0\x9f\xbf", b"\xe2\x82", b"\xed\xa0\x80", b"\xed\xbf\xbf", b"\xf0\x8f\xbf\xbf",
    b"\xf4\x90\x80\x80", b"\xff",
];
#[rustfmt::skip]
const NO_VALUES: &[&str] =
    &["", "nul", "True", "NULL", "'a'", "a", ",", "\u{feff}1", "undefined", "\u{a0}", "/**/1"];

struct Writer<'a> {
    r: &'a mut Random,
    out: Vec<u8>,
    /// Of a hundred places how many have blanks, and how many a fault.
    blanks: usize,
    faults: usize,
}

/// A line; most are documents.
pub fn line(r: &mut Random) -> Vec<u8> {
    let blanks = [0, 0, 5, 30][r.below(4)];
    let faults = [0, 0, 0, 3, 10][r.below(5)];
    let mut w = Writer { r, out: Vec::new(), blanks, faults };
    w.blank();
    match w.r.below(10) {
        0..=2 => w.rule(),
        3..=4 => w.client_rule(),
        5..=6 => w.nested(),
        _ => {
            let depth = w.r.below(9);
            w.value(depth)
        }
    }
    w.blank();
    w.out
}

impl Writer<'_> {
    fn put(&mut self, token: impl AsRef<[u8]>) {
        self.out.extend(token.as_ref());
        self.blank();
    }

    fn one(&mut self, tokens: &[&str]) {
        let token = self.r.pick(tokens);
        self.put(token);
    }

    fn blank(&mut self) {
        while self.r.percent(self.blanks) {
            self.out.push(b" \t\r"[self.r.below(3)]);
        }
    }

    /// So many items, with commas between them; now and then one too many.
    fn items(&mut self, opens: &str, n: usize, closes: &str, mut item: impl FnMut(&mut Self, usize)) {
        self.put(opens);
        for i in 0..n {
            if i > 0 {
                self.put(",");
            }
            item(self, i);
        }
        if self.r.percent(self.faults) {
            self.one(&[",", ":", "]", "}", "\"\""]);
        }
        self.put(closes);
    }

    fn value(&mut self, depth: usize) {
        let room = depth > 0 && self.out.len() < MOST;
        match self.r.below(10) {
            0..=2 if room => {
                let n = self.r.below(5);
                self.items("[", n, "]", |w, _| w.value(depth - 1));
            }
            3..=5 if room => {
                let n = self.r.below(4);
                self.object(n, |w| w.value(depth - 1));
            }
            0 if self.r.percent(self.faults) => self.one(NO_VALUES),
            0 | 3 | 6 => self.one(&["null", "true", "false"]),
            1 | 4 | 7 => self.number(),
            _ => self.string(),
        }
    }

    /// Now and then with a name that was there before.
    fn object(&mut self, n: usize, mut value: impl FnMut(&mut Self)) {
        let shared = self.r.pick(NAMES);
        self.items("{", n, "}", |w, _| {
            match w.r.below(10) {
                0 => w.string(),
                1..=3 => w.word(&[shared]),
                _ => w.word(NAMES),
            }
            w.put(":");
            value(w);
        });
    }

    /// One of the words as a string.
    fn word(&mut self, words: &[&str]) {
        let word = format!("\"{}\"", self.r.pick(words));
        self.put(word);
    }

    /// Six to ten brackets deep, with other values beside.
    fn nested(&mut self) {
        let mut closes = Vec::new();
        for _ in 0..6 + self.r.below(5) {
            if self.r.percent(60) {
                self.put("[");
                closes.push("]");
            } else {
                self.put("{");
                self.word(NAMES);
                self.put(":");
                closes.push("}");
            }
        }
        if closes.last() == Some(&"}") || self.r.percent(40) {
            self.value(0);
        }
        while let Some(bracket) = closes.pop() {
            self.put(bracket);
            if closes.last() == Some(&"]") && self.r.percent(15) {
                self.put(",");
                self.value(1);
            }
        }
    }

    fn number(&mut self) {
        let word = match self.r.below(100) {
            p if p < 3 * self.faults + 2 => self.r.pick(OTHER_NUMBERS).into(),
            0..=59 => self.r.pick(PLAIN).into(),
            _ => {
                let shift = self.r.below(64);
                (self.r.next_u64() >> shift).to_string()
            }
        };
        self.put(word);
    }

    /// A few characters, or about as many as the limit.
    fn string(&mut self) {
        let mut room = match self.r.below(100) {
            0..=5 if self.out.len() < MOST => LIMIT - 2 + self.r.below(5),
            _ => self.r.below(12),
        };
        self.out.push(b'"');
        while room > 0 {
            room -= self.character(room);
        }
        if self.r.percent(self.faults) {
            self.out.extend(NO_CHARACTERS[self.r.below(NO_CHARACTERS.len())]);
        }
        self.put("\"");
    }

    /// A character of at most so many bytes, raw or escaped; its size.
    fn character(&mut self, room: usize) -> usize {
        let c = match self.r.below(10) {
            0..=5 => char::from(b'a' + self.r.below(26) as u8),
            6 => {
                self.out.extend(self.r.pick(ESCAPES).bytes());
                return 1;
            }
            _ => scalar(self.r),
        };
        if c.len_utf8() > room {
            self.out.push(b'x');
            return 1;
        }
        if c < ' ' || c == '"' || c == '\\' || self.r.percent(30) {
            self.escape(c);
        } else {
            self.out.extend(c.encode_utf8(&mut [0; 4]).bytes());
        }
        c.len_utf8()
    }

    /// One `\u` or two, each hexadecimal digit of either case.
    fn escape(&mut self, c: char) {
        for unit in c.encode_utf16(&mut [0; 2]) {
            self.out.extend(b"\\u");
            for digit in format!("{unit:04x}").bytes() {
                let upper = self.r.percent(50);
                self.out.push(if upper { digit.to_ascii_uppercase() } else { digit });
            }
        }
    }

    fn rule(&mut self) {
        let n = 1 + self.r.below(6);
        self.items("[", n, "]", |w, i| match i {
            0 => w.word(ACCESS),
            1 if w.r.percent(40) => w.word(&["all"]),
            1 => {
                let n = w.r.below(5);
                w.object(n, |w| w.value(0))
            }
            2 => w.word(CONTROL),
            3 => {
                let n = w.r.below(6);
                w.items("[", n, "]", |w, _| w.topic());
            }
            _ => w.value(2),
        });
    }

    fn topic(&mut self) {
        match self.r.below(4) {
            0 => self.object(1, |w| w.word(TOPICS)),
            1 => self.string(),
            _ => self.word(TOPICS),
        }
    }

    fn client_rule(&mut self) {
        let n = 2 + self.r.below(5);
        self.items("{", n, "}", |w, i| {
            w.word(&CLIENT_RULE[i..=i]);
            w.put(":");
            match i {
                0 => w.word(ACCESS),
                1 => w.word(CONTROL),
                2 => w.word(TOPICS),
                _ => w.value(1),
            }
        });
    }
}

/// The line cut, or with a byte replaced, put in or left out.
pub fn damaged(r: &mut Random, line: &[u8]) -> Vec<u8> {
    let mut line = line.to_vec();
    let at = r.below(line.len() + 1);
    let byte = byte(r);
    match r.below(8) {
        _ if at == line.len() => line.push(byte),
        0 => line.truncate(at),
        1 => drop(line.remove(at)),
        2..=4 => line.insert(at, byte),
        _ => line[at] = byte,
    }
    line
}

/// One of ten: the line with an LF as a blank, at an end or beside a bracket, a comma or a colon; now and
/// then anywhere.
pub fn with_line_feed(r: &mut Random, line: &[u8]) -> Option<Vec<u8>> {
    if !r.percent(10) {
        return None;
    }
    let (mut places, mut inside) = (vec![0, line.len()], false);
    for (at, byte) in line.iter().enumerate() {
        match byte {
            b'"' if at == 0 || line[at - 1] != b'\\' => inside = !inside,
            b'[' | b']' | b'{' | b'}' | b',' | b':' if !inside => places.extend([at, at + 1]),
            _ => (),
        }
    }
    if r.percent(10) {
        places = (0..=line.len()).collect();
    }
    let mut line = line.to_vec();
    line.insert(places[r.below(places.len())], b'\n');
    Some(line)
}

/// Any but LF, often one that means something.
fn byte(r: &mut Random) -> u8 {
    const MEANING: &[u8] = b"[]{},:\"\\/019-+.eEutfnbrdD \t\r\x00\x1f\x7f\x80\xbf\xc3\xed\xf4";
    if r.percent(50) {
        return MEANING[r.below(MEANING.len())];
    }
    match r.below(255) as u8 {
        b'\n' => 255,
        byte => byte,
    }
}
