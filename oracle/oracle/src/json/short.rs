//! All short lines of several families, and all small damages of a few lines.

/// All sequences of at most `length` tokens, between `before` and `after`.
pub struct Family {
    pub name: &'static str,
    before: &'static [u8],
    tokens: Vec<Vec<u8>>,
    after: &'static [u8],
    length: u32,
}

impl Family {
    pub fn lines(&self) -> usize {
        (0..=self.length).map(|length| self.tokens.len().pow(length)).sum()
    }

    /// The n-th line, shorter ones first.
    pub fn line(&self, mut n: usize) -> Vec<u8> {
        let mut length = 0;
        while n >= self.tokens.len().pow(length) {
            n -= self.tokens.len().pow(length);
            length += 1;
        }
        let mut line = self.before.to_vec();
        for place in (0..length).rev() {
            line.extend(&self.tokens[n / self.tokens.len().pow(place) % self.tokens.len()]);
        }
        line.extend(self.after);
        line
    }
}

fn words(text: &str) -> Vec<Vec<u8>> {
    text.split_whitespace().map(|word| word.into()).collect()
}

/// Every byte, LF too: a line that is handed over can hold it.
fn bytes() -> impl Iterator<Item = u8> {
    0..=255
}

/// Bytes on both sides of each boundary of UTF-8.
const EDGES: &[u8] =
    b"a\x1f\x7f\x80\x8f\x90\x9f\xa0\xbf\xc0\xc1\xc2\xdf\xe0\xe1\xec\xed\xee\xef\xf0\xf1\xf3\xf4\xf5\xff";

pub fn families() -> Vec<Family> {
    let all = || bytes().map(|b| vec![b]).collect();
    let edges = EDGES.iter().map(|b| vec![*b]).collect();
    let hex = words("0 1 7 8 9 a b c d e f A B C D E F g");
    let mut structure = words(r#"[ ] { } , : "a" 1"#);
    structure.push(b" ".to_vec());
    let mut feeds = words(r#"[ ] , " 0"#);
    feeds.push(b"\n".to_vec());
    let family = |name, before, tokens, after, length| Family { name, before, tokens, after, length };
    vec![
        family("texts", b"", words(r#"[ ] { } , : " \ 0 1 t a"#), b"", 6),
        family("structure", b"", structure, b"", 7),
        family("line feeds", b"", feeds, b"", 7),
        family("numbers", b"", words("0 1 9 - + . e E"), b"", 6),
        family("large numbers", b"1844674407370955161", words("0 1 4 5 6 9 . - e"), b"", 4),
        family("words", b"", words("t r u e f a l s n"), b"", 5),
        family("escapes", b"\"", words(r#"\ " \u d8 DC 00 0 n a"#), b"\"", 6),
        family("code units", b"\"\\u", hex.clone(), b"\"", 4),
        family("second code units", b"\"\\uD834\\u", hex, b"\"", 4),
        family("UTF-8", b"\"", edges, b"\"", 4),
        family("any bytes", b"", all(), b"", 2),
        family("any bytes in a string", b"\"", all(), b"\"", 2),
        family("any bytes in an escape", b"\"\\", all(), b"\"", 2),
        family("depth", b"", words("[ ] [[[[ ]]]] {\"a\": }"), b"", 7),
    ]
}

/// The line cut at each place, and without each of its bytes.
pub fn shortened(line: &[u8]) -> Vec<Vec<u8>> {
    let cut = (0..line.len()).map(|at| line[..at].to_vec());
    let without = (0..line.len()).map(|at| [&line[..at], &line[at + 1..]].concat());
    cut.chain(without).collect()
}

/// The line with this byte in place of the one there; or before it.
pub fn with_byte(line: &[u8], at: usize, byte: u8) -> [Vec<u8>; 2] {
    [[&line[..at], &[byte], &line[at + 1..]].concat(), [&line[..at], &[byte], &line[at..]].concat()]
}

/// All of it: the line as it is, shortened, and with each byte at each place.
pub fn damaged(line: &[u8]) -> impl Iterator<Item = Vec<u8>> + '_ {
    let places = (0..line.len()).flat_map(|at| bytes().map(move |byte| (at, byte)));
    let bytes = places.flat_map(|(at, byte)| with_byte(line, at, byte));
    [line.to_vec()].into_iter().chain(shortened(line)).chain(bytes)
}
