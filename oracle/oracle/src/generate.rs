//! Inputs for filters and matching: all texts over a small alphabet, and random
//! ones, determined by a seed.

/// Every byte that filters and matching look at, and one that they don't.
pub const ALPHABET: &[u8; 5] = b"a$+#/";

/// The topic's limit in document 01. Matching itself has none.
pub const LIMIT: usize = 256;

/// The n-th text of this length over the alphabet, in its order.
pub fn nth_text(length: usize, n: usize) -> String {
    let digit = |place: usize| n / ALPHABET.len().pow((length - 1 - place) as u32) % ALPHABET.len();
    (0..length).map(|place| ALPHABET[digit(place)] as char).collect()
}

/// All texts over the alphabet up to this length, shortest first.
pub fn all_texts(length: usize) -> Vec<String> {
    let of_length = |n: usize| (0..ALPHABET.len().pow(n as u32)).map(move |i| nth_text(n, i));
    (0..=length).flat_map(of_length).collect()
}

/// splitmix64.
pub struct Random(u64);

impl Random {
    pub fn new(seed: u64) -> Random {
        Random(seed)
    }

    /// The generator of one block of work: each has its own.
    pub fn of_block(seed: u64, block: u64) -> Random {
        Random(Random(seed).next_u64() ^ Random(!block).next_u64())
    }

    pub(crate) fn next_u64(&mut self) -> u64 {
        self.0 = self.0.wrapping_add(0x9e37_79b9_7f4a_7c15);
        let z = (self.0 ^ (self.0 >> 30)).wrapping_mul(0xbf58_476d_1ce4_e5b9);
        let z = (z ^ (z >> 27)).wrapping_mul(0x94d0_49bb_1331_11eb);
        z ^ (z >> 31)
    }

    pub(crate) fn below(&mut self, n: usize) -> usize {
        (self.next_u64() % n as u64) as usize
    }

    pub(crate) fn percent(&mut self, p: usize) -> bool {
        self.below(100) < p
    }

    pub(crate) fn pick<'a>(&mut self, words: &[&'a str]) -> &'a str {
        words[self.below(words.len())]
    }
}

/// Characters of one to four bytes; `é` is here as one and as two.
const WORDS: &[&str] = &[
    "a", "b", "ab", "abc", "A", "bench", "g7", "start", "sport", "tennis", "SYS", "share", "0", " ", "a b",
    ".", "%c", "%u", "-", "ö", "é", "ß", "Ж", "°C", "€", "温度", "ア", "한", "𝄞", "😀", "e\u{301}",
];

/// Of these words, or printable ASCII.
pub fn is_readable(text: &str) -> bool {
    text.chars()
        .all(|c| c == ' ' || c.is_ascii_graphic() || !c.is_ascii() && WORDS.iter().any(|w| w.contains(c)))
}

/// Any scalar but the three that make levels and wildcards.
pub(crate) fn scalar(r: &mut Random) -> char {
    let top = [0x80, 0x800, 0x1_0000, 0x11_0000][r.below(4)];
    loop {
        match char::from_u32(r.below(top) as u32) {
            Some('/' | '+' | '#') | None => continue,
            Some(c) => return c,
        }
    }
}

fn word(r: &mut Random) -> String {
    if r.percent(12) {
        return (0..1 + r.below(5)).map(|_| scalar(r)).collect();
    }
    let mut word = r.pick(WORDS).to_string();
    while r.percent(25) {
        word.push_str(r.pick(WORDS));
    }
    word
}

/// A level without wildcards; often one that begins with `$`, or is empty.
fn level(r: &mut Random) -> String {
    match r.below(100) {
        0..=9 => String::new(),
        10..=12 => "$".into(),
        13..=29 => format!("${}", word(r)),
        30..=33 => format!("{}$", word(r)),
        _ => word(r),
    }
}

/// At most this many bytes, in whole characters.
fn cut(mut text: String, most: usize) -> String {
    while text.len() > most {
        text.pop();
    }
    text
}

/// A shorter text gets a level of its own before it, and then has `size` bytes.
pub fn pad(text: &str, size: usize) -> String {
    match size.checked_sub(text.len() + 1) {
        Some(n) => format!("{}/{text}", "p".repeat(n)),
        None => text.into(),
    }
}

/// A filter; one of eight or so isn't valid.
pub fn filter(r: &mut Random) -> String {
    let (levels, most) = match r.below(100) {
        0..=59 => (1 + r.below(5), 40),
        60..=84 => (3 + r.below(8), 100),
        _ => (8 + r.below(60), LIMIT),
    };
    let mut parts: Vec<String> = Vec::new();
    while parts.len() < levels && parts.iter().map(|p| p.len() + 1).sum::<usize>() < most {
        parts.push(if r.percent(22) { "+".into() } else { level(r) });
    }
    if r.percent(30) {
        parts.push("#".into());
    }
    let mut text = parts.join("/");
    if r.percent(12) {
        text = insert(r, &text, &["+", "#", "/#/", "#/"]);
    }
    if r.percent(4) {
        text = pad(&text, LIMIT - 1 + r.below(3));
    }
    cut(text, LIMIT + 1)
}

/// One of the pieces at some place between two characters.
fn insert(r: &mut Random, text: &str, pieces: &[&str]) -> String {
    let places: Vec<usize> = text.char_indices().map(|(i, _)| i).chain([text.len()]).collect();
    let at = places[r.below(places.len())];
    format!("{}{}{}", &text[..at], r.pick(pieces), &text[at..])
}

/// A text to check against a filter: mostly one that follows it level by level,
/// then perhaps damaged.
pub fn text(r: &mut Random, filter: &str) -> String {
    let mut levels = match r.below(100) {
        0..=9 => (0..1 + r.below(6)).map(|_| level(r)).collect(),
        10..=13 => return filter.into(),
        _ => follow(r, filter),
    };
    while r.percent(40) {
        damage(r, &mut levels);
    }
    cut(levels.join("/"), LIMIT + 1)
}

/// The text with `$` at the beginning of one of its levels.
pub(crate) fn with_dollar(r: &mut Random, text: &str) -> String {
    let mut levels: Vec<String> = text.split('/').map(String::from).collect();
    let at = r.below(levels.len());
    levels[at].insert(0, '$');
    cut(levels.join("/"), LIMIT + 1)
}

/// The filter's levels, with something in place of its wildcards.
fn follow(r: &mut Random, filter: &str) -> Vec<String> {
    let mut out = Vec::new();
    for part in filter.split('/') {
        match part {
            "+" => out.push(taken(r)),
            "#" => (0..r.below(4)).for_each(|_| out.push(taken(r))),
            part => out.push(part.into()),
        }
    }
    out
}

/// What may stand where the filter has a wildcard: now and then a wildcard.
fn taken(r: &mut Random) -> String {
    match r.below(20) {
        0 => "+".into(),
        1 => "#".into(),
        _ => level(r),
    }
}

fn damage(r: &mut Random, levels: &mut Vec<String>) {
    if levels.is_empty() || r.percent(12) {
        levels.insert(r.below(levels.len() + 1), taken(r));
        return;
    }
    let last = levels.len() - 1;
    let at = r.below(levels.len());
    match r.below(10) {
        0 => levels.truncate(last),
        1 => levels.push(taken(r)),
        2 => drop(levels.remove(at)),
        3 => levels[at] = taken(r),
        4 => levels[at].insert(0, '$'),
        5 => drop(levels[at].pop()),
        6 => levels[at].push('a'),
        7 => levels[at] = swap_case(&levels[at]),
        8 => levels[at] = next_scalar(&levels[at]),
        _ => levels[at] = insert(r, &levels[at], &["+", "#"]),
    }
}

fn swap_case(text: &str) -> String {
    text.chars()
        .map(|c| if c.is_ascii_lowercase() { c.to_ascii_uppercase() } else { c.to_ascii_lowercase() })
        .collect()
}

/// The text with the scalar after its last one, which differs in few bits.
fn next_scalar(text: &str) -> String {
    let mut scalars: Vec<char> = text.chars().collect();
    if let Some(c) = scalars.last_mut() {
        *c = char::from_u32(*c as u32 + 1).unwrap_or('a');
    }
    scalars.into_iter().collect()
}
