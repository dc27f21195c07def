//! What is compared: everything that is short, then random inputs. Each phase
//! is split into blocks, which the threads take in turn.

use std::sync::atomic::{AtomicUsize, Ordering};
use std::thread;
use std::time::Instant;

use oracle::cases::Kind;
use oracle::decide::Machine;
use oracle::events::{self, History};
use oracle::generate::{self, Random, ALPHABET, LIMIT};
use oracle::json::generate::with_line_feed;
use oracle::json::lines::RICH;
use oracle::json::short::{families, Family};
use oracle::json::{self, judge, Judged};
use oracle::matching::{checked, filter, has_dollar, plain, tree, Topic, Tree};
use oracle::questions::{self, Asked, List, Reply};
use oracle::rules::{self, Client, Judged as JudgedRule};
use oracle::runtime;

use crate::histories::compare_history;
use crate::store::Store;
use crate::tally::Tally;

/// Hands the blocks 0, 1, 2, .. to the processors until one says that there are
/// no more.
pub fn in_blocks(block: impl Fn(usize, &mut Tally) -> bool + Sync) -> Tally {
    let next = AtomicUsize::new(0);
    let work = || {
        let mut tally = Tally::default();
        while block(next.fetch_add(1, Ordering::Relaxed), &mut tally) {}
        tally
    };
    let mut sum = Tally::default();
    let threads = thread::available_parallelism().map_or(2, |n| n.get());
    thread::scope(|scope| {
        let workers: Vec<_> = (0..threads).map(|_| scope.spawn(work)).collect();
        for worker in workers {
            sum.add(worker.join().expect("a worker"));
        }
    });
    sum
}

fn compare_valid(text: &str, tally: &mut Tally) {
    let rust = filter(text).is_some();
    tally.count(Kind::V, text, "", rust, port::valid_filter(text.as_bytes()));
}

/// V: all texts up to this length.
pub fn short_filters(length: usize) -> Tally {
    const BLOCK: usize = 1 << 14;
    let mut tally = Tally::default();
    for length in 0..=length {
        let texts = ALPHABET.len().pow(length as u32);
        tally.add(in_blocks(|block, tally| {
            let first = block * BLOCK;
            for n in first..texts.min(first + BLOCK) {
                compare_valid(&generate::nth_text(length, n), tally);
            }
            first < texts
        }));
    }
    tally
}

/// T and P: each valid filter with each text, up to this length.
pub fn short_pairs(length: usize) -> Tally {
    let texts = generate::all_texts(length);
    let checked: Vec<_> = texts.iter().map(|t| Checked::new(t)).collect();
    let filters: Vec<_> = texts.iter().filter_map(|t| Some((t, filter(t)?))).collect();
    in_blocks(|block, tally| {
        let Some((f, topic)) = filters.get(block) else { return false };
        let tree = tree(topic);
        checked.iter().for_each(|text| compare_pair(f, topic, &tree, text, tally));
        true
    })
}

/// A checked text, with what is known of it before it meets a filter.
struct Checked<'a> {
    text: &'a str,
    /// No levels where it is no valid filter.
    levels: Topic,
    dollar: bool,
}

impl Checked<'_> {
    fn new(text: &str) -> Checked<'_> {
        Checked { text, levels: checked(text), dollar: has_dollar(text) }
    }
}

/// T and P of a filter, parsed and in a tree, and a text.
#[inline]
fn compare_pair(f: &str, topic: &Topic, tree: &Tree, checked: &Checked, tally: &mut Tally) {
    let Checked { text, levels, dollar } = checked;
    let rust = tree.is_match(levels);
    tally.count(Kind::T, f, text, rust, port::tree_match(f.as_bytes(), text.as_bytes()));
    let judged = plain(f, topic, text, *dollar);
    let tree = (!levels.is_empty()).then_some(rust);
    tally.count_plain(f, text, judged, tree, port::plain_match(f.as_bytes(), text.as_bytes()));
}

/// V, T and P of random filters and texts, until the time is up.
pub fn random(seed: u64, until: Instant) -> Tally {
    in_blocks(|block, tally| {
        let mut r = Random::of_block(seed, block as u64);
        for _ in 0..1000 {
            let f = generate::filter(&mut r);
            compare_valid(&f, tally);
            let parsed = filter(&f).map(|topic| (tree(&topic), topic));
            for _ in 0..4 {
                let text = generate::text(&mut r, &f);
                compare_valid(&text, tally);
                if let Some((tree, topic)) = &parsed {
                    compare_pair(&f, topic, tree, &Checked::new(&text), tally);
                }
            }
        }
        Instant::now() < until
    })
}

/// J, and L at the limit, at the longest string of the line and one byte below.
fn compare_line(line: &[u8], tally: &mut Tally) {
    let judged = judge(line);
    tally.count_document(line, judged, port::is_document(line));
    let mut within = |most| {
        tally.count_within(line, most, judged.is_within(most), port::is_document_within(line, most));
    };
    within(LIMIT);
    if let Judged::Document { longest } = judged {
        within(longest);
        longest.checked_sub(1).into_iter().for_each(within);
    }
}

/// J and L: all lines of the short families.
pub fn short_lines() -> Tally {
    let mut tally = Tally::default();
    families().iter().for_each(|family| tally.add(family_lines(family)));
    tally
}

fn family_lines(family: &Family) -> Tally {
    const BLOCK: usize = 1 << 14;
    in_blocks(|block, tally| {
        let first = block * BLOCK;
        for n in first..family.lines().min(first + BLOCK) {
            compare_line(&family.line(n), tally);
        }
        first < family.lines()
    })
}

/// J and L: some lines with every single damage.
pub fn damaged_lines() -> Tally {
    in_blocks(|block, tally| {
        let Some(line) = RICH.get(block) else { return false };
        json::short::damaged(line.as_bytes()).for_each(|line| compare_line(&line, tally));
        true
    })
}

/// J and L of random lines and damaged copies, some with an LF, until the time is up.
pub fn random_lines(seed: u64, until: Instant) -> Tally {
    in_blocks(|block, tally| {
        let mut r = Random::of_block(seed, block as u64);
        for _ in 0..1000 {
            let line = json::generate::line(&mut r);
            compare_line(&line, tally);
            for _ in 0..3 {
                compare_line(&json::generate::damaged(&mut r, &line), tally);
            }
            with_line_feed(&mut r, &line).iter().for_each(|line| compare_line(line, tally));
        }
        Instant::now() < until
    })
}

/// R, and I of these clients.
fn compare_rule<'a>(line: &[u8], clients: impl IntoIterator<Item = &'a Client>, tally: &mut Tally) {
    let judged = rules::judge(line);
    tally.count_rule(line, judged.verdict, port::rule_refusal(line));
    clients.into_iter().for_each(|client| compare_identity(line, &judged, client, tally));
}

fn compare_identity(line: &[u8], judged: &JudgedRule, client: &Client, tally: &mut Tally) {
    let Client { id, name, password, address, protocol } = client;
    let port = port::identity(
        line,
        id.as_bytes(),
        (name.given, name.value.as_bytes()),
        (password.given, &password.value),
        (address.given, address.value.as_bytes()),
        (protocol.given, protocol.value),
    );
    tally.count_identity(line, client, judged.identity(client), port);
}

/// R of all combinations of a rule's parts.
pub fn short_rules() -> Tally {
    const BLOCK: usize = 1 << 12;
    in_blocks(|block, tally| {
        let mut rules = (block * BLOCK..(block + 1) * BLOCK).map_while(rules::short::rule).peekable();
        let any = rules.peek().is_some();
        rules.for_each(|line| compare_rule(&line, [], tally));
        any
    })
}

/// I of all combinations of users with all clients of a few values.
pub fn short_identities() -> Tally {
    let clients = rules::short::clients();
    in_blocks(|block, tally| {
        let Some(line) = rules::short::users(block) else { return false };
        compare_rule(&line, &clients, tally);
        true
    })
}

/// R and I of some rules with every single damage.
pub fn damaged_rules() -> Tally {
    in_blocks(|block, tally| {
        let Some(rule) = rules::short::RULES.get(block) else { return false };
        let client = rules::generate::client(&mut Random::new(0), rule.as_bytes());
        json::short::damaged(rule.as_bytes()).for_each(|line| compare_rule(&line, [&client], tally));
        true
    })
}

/// R and I of random rules and damaged copies, some with an LF, until the time is up.
pub fn random_rules(seed: u64, until: Instant) -> Tally {
    in_blocks(|block, tally| {
        let mut r = Random::of_block(seed, block as u64);
        for _ in 0..500 {
            let elements = rules::generate::elements(&mut r);
            let mut lines = vec![rules::generate::line(&mut r, &elements)];
            lines.extend((0..3).map(|_| rules::generate::damaged(&mut r, &elements)));
            lines.extend(with_line_feed(&mut r, &lines[0]));
            for line in &lines {
                let clients: Vec<_> = (0..4).map(|_| rules::generate::client(&mut r, line)).collect();
                compare_rule(line, &clients, tally);
            }
        }
        Instant::now() < until
    })
}

/// O: 1 for a text over its room or over 256 lines, else the number of the first line that the
/// judge of rules refuses; and every byte of the store.
fn compare_open(store: &mut Store, text: &[u8], tally: &mut Tally) {
    let mut lines: Vec<&[u8]> = text.split(|b| *b == b'\n').collect();
    if lines.last().is_some_and(|line| line.is_empty()) {
        lines.pop();
    }
    let numbers = lines.iter().map(|line| rules::judge(line).verdict.number() as u32);
    let judged = match numbers.enumerate().find(|(_, number)| *number != 0) {
        _ if text.len() as u64 > store.counts.bytes => 1,
        _ if lines.len() > 256 => 1 + 256 * 257,
        Some((line, number)) => number + 256 * (line as u32 + 1),
        None => 0,
    };
    let none = events::Tables::default();
    let meant = if judged == 0 { store.laid_out(text, &none) } else { store.bytes.clone() };
    let port = store.open(text);
    tally.count_open(text, judged, port, store.bytes == meant);
}

/// Both answers to one question, from nothing.
fn both(list: &List, asked: &Asked) -> (Reply, u32) {
    let runtime = runtime();
    let rust = asked.judge(&list.machine(&runtime), &runtime);
    let mut store = Store::new(questions::ROOM as u64);
    store.open(&list.text());
    (rust, store.ask(asked, list.disconnect))
}

/// The list without the rules that the difference doesn't need: halves first, then less at a time.
fn reduced(list: &List, asked: &Asked) -> (List, Asked, Reply, u32) {
    let mut list = list.clone();
    let mut some = list.lines.len().div_ceil(2);
    while some > 0 {
        let mut at = 0;
        while at < list.lines.len() {
            let mut fewer = list.clone();
            fewer.lines.drain(at..fewer.lines.len().min(at + some));
            let (rust, port) = both(&fewer, asked);
            if rust.number() != port {
                list = fewer;
            } else {
                at += some;
            }
        }
        some /= 2;
    }
    let (rust, port) = both(&list, asked);
    (list, asked.clone(), rust, port)
}

/// Q on a store that was opened for the list.
fn compare_question(
    list: &List,
    machine: &Machine,
    runtime: &questions::Runtime,
    store: &Store,
    asked: &Asked,
    tally: &mut Tally,
) {
    let rust = asked.judge(machine, runtime);
    let port = store.ask(asked, list.disconnect);
    tally.count_question(asked.kind, rust, port, || reduced(list, asked));
}

/// O and Q of all lists of up to two rules of a few parts.
pub fn short_questions() -> Tally {
    const BLOCK: usize = 64;
    let (lists, asked) = (questions::short::lists(), questions::short::questions());
    in_blocks(|block, tally| {
        let Some(lists) = lists.chunks(BLOCK).nth(block) else { return false };
        let runtime = runtime();
        for list in lists {
            let mut store = Store::new(2_048);
            compare_open(&mut store, &list.text(), tally);
            let machine = list.machine(&runtime);
            asked.iter().for_each(|asked| compare_question(list, &machine, &runtime, &store, asked, tally));
        }
        true
    })
}

/// O and Q of random rule lists, until the time is up.
pub fn random_questions(seed: u64, until: Instant) -> Tally {
    in_blocks(|block, tally| {
        let mut r = Random::of_block(seed, block as u64);
        let runtime = runtime();
        for _ in 0..20 {
            let list = questions::generate::list(&mut r);
            let text = list.text();
            let mut store = Store::new(if text.len() <= 2_048 { 2_048 } else { questions::ROOM as u64 });
            compare_open(&mut store, &questions::generate::damaged(&mut r, &list), tally);
            with_line_feed(&mut r, &text).iter().for_each(|text| compare_open(&mut store, text, tally));
            compare_open(&mut store, &text, tally);
            let machine = list.machine(&runtime);
            for asked in questions::generate::questions(&mut r, &list) {
                compare_question(&list, &machine, &runtime, &store, &asked, tally);
            }
        }
        Instant::now() < until
    })
}

/// E of all histories of up to three events of a few.
pub fn short_histories() -> Tally {
    const BLOCK: usize = 64;
    in_blocks(|block, tally| {
        let first = block * BLOCK;
        let histories = (first..events::short::histories().min(first + BLOCK)).map(events::short::history);
        compare_histories(histories, tally);
        first < events::short::histories()
    })
}

/// E of random histories, until the time is up.
pub fn random_histories(seed: u64, until: Instant) -> Tally {
    in_blocks(|block, tally| {
        let mut r = Random::of_block(seed, block as u64);
        compare_histories((0..20).map(|_| events::generate::history(&mut r)), tally);
        Instant::now() < until
    })
}

fn compare_histories(histories: impl Iterator<Item = History>, tally: &mut Tally) {
    let runtime = runtime();
    histories.for_each(|history| compare_history(&history, &runtime, tally));
}
