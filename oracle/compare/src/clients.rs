//! C, the per-client questions, and X, expiry: everything that is short, then random inputs.

use std::time::Instant;

use oracle::clients::{self, Asked, Times};
use oracle::generate::Random;
use oracle::json::generate::with_line_feed;

use crate::phases::in_blocks;
use crate::tally::Tally;

fn port(asked: &Asked) -> u64 {
    let Asked { superuser, id, name, rules, qos, topic, .. } = asked;
    let client = port::clients::Owner {
        superuser: *superuser,
        id: id.as_bytes(),
        name: (name.given, name.value.as_bytes()),
        rules,
    };
    if asked.publish {
        return port::clients::publish(client, *qos, asked.retain, asked.disconnect, topic.as_bytes());
    }
    port::clients::subscribe(client, *qos, topic.as_bytes())
}

fn compare(asked: &Asked, tally: &mut Tally) {
    tally.count_client(asked, asked.judge(), port(asked), || reduced(asked));
}

/// The question without the lines that the difference doesn't need.
fn reduced(asked: &Asked) -> (Asked, u64) {
    let mut asked = asked.clone();
    let mut at = 0;
    while at < clients::lines(&asked.rules).len() {
        let mut lines = clients::lines(&asked.rules);
        lines.remove(at);
        let fewer = Asked { rules: lines.join(&b'\n'), ..asked.clone() };
        let judged = fewer.judge();
        if judged.answer().number() != port(&fewer) || !judged.is_sound() {
            asked = fewer;
        } else {
            at += 1;
        }
    }
    let port = port(&asked);
    (asked, port)
}

/// C of all rules of a few parts.
pub fn short() -> Tally {
    in_blocks(|block, tally| {
        let Some(rule) = clients::short::rule(block) else { return false };
        clients::short::questions(&rule).iter().for_each(|asked| compare(asked, tally));
        true
    })
}

/// C of random rules and damaged copies, some with one more LF, until the time is up.
pub fn random(seed: u64, until: Instant) -> Tally {
    in_blocks(|block, tally| {
        let mut r = Random::of_block(seed, block as u64);
        for _ in 0..500 {
            let mut questions = clients::generate::questions(&mut r);
            if let Some(rules) = with_line_feed(&mut r, &questions[0].rules) {
                questions.push(Asked { rules, ..questions[0].clone() });
            }
            questions.iter().for_each(|asked| compare(asked, tally));
        }
        Instant::now() < until
    })
}

fn compare_times(times: &Times, tally: &mut Tally) {
    let Times { expiry, now } = times;
    let port = port::clients::expired((expiry.given, expiry.value), *now);
    tally.count_expiry(times, clients::expired(times), port);
}

/// X of random times, ten million.
pub fn expiries(seed: u64) -> Tally {
    in_blocks(|block, tally| {
        let mut r = Random::of_block(seed, block as u64);
        for _ in 0..100_000 {
            compare_times(&clients::generate::times(&mut r), tally);
        }
        block + 1 < 100
    })
}
