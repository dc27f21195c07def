//! W: whole inputs of `decide`, through a pipe to the proved program, a process for each, one at a
//! time; its output is held against the judge's, byte for byte.

use std::fs::File;
use std::io::{self, Write};
use std::os::fd::{FromRawFd, OwnedFd};
use std::path::Path;
use std::process::{Command, Stdio};
use std::thread;
use std::time::{Duration, Instant};

use oracle::generate::Random;
use oracle::inputs::{fixed, generate, judge, Judged};
use oracle::questions::Runtime;
use oracle::runtime;

use crate::tally::Tally;

const ROOT: &str = concat!(env!("CARGO_MANIFEST_DIR"), "/../..");

/// So long an input is made smaller.
const REDUCING: Duration = Duration::from_secs(10);

/// Another program with DECIDE=PATH, as one with a fault that a comparison should find.
fn program() -> String {
    std::env::var("DECIDE").unwrap_or(format!("{ROOT}/target/bin/decide"))
}

/// A pipe; where `packets`, each read takes what one write gave, no more.
fn pipe(packets: bool) -> io::Result<(OwnedFd, File)> {
    extern "C" {
        fn pipe2(ends: *mut i32, flags: i32) -> i32;
    }
    const CLOEXEC: i32 = 0o2000000;
    const DIRECT: i32 = 0o40000;
    let mut ends = [0; 2];
    // Both ends are new, and nobody else has them.
    unsafe {
        match pipe2(ends.as_mut_ptr(), CLOEXEC | if packets { DIRECT } else { 0 }) {
            0 => Ok((OwnedFd::from_raw_fd(ends[0]), File::from_raw_fd(ends[1]))),
            _ => Err(io::Error::last_os_error()),
        }
    }
}

/// Writes the pieces, or all. Refused rules end the program, so that the pipe may be closed.
fn feed(mut pipe: File, input: &[u8], pieces: &[usize]) {
    let mut at = 0;
    for size in pieces {
        if pipe.write_all(&input[at..at + size]).is_err() {
            return;
        }
        at += size;
    }
    let _ = pipe.write_all(&input[at..]);
}

/// What the program writes, with anything that is wrong beside it.
fn written(input: &[u8], pieces: &[usize]) -> io::Result<Vec<u8>> {
    let (from, to) = pipe(!pieces.is_empty())?;
    let mut command = Command::new(program());
    command.stdin(from).stdout(Stdio::piped()).stderr(Stdio::piped());
    let child = command.spawn()?;
    drop(command);
    let mut got = thread::scope(|scope| {
        scope.spawn(|| feed(to, input, pieces));
        child.wait_with_output()
    })?;
    if !got.status.success() || !got.stderr.is_empty() {
        got.stdout.extend(format!("({}, {:?})", got.status, String::from_utf8_lossy(&got.stderr)).bytes());
    }
    Ok(got.stdout)
}

/// What is right for the input, and what the program wrote.
fn both(input: &[u8], pieces: &[usize], runtime: &Runtime) -> (Judged, Vec<u8>) {
    (judge(input, runtime), written(input, pieces).expect("target/bin/decide runs"))
}

fn differs(judged: &Judged, port: &[u8]) -> bool {
    judged.output().as_bytes() != port
}

/// The first lines that aren't alike.
fn told(judged: &Judged, port: &[u8]) -> String {
    let (right, port) = (judged.output(), String::from_utf8_lossy(port).into_owned());
    let (mut right, mut port) = (right.split_inclusive('\n'), port.split_inclusive('\n'));
    loop {
        match (right.next(), port.next()) {
            (Some(a), Some(b)) if a == b => (),
            (a, b) => return format!("the judge writes {:?}, the program {:?}", a, b),
        }
    }
}

/// The input without the lines that its difference doesn't need, halves first, then less at a time; in one
/// piece where that differs too.
fn reduced(input: &[u8], pieces: &[usize], runtime: &Runtime) -> (Vec<u8>, Vec<usize>, String) {
    let (judged, port) = both(input, &[], runtime);
    if !differs(&judged, &port) {
        let (judged, port) = both(input, pieces, runtime);
        return (input.into(), pieces.into(), told(&judged, &port));
    }
    let (mut lines, mut said) =
        (input.split_inclusive(|b| *b == b'\n').collect::<Vec<_>>(), told(&judged, &port));
    let until = Instant::now() + REDUCING;
    let mut some = lines.len().div_ceil(2);
    while some > 0 {
        let mut at = 0;
        while at < lines.len() && Instant::now() < until {
            let mut fewer = lines.clone();
            fewer.drain(at..fewer.len().min(at + some));
            let (judged, port) = both(&fewer.concat(), &[], runtime);
            if differs(&judged, &port) {
                (lines, said) = (fewer, told(&judged, &port));
            } else {
                at += some;
            }
        }
        some /= 2;
    }
    (lines.concat(), Vec::new(), said)
}

fn compare(input: &[u8], pieces: &[usize], runtime: &Runtime, tally: &mut Tally) {
    let (judged, port) = both(input, pieces, runtime);
    let differs = differs(&judged, &port);
    tally.count_input(&judged, !pieces.is_empty(), differs, || reduced(input, pieces, runtime));
}

/// The inputs that the program `replays` replays.
pub fn replayed() -> Tally {
    let (mut tally, runtime) = (Tally::default(), runtime());
    let folder = Path::new(ROOT).join("crates/replays/data");
    let mut files: Vec<_> =
        folder.read_dir().expect("crates/replays/data").map(|file| file.expect("a file").path()).collect();
    files.sort();
    for file in files {
        let input = std::fs::read(file).expect("an input");
        compare(&input, &[], &runtime, &mut tally);
        compare(&input, &vec![1; input.len()], &runtime, &mut tally);
    }
    tally
}

/// Those that are always asked.
pub fn always() -> Tally {
    let (mut tally, runtime) = (Tally::default(), runtime());
    fixed::inputs().iter().for_each(|(input, pieces)| compare(input, pieces, &runtime, &mut tally));
    tally
}

/// Random ones, until the time is up.
pub fn random(seed: u64, until: Instant) -> Tally {
    let (mut tally, runtime) = (Tally::default(), runtime());
    let mut r = Random::of_block(seed, 0);
    while Instant::now() < until {
        let input = generate::input(&mut r);
        let pieces = generate::pieces(&mut r, input.len());
        compare(&input, &pieces, &runtime, &mut tally);
    }
    tally
}
