//! A row of the table, and how it is measured: by the clock and by callgrind.

use std::hint::black_box;
use std::process::Command;
use std::time::{Duration, Instant};

pub trait Row {
    /// Makes exactly `n` calls; the number of yes. The side is `port`, `rust`,
    /// `floor`, or `none`, which makes the same loop without a call.
    fn run(&mut self, side: &str, n: usize) -> usize;

    /// The sides that the row has, besides `none`.
    fn sides(&self) -> &'static [&'static str];

    /// Panics where a side doesn't answer as the row says.
    fn check(&mut self, yes: bool);

    /// Calls that callgrind counts; each input has its equal share of them.
    fn counted(&self) -> usize {
        120
    }
}

/// Goes through the inputs until `n` calls are made; the number of yes.
pub fn repeat<I>(inputs: &[I], n: usize, call: impl Fn(&I) -> bool) -> usize {
    let mut yes = 0;
    for i in 0..n {
        let input = black_box(&inputs[i % inputs.len()]);
        yes += black_box(call(input)) as usize;
    }
    yes
}

/// About so long is one side of a round.
const ROUND_NS: f64 = 4e6;
/// So many rounds, or three where they take longer than this.
const ROUNDS: usize = 21;
const LONGEST: Duration = Duration::from_secs(2);

fn ns_of(row: &mut dyn Row, side: &str, n: usize) -> f64 {
    let begin = Instant::now();
    row.run(side, n);
    begin.elapsed().as_nanos() as f64
}

/// The calls of a round: as many again until they take half of its time.
fn calls_a_round(row: &mut dyn Row, side: &str) -> usize {
    let mut n = 1;
    loop {
        let ns = ns_of(row, side, n);
        if 2.0 * ns > ROUND_NS {
            return ((n as f64 * ROUND_NS / ns) as usize).max(1);
        }
        n *= 2;
    }
}

/// Nanoseconds of a call of each side: the least of rounds in which all are
/// timed, one after the other, since what else the machine does only adds.
pub fn time(row: &mut dyn Row) -> Vec<f64> {
    let sides = row.sides();
    let calls: Vec<usize> = sides.iter().map(|side| calls_a_round(row, side)).collect();
    let mut least = vec![f64::INFINITY; sides.len()];
    let begin = Instant::now();
    for round in 0..ROUNDS {
        if round >= 3 && begin.elapsed() > LONGEST {
            break;
        }
        for (i, side) in sides.iter().enumerate() {
            least[i] = least[i].min(ns_of(row, side, calls[i]) / calls[i] as f64);
        }
    }
    least
}

/// callgrind, which finds it by its name, collects what is done in here, and
/// writes it down at the end.
#[no_mangle]
#[inline(never)]
fn bench_counted(row: &mut dyn Row, side: &str, n: usize) -> usize {
    row.run(side, n)
}

/// What callgrind counts of a row: no side's loop, then each side's.
pub fn make_counted(row: &mut dyn Row) {
    let n = row.counted();
    for side in ["none"].iter().chain(row.sides()) {
        row.run(side, n / 10);
        bench_counted(row, side, n);
    }
}

/// The numbers that callgrind writes of this program with these words, one for
/// each `bench_counted`.
pub fn collected(words: &[&str]) -> Result<Vec<f64>, String> {
    let program = std::env::current_exe().map_err(|e| e.to_string())?;
    let written = std::env::temp_dir().join(format!("bench-{}.callgrind", std::process::id()));
    let output = Command::new("valgrind")
        .args(["--tool=callgrind", "--toggle-collect=bench_counted", "--dump-after=bench_counted"])
        .args(["--combine-dumps=yes", "--dump-line=no"])
        .arg(format!("--callgrind-out-file={}", written.display()))
        .arg(program)
        .args(words)
        .output()
        .map_err(|e| format!("valgrind: {e}"))?;
    let text = std::fs::read_to_string(&written).unwrap_or_default();
    let _ = std::fs::remove_file(&written);
    if !output.status.success() {
        return Err(format!("valgrind: {}", String::from_utf8_lossy(&output.stderr)));
    }
    let total = |line: &str| line.strip_prefix("totals: ").and_then(|n| n.trim().parse().ok());
    Ok(text.lines().filter_map(total).collect())
}
