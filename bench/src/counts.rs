//! Instructions of both engines on a sample of the inputs, counted by valgrind's callgrind: they are the same each time.

use std::process::Command;
use std::sync::atomic::{AtomicUsize, Ordering};

use crate::engine::{Engine, ENGINES};
use crate::families::FAMILIES;
use crate::inputs::{self, Input, Tape, SIZES};
use crate::lent::Call;
use crate::rows::{Pair, Work, WORKS};

const OUT: &str = "target/callgrind.out";

/// Instructions are collected while one of these runs.
const CALLS: [&str; 10] = [
    "plain_check",
    "plain_evaluate",
    "plain_survey",
    "plain_run",
    "plain_export",
    "peeriewick_check",
    "peeriewick_evaluate",
    "peeriewick_survey",
    "peeriewick_run",
    "peeriewick_export",
];

/// The instructions of a seed's cells, in their order, by a run of `driver` under valgrind.
pub fn count(driver: &str, seed: u64) -> Result<Vec<Pair>, String> {
    let moves = run_under_valgrind(driver, seed)?;
    let totals = totals()?;
    if totals.len() < 2 * moves.len() {
        return Err(format!("callgrind wrote {} counts for {} samples", totals.len(), 2 * moves.len()));
    }
    Ok(totals.chunks(2).zip(moves).map(|(pair, moves)| [pair[0] / moves, pair[1] / moves]).collect())
}

/// How many moves or calls each cell has.
fn run_under_valgrind(driver: &str, seed: u64) -> Result<Vec<f64>, String> {
    let mut valgrind = Command::new("valgrind");
    valgrind.args(["--tool=callgrind", "--dump-after=sample_ends", "--combine-dumps=yes"]).arg(format!("--callgrind-out-file={}", OUT));
    valgrind.args(CALLS.map(|call| format!("--toggle-collect={}", call)));
    let output = valgrind.args([driver, "sample", &seed.to_string()]).output().map_err(|error| format!("valgrind: {}", error))?;
    if !output.status.success() {
        return Err(String::from_utf8_lossy(&output.stderr).into_owned());
    }
    let text = String::from_utf8_lossy(&output.stdout);
    text.lines().map(|line| line.parse().map_err(|_| format!("the driver printed {}", line))).collect()
}

/// What callgrind wrote at the end of each sample.
fn totals() -> Result<Vec<f64>, String> {
    let text = std::fs::read_to_string(OUT).map_err(|error| format!("{}: {}", OUT, error))?;
    Ok(text.lines().filter_map(|line| line.strip_prefix("totals: ")?.trim().parse().ok()).collect())
}

/// What valgrind runs: the sample of each cell with each engine. Prints how many moves or calls each cell has.
pub fn run_samples(seed: u64) -> Result<(), String> {
    for family in FAMILIES {
        for gates in SIZES {
            let sample = inputs::sample(seed, family, gates);
            for work in WORKS {
                let [moves, _] = ENGINES.map(|engine| run_sample(&engine, work, &sample));
                println!("{}", moves);
            }
        }
    }
    Ok(())
}

/// Returns how many moves or calls were done.
fn run_sample(engine: &Engine, work: Work, sample: &[Input]) -> usize {
    let (call, tape) = match work {
        Work::Run(tape) => (Call::Run, tape),
        Work::Check => (Call::Check, Tape::DownUp),
        Work::Evaluate => (Call::Evaluate, Tape::DownUp),
        Work::Survey => (Call::Survey, Tape::DownUp),
        Work::Export => (Call::Export, Tape::DownUp),
    };
    for input in sample {
        input.lent(call, tape).call(engine, call);
    }
    sample_ends();
    if call == Call::Run {
        sample.iter().map(|input| input.entries(tape)).sum()
    } else {
        sample.len()
    }
}

static SAMPLES: AtomicUsize = AtomicUsize::new(0);

/// Valgrind writes down its count, and begins anew, whenever this returns. It does something, so that its calls are not left out.
#[no_mangle]
#[inline(never)]
extern "C" fn sample_ends() {
    SAMPLES.fetch_add(1, Ordering::Relaxed);
}
