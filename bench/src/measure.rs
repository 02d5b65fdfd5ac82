//! Times of both engines on the same inputs.

use std::time::{Duration, Instant};

use crate::engine::{Engine, ENGINES};
use crate::families::FAMILIES;
use crate::inputs::{self, Input, Tape, RUN_MAPS, SIZES};
use crate::lent::{Call, Lent};
use crate::rows::{Pair, Work, WORKS};

/// How often each engine does each slice.
pub const ROUNDS: usize = 11;

/// The times of a seed's cells, in their order.
pub fn measure(seed: u64) -> Vec<Pair> {
    let mut times = Vec::new();
    for family in FAMILIES {
        for gates in SIZES {
            let group = inputs::group(seed, family, gates);
            times.extend(WORKS.map(|work| measure_group(work, &group)));
        }
    }
    times
}

fn measure_group(work: Work, group: &[Input]) -> Pair {
    match work {
        Work::Run(tape) => per_move(&group[..RUN_MAPS], tape),
        Work::Check => per_call(group, Call::Check),
        Work::Evaluate => per_call(group, Call::Evaluate),
        Work::Survey => per_call(group, Call::Survey),
        Work::Export => per_call(group, Call::Export),
    }
}

/// One slice of time is one run of one map. The least times are added up over the maps.
fn per_move(group: &[Input], tape: Tape) -> Pair {
    let mut total = [0.0; 2];
    for input in group {
        let mut lent = input.lent(Call::Run, tape);
        let least = least_times(|engine| time_run(engine, input, &mut lent));
        total = [total[0] + least[0], total[1] + least[1]];
    }
    let moves: usize = group.iter().map(|input| input.entries(tape)).sum();
    total.map(|time| time / moves as f64)
}

/// The start is put back before the clock begins.
fn time_run(engine: &Engine, input: &Input, lent: &mut Lent) -> Duration {
    lent.configuration.get_mut().copy_from_slice(&input.start);
    let begin = Instant::now();
    lent.call(engine, Call::Run);
    begin.elapsed()
}

/// One slice of time is a call on each map in turn. These calls change nothing that they read, so nothing is put back.
fn per_call(group: &[Input], call: Call) -> Pair {
    let mut all: Vec<Lent> = group.iter().map(|input| input.lent(call, Tape::DownUp)).collect();
    let least = least_times(|engine| {
        let begin = Instant::now();
        for lent in &mut all {
            lent.call(engine, call);
        }
        begin.elapsed()
    });
    least.map(|time| time / group.len() as f64)
}

/// The least nanoseconds of each engine over all rounds: the work is the same each time, and whatever else runs meanwhile only adds to it. The
/// engines take turns, and the one that goes first changes from round to round.
fn least_times(mut slice: impl FnMut(&Engine) -> Duration) -> Pair {
    let mut least = [f64::INFINITY; 2];
    for round in 0..ROUNDS {
        for turn in 0..2 {
            let which = (round + turn) % 2;
            least[which] = least[which].min(slice(&ENGINES[which]).as_nanos() as f64);
        }
    }
    least
}
