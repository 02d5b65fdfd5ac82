//! What a measurement is of: the machine, the compilers, the target and the method. `run` sets the variables.

use std::env;
use std::fs;

use crate::inputs::{GATES_PER_GROUP, RUN_MAPS};
use crate::measure::ROUNDS;
use crate::placements::DRIVERS;
use crate::table::grouped;

/// The target of the project: no more than this of plain C's time.
pub const TARGET: f64 = 1.1;

pub fn lines(first: u64) -> Vec<String> {
    vec![
        format!("Machine: {}. {}", processor(), compilers()),
        format!("Target: at most {} of the time of the same passes in plain C (bench/plain.c, -O3, x86-64 without extensions).", TARGET),
        format!(
            "Times: the least of {} rounds, averaged over {} placements of the code. Instructions: callgrind, on a part of the inputs.",
            ROUNDS,
            DRIVERS.len()
        ),
        format!(
            "Inputs: seeds {} to {}; runs on {} maps of each family and size, other calls on maps of {} gates together.",
            first,
            first + crate::SEEDS - 1,
            RUN_MAPS,
            grouped(GATES_PER_GROUP as f64)
        ),
    ]
}

pub fn compilers() -> String {
    let name = |variable| env::var(variable).unwrap_or_else(|_| String::from("unknown"));
    format!("Compilers: plain C by {}, Peeriewick by {}.", name("PLAIN_COMPILER"), name("PROVED_COMPILER"))
}

fn processor() -> String {
    let text = fs::read_to_string("/proc/cpuinfo").unwrap_or_default();
    let model = text.lines().find_map(|line| line.strip_prefix("model name")?.split_once(':').map(|(_, name)| name.trim().to_string()));
    model.unwrap_or_else(|| String::from("unknown processor"))
}
