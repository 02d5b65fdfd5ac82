//! `run` builds this driver with the engines' code in several places. Each of them measures, and the times are averaged.

use std::process::Command;

use crate::measure::measure;
use crate::rows::Pair;

pub const DRIVERS: [&str; 4] = [
    "target/placement-16/release/peeriewick-bench",
    "target/placement-32/release/peeriewick-bench",
    "target/placement-48/release/peeriewick-bench",
    "target/placement-64/release/peeriewick-bench",
];

/// What a driver does when it is asked for its times: it prints those of a cell on each line.
pub fn print(seed: u64) -> Result<(), String> {
    for [plain, proved] in measure(seed) {
        println!("{} {}", plain, proved);
    }
    Ok(())
}

/// The average times of all drivers.
pub fn average(seed: u64) -> Result<Vec<Pair>, String> {
    let mut total: Vec<Pair> = Vec::new();
    for driver in DRIVERS {
        let times = ask(driver, seed).ok_or_else(|| format!("{} gives no times", driver))?;
        total.resize(times.len(), [0.0; 2]);
        for (sum, [plain, proved]) in total.iter_mut().zip(times) {
            *sum = [sum[0] + plain, sum[1] + proved];
        }
    }
    Ok(total.into_iter().map(|sum| sum.map(|time| time / DRIVERS.len() as f64)).collect())
}

fn ask(driver: &str, seed: u64) -> Option<Vec<Pair>> {
    let output = Command::new(driver).args(["times", &seed.to_string()]).output().ok()?;
    String::from_utf8(output.stdout).ok()?.lines().map(times_in).collect()
}

fn times_in(line: &str) -> Option<Pair> {
    let (plain, proved) = line.split_once(' ')?;
    Some([plain.parse().ok()?, proved.parse().ok()?])
}
