//! Holds the proved engine against a plain one in C: times and counts by default, counts alone with `counts`, answers with `agree SEED N`; and shows with
//! `tapes` which tapes find a state. With `times` and `sample` a driver does a part of that for another.

mod about;
mod agree;
mod cases;
mod chart;
mod circuit;
mod counts;
mod engine;
mod families;
mod inputs;
mod lent;
mod measure;
mod parities;
mod placements;
mod random;
mod ratios;
mod rows;
mod svg;
mod table;
mod tapes;
mod verify;

use std::process::exit;

const SEED: u64 = 1;

/// So many seeds are measured, from the one given.
const SEEDS: u64 = 3;

const CHART: &str = "chart.svg";

fn main() {
    let arguments: Vec<String> = std::env::args().skip(1).collect();
    let words: Vec<&str> = arguments.iter().map(String::as_str).collect();
    let done = match words[..] {
        [] => report(SEED),
        ["counts"] => report_counts(SEED),
        ["counts", seed] => report_counts(number(seed)),
        ["tapes"] => tapes::print(SEED),
        ["tapes", seed] => tapes::print(number(seed)),
        ["agree", seed, cases] => agree::agree(number(seed), number(cases) as usize),
        ["times", seed] => placements::print(number(seed)),
        ["sample", seed] => counts::run_samples(number(seed)),
        [seed] => report(number(seed)),
        _ => usage(),
    };
    if let Err(report) = done {
        println!("{}", report);
        exit(1);
    }
}

/// Fails only if the engines differ, an input is not what it should be or a file is missing: no time is a test.
fn report(first: u64) -> Result<(), String> {
    let mut rows = Vec::new();
    for seed in first..first + SEEDS {
        verify::verify(seed)?;
        let counts = counts::count(placements::DRIVERS[0], seed)?;
        rows.extend(rows::rows(&placements::average(seed)?, &counts));
    }
    let about = about::lines(first);
    println!("{}", about.join("\n"));
    table::print(&rows);
    std::fs::write(CHART, chart::chart(&rows, &about)).map_err(|error| format!("{} was not written: {}", CHART, error))
}

fn report_counts(seed: u64) -> Result<(), String> {
    println!("Instructions per move of a run and per call otherwise, counted by callgrind; seed {}.\n{}", seed, about::compilers());
    table::print_counts(&counts::count(placements::DRIVERS[0], seed)?);
    Ok(())
}

fn number(text: &str) -> u64 {
    text.parse().unwrap_or_else(|_| usage())
}

fn usage() -> ! {
    eprintln!("usage: bench/run [SEED] | bench/run counts [SEED] | bench/run tapes [SEED] | bench/run agree SEED N");
    exit(2);
}
