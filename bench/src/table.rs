//! The rows as text.

use crate::engine::ENGINES;
use crate::families::{Group, GROUPS, VOTERS_ALONE, WITHOUT_VOTERS};
use crate::inputs::{SIZES, TAPES};
use crate::rows::{by_family, by_size, cells, median_time, ratio, Pair, Row, Spread, Summary, Work, WORKS};

pub fn print(rows: &[Row]) {
    println!("\nPeeriewick's number over plain C's: the median, and the least and the most of all that a line takes together.");
    println!("Lines 'without voters' go over the five families that there were before, so that they can be held against earlier ones.\n");
    print_summaries("by size, over all seeds, without voters", &by_size(rows, &WITHOUT_VOTERS));
    print_summaries("by size, over all seeds, voters alone", &by_size(rows, &VOTERS_ALONE));
    print_summaries("by family, over all sizes and seeds", &by_family(rows));
    for group in &GROUPS {
        print_times(rows, group);
    }
    for group in &GROUPS {
        print_growth(rows, group);
    }
}

fn print_summaries(title: &str, summaries: &[Summary]) {
    println!("{:40}{:>24}{:>24}", title, "times", "instructions");
    for summary in summaries {
        let [times, counts] = [summary.times, summary.counts].map(spread);
        println!("{:26}{:14}{:>24}{:>24}", summary.work.name(), summary.name, times, counts);
    }
    println!();
}

pub fn spread(spread: Spread) -> String {
    format!("{:.2} ({:.2} to {:.2})", spread.median, spread.least, spread.most)
}

/// The median over a group's families and all seeds.
fn print_times(rows: &[Row], group: &Group) {
    println!("{:40}{:>24}{:>24}", format!("median per move or call, {}", group.name), ENGINES[0].name, ENGINES[1].name);
    for work in WORKS {
        for gates in SIZES {
            let times = [0, 1].map(|which| format!("{} ns", grouped(median_time(rows, group, work, gates, which))));
            println!("{:26}{:14}{:>24}{:>24}", work.name(), format!("{} gates", grouped(gates as f64)), times[0], times[1]);
        }
    }
    println!();
}

/// How many times longer a move takes on a map of four times the gates.
fn print_growth(rows: &[Row], group: &Group) {
    println!("{:40}{:>24}{:>24}", format!("growth of a move's time, {}", group.name), "64 to 256 gates", "256 to 1,024 gates");
    for work in TAPES.map(Work::Run) {
        for (which, engine) in ENGINES.iter().enumerate() {
            let times = SIZES.map(|gates| median_time(rows, group, work, gates, which));
            println!("{:26}{:14}{:>24.2}{:>24.2}", work.name(), engine.name, times[1] / times[0], times[2] / times[1]);
        }
    }
    println!();
}

/// The instructions of a seed, cell by cell.
pub fn print_counts(counts: &[Pair]) {
    println!("{:18}{:10}{:>12}{:>14}{:>14}{:>8}", "", "", "", ENGINES[0].name, ENGINES[1].name, "ratio");
    for work in WORKS {
        for (cell, &pair) in cells().iter().zip(counts).filter(|(cell, _)| cell.work == work) {
            let [plain, proved] = pair.map(grouped);
            let gates = format!("{} gates", grouped(cell.gates as f64));
            println!("{:18}{:10}{:>12}{:>14}{:>14}{:>8.2}", work.name(), cell.family.name(), gates, plain, proved, ratio(pair));
        }
    }
}

/// The nearest whole number, its digits in groups of three.
pub fn grouped(number: f64) -> String {
    let digits = format!("{:.0}", number);
    let mut text = String::new();
    for (place, digit) in digits.chars().enumerate() {
        if place > 0 && (digits.len() - place) % 3 == 0 {
            text.push(',');
        }
        text.push(digit);
    }
    text
}
