//! What is measured, and what came out.

use crate::families::{Family, Group, FAMILIES};
use crate::inputs::{Tape, SIZES};

#[derive(Clone, Copy, PartialEq)]
pub enum Work {
    Run(Tape),
    Check,
    Evaluate,
    Survey,
    Export,
}

pub const WORKS: [Work; 6] = [Work::Run(Tape::DownUp), Work::Run(Tape::Greedy), Work::Check, Work::Evaluate, Work::Survey, Work::Export];

impl Work {
    pub fn name(self) -> &'static str {
        match self {
            Work::Run(Tape::DownUp) => "Run, down and up",
            Work::Run(Tape::Greedy) => "Run, greedy",
            Work::Check => "Check",
            Work::Evaluate => "Evaluate",
            Work::Survey => "Survey",
            Work::Export => "Export",
        }
    }
}

/// Nanoseconds or instructions of both engines, per move for a run and per call otherwise.
pub type Pair = [f64; 2];

/// One work on the maps of one family and size.
#[derive(Clone, Copy, PartialEq)]
pub struct Cell {
    pub family: Family,
    pub gates: usize,
    pub work: Work,
}

/// All cells of a seed, in the order in which they are measured.
pub fn cells() -> Vec<Cell> {
    let groups = FAMILIES.iter().flat_map(|&family| SIZES.iter().map(move |&gates| (family, gates)));
    groups.flat_map(|(family, gates)| WORKS.iter().map(move |&work| Cell { family, gates, work })).collect()
}

pub struct Row {
    pub cell: Cell,
    pub times: Pair,
    pub counts: Pair,
}

/// The rows of a seed, from what the cells gave in their order.
pub fn rows(times: &[Pair], counts: &[Pair]) -> Vec<Row> {
    cells().into_iter().zip(times).zip(counts).map(|((cell, &times), &counts)| Row { cell, times, counts }).collect()
}

/// The proved engine's number over the plain one's.
pub fn ratio([plain, proved]: Pair) -> f64 {
    proved / plain
}

/// How some numbers lie.
#[derive(Clone, Copy)]
pub struct Spread {
    pub least: f64,
    pub median: f64,
    pub most: f64,
}

impl Spread {
    /// Of at least one number.
    pub fn of(numbers: impl Iterator<Item = f64>) -> Spread {
        let mut sorted: Vec<f64> = numbers.collect();
        sorted.sort_by(f64::total_cmp);
        let middle = sorted.len() / 2;
        let median = if sorted.len() % 2 == 1 { sorted[middle] } else { (sorted[middle - 1] + sorted[middle]) / 2.0 };
        Spread { least: sorted[0], median, most: sorted[sorted.len() - 1] }
    }
}

/// A line of the table and of the chart: rows taken together.
pub struct Summary {
    pub work: Work,
    /// What the rows have in common besides the work.
    pub name: String,
    pub times: Spread,
    pub counts: Spread,
}

impl Summary {
    fn new(rows: &[Row], work: Work, name: String, is_in: impl Fn(&Cell) -> bool) -> Summary {
        let of = |number: fn(&Row) -> f64| Spread::of(rows.iter().filter(|row| row.cell.work == work && is_in(&row.cell)).map(number));
        Summary { work, name, times: of(|row| ratio(row.times)), counts: of(|row| ratio(row.counts)) }
    }
}

/// Work by work, and size by size in each, over a group's families and all seeds.
pub fn by_size(rows: &[Row], group: &Group) -> Vec<Summary> {
    let heads = WORKS.iter().flat_map(|&work| SIZES.iter().map(move |&gates| (work, gates)));
    let summary = |work, gates| Summary::new(rows, work, gates_name(gates), |cell| cell.gates == gates && group.families.contains(&cell.family));
    heads.map(|(work, gates)| summary(work, gates)).collect()
}

/// Work by work, and family by family in each, over all sizes and seeds.
pub fn by_family(rows: &[Row]) -> Vec<Summary> {
    let heads = WORKS.iter().flat_map(|&work| FAMILIES.iter().map(move |&family| (work, family)));
    heads.map(|(work, family)| Summary::new(rows, work, family.name().to_string(), |cell| cell.family == family)).collect()
}

/// The median nanoseconds of an engine for a work and size, over a group's families and all seeds.
pub fn median_time(rows: &[Row], group: &Group, work: Work, gates: usize, which: usize) -> f64 {
    let is_in = |cell: &Cell| cell.work == work && cell.gates == gates && group.families.contains(&cell.family);
    Spread::of(rows.iter().filter(|row| is_in(&row.cell)).map(|row| row.times[which])).median
}

fn gates_name(gates: usize) -> String {
    format!("{} gates", crate::table::grouped(gates as f64))
}
