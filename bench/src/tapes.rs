//! Which tapes and starts find a state: runs of the proved engine on satisfiable maps.

use crate::engine::{FOUND, PROVED};
use crate::families::{Family, FAMILIES, GROUPS};
use crate::random::Random;
use crate::table::grouped;

const GATES: usize = 120;
const MAPS: usize = 100;
const ENTRIES: usize = 10_000;

/// So many tapes at most where a run that ended Spent is gone on from.
const TAPES: usize = 5;

/// A tape's kinds, as shares of greedy, down and up, and whether its draws and options are random or all 0.
struct Mix {
    name: &'static str,
    shares: [usize; 3],
    random: bool,
}

const fn mix(name: &'static str, shares: [usize; 3]) -> Mix {
    Mix { name, shares, random: true }
}

const fn zeros(name: &'static str, shares: [usize; 3]) -> Mix {
    Mix { name, shares, random: false }
}

const THIRDS: Mix = mix("a third each", [1, 1, 1]);

const MIXES: [Mix; 11] = [
    zeros("all bytes 0", [1, 0, 0]),
    zeros("a third each, draws and options 0", [1, 1, 1]),
    mix("greedy alone", [1, 0, 0]),
    mix("down alone", [0, 1, 0]),
    mix("up alone", [0, 0, 1]),
    mix("half greedy, half down", [1, 1, 0]),
    mix("half down, half up", [0, 1, 1]),
    mix("half greedy, half up", [1, 0, 1]),
    mix("10 % greedy, 45 % down, 45 % up", [2, 9, 9]),
    mix("45 % greedy, 10 % down, 45 % up", [9, 2, 9]),
    mix("80 % greedy, 10 % down, 10 % up", [8, 1, 1]),
];

impl Mix {
    fn tape(&self, random: &mut Random) -> Vec<u8> {
        (0..ENTRIES).flat_map(|_| self.entry(random)).collect()
    }

    fn entry(&self, random: &mut Random) -> [u8; 4] {
        let [greedy, down, up] = self.shares;
        let place = random.below(greedy + down + up);
        let kind = u8::from(place >= greedy) + u8::from(place >= greedy + down);
        let [low, high, option] = if self.random { [0; 3].map(|_| random.word() as u8) } else { [0; 3] };
        [low, high, kind, option]
    }
}

/// What a run starts from. Each keeps the codes.
#[derive(Clone, Copy)]
enum Start {
    Evaluated,
    Arbitrary,
    Zeros,
}

impl Start {
    fn name(self) -> &'static str {
        match self {
            Start::Evaluated => "a random row evaluated, then the codes set",
            Start::Arbitrary => "random values, then the codes set",
            Start::Zeros => "zeros, then the codes set",
        }
    }
}

/// A map and the starts of its runs.
struct Puzzle {
    map: Vec<u8>,
    starts: [Vec<u8>; 3],
}

impl Puzzle {
    /// Maps and rows are drawn until the evaluated start is no satisfying assignment yet.
    fn new(random: &mut Random, family: Family) -> Puzzle {
        loop {
            let circuit = family.satisfiable(random, GATES);
            let evaluated = circuit.evaluate(&random.bits(circuit.inputs()));
            if circuit.with_codes(evaluated.clone()) != evaluated {
                let starts = [evaluated, random.bits(GATES), vec![0; GATES]].map(|values| circuit.with_codes(values));
                return Puzzle { map: circuit.bytes(), starts };
            }
        }
    }

    /// How many moves and flips runs take until one ends Found: each goes on from the configuration that the one before left, with a new tape.
    fn search(&self, random: &mut Random, start: Start, mix: &Mix, tapes: usize) -> Option<[usize; 2]> {
        let mut configuration = self.starts[start as usize].clone();
        let (mut work, mut answer, mut sum) = (vec![0; GATES], vec![0; GATES], [0; 2]);
        for _ in 0..tapes {
            let mut numbers = [0; 4];
            let number = PROVED.run(&self.map, &mut configuration, &mix.tape(random), &mut work, &mut answer, &mut numbers);
            assert_eq!(number, 0, "the map, the start and the tape are as document 01 asks");
            sum = [sum[0] + numbers[1], sum[1] + numbers[2]];
            if numbers[0] == FOUND {
                return Some(sum);
            }
        }
        None
    }
}

/// The moves and flips of each search that ended Found.
struct Tally(Vec<[usize; 2]>);

impl Tally {
    /// Those that took so many moves or fewer: how many, and the medians of moves and flips.
    fn cell(&self, most: usize) -> String {
        let within: Vec<[usize; 2]> = self.0.iter().filter(|counts| counts[0] <= most).copied().collect();
        let medians = [0, 1].map(|which| {
            let mut counts: Vec<usize> = within.iter().map(|counts| counts[which]).collect();
            counts.sort_unstable();
            counts.get(counts.len() / 2).map_or(String::new(), |&median| grouped(median as f64))
        });
        if within.is_empty() {
            String::from("0")
        } else {
            format!("{} ({}, {})", within.len(), medians[0], medians[1])
        }
    }
}

/// The puzzles of each family of a group. Each group has random numbers of its own, so that its figures are the same whatever other groups there are.
struct Puzzles {
    random: Random,
    of_families: Vec<Vec<Puzzle>>,
}

impl Puzzles {
    fn new(seed: u64, families: &[Family]) -> Puzzles {
        let mut random = Random::new(seed);
        let of_families = families.iter().map(|&family| (0..MAPS).map(|_| Puzzle::new(&mut random, family)).collect()).collect();
        Puzzles { random, of_families }
    }

    fn tallies(&mut self, start: Start, mix: &Mix, tapes: usize) -> Vec<Tally> {
        let Puzzles { random, of_families } = self;
        of_families.iter().map(|puzzles| Tally(puzzles.iter().filter_map(|puzzle| puzzle.search(random, start, mix, tapes)).collect())).collect()
    }
}

/// The puzzles of all families, and what came of a third of each kind from the evaluated starts.
struct Tables {
    groups: Vec<Puzzles>,
    thirds: Vec<Tally>,
}

impl Tables {
    fn new(seed: u64) -> Tables {
        let groups = GROUPS.iter().map(|group| Puzzles::new(seed, group.families)).collect();
        let mut tables = Tables { groups, thirds: Vec::new() };
        tables.thirds = tables.tallies(Start::Evaluated, &THIRDS, TAPES);
        tables
    }

    /// One of each family, in the families' order.
    fn tallies(&mut self, start: Start, mix: &Mix, tapes: usize) -> Vec<Tally> {
        self.groups.iter_mut().flat_map(|group| group.tallies(start, mix, tapes)).collect()
    }

    fn print_mixes(&mut self) {
        print_head("tape, from an evaluated start");
        for mix in &MIXES {
            print_cells(mix.name, &self.tallies(Start::Evaluated, mix, 1), ENTRIES);
        }
        print_cells(THIRDS.name, &self.thirds, ENTRIES);
    }

    fn print_starts(&mut self) {
        print_head("start, with a third of each kind");
        print_cells(Start::Evaluated.name(), &self.thirds, ENTRIES);
        for start in [Start::Arbitrary, Start::Zeros] {
            print_cells(start.name(), &self.tallies(start, &THIRDS, 1), ENTRIES);
        }
    }

    /// Entries past the first tape are those of further tapes, each from the configuration that the one before left.
    fn print_lengths(&self) {
        print_head("entries, a third of each kind, from an evaluated start");
        for entries in [100, 1_000, ENTRIES, TAPES * ENTRIES] {
            print_cells(&grouped(entries as f64), &self.thirds, entries);
        }
    }
}

pub fn print(seed: u64) -> Result<(), String> {
    let entries = grouped(ENTRIES as f64);
    println!("Runs that ended Found on {} satisfiable maps of {} gates, with tapes of {} entries; seed {}.", MAPS, GATES, entries, seed);
    println!("In parentheses the medians of moves and flips of these runs.\n");
    for family in FAMILIES {
        println!("{}: {}", family.name(), family.what());
    }
    let mut tables = Tables::new(seed);
    tables.print_mixes();
    tables.print_starts();
    tables.print_lengths();
    Ok(())
}

fn print_head(title: &str) {
    println!("\n| {} | {} |", title, FAMILIES.map(Family::name).join(" | "));
    println!("|---|{}", "---|".repeat(FAMILIES.len()));
}

fn print_cells(head: &str, tallies: &[Tally], most: usize) {
    let cells: Vec<String> = tallies.iter().map(|tally| tally.cell(most)).collect();
    println!("| {} | {} |", head, cells.join(" | "));
}
