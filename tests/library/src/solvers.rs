//! Clause solvers on the texts that Export writes (F-4): two of them, of other hands, read what the proved engine wrote through the archive. What they say of
//! a text must be what the independent engine says of the map, their assignments must be states for the proved Mark, and the states that the proved Run finds
//! must satisfy the text's clauses.

use crate::call::hex;
use crate::levels::{coded, levels, Codes, CODES};
use crate::shapes::{made, SHAPES};
use peeriewick::{Ending, Outcome, LONGEST_TEXT};
use peeriewick_tests::dice::Dice;
use peeriewick_tests::dimacs::{self, Cnf};
use peeriewick_tests::engine::{self, DOWN, GREEDY, UP};
use peeriewick_tests::maps::{build, code_lists, configurations, gate_lists, maps_of, voters_below_a_not, Draft};
use peeriewick_tests::random::contradict;
use std::fmt;
use std::fs;
use std::io;
use std::os::raw::c_uint;
use std::os::unix::process::CommandExt;
use std::path::PathBuf;
use std::process::{Command, Output, Stdio};

extern "C" {
    fn alarm(seconds: c_uint) -> c_uint;
}

/// What a solver says: an assignment, a byte 0 or 1 for each variable, or None where there is none.
type Verdict = Option<Vec<u8>>;

/// A folder of this process, gone with its files at the end.
struct Folder(PathBuf);

impl Folder {
    fn new() -> Result<Folder, String> {
        let path = std::env::temp_dir().join(format!("peeriewick-solvers-{}", std::process::id()));
        fs::create_dir(&path).map_err(|e| format!("{}: {e}", path.display()))?;
        Ok(Folder(path))
    }

    fn file(&self, name: &str) -> PathBuf {
        self.0.join(name)
    }
}

impl Drop for Folder {
    fn drop(&mut self) {
        let _ = fs::remove_dir_all(&self.0);
    }
}

// ---------------------------------------------------------------- the solvers

/// More seconds than a solver needs for any of these texts; it is stopped after them.
const SECONDS: c_uint = 60;

fn stopped_in_time(command: &mut Command) -> &mut Command {
    let clock = || {
        unsafe { alarm(SECONDS) };
        Ok(())
    };
    unsafe { command.pre_exec(clock) }
}

/// The literals that a solver gives, 0 at their end, as values. It may leave out variables that stand in no clause: they are 0 then.
fn values(items: &[&str], variables: usize) -> Result<Vec<u8>, String> {
    let (last, literals) = items.split_last().ok_or("no literals")?;
    let mut values = vec![None; variables];
    for item in literals {
        let literal: i64 = item.parse().map_err(|_| format!("not a literal: {item}"))?;
        let place = (literal.unsigned_abs() as usize).wrapping_sub(1);
        match values.get_mut(place) {
            Some(value) if value.is_none() => *value = Some((literal > 0) as u8),
            _ => return Err(format!("a literal of no variable, or its variable's second: {item}")),
        }
    }
    match *last {
        "0" => Ok(values.into_iter().map(|value| value.unwrap_or(0)).collect()),
        _ => Err(String::from("no 0 behind the literals")),
    }
}

/// By the exit status, 10 or 20, and the word that goes with it.
fn verdict(output: &Output, word: &str, items: &[&str], variables: usize) -> Result<Verdict, String> {
    match (output.status.code(), word) {
        (Some(10), "SAT" | "SATISFIABLE") => values(items, variables).map(Some),
        (Some(20), "UNSAT" | "UNSATISFIABLE") => Ok(None),
        (status, _) => Err(format!("ends with {status:?} and says '{word}' (no status: stopped after {SECONDS} seconds)")),
    }
}

/// minisat writes SAT and the literals into a file, or UNSAT. It warns of a clause count that isn't the head's, and of variables in no clause, which are right.
fn minisat(folder: &Folder, output: &Output, variables: usize) -> Result<Verdict, String> {
    let warnings = String::from_utf8_lossy(&output.stderr);
    if warnings.contains("number of clauses") || warnings.contains("ERROR") {
        return Err(warnings.into_owned());
    }
    let said = fs::read_to_string(folder.file("said")).map_err(|e| format!("what it wrote: {e}"))?;
    let items: Vec<&str> = said.split_whitespace().collect();
    verdict(output, items.first().unwrap_or(&""), items.get(1..).unwrap_or(&[]), variables)
}

/// picosat prints `s SATISFIABLE` and the literals on lines that begin with v, or `s UNSATISFIABLE`. It takes no text whose counts aren't the head's.
fn picosat(output: &Output, variables: usize) -> Result<Verdict, String> {
    let said = String::from_utf8_lossy(&output.stdout);
    let word = said.lines().find_map(|line| line.strip_prefix("s ")).unwrap_or(&said);
    let items: Vec<&str> = said.lines().filter_map(|line| line.strip_prefix("v ")).flat_map(str::split_whitespace).collect();
    verdict(output, word, &items, variables)
}

/// Both solvers' verdicts on a text, in the order of their names.
fn verdicts(folder: &Folder, text: &[u8], variables: usize) -> Result<[(&'static str, Verdict); 2], String> {
    let path = folder.file("text");
    fs::write(&path, text).map_err(|e| format!("{}: {e}", path.display()))?;
    let _ = fs::remove_file(folder.file("said"));
    let (mut one, mut other) = (Command::new("minisat"), Command::new("picosat"));
    one.arg("-verb=0").arg(&path).arg(folder.file("said"));
    other.arg(&path);
    let start = |command: &mut Command| {
        let command = command.stdin(Stdio::null()).stdout(Stdio::piped()).stderr(Stdio::piped());
        stopped_in_time(command).spawn()
    };
    let (one, other) = (start(&mut one), start(&mut other));
    let ended = |name: &str, child: io::Result<std::process::Child>| {
        child.and_then(|child| child.wait_with_output()).map_err(|e| format!("{name} can't be run: {e}"))
    };
    let (one, other) = (ended("minisat", one), ended("picosat", other));
    Ok([
        ("minisat", minisat(folder, &one?, variables).map_err(|e| format!("minisat: {e}"))?),
        ("picosat", picosat(&other?, variables).map_err(|e| format!("picosat: {e}"))?),
    ])
}

// ------------------------------------------------------------------- the maps

/// Whether the values that some row gives have every code, by the independent engine.
fn some_row_shows_the_codes(map: &[u8], inputs: usize, gates: usize) -> bool {
    configurations(inputs as u16).iter().any(|row| {
        let mut values = vec![0; gates];
        engine::evaluate(map, row, &mut values) == Ok(()) && engine::mark(map, &values) == Ok(true)
    })
}

/// A map and what was written for it.
struct Exported {
    map: Vec<u8>,
    gates: usize,
    inputs: usize,
    text: Vec<u8>,
    cnf: Cnf,
}

fn exported(map: &[u8]) -> Result<Exported, String> {
    let counts = engine::check(map).map_err(|number| format!("the independent engine refuses the map with {number}"))?;
    let mut text = vec![0; LONGEST_TEXT];
    let length = peeriewick::export(map, &mut text).map_err(|refused| refused.to_string())?;
    text.truncate(length);
    let cnf = dimacs::read(&text)?;
    let (gates, inputs) = (counts.gates as usize, counts.inputs as usize);
    match cnf.variables == gates {
        true => Ok(Exported { map: map.to_vec(), gates, inputs, text, cnf }),
        false => Err(format!("{} variables for {gates} gates", cnf.variables)),
    }
}

#[derive(Default)]
struct Solved {
    satisfiable: u64,
    unsatisfiable: u64,
    found: u64,
    stuck: u64,
}

impl Solved {
    fn maps(&self) -> u64 {
        self.satisfiable + self.unsatisfiable
    }

    /// Whether fewer than one in so many are of some sort.
    fn bare(&self, one_in: u64) -> bool {
        self.satisfiable.min(self.unsatisfiable).min(self.found) * one_in < self.maps()
    }
}

impl fmt::Display for Solved {
    fn fmt(&self, f: &mut fmt::Formatter<'_>) -> fmt::Result {
        write!(f, "{} maps, {} satisfiable and {} not, ", self.maps(), self.satisfiable, self.unsatisfiable)?;
        write!(f, "{} runs that found and {} that were stuck", self.found, self.stuck)
    }
}

struct Solvers {
    folder: Folder,
    dice: Dice,
}

impl Solvers {
    /// A run from a random row's values, the codes set: a state that it finds satisfies the text's clauses, and it finds none where the text is unsatisfiable, and
    /// is stuck only there.
    fn run(&mut self, one: &Exported, codes: &[(u16, u8)], entries: usize, satisfiable: bool) -> Result<Ending, String> {
        let row: Vec<u8> = (0..one.inputs).map(|_| self.dice.bit()).collect();
        let mut start = vec![0; one.gates];
        peeriewick::evaluate(&one.map, &row, &mut start).map_err(|refused| refused.to_string())?;
        codes.iter().for_each(|(gate, value)| start[*gate as usize] = *value);
        let tape: Vec<u8> = (0..entries).flat_map(|_| self.entry()).collect();
        let (mut work, mut answer) = (vec![0; one.gates], vec![0; one.gates]);
        let ran = peeriewick::run(&one.map, &mut start, &tape, &mut work, &mut answer);
        let Outcome { ending, .. } = ran.map_err(|refused| refused.to_string())?;
        match ending {
            Ending::Found if !satisfiable => Err(String::from("Run finds a state of a map whose text is unsatisfiable")),
            Ending::Found if !one.cnf.satisfied(&answer) => Err(String::from("the state that Run finds doesn't satisfy the text's clauses")),
            Ending::Stuck if satisfiable => Err(String::from("Run is stuck on a map whose text is satisfiable")),
            ending => Ok(ending),
        }
    }

    /// Any draw and option; 45 % greedy, 10 % down and 45 % up.
    fn entry(&mut self) -> [u8; 4] {
        let [low, high, option, ..] = self.dice.next().to_le_bytes();
        let kind = match self.dice.below(20) {
            0..=8 => GREEDY,
            9 | 10 => DOWN,
            _ => UP,
        };
        [low, high, kind, option]
    }

    /// Both solvers on the map's text. They must say what is expected, where it is known, and the same in any case; what they give must satisfy the clauses and
    /// be a state for the proved Mark.
    fn solved(&mut self, one: &Exported, expected: Option<bool>) -> Result<bool, String> {
        let list = verdicts(&self.folder, &one.text, one.gates)?;
        let satisfiable = expected.unwrap_or(list[0].1.is_some());
        for (name, verdict) in list {
            if verdict.is_some() != satisfiable {
                let says = if verdict.is_some() { "satisfiable" } else { "unsatisfiable" };
                return Err(format!("{name} says that the text is {says}"));
            }
            if let Some(values) = verdict {
                if peeriewick::mark(&one.map, &values) != Ok(true) {
                    return Err(format!("{name}'s assignment is no state for Mark: {values:?}"));
                }
                if !one.cnf.satisfied(&values) {
                    return Err(format!("{name}'s assignment doesn't satisfy the clauses: {values:?}"));
                }
            }
        }
        Ok(satisfiable)
    }

    /// Solvers and a run on a map, and what they came to.
    fn try_map(&mut self, map: &[u8], codes: &[(u16, u8)], entries: usize, known: Known, solved: &mut Solved) -> Result<(), String> {
        self.tried(map, codes, entries, known, solved).map_err(|message| format!("{message}\nmap={}", hex(map)))
    }

    fn tried(&mut self, map: &[u8], codes: &[(u16, u8)], entries: usize, known: Known, solved: &mut Solved) -> Result<(), String> {
        let one = exported(map)?;
        let expected = match known {
            Known::ByRows => Some(some_row_shows_the_codes(map, one.inputs, one.gates)),
            Known::Satisfiable => Some(true),
            Known::Unsatisfiable => Some(false),
            Known::No => None,
        };
        let satisfiable = self.solved(&one, expected)?;
        solved.satisfiable += satisfiable as u64;
        solved.unsatisfiable += !satisfiable as u64;
        match self.run(&one, codes, entries, satisfiable)? {
            Ending::Found => solved.found += 1,
            Ending::Stuck => solved.stuck += 1,
            Ending::Spent(_) => {}
        }
        Ok(())
    }

    /// Every map of up to three gates; every map of four gates in which the last has a code, and another or none; and of the voters below a coded NOT one in
    /// four.
    fn small(&mut self) -> Result<Solved, String> {
        let mut solved = Solved::default();
        let mut list: Vec<Vec<u8>> = (1..=3).flat_map(maps_of).collect();
        for gates in gate_lists(4) {
            let some = code_lists(4).into_iter().filter(|codes| codes.len() <= 2 && codes.iter().any(|(gate, _)| *gate == 3));
            list.extend(some.map(|codes| build(&gates, &codes)));
        }
        list.extend(voters_below_a_not().into_iter().skip(self.dice.below(4)).step_by(4));
        for map in list {
            self.try_map(&map, &codes_of(&map), 60, Known::ByRows, &mut solved)?;
        }
        Ok(solved)
    }

    /// Random maps of every shape with up to twelve inputs and some forty gates.
    fn random(&mut self, n: usize) -> Result<Solved, String> {
        let mut solved = Solved::default();
        while solved.maps() < n as u64 {
            let (shape, size) = (SHAPES[self.dice.below(SHAPES.len())], 2 + self.dice.below(40));
            let mut one = made(&mut self.dice, shape, size);
            if self.dice.one_in(5) {
                contradict(&mut self.dice, &mut one.draft, &mut one.obeying);
            }
            if one.draft.inputs() <= 12 && !one.draft.codes.is_empty() {
                self.try_map(&one.draft.bytes(), &one.draft.codes, 400, Known::ByRows, &mut solved)?;
            }
        }
        Ok(solved)
    }

    /// Maps of hundreds of gates in levels, with codes of every sort by turn.
    fn large(&mut self, n: usize) -> Result<Solved, String> {
        let mut solved = Solved::default();
        for number in 0..n {
            let codes = CODES[number % CODES.len()];
            let size = if number < CODES.len() { 1024 } else { 150 + self.dice.below(875) };
            let gates = levels(&mut self.dice, size);
            let draft: Draft = coded(&mut self.dice, gates, codes);
            let known = match codes {
                Codes::Shown | Codes::SomeShown => Known::Satisfiable,
                Codes::Twins => Known::Unsatisfiable,
                _ => Known::No,
            };
            self.try_map(&draft.bytes(), &draft.codes, 4000, known, &mut solved)?;
        }
        Ok(solved)
    }
}

/// How it is known whether some state satisfies a map.
#[derive(Clone, Copy)]
enum Known {
    /// By evaluating every row.
    ByRows,
    Satisfiable,
    Unsatisfiable,
    No,
}

/// The codes of an accepted map.
fn codes_of(map: &[u8]) -> Vec<(u16, u8)> {
    let number = |at: usize| map[at] as u16 + 256 * map[at + 1] as u16;
    let code = |at: usize| (number(at), map[at + 2]);
    (0..number(10) as usize).map(|place| code(number(8) as usize + 4 * place)).collect()
}

/// The small maps, `n` random ones, and a large one for every four of these.
pub fn solvers(seed: u64, n: usize) -> Result<String, String> {
    let mut all = Solvers { folder: Folder::new()?, dice: Dice(seed) };
    let (small, random, large) = (all.small()?, all.random(n)?, all.large(n / 4)?);
    match small.bare(8) || random.bare(8) || large.bare(8) {
        true => Err(format!("the maps are bare: small: {small}; random: {random}; large: {large}")),
        false => Ok(format!("small: {small}; random: {random}; large: {large}")),
    }
}
