//! The fixed list of cases, with lines written by hand.

mod check;
mod circuits;
mod evaluate;
mod export;
mod fronts;
mod inner_codes;
mod longer_runs;
mod mark;
mod moves;
mod moves_refused;
mod program;
mod readings;
mod runs;
mod runs_refused;
mod stuck;
mod survey;
mod voters;
mod voters_coded;
mod voters_run;
mod weightless;

pub use self::circuits::adder;
pub use self::program::{longest, longest_stuck, longest_with};

use self::circuits::*;
use crate::engine::{AND, DOWN, GREEDY, INPUT, NOT, OR, UP, VOTER, XOR};
use crate::frame::{Case, PATTERN};
use crate::maps::{build, raw, with, with16};

/// A case of the fixed list with its name and its line, written by hand.
#[derive(Debug, Clone)]
pub struct Named {
    pub name: String,
    pub case: Case,
    pub expected: String,
}

/// One byte for each digit.
fn digits(text: &str) -> Vec<u8> {
    text.bytes()
        .filter(|b| *b != b' ')
        .map(|b| b - b'0')
        .collect()
}

/// The expected memory of an accepted call: bytes by hand as digits, then the
/// surplus, untouched.
fn memory(bytes: &str, surplus: usize) -> String {
    let mut text = String::new();
    for digit in bytes.chars().filter(|c| *c != ' ') {
        text.push('0');
        text.push(digit);
    }
    text.push_str(&"aa".repeat(surplus));
    text
}

/// The expected line of an accepted evaluate.
fn done(values: &str, surplus: usize) -> String {
    format!("DONE {}", memory(values, surplus))
}

/// The expected line of an accepted survey.
fn sizes(front: usize, interest: usize, bytes: &str, surplus: usize) -> String {
    format!("SIZES {front} {interest} {}", memory(bytes, surplus))
}

/// The expected line of an accepted export: the text's length, its bytes, then the
/// surplus, untouched.
fn written(length: usize, text: &str, surplus: usize) -> String {
    format!("TEXT {length} {}{}", hex(text.as_bytes()), "aa".repeat(surplus))
}

/// The expected line of a refused evaluate, survey or export: the memory is
/// untouched.
fn declined(number: u8, room: usize) -> String {
    if room == 0 {
        format!("REFUSED {number}")
    } else {
        format!("REFUSED {number} {}", "aa".repeat(room))
    }
}

/// Entries with draw 0.
fn greedy(option: u8) -> [u8; 4] {
    [0, 0, GREEDY, option]
}

fn down(option: u8) -> [u8; 4] {
    [0, 0, DOWN, option]
}

fn up(option: u8) -> [u8; 4] {
    [0, 0, UP, option]
}

/// The entry with another draw.
fn drawn(draw: u16, entry: [u8; 4]) -> [u8; 4] {
    [(draw % 256) as u8, (draw / 256) as u8, entry[2], entry[3]]
}

/// The expected line of an accepted move: gate drawn and values turned, then
/// the new configuration and its survey as digits.
fn moved((gate, turned): (usize, usize), after: &str, bytes: &str, surplus: usize) -> String {
    format!("MOVED {gate} {turned} {} {}", memory(after, 0), memory(bytes, surplus))
}

/// The expected line of a refused move: configuration and memory are untouched.
fn unmoved(number: u8, configuration: &[u8], room: usize) -> String {
    let mut line = format!("REFUSED {number} ");
    if configuration.is_empty() {
        line.push('-');
    }
    for byte in configuration {
        line.push_str(&format!("{byte:02x}"));
    }
    if room > 0 {
        line.push(' ');
    }
    line.push_str(&"aa".repeat(room));
    line
}

/// Entries, and how often they are repeated.
type Tape<'a> = (&'a [[u8; 4]], usize);

/// Bytes in hexadecimal, `-` where there are none.
fn hex(bytes: &[u8]) -> String {
    if bytes.is_empty() {
        return String::from("-");
    }
    bytes.iter().map(|byte| format!("{byte:02x}")).collect()
}

/// The expected line of a run that finds: moves and flips, then configuration,
/// survey and answer as digits, and the surplus of work and answer memory.
fn found((moves, flips): (usize, usize), after: [&str; 3], surplus: (usize, usize)) -> String {
    let (work, answer) = (memory(after[1], surplus.0), memory(after[2], surplus.1));
    format!("FOUND {moves} {flips} {} {work} {answer}", memory(after[0], 0))
}

/// The expected line of a run that is spent: moves, flips and front, then
/// configuration and survey as digits. The answer memory is untouched.
fn spent((moves, flips, front): (usize, usize, usize), after: [&str; 2], surplus: (usize, usize)) -> String {
    let (work, answer) = (memory(after[1], surplus.0), "aa".repeat(digits(after[0]).len() + surplus.1));
    format!("SPENT {moves} {flips} {front} {} {work} {answer}", memory(after[0], 0))
}

/// The expected line of a run that is Stuck: moves and flips, then configuration
/// and survey as digits. The answer memory is untouched.
fn stuck_line((moves, flips): (usize, usize), after: [&str; 2], surplus: (usize, usize)) -> String {
    let (work, answer) = (memory(after[1], surplus.0), "aa".repeat(digits(after[0]).len() + surplus.1));
    format!("STUCK {moves} {flips} {} {work} {answer}", memory(after[0], 0))
}

/// The expected line of a refused run: no memory is touched.
fn not_run(number: u8, start: &[u8], rooms: (usize, usize)) -> String {
    let untouched = |room: usize| hex(&vec![PATTERN; room]);
    format!("REFUSED {number} {} {} {}", hex(start), untouched(rooms.0), untouched(rooms.1))
}

/// Configurations of the bench examples, for the adder.
const A: &str = "00110101";
const B: &str = "11111001";
const C: &str = "00100001";

struct List(Vec<Named>);

impl List {
    fn add(&mut self, name: &str, case: Case, expected: &str) {
        self.0.push(Named {
            name: String::from(name),
            case,
            expected: String::from(expected),
        });
    }

    fn check(&mut self, name: &str, map: &[u8], expected: &str) {
        let case = Case::plain(b'c', map, &[]);
        self.add(&format!("check {name}"), case, expected);
    }

    fn children(&mut self, name: &str, map: &[u8], gate: u16, expected: &str) {
        let case = Case::plain(b'k', map, &[(gate % 256) as u8, (gate / 256) as u8]);
        self.add(&format!("children {name}"), case, expected);
    }

    fn evaluate(&mut self, name: &str, map: &[u8], row: &[u8], room: usize, expected: &str) {
        let case = Case { room, ..Case::plain(b'e', map, row) };
        self.add(&format!("evaluate {name}"), case, expected);
    }

    fn mark(&mut self, name: &str, map: &[u8], configuration: &[u8], expected: &str) {
        let case = Case::plain(b'm', map, configuration);
        self.add(&format!("mark {name}"), case, expected);
    }

    fn survey(&mut self, name: &str, map: &[u8], configuration: &[u8], room: usize, expected: &str) {
        let case = Case { room, ..Case::plain(b's', map, configuration) };
        self.add(&format!("survey {name}"), case, expected);
    }

    /// An accepted survey into memory of exactly the gate count: the
    /// configuration and the bytes as digits.
    fn surveyed(&mut self, name: &str, map: &[u8], configuration: &str, front: usize, interest: usize, bytes: &str) {
        let configuration = digits(configuration);
        let line = sizes(front, interest, bytes, 0);
        self.survey(name, map, &configuration, configuration.len(), &line);
    }

    fn export(&mut self, name: &str, map: &[u8], room: usize, expected: &str) {
        let case = Case { room, ..Case::plain(b'x', map, &[]) };
        self.add(&format!("export {name}"), case, expected);
    }

    /// An accepted export into memory of exactly the text's length, which is
    /// counted by hand like the text.
    fn exported(&mut self, name: &str, map: &[u8], length: usize, text: &str) {
        self.export(name, map, length, &written(length, text, 0));
    }

    /// A refused export; the name says the number too.
    fn unwritten(&mut self, name: &str, number: u8, map: &[u8], room: usize) {
        self.export(name, map, room, &declined(number, room));
    }

    fn make_move(&mut self, name: &str, map: &[u8], configuration: &[u8], entry: &[u8], room: usize, expected: &str) {
        let case = Case { room, tape: entry.to_vec(), ..Case::plain(b'v', map, configuration) };
        self.add(&format!("move {name}"), case, expected);
    }

    /// An accepted move with work memory of exactly the gate count: both
    /// configurations and the bytes as digits.
    fn moved(&mut self, name: &str, map: &[u8], before: &str, entry: [u8; 4], outcome: (usize, usize), after: &str, bytes: &str) {
        let before = digits(before);
        let line = moved(outcome, after, bytes, 0);
        self.make_move(name, map, &before, &entry, before.len(), &line);
    }

    /// A move that is Stuck: the drawn gate and 0 turned, the configuration as it
    /// was, and its survey.
    fn unturned(&mut self, name: &str, map: &[u8], configuration: &str, entry: [u8; 4], gate: usize, bytes: &str) {
        self.moved(name, map, configuration, entry, (gate, 0), configuration, bytes);
    }

    /// A refused move; the name says the number too.
    fn unmoved(&mut self, name: &str, number: u8, map: &[u8], configuration: &[u8], entry: &[u8], room: usize) {
        let line = unmoved(number, configuration, room);
        self.make_move(name, map, configuration, entry, room, &line);
    }

    fn run(&mut self, name: &str, map: &[u8], start: &[u8], tape: (&[u8], usize), rooms: (usize, usize), expected: &str) {
        self.add(&format!("run {name}"), Case::run(map, start, tape, rooms), expected);
    }

    fn program(&mut self, name: &str, map: &[u8], start: &[u8], tape: (&[u8], usize), expected: &str) {
        self.add(&format!("program {name}"), Case::program(map, start, tape), expected);
    }

    /// Bytes for the program as they are.
    fn input(&mut self, name: &str, bytes: &[u8], expected: &str) {
        self.add(&format!("program {name}"), Case::input(bytes, &[], (&[], 0)), expected);
    }

    /// A run that finds, with memories of exactly the gate count.
    fn found(&mut self, name: &str, map: &[u8], start: &str, tape: Tape, counts: (usize, usize), after: [&str; 3]) {
        let start = digits(start);
        let rooms = (start.len(), start.len());
        self.run(name, map, &start, (&tape.0.concat(), tape.1), rooms, &found(counts, after, (0, 0)));
    }

    /// A run that is spent, with memories of exactly the gate count.
    fn spent(&mut self, name: &str, map: &[u8], start: &str, tape: Tape, counts: (usize, usize, usize), after: [&str; 2]) {
        let start = digits(start);
        let rooms = (start.len(), start.len());
        self.run(name, map, &start, (&tape.0.concat(), tape.1), rooms, &spent(counts, after, (0, 0)));
    }

    /// A run that is Stuck, with memories of exactly the gate count.
    fn stuck(&mut self, name: &str, map: &[u8], start: &str, tape: Tape, counts: (usize, usize), after: [&str; 2]) {
        let start = digits(start);
        let rooms = (start.len(), start.len());
        self.run(name, map, &start, (&tape.0.concat(), tape.1), rooms, &stuck_line(counts, after, (0, 0)));
    }

    /// A run that finds, and the program on the same; `after` has the row last.
    fn both_found(&mut self, name: &str, map: &[u8], start: &str, tape: Tape, counts: (usize, usize), after: [&str; 4]) {
        self.found(name, map, start, tape, counts, [after[0], after[1], after[2]]);
        let line = format!("FOUND {} {} {}", counts.0, counts.1, after[3]);
        self.program(name, map, &digits(start), (&tape.0.concat(), tape.1), &line);
    }

    /// A run that is spent, and the program on the same.
    fn both_spent(&mut self, name: &str, map: &[u8], start: &str, tape: Tape, counts: (usize, usize, usize), after: [&str; 2]) {
        self.spent(name, map, start, tape, counts, after);
        let line = format!("SPENT {} {} {}", counts.0, counts.1, counts.2);
        self.program(name, map, &digits(start), (&tape.0.concat(), tape.1), &line);
    }

    /// A run that is Stuck, and the program on the same.
    fn both_stuck(&mut self, name: &str, map: &[u8], start: &str, tape: Tape, counts: (usize, usize), after: [&str; 2]) {
        self.stuck(name, map, start, tape, counts, after);
        let line = format!("STUCK {} {}", counts.0, counts.1);
        self.program(name, map, &digits(start), (&tape.0.concat(), tape.1), &line);
    }

    /// A refused run; the name says the number too.
    fn not_run(&mut self, name: &str, number: u8, map: &[u8], start: &[u8], tape: (&[u8], usize), rooms: (usize, usize)) {
        self.run(name, map, start, tape, rooms, &not_run(number, start, rooms));
    }

    /// The program on something refused; the name says the number too.
    fn not_printed(&mut self, name: &str, number: u8, map: &[u8], start: &[u8], tape: (&[u8], usize)) {
        self.program(name, map, start, tape, &format!("REFUSED {number}"));
    }
}

/// The fixed cases. A name with "gives n" says which number refuses the call;
/// the expected lines are written by hand and not asked of the engine.
pub fn fixed() -> Vec<Named> {
    let mut list = List(Vec::new());
    let lists = [
        check::accepted,
        check::refused,
        check::precedence,
        check::children,
        evaluate::evaluate,
        mark::mark,
        survey::survey,
        survey::shared,
        survey::large,
        survey::refused,
        survey::precedence,
        export::export,
        export::refused,
        export::precedence,
        moves::bench,
        moves::kinds,
        moves::greedy_choices,
        fronts::draws,
        fronts::below,
        fronts::large,
        moves_refused::refused,
        moves_refused::precedence,
        inner_codes::inner_codes,
        runs::runs,
        longer_runs::longer_runs,
        runs_refused::refused,
        runs_refused::precedence,
        stuck::stuck,
        program::inputs_refused,
        program::rows,
        program::refused,
        program::precedence,
        readings::readings,
        voters::voters,
        voters_coded::voters_coded,
        voters_run::voters_run,
        weightless::weightless,
    ];
    for add in lists {
        add(&mut list);
    }
    list.0
}
