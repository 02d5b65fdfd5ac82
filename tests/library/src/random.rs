//! Random calls: maps of every shape and size, configurations near to and far from obeying, short and long tapes.

use crate::call::{Call, Kind};
use crate::dress::{any_room, dressed, needed};
use crate::engines::{Outcome, Told, FOUND, SPENT, STUCK};
use crate::harness::Harness;
use crate::shapes::{made, Made, Shape, SHAPES};
use peeriewick_tests::choices::shows_f5;
use peeriewick_tests::dice::Dice;
use peeriewick_tests::engine::{UP, VOTER};
use peeriewick_tests::maps::{break_code, damage_body};
use peeriewick_tests::random::{contradict, damage_tape, random_configuration, random_entries, random_entry};
use peeriewick_tests::random::{random_start, random_tape};
use std::collections::BTreeSet;
use std::fmt;

/// The kinds of calls, as often as they stand here.
const MIX: [Kind; 22] = [
    Kind::Check,
    Kind::Children,
    Kind::Evaluate,
    Kind::Evaluate,
    Kind::Mark,
    Kind::Mark,
    Kind::Export,
    Kind::Export,
    Kind::Survey,
    Kind::Survey,
    Kind::Survey,
    Kind::Survey,
    Kind::Move,
    Kind::Move,
    Kind::Move,
    Kind::Move,
    Kind::Move,
    Kind::Run,
    Kind::Run,
    Kind::Run,
    Kind::Run,
    Kind::Run,
];

/// Mostly small; the independent engine is slow on large maps.
fn random_size(dice: &mut Dice) -> usize {
    match dice.below(100) {
        0..=29 => 1 + dice.below(8),
        30..=79 => 1 + dice.below(40),
        80..=94 => 40 + dice.below(160),
        95..=97 => 200 + dice.below(824),
        98 => 1 + dice.below(1024),
        _ => 1024 - dice.below(2),
    }
}

/// One survey, move or run in six is on limbs, beside those that draw this shape like others. The map of a run: one time in three no state shows its codes, so
/// that the run goes on to the tape's end or is Stuck.
fn made_for(dice: &mut Dice, kind: Kind, size: usize) -> Made {
    let surveys = matches!(kind, Kind::Survey | Kind::Move | Kind::Run);
    let shape = if surveys && dice.one_in(6) { Shape::Limbs } else { SHAPES[dice.below(SHAPES.len())] };
    let mut one = made(dice, shape, size);
    if kind == Kind::Run && dice.one_in(3) {
        contradict(dice, &mut one.draft, &mut one.obeying);
        one.map = one.draft.bytes();
    }
    one
}

fn random_gate_number(dice: &mut Dice, gates: usize) -> usize {
    match dice.below(8) {
        0 => gates + dice.below(3),
        1 => dice.next() as usize,
        2 => 65_536 * (1 + dice.below(3)) + dice.below(gates),
        _ => dice.below(gates),
    }
}

fn random_body(dice: &mut Dice, kind: Kind, one: &Made) -> Vec<u8> {
    let mut body = match kind {
        Kind::Evaluate => one.row.clone(),
        Kind::Mark if dice.one_in(2) => one.obeying.clone(),
        Kind::Mark | Kind::Survey => random_configuration(dice, &one.draft, one.obeying.clone()),
        _ => random_start(dice, &one.draft, &one.obeying),
    };
    if kind != Kind::Evaluate && dice.one_in(40) {
        break_code(dice, &one.draft, &mut body);
    }
    if dice.one_in(40) {
        damage_body(dice, &mut body, one.row.len());
    }
    body
}

/// A tape that the independent engine gets through in time; now and then the longest there is.
fn random_lent_tape(dice: &mut Dice, gates: usize) -> Vec<u8> {
    if gates <= 12 && dice.one_in(60) {
        let count = 16_383 - dice.below(2);
        return random_entries(dice, count);
    }
    let (mut tape, times) = random_tape(dice, gates);
    if dice.one_in(25) {
        damage_tape(dice, &mut tape);
        return tape;
    }
    let most = 4 * (60_000 / (gates + 10)).max(1);
    let times = times.min((most / tape.len().max(1)).max(1));
    tape.repeat(times)
}

/// A random call on a map of about this size.
pub fn random_call(dice: &mut Dice, size: usize) -> Call {
    let kind = MIX[dice.below(MIX.len())];
    let one = made_for(dice, kind, size);
    let gates = one.obeying.len();
    let mut call = Call::new(kind, &one.map);
    if kind == Kind::Children {
        call.gate = random_gate_number(dice, gates);
    }
    if kind.has_body() {
        call.body = random_body(dice, kind, &one);
    }
    match kind {
        Kind::Move => call.tape = random_entry(dice),
        Kind::Run => call.tape = random_lent_tape(dice, gates),
        _ => {}
    }
    let rooms = (any_room(dice, needed(kind, &call.map, gates)), any_room(dice, gates));
    dressed(dice, call, rooms)
}

/// One call in sixteen takes the next size in turn, so that 16,384 of them meet every size.
pub fn size_for(dice: &mut Dice, number: usize) -> usize {
    match number % 16 {
        0 => 1 + number / 16 % 1024,
        _ => random_size(dice),
    }
}

/// What random calls met, so that a bare generator is seen.
#[derive(Default)]
struct Met {
    sizes: BTreeSet<usize>,
    found: u64,
    spent: u64,
    stuck: u64,
    /// Moves that turned the drawn gate for want of options.
    for_want: u64,
    /// Moves that drew a voter and turned one of its children, or two.
    one_of_pair: u64,
    both_of_pair: u64,
    /// Greedy moves on maps of up to 60 gates that would have led elsewhere, did NOT gates carry weight.
    weightless: u64,
    long: u64,
    /// Texts written, and those of more than 65,535 bytes.
    texts: u64,
    long_texts: u64,
    /// Exports refused for short memory.
    short_of_text: u64,
    refused: u64,
}

impl Met {
    fn note(&mut self, call: &Call, told: &Told, left: &Outcome) {
        if call.map.len() >= 4 {
            self.sizes.insert(call.map[2] as usize + 256 * call.map[3] as usize);
        }
        self.refused += (told.number != 0) as u64;
        if call.kind == Kind::Run && told.number == 0 {
            self.found += (told.numbers[0] == FOUND) as u64;
            self.spent += (told.numbers[0] == SPENT) as u64;
            self.stuck += (told.numbers[0] == STUCK) as u64;
            self.long += (told.numbers[1] > 10_000) as u64;
        }
        if call.kind == Kind::Export {
            self.texts += (told.number == 0) as u64;
            self.long_texts += (told.number == 0 && told.numbers[0] > 65_535) as u64;
            self.short_of_text += (told.number == 16) as u64;
        }
        if call.kind == Kind::Move && told.number == 0 {
            let (gate, turned) = (told.numbers[0], told.numbers[1]);
            let itself = left.body[gate] != call.body[gate];
            self.for_want += (itself && call.tape[2] != UP) as u64;
            if call.map[12 + 4 * gate] == VOTER && !itself {
                self.one_of_pair += (turned == 1) as u64;
                self.both_of_pair += (turned == 2) as u64;
            }
            self.weightless += (call.body.len() <= 60 && shows_f5(&call.map, &call.body, &call.tape, &left.body)) as u64;
        }
    }

    /// Whether `n` calls should have met more: each ending, moves for want of options, moves of either sort from voters, exports and refusals one time in 400,
    /// greedy moves that would have led elsewhere one time in 1,600, exports refused for short memory one time in 4,000, and texts of more than 65,535 bytes one
    /// time in 8,000.
    fn bare(&self, n: usize) -> bool {
        let pairs = self.one_of_pair.min(self.both_of_pair);
        let least = self.found.min(self.spent).min(self.stuck).min(self.for_want).min(self.refused).min(pairs).min(self.texts);
        let few_texts = self.short_of_text < n as u64 / 4000 || self.long_texts < n as u64 / 8000;
        self.sizes.len() != 1024 || least < n as u64 / 400 || self.weightless < n as u64 / 1600 || few_texts || self.long == 0
    }
}

impl fmt::Display for Met {
    fn fmt(&self, f: &mut fmt::Formatter<'_>) -> fmt::Result {
        write!(f, "{} sizes of maps, {} found, {} spent, {} stuck, ", self.sizes.len(), self.found, self.spent, self.stuck)?;
        write!(f, "{} of over 10,000 moves, {} moves for want of options, ", self.long, self.for_want)?;
        write!(f, "{} and {} that turn one and two children of a voter, ", self.one_of_pair, self.both_of_pair)?;
        write!(f, "{} greedy moves that NOT gates' weight would change, ", self.weightless)?;
        write!(f, "{} texts, {} of over 65,535 bytes, {} without room, ", self.texts, self.long_texts, self.short_of_text)?;
        write!(f, "{} refused", self.refused)
    }
}

pub fn random(harness: &mut Harness, seed: u64, n: usize) -> Result<String, String> {
    let (mut dice, mut met) = (Dice(seed), Met::default());
    for number in 0..n {
        let size = size_for(&mut dice, number);
        let call = random_call(&mut dice, size);
        let (told, left) = harness.compared(&call)?;
        met.note(&call, &told, &left);
    }
    match n >= 16_384 && met.bare(n) {
        true => Err(format!("the random calls are bare: {met}")),
        false => Ok(met.to_string()),
    }
}
