//! Which of document 01's tests fail for a call, each asked on its own as far as the bytes let it be asked.
//!
//! The first of them must be the number that the call gives: a third reading of the list, beside the two engines, and what says which pairs of
//! failing tests an input has.

use crate::call::{Call, Kind};
use peeriewick_tests::engine::{self, INPUT};
use peeriewick_tests::reading::{reading, Reading};

/// The numbers that each kind of call can give, 8 no more; those of Children are what makes its stretch empty.
pub fn numbers_of(kind: Kind) -> Vec<usize> {
    match kind {
        Kind::Check | Kind::Children => (1..=7).collect(),
        Kind::Evaluate => (1..=7).chain([9, 10, 14]).collect(),
        Kind::Mark => (1..=7).chain([9, 10]).collect(),
        Kind::Export => (1..=7).chain([16]).collect(),
        Kind::Survey => (1..=7).chain([9, 10, 11, 14]).collect(),
        Kind::Move => (1..=7).chain(9..=15).collect(),
        Kind::Run => (1..=7).chain(9..=14).collect(),
    }
}

/// Why an input can't fail both tests, if it can't.
pub fn never_both(a: usize, b: usize) -> Option<&'static str> {
    match (a, b) {
        (1, 4..=7) => Some("a map shorter than its contents has no gate, child or code record"),
        (1, 11) => Some("a map shorter than its contents has no code that a configuration could break"),
        _ => None,
    }
}

/// Why these two (or this one, where they are the same) never fail alone, if they don't.
pub fn never_alone(a: usize) -> Option<&'static str> {
    match a {
        1 => Some("a map shorter than its contents never has the length that 3 asks for, nor a code that could fill Move's front"),
        _ => None,
    }
}

fn codes_kept(r: &Reading, body: &[u8]) -> bool {
    r.codes.iter().all(|(gate, value, _)| body.get(*gate).map_or(true, |byte| byte == value))
}

/// Whether no code stands on a gate with children: then no gate of the cone can be unjustified, whatever else is wrong.
fn front_surely_empty(r: &Reading) -> bool {
    let input = |gate: usize| r.gates.get(gate).map_or(true, |(kind, _, _)| *kind == INPUT);
    r.codes.iter().all(|(gate, _, _)| input(*gate))
}

fn tape_length_right(call: &Call) -> bool {
    match call.kind {
        Kind::Move => call.tape.len() == 4,
        _ => call.tape.len() % 4 == 0 && call.tape.len() <= 65_532,
    }
}

/// The text's length; of a map that is refused that of the shortest text there is, `p cnf 1 0` with its line feed: memory for less is surely shorter than
/// any text, whatever else is wrong.
fn least_text(map: &[u8]) -> usize {
    engine::text(map).map_or(10, |text| text.len())
}

/// Every number of the call's kind whose test fails, in rising order.
pub fn failing(call: &Call) -> Vec<usize> {
    let r = reading(&call.map);
    let mut list = r.failing();
    let length = if call.kind == Kind::Evaluate { r.inputs() } else { r.gate_count() };
    let short = call.memory.len() < r.gate_count() || call.kind == Kind::Run && call.answer.len() < r.gate_count();
    let rest = [
        (9, call.body.len() != length),
        (10, call.body.iter().any(|byte| *byte > 1)),
        (11, !codes_kept(&r, &call.body)),
        (12, !tape_length_right(call)),
        (13, call.tape.iter().skip(2).step_by(4).any(|kind| *kind > 2)),
        (14, short),
        (16, call.kind == Kind::Export && call.memory.len() < least_text(&call.map)),
    ];
    list.extend(rest.iter().filter(|(_, fails)| *fails).map(|(number, _)| *number));
    let numbers = numbers_of(call.kind);
    list.retain(|number| numbers.contains(number));
    if call.kind == Kind::Move && front_is_empty(call, &r, &list) {
        list.push(15);
    }
    list
}

fn front_is_empty(call: &Call, r: &Reading, failing: &[usize]) -> bool {
    if failing.iter().any(|number| *number <= 11) {
        return front_surely_empty(r);
    }
    let mut memory = vec![0; call.body.len()];
    matches!(engine::survey(&call.map, &call.body, &mut memory), Ok((0, _)))
}
