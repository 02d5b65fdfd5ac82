//! What a call is lent beside its inputs: memories, the array of numbers and the way they lie, all from a seed.

use crate::call::{Call, Kind};
use crate::lend::Way;
use peeriewick_tests::dice::Dice;
use peeriewick_tests::engine;

pub fn random_bytes(dice: &mut Dice, length: usize) -> Vec<u8> {
    let mut bytes = Vec::with_capacity(length + 8);
    while bytes.len() < length {
        bytes.extend_from_slice(&dice.next().to_le_bytes());
    }
    bytes.truncate(length);
    bytes
}

/// Mostly as many places as the answer has numbers, else none, fewer or more.
fn random_numbers(dice: &mut Dice, kind: Kind) -> Vec<usize> {
    let count = kind.numbers();
    if kind == Kind::Evaluate {
        return vec![];
    }
    let length = match dice.below(8) {
        0 => 0,
        1 => dice.below(count),
        2 => count + 1 + dice.below(4),
        _ => count,
    };
    (0..length).map(|_| dice.next() as usize).collect()
}

fn random_way(dice: &mut Dice) -> Way {
    match dice.below(8) {
        0 => Way::Low,
        1 => Way::High,
        2 => Way::Within,
        _ => Way::Guarded(dice.below(8) as u8),
    }
}

/// The call with memories of these lengths, of those that its kind takes.
pub fn dressed(dice: &mut Dice, call: Call, rooms: (usize, usize)) -> Call {
    let memory = if call.kind.has_memory() { random_bytes(dice, rooms.0) } else { vec![] };
    let answer = if call.kind == Kind::Run { random_bytes(dice, rooms.1) } else { vec![] };
    let numbers = random_numbers(dice, call.kind);
    Call { memory, answer, numbers, way: random_way(dice), null: dice.one_in(2), ..call }
}

/// How many bytes of output, text or work memory a call of the kind on this map needs: one for each of so many gates, or the text's length. For a map that is
/// refused Export needs none, and gets the gate count too.
pub fn needed(kind: Kind, map: &[u8], gates: usize) -> usize {
    match kind {
        Kind::Export => engine::text(map).map_or(gates, |text| text.len()),
        _ => gates,
    }
}

/// A length that holds `needed` bytes, mostly exactly.
pub fn enough(dice: &mut Dice, needed: usize) -> usize {
    match dice.below(4) {
        0 => needed + 1 + dice.below(40),
        _ => needed,
    }
}

/// A length that needn't hold them, one time in twelve.
pub fn any_room(dice: &mut Dice, needed: usize) -> usize {
    match dice.below(36) {
        0 => 0,
        1 => needed - 1,
        2 => dice.below(needed),
        _ => enough(dice, needed),
    }
}
