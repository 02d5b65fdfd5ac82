//! Random cases for the comparison: small and large maps, most of them accepted, some with a little damage to the map or to what else is lent.

use crate::circuit::{Circuit, Gate, VOTER};
use crate::engine::PLAIN;
use crate::inputs::TEXT_PER_GATE;
use crate::lent::{Buffer, Lent};
use crate::random::Random;

pub fn random_case(random: &mut Random) -> Lent {
    let size = random_size(random);
    let circuit = random_circuit(random, size);
    let mut map = circuit.bytes();
    let mut row = random.bits(circuit.inputs());
    let mut configuration = random_start(random, &circuit);
    let mut tape = random_tape(random);
    match random.below(12) {
        0..=3 => damage_map(random, &mut map),
        4 => damage_values(random, &mut row),
        5 => damage_values(random, &mut configuration),
        6 => damage_tape(random, &mut tape),
        _ => {}
    }
    let guard = random.word() as u8;
    let mut memory = || {
        let len = random_memory_len(random, size);
        Buffer::new(&random.bytes(len), guard)
    };
    let (out, answer) = (memory(), memory());
    let numbers = vec![9999; if random.once_in(4) { random.below(7) } else { 4 }];
    let text_len = random_text_len(random, &map, size);
    let text = Buffer::new(&random.bytes(text_len), guard);
    Lent {
        map: Buffer::new(&map, guard),
        row: Buffer::new(&row, guard),
        configuration: Buffer::new(&configuration, guard),
        tape: Buffer::new(&tape, guard),
        out,
        answer,
        text,
        numbers: Buffer::new(&numbers, 9999),
    }
}

fn random_size(random: &mut Random) -> usize {
    match random.below(40) {
        0 => 1 + random.below(1024),
        1 => 1024,
        2..=9 => 1 + random.below(100),
        _ => 1 + random.below(16),
    }
}

fn random_circuit(random: &mut Random, size: usize) -> Circuit {
    let (input_rate, hidden_rate) = (1 + random.below(6), 1 + random.below(12));
    let voter_rate = [0, 1, 2, 6][random.below(4)];
    let mut usable: Vec<u16> = Vec::new();
    let mut gates = Vec::new();
    for number in 0..size as u16 {
        let input = usable.is_empty() || random.once_in(input_rate);
        gates.push(if input { Gate::input() } else { random_gate(random, voter_rate, &usable) });
        if !random.once_in(hidden_rate + 1) {
            usable.push(number);
        }
    }
    let mut circuit = Circuit { gates, codes: Vec::new() };
    circuit.codes = random_codes(random, &circuit);
    circuit
}

/// A voter once in `voter_rate` where three gates are below, but never if that is 0.
fn random_gate(random: &mut Random, voter_rate: usize, below: &[u16]) -> Gate {
    if voter_rate > 0 && below.len() >= 3 && random.once_in(voter_rate) {
        return Gate::over(random, VOTER, 3, below, Random::below);
    }
    Gate::random(random, below, Random::below)
}

/// Codes on most gates that have no parent, and on none, some or most of the others. Some state shows them, or all but a few, or they are arbitrary.
fn random_codes(random: &mut Random, circuit: &Circuit) -> Vec<(u16, u8)> {
    let (code_rate, inner_rate) = (1 + random.below(4), [0, 0, 1, 3, 6][random.below(5)]);
    let turned_rate = [0, 8, 2][random.below(3)];
    let shown = circuit.evaluate(&random.bits(circuit.inputs()));
    let mut codes = Vec::new();
    for (gate, has_parent) in circuit.has_parent().into_iter().enumerate() {
        let is_coded = if has_parent { inner_rate > 0 && random.once_in(inner_rate + 1) } else { !random.once_in(code_rate + 1) };
        if is_coded {
            codes.push((gate as u16, shown[gate] ^ u8::from(turned_rate > 0 && random.once_in(turned_rate))));
        }
    }
    codes
}

/// Evaluated or arbitrary values; the codes are kept.
fn random_start(random: &mut Random, circuit: &Circuit) -> Vec<u8> {
    if random.once_in(2) {
        return circuit.start(&random.bits(circuit.inputs()));
    }
    circuit.with_codes(random.bits(circuit.gates.len()))
}

fn random_tape(random: &mut Random) -> Vec<u8> {
    let entries = if random.once_in(50) { random.below(400) } else { random.below(24) };
    let mut tape = random.bytes(4 * entries);
    let kinds = 1 + random.below(7);
    for entry in tape.chunks_mut(4) {
        // Any subset of the three kinds, so that some tapes are all greedy.
        entry[2] = (0..3).filter(|kind| kinds & (1 << kind) != 0).nth(entry[2] as usize % kinds.count_ones() as usize).unwrap_or(0);
    }
    tape
}

fn random_memory_len(random: &mut Random, size: usize) -> usize {
    match random.below(30) {
        0 => random.below(size),
        1 => size - 1,
        2..=5 => size + random.below(40),
        _ => size,
    }
}

/// Long enough or too short for the map's text, often by a single byte. Where the map is refused there is no text, and any memory will do.
fn random_text_len(random: &mut Random, map: &[u8], size: usize) -> usize {
    let mut numbers = [random.below(40)];
    PLAIN.export(map, &mut vec![0; TEXT_PER_GATE * size], &mut numbers);
    let [len] = numbers;
    match random.below(8) {
        0 => random.below(len + 1),
        1 => len.saturating_sub(1),
        2 | 3 => len + random.below(40),
        _ => len,
    }
}

/// Changes one or two bytes or pairs of bytes, or the length.
fn damage_map(random: &mut Random, map: &mut Vec<u8>) {
    for _ in 0..1 + random.below(2) {
        let place = random.below(map.len());
        match random.below(8) {
            0 => map[place] = random.word() as u8,
            1 => map[place] = map[place].wrapping_add(1),
            2 => map[place] = map[place].wrapping_sub(1),
            3 => map[place] ^= 1 << random.below(8),
            4 => move_bytes(random, map),
            5 => swap_pairs(random, map),
            6 => map.truncate(place.max(1)),
            _ => map.push(0),
        }
    }
}

/// Copies a pair of bytes to another even place: a wrong child, position or code out of records that are right.
fn move_bytes(random: &mut Random, map: &mut [u8]) {
    let pairs = map.len() / 2;
    if pairs > 0 {
        let (from, to) = (2 * random.below(pairs), 2 * random.below(pairs));
        map.copy_within(from..from + 2, to);
    }
}

/// Swaps two neighbouring pairs of bytes: children or codes that do not ascend.
fn swap_pairs(random: &mut Random, map: &mut [u8]) {
    let pairs = map.len() / 2;
    if pairs > 1 {
        let place = 2 * random.below(pairs - 1);
        map.swap(place, place + 2);
        map.swap(place + 1, place + 3);
    }
}

fn damage_values(random: &mut Random, values: &mut Vec<u8>) {
    match random.below(4) {
        0 => values.push(random.below(2) as u8),
        1 => values.truncate(values.len().saturating_sub(1)),
        2 if !values.is_empty() => {
            let place = random.below(values.len());
            values[place] = 2 + random.below(254) as u8;
        }
        _ if !values.is_empty() => {
            let place = random.below(values.len());
            values[place] ^= 1;
        }
        _ => {}
    }
}

fn damage_tape(random: &mut Random, tape: &mut Vec<u8>) {
    match random.below(8) {
        0 => tape.resize(65_536, 0),
        1 => tape.resize(65_532, 0),
        2 | 3 => tape.push(0),
        4 => tape.truncate(tape.len().saturating_sub(1 + random.below(3))),
        _ if !tape.is_empty() => {
            let place = 4 * random.below(tape.len() / 4) + 2;
            tape[place] = 3 + random.below(253) as u8;
        }
        _ => {}
    }
}
