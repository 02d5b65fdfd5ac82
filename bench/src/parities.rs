//! Systems of parities: each equation is a tree of XOR gates over some inputs, whose last gate is coded.

use crate::circuit::{Circuit, Gate, XOR};
use crate::random::Random;

pub fn satisfiable(random: &mut Random, size: usize) -> Circuit {
    let inputs = size / 8;
    let equations = equations(random, inputs, size - inputs);
    coded(random, inputs, &equations)
}

/// The first equation stands a second time at the end, with the other code.
pub fn contradictory(random: &mut Random, size: usize) -> Circuit {
    let inputs = size / 8;
    let first = equation(random, inputs, 7);
    let rest = size - inputs - 2 * (first.len() - 1);
    let mut all = vec![first.clone()];
    all.extend(equations(random, inputs, rest));
    all.push(first);
    let mut circuit = coded(random, inputs, &all);
    if let Some(last) = circuit.codes.last_mut() {
        last.1 ^= 1;
    }
    circuit
}

/// 3 to 7 inputs in rising order, but no more than `most`.
fn equation(random: &mut Random, inputs: usize, most: usize) -> Vec<u16> {
    let all: Vec<u16> = (0..inputs as u16).collect();
    let len = 3 + random.below(5);
    Gate::over(random, XOR, len.min(most), &all, Random::below).children
}

/// Equations over 3 to 7 inputs that have so many gates together; the last may be shorter.
fn equations(random: &mut Random, inputs: usize, gates: usize) -> Vec<Vec<u16>> {
    let mut left = gates;
    let mut equations = Vec::new();
    while left > 0 {
        let next = equation(random, inputs, left + 1);
        left -= next.len() - 1;
        equations.push(next);
    }
    equations
}

/// The codes are what one random row gives.
fn coded(random: &mut Random, inputs: usize, equations: &[Vec<u16>]) -> Circuit {
    let mut circuit = Circuit { gates: (0..inputs).map(|_| Gate::input()).collect(), codes: Vec::new() };
    let last: Vec<u16> = equations.iter().map(|equation| add_tree(&mut circuit.gates, equation)).collect();
    let values = circuit.evaluate(&random.bits(inputs));
    circuit.codes = last.iter().map(|&gate| (gate, values[gate as usize])).collect();
    circuit
}

/// Joins signals by twos, in turn, until one is left: a tree as flat as can be. Returns its last gate.
fn add_tree(gates: &mut Vec<Gate>, signals: &[u16]) -> u16 {
    let mut queue = signals.to_vec();
    let mut place = 0;
    while place + 1 < queue.len() {
        gates.push(Gate { kind: XOR, children: vec![queue[place], queue[place + 1]] });
        queue.push(gates.len() as u16 - 1);
        place += 2;
    }
    queue[place]
}
