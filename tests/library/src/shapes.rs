//! Maps of many shapes and any size, from a seed.

use peeriewick_tests::dice::Dice;
use peeriewick_tests::engine::{self, AND, INPUT, NOT, OR, VOTER, XOR};
use peeriewick_tests::limbs::limbs;
use peeriewick_tests::maps::{are_children, coded_children, random_gate, random_values, Draft};

#[derive(Debug, Clone, Copy, PartialEq, Eq)]
pub enum Shape {
    /// Gates of all kinds over any gates.
    Mixed,
    /// Each gate over the one before it and some other: as deep as can be.
    Chain,
    /// NOTs of NOTs.
    Nots,
    /// Many inputs, and gates over inputs alone.
    Flat,
    /// XORs over any gates.
    Xors,
    /// Voters over any gates, half of them over some of the last ten.
    Voters,
    /// AND and OR of eight, everywhere.
    Eight,
    /// Nothing but inputs.
    Inputs,
    /// AND and OR over the same children, and over three a voter.
    Twins,
    /// Every gate has one parent, but for the root.
    Tree,
    /// A choice between parts of NOTs and other gates by turn.
    Limbs,
}

pub const SHAPES: [Shape; 11] = [
    Shape::Mixed,
    Shape::Chain,
    Shape::Nots,
    Shape::Flat,
    Shape::Xors,
    Shape::Voters,
    Shape::Eight,
    Shape::Inputs,
    Shape::Twins,
    Shape::Tree,
    Shape::Limbs,
];

/// A map, a row, and the values of every gate for it.
pub struct Made {
    pub draft: Draft,
    pub map: Vec<u8>,
    pub row: Vec<u8>,
    pub obeying: Vec<u8>,
}

/// That many children among the gates below `below`, or all of them where there are no more.
pub fn some_children(dice: &mut Dice, below: usize, count: usize) -> Vec<u16> {
    let mut list: Vec<u16> = Vec::new();
    while list.len() < count.min(below) {
        let child = dice.below(below) as u16;
        if !list.contains(&child) {
            list.push(child);
        }
    }
    list.sort();
    list
}

/// A gate over these children, of a kind that may have so many.
fn gate_over(dice: &mut Dice, children: Vec<u16>) -> (u8, Vec<u16>) {
    let kind = match children.len() {
        0 => INPUT,
        1 => NOT,
        2 => [AND, OR, XOR][dice.below(3)],
        3 => [AND, OR, VOTER][dice.below(3)],
        _ => [AND, OR][dice.below(2)],
    };
    (kind, children)
}

/// The gate before, and mostly one or two others.
fn chained(dice: &mut Dice, number: usize) -> (u8, Vec<u16>) {
    let mut children = match dice.below(16) {
        0 => return (INPUT, vec![]),
        1 => vec![],
        2..=4 => some_children(dice, number - 1, 2),
        _ => some_children(dice, number - 1, 1),
    };
    children.push(number as u16 - 1);
    gate_over(dice, children)
}

fn gate_at(dice: &mut Dice, shape: Shape, number: usize, size: usize) -> (u8, Vec<u16>) {
    if number == 0 {
        return (INPUT, vec![]);
    }
    let input = (INPUT, vec![]);
    let of_some = |dice: &mut Dice, below: usize| {
        let count = 1 + dice.below(8);
        let children = some_children(dice, below, count);
        gate_over(dice, children)
    };
    match shape {
        Shape::Mixed => random_gate(dice, number, 25),
        Shape::Chain => chained(dice, number),
        Shape::Nots if dice.one_in(60) => input,
        Shape::Nots | Shape::Limbs => (NOT, vec![number as u16 - 1]),
        Shape::Flat if number <= size * 2 / 3 => input,
        Shape::Flat => of_some(dice, size * 2 / 3 + 1),
        Shape::Xors if number == 1 || number <= size / 5 => input,
        Shape::Xors => (XOR, some_children(dice, number, 2)),
        Shape::Voters if number < 3 || number <= size / 8 => input,
        Shape::Voters => {
            let first = if dice.one_in(2) { number - number.min(10) } else { 0 };
            (VOTER, some_children(dice, number - first, 3).into_iter().map(|child| child + first as u16).collect())
        }
        Shape::Eight if number < 8 || dice.one_in(30) => input,
        Shape::Eight => ([AND, OR][dice.below(2)], some_children(dice, number, 8)),
        Shape::Inputs => input,
        Shape::Twins | Shape::Tree => random_gate(dice, number, 40),
    }
}

/// Groups of inputs with an AND and an OR, and with a voter where there are three, over the same two to eight of them.
fn twins(dice: &mut Dice, size: usize) -> Vec<(u8, Vec<u16>)> {
    let mut gates: Vec<(u8, Vec<u16>)> = vec![];
    while gates.len() < size {
        let first = gates.len();
        let wanted = if dice.one_in(3) { 3 } else { 2 + dice.below(7) };
        let count = wanted.min(size - first);
        gates.extend((0..count).map(|_| (INPUT, vec![])));
        let children: Vec<u16> = (first as u16..(first + count) as u16).collect();
        for kind in [AND, OR, VOTER] {
            if gates.len() < size && count >= 2 && (kind != VOTER || count == 3) {
                gates.push((kind, children.clone()));
            }
        }
    }
    gates
}

/// Inputs first; each other gate takes the next gates that have no parent yet.
fn tree(dice: &mut Dice, size: usize) -> Vec<(u8, Vec<u16>)> {
    let inputs = (size + 1) / 2;
    let mut gates = vec![(INPUT, vec![]); inputs];
    let mut next = 0;
    while gates.len() < size {
        let count = (1 + dice.below(3)).min(gates.len() - next);
        let children = (next as u16..(next + count) as u16).collect();
        next += count;
        let gate = gate_over(dice, children);
        gates.push(gate);
    }
    gates
}

fn gates_of(dice: &mut Dice, shape: Shape, size: usize) -> Vec<(u8, Vec<u16>)> {
    match shape {
        Shape::Twins => twins(dice, size),
        Shape::Tree => tree(dice, size),
        _ => (0..size).map(|number| gate_at(dice, shape, number, size)).collect(),
    }
}

/// Codes on gates that are nobody's child, none, all, some, or the last such one, and on others. Mostly the values that the configuration shows.
fn codes_for(dice: &mut Dice, gates: &[(u8, Vec<u16>)], obeying: &[u8]) -> Vec<(u16, u8)> {
    let children = are_children(gates);
    let mut list: Vec<usize> = (0..gates.len()).filter(|gate| !children[*gate]).collect();
    match dice.below(8) {
        0 => list.clear(),
        1..=3 => {}
        4 | 5 => list.retain(|_| dice.one_in(3)),
        _ => list.drain(..list.len() - 1).for_each(drop),
    }
    let inner = coded_children(dice, gates);
    list.extend((0..gates.len()).filter(|gate| inner[*gate]));
    list.sort();
    random_values(dice, list, obeying)
}

pub fn made(dice: &mut Dice, shape: Shape, size: usize) -> Made {
    if shape == Shape::Limbs && size >= 7 {
        let (draft, row, obeying) = limbs(dice, size);
        return Made { map: draft.bytes(), draft, row, obeying };
    }
    let gates = gates_of(dice, shape, size);
    let mut draft = Draft { gates, codes: vec![] };
    let row: Vec<u8> = (0..draft.inputs()).map(|_| dice.bit()).collect();
    let mut obeying = vec![0; size];
    // Every shape gives a map, so this is accepted; were it not, the call made with it would say so.
    let _ = engine::evaluate(&draft.bytes(), &row, &mut obeying);
    draft.codes = codes_for(dice, &draft.gates, &obeying);
    let map = draft.bytes();
    Made { draft, map, row, obeying }
}
