//! Maps of many gates in levels, as circuits are that solvers are tried on, with codes on gates that are nobody's child.

use crate::shapes::some_children;
use peeriewick_tests::dice::Dice;
use peeriewick_tests::engine::{self, AND, INPUT, NOT, OR, VOTER, XOR};
use peeriewick_tests::maps::{are_children, Draft, Gates};

/// What is coded.
#[derive(Debug, Clone, Copy, PartialEq, Eq)]
pub enum Codes {
    /// Every gate without a parent, as some row shows them.
    Shown,
    /// One in four of them and one in fifty of all gates, as some row shows them.
    SomeShown,
    /// Up to four of them that have other values for some other row, with any values.
    Few,
    /// Every one, as some row shows them but for one that is turned.
    OneTurned,
    /// One of them, and the gate that stands for it in the same map rewritten, with different values: no state shows them.
    Twins,
}

pub const CODES: [Codes; 5] = [Codes::Shown, Codes::SomeShown, Codes::Few, Codes::OneTurned, Codes::Twins];

/// A gate over gates of the level before and the one before that, now and then over any; `from` is where these two begin.
fn gate_of(dice: &mut Dice, from: usize, below: usize) -> (u8, Vec<u16>) {
    let kind = [NOT, AND, AND, OR, OR, XOR, VOTER][dice.below(7)];
    let fan_in = match kind {
        NOT => 1,
        XOR => 2,
        VOTER => 3,
        _ => [2, 2, 2, 3, 3, 4, 8][dice.below(7)],
    };
    let from = if dice.one_in(6) { 0 } else { from };
    let children = some_children(dice, below - from, fan_in);
    (kind, children.into_iter().map(|child| child + from as u16).collect())
}

/// Inputs, then levels of gates, `size` gates in all. There are at least eight of a level's gates, so that any fan-in can be.
pub fn levels(dice: &mut Dice, size: usize) -> Gates {
    let mut gates: Gates = vec![(INPUT, vec![]); 16 + dice.below(48)];
    let mut from = 0;
    while gates.len() < size {
        let (level, width) = (gates.len(), 8 + dice.below(56));
        for _ in 0..width.min(size - level) {
            gates.push(gate_of(dice, from, level));
        }
        from = level - (level - from).min(width);
    }
    gates
}

/// The values of every gate for a random row.
fn shown(dice: &mut Dice, gates: &Gates) -> Vec<u8> {
    let draft = Draft { gates: gates.clone(), codes: vec![] };
    let row: Vec<u8> = (0..draft.inputs()).map(|_| dice.bit()).collect();
    let mut values = vec![0; gates.len()];
    // The gates are a map; were they none, the call made with it would say so.
    let _ = engine::evaluate(&draft.bytes(), &row, &mut values);
    values
}

/// Adds gates that give the same value as a gate of this kind over these children, by De Morgan's laws where it is an AND or an OR, and else with two NOTs.
/// Gives the number of the last one.
fn rewritten(gates: &mut Gates, kind: u8, children: Vec<u16>) -> u16 {
    let next = |gates: &Gates| gates.len() as u16;
    let top = if matches!(kind, AND | OR) {
        let first = next(gates);
        gates.extend(children.iter().map(|child| (NOT, vec![*child])));
        let nots = (first..next(gates)).collect();
        gates.push((if kind == AND { OR } else { AND }, nots));
        next(gates) - 1
    } else {
        gates.push((kind, children));
        gates.push((NOT, vec![next(gates) - 1]));
        next(gates) - 1
    };
    gates.push((NOT, vec![top]));
    next(gates) - 1
}

/// Adds every gate once more, rewritten, over the gates that were added for its children; inputs stand for themselves. Gives the number that stands for each.
fn twins(gates: &mut Gates) -> Vec<u16> {
    let mut numbers: Vec<u16> = Vec::new();
    for (number, (kind, children)) in gates.clone().into_iter().enumerate() {
        let mut other: Vec<u16> = children.iter().map(|child| numbers[*child as usize]).collect();
        other.sort();
        numbers.push(if kind == INPUT { number as u16 } else { rewritten(gates, kind, other) });
    }
    numbers
}

/// The gates with such codes.
pub fn coded(dice: &mut Dice, gates: Gates, what: Codes) -> Draft {
    let mut gates = gates;
    if what == Codes::Twins {
        gates.truncate(150);
    }
    let parents = are_children(&gates);
    let top: Vec<usize> = (0..gates.len()).filter(|gate| !parents[*gate] && gates[*gate].0 != INPUT).collect();
    let (one, other) = (shown(dice, &gates), shown(dice, &gates));
    let mut codes: Vec<(u16, u8)> = top.iter().map(|gate| (*gate as u16, one[*gate])).collect();
    match what {
        Codes::Shown => {}
        Codes::SomeShown => {
            let chosen = (0..gates.len()).filter(|gate| dice.one_in(50) || top.contains(gate) && dice.one_in(4));
            codes = chosen.map(|gate| (gate as u16, one[gate])).collect();
        }
        Codes::Few => {
            codes.retain(|(gate, value)| other[*gate as usize] != *value);
            codes.truncate(1 + dice.below(4));
            codes.iter_mut().for_each(|code| code.1 = dice.bit());
        }
        Codes::OneTurned => {
            let place = dice.below(codes.len());
            codes[place].1 = 1 - codes[place].1;
        }
        Codes::Twins => {
            let numbers = twins(&mut gates);
            let (gate, value) = codes[dice.below(codes.len())];
            codes = vec![(gate, value), (numbers[gate as usize], 1 - value)];
        }
    }
    Draft { gates, codes }
}
