//! The number of a map is that of the first test that fails, whichever gate it fails at; and the cases that try this tell wrong checkers apart.

use crate::engine::{check, AND, INPUT, NOT, OR, VOTER, XOR};
use crate::order::*;
use crate::reading::{allowed, reading, Reading};
use std::collections::BTreeSet;

#[test]
fn every_case_gives_the_number_of_the_rule() {
    for base in bases() {
        for case in cases(&base) {
            let number = check(&map_with(&base, &case)).err().unwrap_or(0);
            assert_eq!(number, expected(&case), "{case:?} in a map of {} gates", base.gates.len());
        }
    }
}

/// Every two places of every two tests: the one before the other, at the same gate, and behind it.
#[test]
fn small_maps_have_every_two_places() {
    for base in bases().iter().filter(|base| is_small(base)) {
        let single: BTreeSet<(u8, usize)> = faults(base).iter().map(|fault| (fault.test, fault.place)).collect();
        let mut every = BTreeSet::new();
        for one in &single {
            every.extend(single.iter().filter(|other| one.0 < other.0).map(|other| [*one, *other]));
        }
        assert_eq!(places(&cases(base)), every, "{:?}", base.gates);
    }
}

/// No fault of 4 takes a wrong position away, nor the other way round: each of the one stands with each of the other.
#[test]
fn small_maps_have_every_fault_of_4_with_every_wrong_position() {
    let is_position = |fault: &Fault| matches!(fault.change, Change::Position(_));
    for base in bases().iter().filter(|base| is_small(base)) {
        let faults = faults(base);
        let (kinds, positions) = (faults.iter().filter(|fault| fault.test == 4), faults.iter().filter(|fault| is_position(fault)));
        let found = pairs(base).iter().filter(|[one, other]| one.test == 4 && is_position(other)).count();
        assert_eq!(found, kinds.count() * positions.count(), "{:?}", base.gates);
    }
}

/// In the large map at least each gate with itself and with its neighbours.
#[test]
fn the_large_map_has_every_two_gates_in_a_row() {
    for base in bases().iter().filter(|base| !is_small(base)) {
        let (found, n) = (places(&cases(base)), base.gates.len());
        assert_eq!(n, 1024);
        for gate in 0..n {
            for other in gate.saturating_sub(1)..=gate + 1 {
                assert!(found.contains(&[(4, gate), (5, other)]), "gates {gate} and {other}");
            }
        }
    }
}

/// Inputs between other gates and behind them, and gates of every sort.
#[test]
fn the_base_maps_are_not_bare() {
    let mut sorts = BTreeSet::new();
    let (mut between, mut behind) = (0, 0);
    for base in bases() {
        let inner: Vec<usize> = (0..base.gates.len()).filter(|gate| base.gates[*gate].0 != INPUT).collect();
        between += inner.windows(2).any(|pair| pair[0] + 1 < pair[1]) as u32;
        behind += inner.last().map_or(false, |last| last + 1 < base.gates.len()) as u32;
        sorts.extend(base.gates.iter().map(|(kind, children)| (*kind, children.len())));
        assert!(!base.codes.is_empty());
    }
    for sort in [(INPUT, 0), (NOT, 1), (XOR, 2), (AND, 2), (AND, 3), (AND, 5), (AND, 8), (OR, 2), (OR, 3), (OR, 4), (OR, 7), (OR, 8), (VOTER, 3)] {
        assert!(sorts.contains(&sort), "{sort:?}");
    }
    assert!(between >= 3 && behind >= 3, "{between} {behind}");
}

// ------------------------------------------------------------- wrong checkers

/// What is wrong with a checker.
#[derive(Debug, Clone)]
enum Wrong {
    Nothing,
    /// The tests are asked in this order.
    Order(Vec<u8>),
    /// These are asked in one pass over the gates, at each gate in this order.
    OnePass(Vec<u8>),
    /// The total is kept like this.
    Total(Rule),
    /// The total begins with gate 0's position.
    Start,
    /// The child count isn't compared with the total.
    NoCount,
    /// "for inputs too" isn't heeded.
    NoInputs,
    /// The lower bytes alone are compared.
    LowByte,
    /// The total is kept in one byte.
    OneByte,
    /// The kind is allowed with this fan-in too.
    Allowed(u8, usize),
    /// Kind 5 isn't allowed at all.
    NoVoter,
}

/// The first gate at which the checker finds test 4 failing.
fn wrong_kind(r: &Reading, wrong: &Wrong) -> Option<usize> {
    let fails = |kind: u8, fan_in: usize| match wrong {
        Wrong::Allowed(other, more) if (kind, fan_in) == (*other, *more) => false,
        Wrong::NoVoter if kind == VOTER => true,
        _ => !allowed(kind, fan_in),
    };
    r.gates.iter().position(|(kind, fan_in, _)| fails(*kind, *fan_in))
}

/// The first gate at which the checker finds a wrong position; for the child count, the gate count.
fn wrong_total(r: &Reading, wrong: &Wrong) -> Option<usize> {
    let fan_ins: Vec<usize> = r.gates.iter().map(|(_, fan_in, _)| *fan_in).collect();
    let said = |place: usize| r.gates.get(place).map_or(r.children.len(), |gate| gate.2);
    let is_wrong = |(place, total): &(usize, usize)| match wrong {
        Wrong::Start => said(*place) != total + said(0),
        Wrong::NoCount => *place < fan_ins.len() && said(*place) != *total,
        Wrong::NoInputs => fan_ins.get(*place) != Some(&0) && said(*place) != *total,
        Wrong::LowByte => said(*place) % 256 != total % 256,
        Wrong::OneByte => said(*place) != total % 256,
        _ => said(*place) != *total,
    };
    let rule = if let Wrong::Total(rule) = wrong { *rule } else { Rule::Right };
    totals(&fan_ins, rule).into_iter().enumerate().find(is_wrong).map(|(place, _)| place)
}

/// The number of a checker that is wrong like this, from each test and the first gate at which it finds it failing. It asks the tests by their numbers,
/// or as what is wrong has it, and gives the one that it comes to first.
fn verdict(found: &[(u8, Option<usize>)], wrong: &Wrong) -> u8 {
    let at = |list: &[u8], test: u8| list.iter().position(|other| *other == test).unwrap_or(list.len());
    let time = |test: u8, gate: usize| match wrong {
        Wrong::Order(list) => (at(list, test), 0, 0),
        Wrong::OnePass(list) if list.contains(&test) => (*list.iter().min().unwrap() as usize, gate, at(list, test)),
        _ => (test as usize, 0, 0),
    };
    let failing = found.iter().filter_map(|(test, gate)| gate.map(|gate| (time(*test, gate), *test)));
    failing.min().map_or(0, |(_, test)| test)
}

fn wrong_checkers() -> Vec<Wrong> {
    let mut list = vec![Wrong::Start, Wrong::NoCount, Wrong::NoInputs, Wrong::LowByte, Wrong::OneByte];
    list.extend(WRONG_RULES.map(Wrong::Total));
    for (one, other) in [(0, 1), (1, 2), (2, 3), (0, 2), (1, 3), (0, 3)] {
        let mut order = vec![4, 5, 6, 7];
        order.swap(one, other);
        list.push(Wrong::Order(order));
    }
    // A voter of two or of four, kind 6 like an input, like a XOR and like a voter, and what F-3 has changed.
    list.extend([(VOTER, 2), (VOTER, 4), (6, 0), (6, 2), (6, 3)].map(|(kind, fan_in)| Wrong::Allowed(kind, fan_in)));
    list.push(Wrong::NoVoter);
    let passes = [vec![4, 5], vec![5, 4], vec![5, 6], vec![6, 5], vec![4, 5, 6]];
    list.extend(passes.map(Wrong::OnePass));
    list
}

/// Of the maps with a fault, some get another number from each wrong checker; none does from one with nothing wrong. Each tenth case of the large map
/// will do.
#[test]
fn wrong_checkers_are_told_apart() {
    let wrong = wrong_checkers();
    let mut told = vec![0; wrong.len()];
    let mut count = 0;
    for base in bases() {
        for case in cases(&base).into_iter().step_by(if is_small(&base) { 1 } else { 10 }) {
            let r = reading(&map_with(&base, &case));
            let (child, code) = (r.wrong_child(), (!r.codes_right()).then_some(0));
            let number = |wrong: &Wrong| verdict(&[(4, wrong_kind(&r, wrong)), (5, wrong_total(&r, wrong)), (6, child), (7, code)], wrong);
            assert_eq!(number(&Wrong::Nothing), expected(&case), "{case:?}");
            for (checker, cases) in wrong.iter().zip(&mut told) {
                *cases += (!case.is_empty() && number(checker) != expected(&case)) as u32;
            }
            count += 1;
        }
    }
    for (checker, cases) in wrong.iter().zip(&told) {
        println!("{checker:?}: {cases} of {count} cases");
        assert!(*cases > 0, "{checker:?} is not told apart");
    }
}
