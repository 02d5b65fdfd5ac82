//! Maps in which one or two of the tests 4 to 7 fail, at every place and in several ways, with the number that the rule gives them: "Each test runs over
//! all it concerns before the next." Of two that fail it is the smaller one, wherever each of them fails.
//!
//! F-2: "keep one total as the gates go by, shown at each gate to be the sum of all earlier fan-ins. Every map gets the same verdict as today." A total
//! that goes by while kinds are tested invites to test positions in the same pass, and a total can be kept wrongly in a few ways; both are tried here.

use crate::engine::{AND, INPUT, NOT, OR, VOTER, XOR};
use crate::maps::{gate_lists, records, Draft, Records};
use crate::reading::{allowed, reading};
use std::collections::{BTreeMap, BTreeSet};

/// How a total is kept.
#[derive(Debug, Clone, Copy, PartialEq, Eq, PartialOrd, Ord)]
pub enum Rule {
    /// "the sum of all earlier fan-ins"
    Right,
    /// A gate's own fan-in is added before its position is compared. It is the same, as gate 0 has no children, to add for each gate that of the next.
    Own,
    /// It is moved on one gate too late: for each gate the fan-in of the one before is added.
    Late,
    /// For each gate that of the other one of the two: 0 and 1, 2 and 3, and so on.
    Other,
}

pub const WRONG_RULES: [Rule; 3] = [Rule::Own, Rule::Late, Rule::Other];

/// The total at each gate, and behind the last.
pub fn totals(fan_ins: &[usize], rule: Rule) -> Vec<usize> {
    let of = |gate: usize| fan_ins.get(gate).copied().unwrap_or(0);
    let mut list = vec![0];
    for gate in 0..fan_ins.len() {
        let added = match rule {
            Rule::Right | Rule::Own | Rule::Late => of(gate),
            Rule::Other => of(gate ^ 1),
        };
        list.push(list[gate] + added);
    }
    let last = list[fan_ins.len()];
    match rule {
        Rule::Own => [&list[1..], &[last]].concat(),
        Rule::Late => [&[0][..], &list[..fan_ins.len()]].concat(),
        _ => list,
    }
}

/// What is made wrong, at a fault's place.
#[derive(Debug, Clone, Copy, PartialEq, Eq, PartialOrd, Ord)]
pub enum Change {
    Kind(u8),
    FanIn(u8),
    Position(u16),
    /// This added, modulo 65,536, to the gate's position, to all that follow and to the child count.
    Onward(u16),
    /// As many child records, so that test 3 is passed.
    ChildCount(usize),
    /// All positions by this rule; the child count too, or not.
    Positions(Rule, bool),
    Child(u16),
    CodeGate(u16),
    CodeValue(u8),
    CodeZero(u8),
}

#[derive(Debug, Clone, Copy, PartialEq, Eq, PartialOrd, Ord)]
pub struct Fault {
    /// The number that a map with this fault alone is to give.
    pub test: u8,
    /// For 4 and 5 the gate, the gate count for the child count, one more for all positions; for 6 the child's place, for 7 the code's.
    pub place: usize,
    pub change: Change,
}

/// "with the first that holds": the smallest, 0 where nothing is wrong.
pub fn expected(case: &[Fault]) -> u8 {
    case.iter().map(|fault| fault.test).min().unwrap_or(0)
}

/// The map with these faults.
pub fn map_with(base: &Draft, case: &[Fault]) -> Vec<u8> {
    let mut map = records(&base.gates, &base.codes);
    for fault in case {
        put(&mut map, fault);
    }
    map.bytes()
}

fn put(map: &mut Records, fault: &Fault) {
    let place = fault.place;
    match fault.change {
        Change::Kind(kind) => map.gates[place].0 = kind,
        Change::FanIn(fan_in) => map.gates[place].1 = fan_in,
        Change::Position(position) => map.gates[place].2 = position,
        Change::Onward(more) => {
            map.gates[place..].iter_mut().for_each(|gate| gate.2 = gate.2.wrapping_add(more));
            map.children.resize((map.children.len() + more as usize) % 65_536, 0);
        }
        Change::ChildCount(count) => map.children.resize(count, 0),
        Change::Positions(rule, counted) => put_positions(map, rule, counted),
        Change::Child(child) => {
            // None where a wrong child count took it away.
            if let Some(record) = map.children.get_mut(place) {
                *record = child;
            }
        }
        Change::CodeGate(gate) => map.codes[place].0 = gate,
        Change::CodeValue(value) => map.codes[place].1 = value,
        Change::CodeZero(byte) => map.codes[place].2 = byte,
    }
}

fn fan_ins_of(map: &Records) -> Vec<usize> {
    map.gates.iter().map(|gate| gate.1 as usize).collect()
}

fn put_positions(map: &mut Records, rule: Rule, counted: bool) {
    let list = totals(&fan_ins_of(map), rule);
    for (gate, total) in map.gates.iter_mut().zip(&list) {
        gate.2 = *total as u16;
    }
    if counted {
        map.children.resize(list[map.gates.len()], 0);
    }
}

// ------------------------------------------------------------------ one fault

/// "4. A kind is above 4 or a fan-in isn't allowed for its kind.", and by F-3 it "now allows kind 5, with fan-in 3 only." Kinds above 5, other kinds that
/// don't allow the fan-in, and fan-ins that the kind doesn't allow, which move all later positions too.
fn faults_of_4(map: &Records) -> Vec<Fault> {
    let mut list = Vec::new();
    for (place, (kind, fan_in, _)) in map.gates.iter().enumerate() {
        let kinds = [INPUT, NOT, AND, OR, XOR, VOTER, 6, 255].into_iter().filter(|other| !allowed(*other, *fan_in as usize));
        let fan_ins = [0, 1, 2, 3, 4, 9, 255].into_iter().filter(|other| !allowed(*kind, *other as usize));
        let changes = kinds.map(Change::Kind).chain(fan_ins.map(Change::FanIn));
        list.extend(changes.map(|change| Fault { test: 4, place, change }));
    }
    list
}

/// Positions that a gate would have by a total that is kept wrongly up to it, and others near the right one: its own fan-in added before comparing, the
/// last earlier one not added, a neighbour's added in the place of that of one of the last eight gates; one more, one less, 256 more.
fn wrong_positions(fan_ins: &[usize], gate: usize) -> BTreeSet<u16> {
    let sums = totals(fan_ins, Rule::Right);
    let right = sums[gate];
    let mut list = vec![right + fan_ins[gate], sums[gate.saturating_sub(1)], right + 1, right + 65_535, right + 256];
    for earlier in gate.saturating_sub(8)..gate {
        let neighbours = earlier.saturating_sub(1)..=earlier + 1;
        list.extend(neighbours.map(|neighbour| right - fan_ins[earlier] + fan_ins[neighbour]));
    }
    list.into_iter().filter(|position| *position != right).map(|position| (position % 65_536) as u16).collect()
}

/// The other fan-ins that an AND or OR may have, the nearest and the outermost: the total then goes on by another number than it should.
fn other_fan_ins(kind: u8, fan_in: u8) -> BTreeSet<u8> {
    let near = [2, fan_in.saturating_sub(1), fan_in + 1, 8];
    near.into_iter().filter(|other| *other != fan_in && allowed(kind, *other as usize)).collect()
}

/// All positions by each wrong rule that gives others; as gate 0 has no children, some rules give the same.
fn whole_rules(fan_ins: &[usize]) -> Vec<Change> {
    let (n, right) = (fan_ins.len(), totals(fan_ins, Rule::Right));
    let (mut seen, mut list) = (Vec::new(), Vec::new());
    for rule in WRONG_RULES {
        let wrong = totals(fan_ins, rule);
        if wrong[..n] != right[..n] && !seen.contains(&wrong) {
            list.push(Change::Positions(rule, false));
            list.extend((wrong[n] != right[n]).then_some(Change::Positions(rule, true)));
            seen.push(wrong);
        }
    }
    list
}

/// "5. A first child position or the child count is wrong."
fn faults_of_5(map: &Records) -> Vec<Fault> {
    let (fan_ins, count) = (fan_ins_of(map), map.children.len());
    let less = usize::from(count > 0);
    let mut list = Vec::new();
    for (place, (kind, fan_in, _)) in map.gates.iter().enumerate() {
        let positions = wrong_positions(&fan_ins, place).into_iter().map(Change::Position);
        let onward = [1, 65_535].into_iter().take(1 + less).map(Change::Onward);
        let others = other_fan_ins(*kind, *fan_in).into_iter().map(Change::FanIn);
        list.extend(positions.chain(onward).chain(others).map(|change| Fault { test: 5, place, change }));
    }
    let counts = [count + 1, count - less].into_iter().take(1 + less).map(Change::ChildCount);
    list.extend(counts.map(|change| Fault { test: 5, place: map.gates.len(), change }));
    list.extend(whole_rules(&fan_ins).into_iter().map(|change| Fault { test: 5, place: map.gates.len() + 1, change }));
    list
}

/// Numbers that are wrong at this place of a list that is to ascend strictly and stay below a limit: those of its neighbours, less, the limit and more.
fn not_ascending(list: &[u16], place: usize, limit: usize) -> BTreeSet<u16> {
    let before = place.checked_sub(1).map(|earlier| list[earlier]);
    let after = list.get(place + 1).copied();
    let less = before.map(|number| number.saturating_sub(1));
    let limit = limit as u16;
    [before, less, after].into_iter().flatten().chain([limit, limit + 1, limit + 256, 65_535]).collect()
}

/// "6. A child isn't below its gate or doesn't ascend."
fn faults_of_6(base: &Draft) -> Vec<Fault> {
    let mut list = Vec::new();
    let mut first = 0;
    for (gate, (_, children)) in base.gates.iter().enumerate() {
        for place in 0..children.len() {
            let numbers = not_ascending(children, place, gate).into_iter().map(Change::Child);
            list.extend(numbers.map(|change| Fault { test: 6, place: first + place, change }));
        }
        first += children.len();
    }
    list
}

/// "7. A code's gate is past the last, doesn't ascend, or its value or zero byte is wrong."
fn faults_of_7(base: &Draft) -> Vec<Fault> {
    let gates: Vec<u16> = base.codes.iter().map(|(gate, _)| *gate).collect();
    let mut list = Vec::new();
    for place in 0..gates.len() {
        let numbers = not_ascending(&gates, place, base.gates.len()).into_iter().map(Change::CodeGate);
        let bytes = [Change::CodeValue(2), Change::CodeValue(255), Change::CodeZero(1), Change::CodeZero(128)];
        list.extend(numbers.chain(bytes).map(|change| Fault { test: 7, place, change }));
    }
    list
}

/// Every fault of the map, in every way.
pub fn faults(base: &Draft) -> Vec<Fault> {
    let map = records(&base.gates, &base.codes);
    [faults_of_4(&map), faults_of_5(&map), faults_of_6(base), faults_of_7(base)].concat()
}

// ----------------------------------------------------------------- two faults

/// The faults of a test, those of one place together.
fn by_place(faults: &[Fault], test: u8) -> Vec<Vec<Fault>> {
    let mut places: BTreeMap<usize, Vec<Fault>> = BTreeMap::new();
    for fault in faults.iter().filter(|fault| fault.test == test) {
        places.entry(fault.place).or_default().push(*fault);
    }
    places.into_values().collect()
}

/// Whether the two stand beside one another: both tests fail, and none before them. A wrong kind and a fan-in that it allows don't, nor a fan-in too
/// large by one in the last gate and a child more.
fn both_fail(base: &Draft, pair: &[Fault; 2]) -> bool {
    let failing = reading(&map_with(base, pair)).failing();
    failing.first() == Some(&(pair[0].test as usize)) && failing.contains(&(pair[1].test as usize))
}

/// Each way of the one place with each of the other.
fn every_two(ones: &[Fault], others: &[Fault]) -> Vec<[Fault; 2]> {
    ones.iter().flat_map(|one| others.iter().map(move |other| [*one, *other])).collect()
}

/// Each way of both places at least once, from this one on.
fn side_by_side(ones: &[Fault], others: &[Fault], from: usize) -> Vec<[Fault; 2]> {
    let ways = from..from + ones.len().max(others.len());
    ways.map(|way| [ones[way % ones.len()], others[way % others.len()]]).collect()
}

/// Of many places the first four, the last four, and some twenty between.
fn chosen(place: usize, of: usize) -> bool {
    place < 4 || place + 4 >= of || place % (of / 20 + 1) == 0
}

/// Whether every two places of the map are tried.
pub fn is_small(base: &Draft) -> bool {
    base.gates.len() <= 16
}

/// Two faults for each two places of these tests. A small map has them for all places, for 4 and 5 in every two ways; a large one in one way, for chosen
/// places, and for 4 and 5 also at each gate and at the gates next to it.
fn pairs_of(base: &Draft, ones: &[Vec<Fault>], others: &[Vec<Fault>]) -> Vec<[Fault; 2]> {
    let mut list = Vec::new();
    for (i, one) in ones.iter().enumerate() {
        for (j, other) in others.iter().enumerate() {
            let heart = (one[0].test, other[0].test) == (4, 5);
            let beside = heart && i.abs_diff(j) <= 1;
            if is_small(base) {
                let ways = if heart { every_two(one, other) } else { side_by_side(one, other, 0) };
                list.extend(ways.into_iter().filter(|pair| both_fail(base, pair)));
            } else if beside || chosen(i, ones.len()) && chosen(j, others.len()) {
                list.extend(side_by_side(one, other, i + j).into_iter().find(|pair| both_fail(base, pair)));
            }
        }
    }
    list
}

/// Two faults of different tests, the smaller number first.
pub fn pairs(base: &Draft) -> Vec<[Fault; 2]> {
    let faults = faults(base);
    let tests: Vec<Vec<Vec<Fault>>> = (4..=7).map(|test| by_place(&faults, test)).collect();
    let mut list = Vec::new();
    for (number, ones) in tests.iter().enumerate() {
        for others in &tests[number + 1..] {
            list.extend(pairs_of(base, ones, others));
        }
    }
    list
}

/// The map without a fault, then each fault alone that stands in a pair and every one of 5, then the pairs.
pub fn cases(base: &Draft) -> Vec<Vec<Fault>> {
    let pairs = pairs(base);
    let mut alone: BTreeSet<Fault> = pairs.iter().flatten().copied().collect();
    alone.extend(faults(base).into_iter().filter(|fault| fault.test == 5));
    let mut list = vec![vec![]];
    list.extend(alone.into_iter().map(|fault| vec![fault]));
    list.extend(pairs.into_iter().map(|pair| pair.to_vec()));
    list
}

/// The two tests with their places, of each case that has two faults.
pub fn places(cases: &[Vec<Fault>]) -> BTreeSet<[(u8, usize); 2]> {
    let at = |fault: &Fault| (fault.test, fault.place);
    cases.iter().filter(|case| case.len() == 2).map(|case| [at(&case[0]), at(&case[1])]).collect()
}

// ------------------------------------------------------------------ base maps

/// Gates of these kinds and fan-ins, each over the gates next below; every other gate is coded, a child or not.
fn shaped(list: &[(u8, u16)]) -> Draft {
    let below = |number: usize, fan_in: u16| (number as u16 - fan_in..number as u16).collect();
    let gates = list.iter().enumerate().map(|(number, (kind, fan_in))| (*kind, below(number, *fan_in))).collect();
    let codes = (0..list.len() as u16).step_by(2).map(|gate| (gate, (gate / 2 % 2) as u8)).collect();
    Draft { gates, codes }
}

/// 1,024 gates, eight inputs first; positions up to 2,766, so that both bytes of them count.
fn large() -> Draft {
    let cycle = [(INPUT, 0), (NOT, 1), (XOR, 2), (VOTER, 3), (OR, 8), (INPUT, 0), (AND, 2), (AND, 8), (NOT, 1), (OR, 5), (INPUT, 0)];
    let list: Vec<(u8, u16)> = (0..1024).map(|number| if number < 8 { (INPUT, 0) } else { cycle[number % 11] }).collect();
    shaped(&list)
}

/// Accepted maps: every list of up to three gates, all coded; some longer ones, with inputs before, between and behind other gates; and a large one.
pub fn bases() -> Vec<Draft> {
    let every = (1..=3).flat_map(gate_lists).map(|gates| {
        let codes = (0..gates.len() as u16).map(|gate| (gate, (gate % 2) as u8)).collect();
        Draft { gates, codes }
    });
    let i = (INPUT, 0);
    let longer = [
        shaped(&[i, (NOT, 1), i, (XOR, 2), (AND, 3), i, (OR, 2), (OR, 4), i]),
        shaped(&[i, i, i, (OR, 3), (XOR, 2), (NOT, 1), (AND, 2), (AND, 5)]),
        shaped(&[i, (NOT, 1), (NOT, 1), (NOT, 1), i, i, (XOR, 2), (XOR, 2)]),
        shaped(&[i, i, i, (VOTER, 3), i, (VOTER, 3), (NOT, 1), (VOTER, 3), i]),
        shaped(&[i, i, i, i, i, i, i, i, (AND, 8), (OR, 8), (NOT, 1), (OR, 7), i]),
    ];
    every.chain(longer).chain([large()]).collect()
}
