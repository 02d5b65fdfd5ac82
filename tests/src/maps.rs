//! Maps made for tests: from parts, from a seed, and damaged ones.

use crate::dice::Dice;
use crate::engine::{self, AND, INPUT, NOT, OR, VOTER, XOR};

pub fn push16(bytes: &mut Vec<u8>, number: usize) {
    assert!(number <= 65_535, "{number} doesn't fit a u16");
    bytes.push((number % 256) as u8);
    bytes.push((number / 256) as u8);
}

/// A map's bytes from bare records; only the table of contents is worked out.
/// Its six numbers are taken modulo 65,536, for maps that are wrong on purpose.
pub fn raw(gates: &[(u8, u8, u16)], children: &[u16], codes: &[(u16, u8, u8)]) -> Vec<u8> {
    let second = 12 + 4 * gates.len();
    let third = second + 2 * children.len();
    let mut map = Vec::new();
    for number in [12, gates.len(), second, children.len(), third, codes.len()] {
        push16(&mut map, number % 65_536);
    }
    for (kind, fan_in, first) in gates {
        map.push(*kind);
        map.push(*fan_in);
        push16(&mut map, *first as usize);
    }
    for child in children {
        push16(&mut map, *child as usize);
    }
    for (gate, value, zero) in codes {
        push16(&mut map, *gate as usize);
        map.push(*value);
        map.push(*zero);
    }
    map
}

/// A map's bare records, right or wrong.
#[derive(Debug, Clone)]
pub struct Records {
    pub gates: Vec<(u8, u8, u16)>,
    pub children: Vec<u16>,
    pub codes: Vec<(u16, u8, u8)>,
}

impl Records {
    pub fn bytes(&self) -> Vec<u8> {
        raw(&self.gates, &self.children, &self.codes)
    }
}

/// The records of kinds with children, and of codes; nothing is tested.
pub fn records(gates: &[(u8, Vec<u16>)], codes: &[(u16, u8)]) -> Records {
    let mut list = Vec::new();
    let mut all = Vec::new();
    for (kind, children) in gates {
        list.push((*kind, children.len() as u8, all.len() as u16));
        all.extend_from_slice(children);
    }
    let codes = codes.iter().map(|(g, v)| (*g, *v, 0)).collect();
    Records { gates: list, children: all, codes }
}

/// A map's bytes from kinds with children, and codes; nothing is tested.
pub fn build(gates: &[(u8, Vec<u16>)], codes: &[(u16, u8)]) -> Vec<u8> {
    records(gates, codes).bytes()
}

/// The map with one byte changed.
pub fn with(map: &[u8], at: usize, byte: u8) -> Vec<u8> {
    let mut changed = map.to_vec();
    assert!(changed[at] != byte, "nothing changed at {at}");
    changed[at] = byte;
    changed
}

/// The map with one u16 changed.
pub fn with16(map: &[u8], at: usize, number: u16) -> Vec<u8> {
    let mut changed = map.to_vec();
    changed[at] = (number % 256) as u8;
    changed[at + 1] = (number / 256) as u8;
    assert!(changed != map, "nothing changed at {at}");
    changed
}

/// Kinds with children.
pub type Gates = Vec<(u8, Vec<u16>)>;

/// Every gate that may stand at place `number`.
pub fn gates_at(number: u16) -> Gates {
    let mut list = vec![(INPUT, vec![])];
    for set in 1..1u16 << number {
        let children: Vec<u16> = (0..number).filter(|child| set >> child & 1 == 1).collect();
        let kinds: &[u8] = match children.len() {
            1 => &[NOT],
            2 => &[AND, OR, XOR],
            3 => &[AND, OR, VOTER],
            _ => &[AND, OR],
        };
        list.extend(kinds.iter().map(|kind| (*kind, children.clone())));
    }
    list
}

/// Every list of `n` gates.
pub fn gate_lists(n: u16) -> Vec<Gates> {
    let mut lists = vec![vec![]];
    for number in 0..n {
        let mut longer = Vec::new();
        for list in &lists {
            for gate in gates_at(number) {
                longer.push([&list[..], &[gate]].concat());
            }
        }
        lists = longer;
    }
    lists
}

/// Every choice of codes for `n` gates: none, 0 or 1 for each.
pub fn code_lists(n: u16) -> Vec<Vec<(u16, u8)>> {
    let mut lists = vec![vec![]];
    for gate in 0..n {
        let mut longer = lists.clone();
        for list in &lists {
            longer.push([&list[..], &[(gate, 0)]].concat());
            longer.push([&list[..], &[(gate, 1)]].concat());
        }
        lists = longer;
    }
    lists
}

/// Every map of `n` gates.
pub fn maps_of(n: u16) -> Vec<Vec<u8>> {
    let mut maps = Vec::new();
    for gates in gate_lists(n) {
        maps.extend(code_lists(n).iter().map(|codes| build(&gates, codes)));
    }
    assert!(maps.iter().all(|map| engine::check(map).is_ok()));
    maps
}

/// Every map of three gates, a voter over them and a coded NOT of it. In a map of four gates a voter has no parent, so that it is in the cone only where it
/// is coded; here it needn't be.
pub fn voters_below_a_not() -> Vec<Vec<u8>> {
    let mut maps = Vec::new();
    for three in gate_lists(3) {
        let gates = [&three[..], &[(VOTER, vec![0, 1, 2]), (NOT, vec![3])]].concat();
        for codes in code_lists(4) {
            maps.extend([0, 1].map(|value| build(&gates, &[&codes[..], &[(4, value)]].concat())));
        }
    }
    assert!(maps.iter().all(|map| engine::check(map).is_ok()));
    maps
}

/// Every map of five gates, two of them NOTs or more, whose last gate is the coded one and has several children: greedy chooses among parts with more and with
/// fewer gates that carry weight (F-5).
pub fn many_nots() -> Vec<Vec<u8>> {
    let mut maps = Vec::new();
    for four in gate_lists(4) {
        if four.iter().filter(|(kind, _)| *kind == NOT).count() < 2 {
            continue;
        }
        for last in gates_at(4).into_iter().filter(|(_, children)| children.len() >= 2) {
            let gates = [&four[..], &[last]].concat();
            maps.extend([0, 1].map(|value| build(&gates, &[(4, value)])));
        }
    }
    assert!(maps.iter().all(|map| engine::check(map).is_ok()));
    maps
}

/// All maps of up to four gates, and of five those that have a voter below a coded NOT, with their gate counts.
pub fn small_maps() -> Vec<(u16, Vec<Vec<u8>>)> {
    (1..=4).map(|n| (n, maps_of(n))).chain([(5, voters_below_a_not())]).collect()
}

fn number_at(map: &[u8], at: usize) -> usize {
    map[at] as usize + 256 * map[at + 1] as usize
}

/// The coded gates of an accepted map.
pub fn coded_gates(map: &[u8]) -> Vec<usize> {
    (0..number_at(map, 10)).map(|code| number_at(map, number_at(map, 8) + 4 * code)).collect()
}

/// Whether some gate of an accepted map is a voter.
pub fn has_voter(map: &[u8]) -> bool {
    (0..number_at(map, 2)).any(|gate| map[12 + 4 * gate] == VOTER)
}

/// Whether some coded gate of an accepted map is some gate's child.
pub fn has_coded_child(map: &[u8]) -> bool {
    let coded = coded_gates(map);
    (0..number_at(map, 6)).any(|place| coded.contains(&number_at(map, number_at(map, 4) + 2 * place)))
}

/// Every configuration of `n` gates, or every row of `n` inputs.
pub fn configurations(n: u16) -> Vec<Vec<u8>> {
    (0..1u16 << n).map(|bits| (0..n).map(|gate| (bits >> gate & 1) as u8).collect()).collect()
}

/// A map that is still parts: gates with children, and codes.
pub struct Draft {
    pub gates: Vec<(u8, Vec<u16>)>,
    pub codes: Vec<(u16, u8)>,
}

impl Draft {
    pub fn bytes(&self) -> Vec<u8> {
        build(&self.gates, &self.codes)
    }

    pub fn inputs(&self) -> usize {
        self.gates.iter().filter(|(kind, _)| *kind == INPUT).count()
    }
}

/// For each gate whether it is some gate's child.
pub fn are_children(gates: &[(u8, Vec<u16>)]) -> Vec<bool> {
    let mut list = vec![false; gates.len()];
    for (_, children) in gates {
        for child in children {
            list[*child as usize] = true;
        }
    }
    list
}

/// A gate of some kind at place `number`, allowed there.
pub fn random_gate(dice: &mut Dice, number: usize, input_share: usize) -> (u8, Vec<u16>) {
    if number == 0 || dice.below(100) < input_share {
        return (INPUT, vec![]);
    }
    let kind = match number {
        1 => NOT,
        2 => [NOT, AND, AND, OR, OR, XOR][dice.below(6)],
        _ => [NOT, AND, AND, OR, OR, XOR, VOTER, VOTER][dice.below(8)],
    };
    let fan_in = match kind {
        NOT => 1,
        XOR => 2,
        VOTER => 3,
        _ => {
            let most = number.min(8);
            match dice.below(4) {
                0 => most,
                1 => 2,
                _ => 2 + dice.below(most - 1),
            }
        }
    };
    let mut children: Vec<u16> = Vec::new();
    while children.len() < fan_in {
        // Half of them among the last sixteen gates, so that maps grow deep.
        let child = if dice.one_in(2) && number > 16 { number - 1 - dice.below(16) } else { dice.below(number) };
        if !children.contains(&(child as u16)) {
            children.push(child as u16);
        }
    }
    children.sort();
    (kind, children)
}

/// For `one_in`: never, as far as it goes.
pub const NEVER: usize = 1_000_000;

/// Values for codes on these gates: five times in eight those that the
/// configuration shows, else the same with some turned, or any.
pub fn random_values(dice: &mut Dice, coded: Vec<usize>, obeying: &[u8]) -> Vec<(u16, u8)> {
    let turned = [NEVER, NEVER, NEVER, NEVER, NEVER, 10, 4, 2][dice.below(8)];
    coded.into_iter().map(|gate| (gate as u16, obeying[gate] ^ dice.one_in(turned) as u8)).collect()
}

/// Which gates that are some gate's child are coded: none, here and there some,
/// or all children of a few gates, which then have no option left.
pub fn coded_children(dice: &mut Dice, gates: &[(u8, Vec<u16>)]) -> Vec<bool> {
    let mut coded = vec![false; gates.len()];
    match dice.below(8) {
        0..=2 => {}
        3 | 4 => {
            let share = [1, 2, 3, 6][dice.below(4)];
            coded = are_children(gates).into_iter().map(|child| child && dice.one_in(share)).collect();
        }
        _ => {
            for _ in 0..1 + dice.below(1 + gates.len() / 4) {
                for child in &gates[dice.below(gates.len())].1 {
                    coded[*child as usize] = true;
                }
            }
        }
    }
    coded
}

/// Codes on gates that are nobody's child, on all, some or none, and on others.
fn random_codes(dice: &mut Dice, gates: &[(u8, Vec<u16>)], obeying: &[u8]) -> Vec<(u16, u8)> {
    let share = [1, 1, 2, 4, NEVER][dice.below(5)];
    let (children, inner) = (are_children(gates), coded_children(dice, gates));
    let mut coded = Vec::new();
    for gate in 0..gates.len() {
        if inner[gate] || !children[gate] && dice.one_in(share) {
            coded.push(gate);
        }
    }
    random_values(dice, coded, obeying)
}

/// A valid map with the row and the configuration it was made around: the
/// configuration obeys every gate, and at least five times in eight every code.
pub fn random_draft(dice: &mut Dice) -> (Draft, Vec<u8>, Vec<u8>) {
    let size = match dice.below(120) {
        0 => [1024, 1023, 300 + dice.below(725)][dice.below(3)],
        1..=3 => 40 + dice.below(200),
        4..=11 => 1 + dice.below(3),
        _ => 1 + dice.below(40),
    };
    let input_share = [10, 25, 25, 50, 100][dice.below(5)];
    let mut draft = Draft { gates: Vec::new(), codes: Vec::new() };
    for number in 0..size {
        let gate = random_gate(dice, number, input_share);
        draft.gates.push(gate);
    }
    let row: Vec<u8> = (0..draft.inputs()).map(|_| dice.bit()).collect();
    let mut configuration = vec![0; size];
    engine::evaluate(&draft.bytes(), &row, &mut configuration).expect("a random draft is a map");
    draft.codes = random_codes(dice, &draft.gates, &configuration);
    (draft, row, configuration)
}

/// A number near a true one, or anything.
pub fn near(dice: &mut Dice, number: usize) -> u16 {
    let changed = match dice.below(6) {
        0 => number + 1,
        1 => number + 65_535,
        2 => number + 256,
        3 => 0,
        4 => 65_535,
        _ => dice.below(65_536),
    };
    (changed % 65_536) as u16
}

/// Damages a draft: what comes out is framed rightly (tests 1 to 3 hold as far
/// as sizes allow) and wrong inside, or now and then still right.
pub fn damage_draft(dice: &mut Dice, draft: &mut Draft) -> Vec<u8> {
    match dice.below(5) {
        0 => insert_code(dice, draft),
        1 => change_gate(dice, draft),
        // Two gates change places: mostly 6.
        2 => {
            let one = dice.below(draft.gates.len());
            let other = dice.below(draft.gates.len());
            draft.gates.swap(one, other);
        }
        3 => change_child(dice, draft),
        _ => return change_child_count(dice, draft.bytes()),
    }
    draft.bytes()
}

/// A wrong or misplaced code: mostly 7.
fn insert_code(dice: &mut Dice, draft: &mut Draft) {
    let size = draft.gates.len();
    let gate = match dice.below(3) {
        0 => size as u16,
        1 => near(dice, size),
        _ => dice.below(size) as u16,
    };
    let value = if dice.one_in(3) { dice.byte() } else { dice.bit() };
    let place = dice.below(draft.codes.len() + 1);
    draft.codes.insert(place, (gate, value));
}

/// A gate of a kind or fan-in that needn't be allowed: mostly 4 or 6.
fn change_gate(dice: &mut Dice, draft: &mut Draft) {
    let gate = dice.below(draft.gates.len());
    let fan_in = dice.below(11);
    let kind = dice.below(7) as u8;
    let mut children: Vec<u16> = (0..fan_in).map(|_| dice.below(gate + 2) as u16).collect();
    children.sort();
    draft.gates[gate] = (kind, children);
}

/// A child replaced, doubled or moved: mostly 6.
fn change_child(dice: &mut Dice, draft: &mut Draft) {
    let gate = dice.below(draft.gates.len());
    let children = &mut draft.gates[gate].1;
    if !children.is_empty() {
        let place = dice.below(children.len());
        match dice.below(3) {
            0 => children[place] = gate as u16,
            1 => children[place] = children[0],
            _ => children.reverse(),
        }
    }
}

/// A child too many or too few at the end, framed rightly: 5.
fn change_child_count(dice: &mut Dice, map: Vec<u8>) -> Vec<u8> {
    let mut bytes = map;
    let third = bytes[8] as usize + 256 * bytes[9] as usize;
    let count = bytes[6] as usize + 256 * bytes[7] as usize;
    if dice.one_in(2) || count == 0 {
        bytes.insert(third, 0);
        bytes.insert(third, dice.byte());
        bytes = with16(&bytes, 6, count as u16 + 1);
        bytes = with16(&bytes, 8, third as u16 + 2);
    } else {
        bytes.drain(third - 2..third);
        bytes = with16(&bytes, 6, count as u16 - 1);
        bytes = with16(&bytes, 8, third as u16 - 2);
    }
    bytes
}

/// Puts a number into two bytes, however large it is.
fn put16(bytes: &mut [u8], at: usize, number: usize) {
    bytes[at] = (number % 256) as u8;
    bytes[at + 1] = (number / 256) as u8;
}

/// Damages a map's bytes: a few bytes changed, truncated or extended.
pub fn damage_bytes(dice: &mut Dice, bytes: &mut Vec<u8>, gates: usize, children: usize) {
    match dice.below(16) {
        0 => {
            let length = dice.below(14).min(bytes.len());
            bytes.truncate(length);
        }
        1 => {
            let cut = 1 + dice.below(8.min(bytes.len() - 1));
            bytes.truncate(bytes.len() - cut);
        }
        2 => {
            for _ in 0..1 + dice.below(8) {
                bytes.push(dice.byte());
            }
        }
        // The gate count.
        3 => put16(bytes, 2, [0, 0, 1025, 1025, 1024, 65_535, gates + 1, gates - 1][dice.below(8)]),
        // One of the six numbers of the contents.
        4 => {
            let place = 2 * dice.below(6);
            let number = near(dice, bytes[place] as usize + 256 * bytes[place + 1] as usize);
            put16(bytes, place, number as usize);
        }
        part => damage_places(dice, bytes, part, (12 + 4 * gates, 12 + 4 * gates + 2 * children)),
    }
}

/// Changes one to three bytes: of the contents, of gates, children or codes, which begin at `bodies`, or any.
fn damage_places(dice: &mut Dice, bytes: &mut [u8], part: usize, bodies: (usize, usize)) {
    for _ in 0..[1, 1, 1, 2, 3][dice.below(5)] {
        let (from, to) = match part {
            5 => (0, 12),
            6..=9 => (12, bodies.0),
            10 | 11 => bodies,
            12 | 13 => (bodies.1, bytes.len()),
            _ => (0, bytes.len()),
        };
        let (from, to) = if from < to { (from, to) } else { (0, bytes.len()) };
        let at = from + dice.below(to - from);
        bytes[at] = match dice.below(3) {
            0 => bytes[at] ^ (1 << dice.below(8)),
            1 => bytes[at].wrapping_add([1, 255][dice.below(2)]),
            _ => dice.byte(),
        };
    }
}

/// Damages a row or configuration: its length, a byte, or only values.
pub fn damage_body(dice: &mut Dice, body: &mut Vec<u8>, other_length: usize) {
    match dice.below(8) {
        0 => body.push(0),
        1 => {
            body.pop();
        }
        2 => body.resize(other_length, 0),
        3 => {
            // Wrong in length and in a byte: 9 comes first.
            body.push(2);
        }
        _ => {
            if !body.is_empty() {
                let at = dice.below(body.len());
                body[at] = [2, 2, 3, 128, 254, 255][dice.below(6)];
            }
        }
    }
}

pub fn keep_codes(draft: &Draft, body: &mut [u8]) {
    for (gate, value) in &draft.codes {
        if let Some(byte) = body.get_mut(*gate as usize) {
            *byte = *value;
        }
    }
}

/// Breaks a code: 11.
pub fn break_code(dice: &mut Dice, draft: &Draft, body: &mut [u8]) {
    if draft.codes.is_empty() {
        return;
    }
    let (gate, value) = draft.codes[dice.below(draft.codes.len())];
    if let Some(byte) = body.get_mut(gate as usize) {
        *byte = 1 - value.min(1);
    }
}
