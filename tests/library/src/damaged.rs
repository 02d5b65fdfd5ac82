//! Damaged inputs: every number, every pair of failing tests, and random damage.

use crate::call::{Call, Kind, KINDS};
use crate::dress::{dressed, needed};
use crate::engines::Told;
use crate::failing::{failing, never_alone, never_both, numbers_of};
use crate::harness::Harness;
use crate::random::random_call;
use peeriewick_tests::dice::Dice;
use peeriewick_tests::engine::{AND, DOWN, INPUT, NOT, OR, VOTER, XOR};
use peeriewick_tests::maps::{damage_body, damage_bytes, near, push16, raw};
use peeriewick_tests::random::damage_tape;

type Tried = Result<(), String>;

/// How often a call failed test a first and test b too; on the diagonal, a at all.
struct Counters {
    all: Vec<[[u64; 17]; 17]>,
    /// The same for inputs that fail no third test.
    alone: Vec<[[u64; 17]; 17]>,
}

pub struct Damaged<'a> {
    harness: &'a mut Harness,
    dice: Dice,
    counters: Counters,
}

/// Every pair some times, then `n` calls with random damage, then the account.
pub fn damaged(harness: &mut Harness, seed: u64, n: usize) -> Result<String, String> {
    let none = vec![[[0; 17]; 17]; KINDS.len()];
    let counters = Counters { all: none.clone(), alone: none };
    let mut damaged = Damaged { harness, dice: Dice(seed), counters };
    damaged.singles_and_pairs()?;
    damaged.contents()?;
    damaged.wrapped_offsets()?;
    for number in 0..n {
        damaged.random_damage(number)?;
    }
    damaged.account()
}

/// A call in parts that faults can be put into.
struct Parts {
    kind: Kind,
    gates: Vec<(u8, u8, u16)>,
    children: Vec<u16>,
    codes: Vec<(u16, u8, u8)>,
    /// Puts tests 1 and 3 wrong once the bytes stand: the faults of these numbers, in that order.
    frame_faults: Vec<usize>,
    body: Vec<u8>,
    tape: Vec<u8>,
    rooms: (usize, usize),
}

/// Gate 2 is an input and nobody's child; gate 6 is coded and not justified, save in a start that the fault of 15 changes; a third of the time it is a
/// voter. One time in two a child is coded too.
fn base(dice: &mut Dice, kind: Kind) -> Parts {
    let value = dice.bit();
    let top = match dice.below(3) {
        0 => VOTER,
        _ if value == 1 => OR,
        _ => AND,
    };
    let gates = vec![
        (INPUT, 0, 0),
        (INPUT, 0, 0),
        (INPUT, 0, 0),
        (XOR, 2, 0),
        ([AND, OR][dice.below(2)], 2, 2),
        (NOT, 1, 4),
        (top, 3, 5),
    ];
    let configuration = vec![dice.bit(), dice.bit(), dice.bit(), 1 - value, 1 - value, 1 - value, value];
    let child = [0, 1, 3, 4, 5][dice.below(5)];
    let inner = dice.one_in(2).then_some((child as u16, configuration[child], 0));
    let tape = match kind {
        Kind::Move => vec![dice.byte(), dice.byte(), dice.below(3) as u8, dice.byte()],
        Kind::Run => [dice.byte(), dice.byte(), DOWN, dice.byte()].repeat(1 + dice.below(3)),
        _ => vec![],
    };
    Parts {
        kind,
        gates,
        children: vec![0, 1, 0, 1, 3, 3, 4, 5],
        codes: inner.into_iter().chain([(6, value, 0)]).collect(),
        frame_faults: vec![],
        body: if kind == Kind::Evaluate { configuration[..3].to_vec() } else { configuration },
        tape,
        rooms: (7, 7),
    }
}

/// More gates than a map may have: inputs at the end, and the rest of the call long enough for them.
fn too_many_gates(parts: &mut Parts) {
    let total = parts.children.len() as u16;
    let more = 1025 - parts.gates.len();
    parts.gates.extend(vec![(INPUT, 0, total); more]);
    parts.body.extend(vec![0; more]);
    parts.rooms = (1025, 1025);
}

/// A kind or a fan-in that isn't allowed, the sums kept.
fn wrong_kind(dice: &mut Dice, parts: &mut Parts) {
    let (gate, kind) = match dice.below(5) {
        0 => (3 + dice.below(4), 6),
        1 => (3 + dice.below(4), 255),
        2 => (6, [NOT, XOR][dice.below(2)]),
        3 => (3 + dice.below(3), VOTER),
        _ => (5, [AND, OR, XOR][dice.below(3)]),
    };
    parts.gates[gate].0 = kind;
}

fn wrong_position(dice: &mut Dice, parts: &mut Parts) {
    if dice.one_in(3) {
        parts.children.push(0);
        return;
    }
    let gate = dice.below(parts.gates.len());
    parts.gates[gate].2 = parts.gates[gate].2.wrapping_add([1, 65_535, 256][dice.below(3)]);
}

fn wrong_child(dice: &mut Dice, parts: &mut Parts) {
    match dice.below(4) {
        0 => parts.children[1] = 0,
        1 => parts.children[7] = 6,
        2 => parts.children.swap(5, 6),
        _ => parts.children[4] = [5, 1024, 65_535][dice.below(3)],
    }
}

fn wrong_code(dice: &mut Dice, parts: &mut Parts) {
    let last = parts.codes.len() - 1;
    match dice.below(4) {
        0 => parts.codes.push(parts.codes[last]),
        1 => parts.codes.push((parts.gates.len() as u16 + dice.below(3) as u16, 0, 0)),
        2 => parts.codes[last].1 = 2 + dice.byte() % 254,
        _ => parts.codes[last].2 = 1 + dice.byte() % 255,
    }
}

fn wrong_length(dice: &mut Dice, parts: &mut Parts) {
    match dice.below(3) {
        0 => {
            parts.body.remove(0);
        }
        1 => parts.body.clear(),
        _ => parts.body.push(0),
    }
}

fn wrong_byte(dice: &mut Dice, parts: &mut Parts) {
    if parts.body.is_empty() {
        parts.body = vec![2];
        return;
    }
    let at = dice.below(parts.body.len());
    parts.body[at] = 2 + dice.byte() % 254;
}

fn broken_code(parts: &mut Parts) {
    if let Some(byte) = parts.body.get_mut(parts.codes[0].0 as usize) {
        *byte = 1 - parts.codes[0].1.min(1);
    }
}

fn wrong_tape(dice: &mut Dice, parts: &mut Parts) {
    let length = match (parts.kind, dice.below(4)) {
        (Kind::Move, 0) => 0,
        (Kind::Move, 1) => 8,
        (Kind::Run, 0) => 65_536,
        (_, way) => parts.tape.len() + way,
    };
    parts.tape.resize(length, 0);
}

/// The kind stays where the fault of 12 cuts nothing off.
fn wrong_entry(dice: &mut Dice, parts: &mut Parts) {
    if parts.tape.len() < 3 {
        parts.tape.resize(3, 0);
    }
    let entries = (parts.tape.len() + 1) / 4;
    parts.tape[4 * dice.below(entries) + 2] = 3 + dice.byte() % 253;
}

/// Export's memory once the map stands: as long as the text or longer, or, for the fault of 16, shorter. Where the map is refused shorter than any text.
fn text_room(dice: &mut Dice, map: &[u8], short: bool) -> usize {
    let length = needed(Kind::Export, map, 10);
    match (short, dice.below(3)) {
        (true, 0) => length - 1,
        (true, 1) => 0,
        (true, _) => dice.below(length),
        (false, 0) => length + 1 + dice.below(40),
        (false, _) => length,
    }
}

fn short_memory(dice: &mut Dice, parts: &mut Parts) {
    let less = [parts.gates.len() - 1, 0][dice.below(2)];
    match parts.kind {
        Kind::Run if dice.one_in(2) => parts.rooms.1 = less,
        _ => parts.rooms.0 = less,
    }
}

/// A code on the input that is nobody's child alone: the cone has nothing else.
fn empty_front(parts: &mut Parts) {
    parts.codes = vec![(2, parts.body.get(2).map_or(0, |byte| byte & 1), 0)];
}

fn put_fault(dice: &mut Dice, parts: &mut Parts, number: usize) {
    match number {
        1 | 3 => parts.frame_faults.push(number),
        2 => too_many_gates(parts),
        4 => wrong_kind(dice, parts),
        5 => wrong_position(dice, parts),
        6 => wrong_child(dice, parts),
        7 => wrong_code(dice, parts),
        9 => wrong_length(dice, parts),
        10 => wrong_byte(dice, parts),
        11 => broken_code(parts),
        12 => wrong_tape(dice, parts),
        13 => wrong_entry(dice, parts),
        14 => short_memory(dice, parts),
        // 16 is put in once the map stands (`text_room`).
        16 => {}
        _ => empty_front(parts),
    }
}

/// A wrong offset, or a byte too many or too few.
fn break_frame(dice: &mut Dice, map: &mut Vec<u8>) {
    match dice.below(5) {
        0 => map.push(0),
        1 => {
            map.pop();
        }
        way => map[2 * (2 * (way - 2))] ^= 1 << dice.below(8),
    }
}

fn map_of(dice: &mut Dice, parts: &Parts) -> Vec<u8> {
    let mut map = raw(&parts.gates, &parts.children, &parts.codes);
    for fault in &parts.frame_faults {
        match fault {
            1 => map.truncate(dice.below(12)),
            _ => break_frame(dice, &mut map),
        }
    }
    map
}

/// The order in which faults are put in: 15 sets the codes that others change, and 1 and 3 come when the bytes stand.
const ORDER: [usize; 14] = [15, 2, 14, 4, 5, 6, 7, 11, 9, 10, 12, 13, 3, 1];

/// A call with these faults put in; some hide others.
fn with_faults(dice: &mut Dice, kind: Kind, faults: &[usize]) -> Call {
    let mut parts = base(dice, kind);
    for number in ORDER.iter().filter(|number| faults.contains(number)) {
        put_fault(dice, &mut parts, *number);
    }
    let map = map_of(dice, &parts);
    let mut call = Call { gate: dice.below(8), ..Call::new(kind, &map) };
    if kind.has_body() {
        call.body = parts.body;
    }
    call.tape = parts.tape;
    let rooms = match kind {
        Kind::Export => (text_room(dice, &call.map, faults.contains(&16)), 0),
        _ => parts.rooms,
    };
    dressed(dice, call, rooms)
}

/// A call of any kind with up to four faults.
pub fn with_some_faults(dice: &mut Dice) -> Call {
    let kind = KINDS[dice.below(KINDS.len())];
    let numbers = numbers_of(kind);
    let count = 1 + dice.below(4);
    let faults: Vec<usize> = (0..count).map(|_| numbers[dice.below(numbers.len())]).collect();
    with_faults(dice, kind, &faults)
}

/// A call of the kind on this map, whatever it is; the rest fits the gate count that it says, and Export's memory the text.
pub fn call_on(dice: &mut Dice, kind: Kind, map: &[u8]) -> Call {
    let gates = if map.len() < 4 { 0 } else { map[2] as usize + 256 * map[3] as usize };
    let mut call = Call { gate: dice.below(gates + 1), ..Call::new(kind, map) };
    if kind.has_body() {
        call.body = vec![0; gates];
    }
    if kind.has_tape() {
        call.tape = vec![0, 0, DOWN, 0];
    }
    dressed(dice, call, (needed(kind, map, gates), gates))
}

impl Damaged<'_> {
    /// Makes the call and counts what fails; the first that fails must be its number.
    fn tried(&mut self, call: &Call) -> Tried {
        let list = failing(call);
        let Told { number, numbers } = self.harness.compare(call)?;
        let first = list.first().copied().unwrap_or(0);
        let agrees = match call.kind {
            Kind::Children => first == 0 || numbers == [0, 0],
            _ => first == number as usize,
        };
        if !agrees {
            return Err(format!("both engines give {number}, the tests that fail are {list:?}, in the call\n{call}"));
        }
        self.count(call.kind, &list);
        Ok(())
    }

    fn count(&mut self, kind: Kind, list: &[usize]) {
        for number in list {
            self.counters.all[kind as usize][list[0]][*number] += 1;
            if list.len() == 1 || list.len() == 2 && *number != list[0] {
                self.counters.alone[kind as usize][list[0]][*number] += 1;
            }
        }
    }

    fn singles_and_pairs(&mut self) -> Tried {
        for kind in KINDS {
            let numbers = numbers_of(kind);
            for a in &numbers {
                for b in numbers.iter().filter(|b| *b >= a) {
                    self.pair(kind, *a, *b)?;
                }
            }
        }
        Ok(())
    }

    /// Inputs that fail both tests, and no third where that can be: eight of them, out of some hundred that are tried.
    fn pair(&mut self, kind: Kind, a: usize, b: usize) -> Tried {
        let mut left = 8;
        for _ in 0..400 {
            let call = with_faults(&mut self.dice, kind, &[a, b]);
            let list = failing(&call);
            let wanted = if a == b { vec![a] } else { vec![a, b] };
            if list == wanted || never_alone(a).is_some() && list.first() == Some(&a) && list.contains(&b) {
                self.tried(&call)?;
                left -= 1;
            }
            if left == 0 {
                break;
            }
        }
        Ok(())
    }

    fn on_map(&mut self, map: &[u8]) -> Tried {
        for kind in KINDS {
            let call = call_on(&mut self.dice, kind, map);
            self.tried(&call)?;
        }
        Ok(())
    }

    /// Every number of the contents off by one and by more, and every two of them exchanged.
    fn contents(&mut self) -> Tried {
        for _ in 0..40 {
            let size = 1 + self.dice.below(20);
            let map = random_call(&mut self.dice, size).map;
            let number = |place: usize| map[2 * place] as usize + 256 * map[2 * place + 1] as usize;
            let with = |place: usize, number: usize| {
                let mut other = map.clone();
                other[2 * place] = (number % 256) as u8;
                other[2 * place + 1] = (number / 256 % 256) as u8;
                other
            };
            for one in 0..6 {
                for change in [1, 65_535, 2, 4, 256, 65_280, 32_768, 65_536 - number(one)] {
                    self.on_map(&with(one, number(one) + change))?;
                }
                for two in 0..one {
                    let mut other = with(one, number(two));
                    other.splice(2 * two..2 * two + 2, map[2 * one..2 * one + 2].iter().copied());
                    self.on_map(&other)?;
                }
            }
        }
        Ok(())
    }

    /// Offsets and lengths that are right modulo 65,536 only, and the longest maps that pass test 3, one of 65,532 bytes among them.
    fn wrapped_offsets(&mut self) -> Tried {
        let right = raw(&[(INPUT, 0, 0), (NOT, 1, 0)], &[0], &[(1, 1, 0)]);
        let zeros = |length: usize| vec![0; length];
        let inputs = |n: usize| vec![(INPUT, 0, 0); n];
        let list = [
            raw(&inputs(1), &vec![0; 32_768], &[])[..16].to_vec(),
            raw(&inputs(1), &vec![0; 32_758], &[]),
            raw(&inputs(1), &vec![0; 32_768], &[]),
            raw(&inputs(1), &vec![0; 32_768], &[(0, 0, 0)]),
            raw(&inputs(1), &[], &vec![(0, 0, 0); 16_384])[..16].to_vec(),
            raw(&inputs(1), &[], &vec![(0, 0, 0); 16_384]),
            [&right[..], &zeros(65_536)].concat(),
            with_children(&right, 32_769),
            raw(&inputs(16_386), &[], &[]),
            raw(&inputs(1024), &vec![0; 30_713], &vec![(0, 0, 0); 65_535]),
            raw(&inputs(1024), &[], &(0..65_535).map(|gate| (gate, 0, 0)).collect::<Vec<_>>()),
            raw(&inputs(1024), &[], &vec![(0, 0, 0); 65_535]),
        ];
        for map in &list {
            self.on_map(map)?;
        }
        Ok(())
    }

    /// Some faults put in at once, or a random call with its bytes damaged.
    fn random_damage(&mut self, number: usize) -> Tried {
        let call = if number % 2 == 0 {
            with_some_faults(&mut self.dice)
        } else {
            let most = [4, 40, 40, 120][self.dice.below(4)];
            let size = 1 + self.dice.below(most);
            let mut call = random_call(&mut self.dice, size);
            for _ in 0..1 + self.dice.below(3) {
                damage(&mut self.dice, &mut call);
            }
            call
        };
        self.tried(&call)
    }

    /// What was not reached, or how many pairs there are.
    fn account(&self) -> Result<String, String> {
        let (mut missed, mut pairs, mut never) = (Vec::new(), 0, 0);
        for kind in KINDS {
            let (all, alone) = (&self.counters.all[kind as usize], &self.counters.alone[kind as usize]);
            let numbers = numbers_of(kind);
            for a in numbers.iter().copied() {
                for b in numbers.iter().copied().filter(|b| *b >= a) {
                    if never_both(a, b).is_some() {
                        never += 1;
                    } else if all[a][b] == 0 || alone[a][b] == 0 && never_alone(a).is_none() {
                        missed.push(format!("{} {a} {b}", kind.name()));
                    } else {
                        pairs += (a != b) as u32;
                    }
                }
            }
        }
        match missed.is_empty() {
            true => Ok(format!("every number and {pairs} pairs of numbers reached, {never} can't be")),
            false => Err(format!("not reached: {}", missed.join(", "))),
        }
    }
}

/// The map with another child count, the third offset changed to what that gives modulo 65,536.
fn with_children(map: &[u8], count: usize) -> Vec<u8> {
    let gates = map[2] as usize + 256 * map[3] as usize;
    let mut contents = map[..6].to_vec();
    push16(&mut contents, count);
    push16(&mut contents, (12 + 4 * gates + 2 * count) % 65_536);
    [&contents, &map[10..]].concat()
}

fn damage_map(dice: &mut Dice, map: &mut Vec<u8>) {
    if map.len() < 16 {
        map.resize(16, 0);
    }
    let number = |map: &[u8], place: usize| map[place] as usize + 256 * map[place + 1] as usize;
    match dice.below(6) {
        0 => {
            let (one, two) = (dice.below(map.len()), dice.below(map.len()));
            map.swap(one, two);
        }
        1 => {
            let place = 2 * dice.below(map.len() / 2);
            let changed = near(dice, number(map, place));
            map[place] = (changed % 256) as u8;
            map[place + 1] = (changed / 256) as u8;
        }
        _ => {
            let gates = number(map, 2).clamp(1, (map.len() - 12) / 4);
            let children = number(map, 6).min((map.len() - 12 - 4 * gates) / 2);
            damage_bytes(dice, map, gates, children);
        }
    }
}

/// Damages one of the call's inputs, or lends it less memory.
fn damage(dice: &mut Dice, call: &mut Call) {
    match dice.below(12) {
        0 if call.kind.has_body() => {
            let other = dice.below(call.body.len() + 2);
            damage_body(dice, &mut call.body, other);
        }
        1 if call.kind == Kind::Run => damage_tape(dice, &mut call.tape),
        1 if call.kind == Kind::Move => call.tape = (0..dice.below(9)).map(|_| dice.byte()).collect(),
        2 => call.memory.truncate(dice.below(call.memory.len() + 1)),
        3 => call.answer.truncate(dice.below(call.answer.len() + 1)),
        _ => damage_map(dice, &mut call.map),
    }
}
