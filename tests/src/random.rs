//! Random cases from a seed.

use crate::dice::Dice;
use crate::engine::{self, AND, DOWN, GREEDY, INPUT, OR, UP, VOTER};
use crate::fixed;
use crate::frame::{Case, RANDOM_LIMIT, ROOM_LIMIT};
use crate::limbs::limbs;
use crate::maps::{break_code, damage_body, damage_bytes, damage_draft, keep_codes, near, random_draft, Draft};

/// A draft for an op. A survey, move or run without codes or of inputs alone
/// shows little: of those drafts three in four (surveys) or nine in ten (moves
/// and runs) are drawn again; and for an export seven in eight of those whose text
/// is longer than a case's memory. One survey, move or run in four is on limbs.
fn draft_for(dice: &mut Dice, op: u8) -> (Draft, Vec<u8>, Vec<u8>) {
    if b"svrp".contains(&op) && dice.one_in(4) {
        let size = 7 + dice.below(34);
        return limbs(dice, size);
    }
    loop {
        let drawn = random_draft(dice);
        let bare = drawn.0.codes.is_empty() || drawn.0.inputs() == drawn.0.gates.len();
        let again = match op {
            b's' => bare && !dice.one_in(4),
            b'v' | b'r' | b'p' => bare && !dice.one_in(10),
            b'x' => text_length(&drawn.0.bytes()) > ROOM_LIMIT && !dice.one_in(8),
            _ => false,
        };
        if !again {
            return drawn;
        }
    }
}

/// The length of an output memory: mostly exact, else short or with surplus.
/// `needed` is the gate count, or the length of the text that is exported.
fn random_room(dice: &mut Dice, needed: usize) -> usize {
    match dice.below(10) {
        0 => needed - 1,
        1 => dice.below(needed + 1),
        2 => needed + 1 + dice.below(40),
        3 => needed + 1,
        _ => needed,
    }
}

/// How long a map's text is. Only asked for maps that Check accepts.
fn text_length(map: &[u8]) -> usize {
    engine::text(map).expect("a draft is a map").len()
}

/// A configuration to survey or move: one that obeys every gate with a few gates
/// turned, or any values. The codes are kept.
pub fn random_configuration(dice: &mut Dice, draft: &Draft, obeying: Vec<u8>) -> Vec<u8> {
    let gates = obeying.len();
    let mut body = obeying;
    match dice.below(4) {
        0 => body = (0..gates).map(|_| dice.bit()).collect(),
        _ => {
            for _ in 0..[0, 1, 2, 3, 1 + gates / 8][dice.below(5)] {
                let at = dice.below(gates);
                body[at] = 1 - body[at];
            }
        }
    }
    keep_codes(draft, &mut body);
    body
}

/// The survey's bytes, or none where Survey refuses.
fn surveyed_bytes(map: &[u8], body: &[u8]) -> Vec<u8> {
    let mut memory = vec![0; body.len()];
    match engine::survey(map, body, &mut memory) {
        Ok(_) => memory,
        Err(_) => vec![],
    }
}

/// Puts a gate with several options into the front: of some AND at 0 in the cone
/// all children become 1, of some OR at 1 all become 0, and of some voter all or
/// all but one become what it isn't, but for those that are coded.
fn open_choice(dice: &mut Dice, draft: &Draft, map: &[u8], body: &mut [u8]) {
    let mut choices = Vec::new();
    for (gate, byte) in surveyed_bytes(map, body).iter().enumerate() {
        let kind = draft.gates[gate].0;
        if byte % 2 == 1 && [(AND, 0), (OR, 1), (VOTER, body[gate])].contains(&(kind, body[gate])) {
            choices.push(gate);
        }
    }
    if choices.is_empty() {
        return;
    }
    let gate = choices[dice.below(choices.len())];
    let (kind, children) = &draft.gates[gate];
    for child in children {
        body[*child as usize] = 1 - body[gate];
    }
    if *kind == VOTER && dice.one_in(2) {
        body[children[dice.below(3)] as usize] = body[gate];
    }
    keep_codes(draft, body);
}

/// A configuration to move: drawn again up to five times while its front is
/// empty, save one time in twelve.
pub fn moving_configuration(dice: &mut Dice, draft: &Draft, obeying: &[u8]) -> Vec<u8> {
    let map = draft.bytes();
    let tries = if dice.one_in(12) { 1 } else { 6 };
    let mut body = obeying.to_vec();
    for _ in 0..tries {
        body = random_configuration(dice, draft, obeying.to_vec());
        if !dice.one_in(4) {
            open_choice(dice, draft, &map, &mut body);
        }
        let bytes = surveyed_bytes(&map, &body);
        if bytes.is_empty() || bytes.contains(&7) {
            break;
        }
    }
    body
}

/// An entry: any draw, kind and option; now and then a kind above 2 or a wrong
/// length, or both.
pub fn random_entry(dice: &mut Dice) -> Vec<u8> {
    let draw = match dice.below(4) {
        0 => 0,
        1 => dice.below(6),
        2 => [255, 256, 65_280, 65_534, 65_535][dice.below(5)],
        _ => dice.below(65_536),
    };
    let kind = if dice.one_in(16) { 3 + dice.byte() % 253 } else { [GREEDY, GREEDY, DOWN, UP][dice.below(4)] };
    let mut entry = vec![(draw % 256) as u8, (draw / 256) as u8, kind, dice.byte()];
    if dice.one_in(16) {
        entry.resize([0, 1, 2, 3, 5, 6, 8, 12][dice.below(8)], kind);
    }
    entry
}

/// Adds a gate like a coded one and codes it the other way, so that no state
/// shows the codes and a run goes on to the tape's end or is Stuck.
pub fn contradict(dice: &mut Dice, draft: &mut Draft, configuration: &mut Vec<u8>) {
    let has_children = |code: &(u16, u8)| draft.gates[code.0 as usize].0 != INPUT;
    let coded: Vec<(u16, u8)> = draft.codes.iter().cloned().filter(has_children).collect();
    if coded.is_empty() || draft.gates.len() == 1024 {
        return;
    }
    let (gate, value) = coded[dice.below(coded.len())];
    draft.codes.push((draft.gates.len() as u16, 1 - value));
    draft.gates.push(draft.gates[gate as usize].clone());
    configuration.push(1 - value);
}

/// The entries of a tape, with a taste for one kind or for none.
pub fn random_entries(dice: &mut Dice, count: usize) -> Vec<u8> {
    let taste = [GREEDY, DOWN, UP, 3][dice.below(4)];
    let mut tape = Vec::new();
    for _ in 0..count {
        let draw = if dice.one_in(3) { 65_535 - dice.below(8) } else { dice.below(65_536) };
        let kind = if taste == 3 || dice.one_in(3) { dice.below(3) as u8 } else { taste };
        tape.extend_from_slice(&[(draw % 256) as u8, (draw / 256) as u8, kind, dice.byte()]);
    }
    tape
}

/// How often a tape is repeated: half of them once. Large maps get short runs.
fn random_times(dice: &mut Dice, gates: usize, entries: usize) -> usize {
    let most = match dice.below(20) {
        0 | 1 => 60_000,
        2..=4 => 12_000,
        5..=9 => (10 * gates * entries).min(12_000),
        _ => return 1,
    };
    let most = (most / gates).min(16_383) / entries.max(1);
    1 + dice.below(most.max(1))
}

/// A tape of up to some hundred entries, and how often it is repeated.
pub fn random_tape(dice: &mut Dice, gates: usize) -> (Vec<u8>, usize) {
    let count = match dice.below(24) {
        0 => 0,
        1..=6 => 1 + dice.below(4),
        7..=16 => 1 + dice.below(20),
        17..=22 => 1 + dice.below(60),
        _ => (60 + dice.below(240)).min(10_000 / gates),
    };
    (random_entries(dice, count), random_times(dice, gates, count))
}

/// Damages a tape: a kind above 2 somewhere, a wrong length, or both.
pub fn damage_tape(dice: &mut Dice, tape: &mut Vec<u8>) {
    let what = dice.below(4);
    if what != 0 && tape.len() >= 4 {
        let at = 4 * dice.below(tape.len() / 4) + 2;
        tape[at] = 3 + dice.byte() % 253;
    }
    if what < 2 {
        let length = tape.len() + [1, 2, 3, 5][dice.below(4)];
        tape.resize(length, 1);
    }
}

/// A start far from obeying every gate: drawn again up to five times while its
/// front is empty.
fn far_start(dice: &mut Dice, draft: &Draft, obeying: &[u8]) -> Vec<u8> {
    let map = draft.bytes();
    let mut body = obeying.to_vec();
    for _ in 0..6 {
        let share = [2, 3, 5][dice.below(3)];
        body = obeying.iter().map(|value| value ^ dice.one_in(share) as u8).collect();
        keep_codes(draft, &mut body);
        if surveyed_bytes(&map, &body).contains(&7) {
            break;
        }
    }
    body
}

/// The start of a run: near to obeying every gate, far from it, or obeying.
pub fn random_start(dice: &mut Dice, draft: &Draft, obeying: &[u8]) -> Vec<u8> {
    match dice.below(16) {
        0 => obeying.to_vec(),
        1..=7 => far_start(dice, draft, obeying),
        _ => moving_configuration(dice, draft, obeying),
    }
}

/// An input of the program, with the lengths right or one of them wrong, a
/// little cut off or added, or more than 65,536 bytes.
fn random_input(dice: &mut Dice, map: &[u8], start: &[u8], tape: (&[u8], usize)) -> Case {
    if dice.one_in(40) && map.len() + start.len() < 400 {
        return Case::program(map, start, (&[0, 0, DOWN, 0], 16_383));
    }
    let mut case = Case::program(map, start, tape);
    if !dice.one_in(12) {
        return case;
    }
    match dice.below(5) {
        0 | 1 => {
            let place = 2 * dice.below(3);
            let number = near(dice, case.map[place] as usize + 256 * case.map[place + 1] as usize);
            case.map[place] = (number % 256) as u8;
            case.map[place + 1] = (number / 256) as u8;
        }
        2 => {
            case.body.pop();
        }
        3 => case.body.push(1),
        _ => case = Case::input(&case.map[..dice.below(case.map.len())], &[], (&[], 0)),
    }
    case
}

/// A run or an input of the program.
fn random_run(dice: &mut Dice, op: u8) -> Case {
    let (mut draft, _, mut configuration) = draft_for(dice, op);
    if dice.one_in(3) {
        contradict(dice, &mut draft, &mut configuration);
    }
    let (gates, inputs) = (draft.gates.len(), draft.inputs());
    let map = random_map(dice, op, &mut draft);
    let mut start = random_start(dice, &draft, &configuration);
    if dice.one_in(40) {
        break_code(dice, &draft, &mut start);
    }
    if dice.one_in(40) {
        damage_body(dice, &mut start, inputs);
    }
    let (mut tape, mut times) = random_tape(dice, gates);
    if dice.one_in(25) {
        damage_tape(dice, &mut tape);
        times = times.min(60_000 / tape.len().max(1));
    }
    if op == b'p' {
        return random_input(dice, &map, &start, (&tape, times));
    }
    if dice.one_in(80) {
        return Case::run(&map, &start, (&[0, 0, DOWN, 0], 16_384), (gates, gates));
    }
    let room = |dice: &mut Dice| if dice.one_in(6) { random_room(dice, gates) } else { gates };
    let rooms = (room(dice), room(dice));
    Case::run(&map, &start, (&tape, times), rooms)
}

/// Inputs of the program. Those of seed 1 begin with an empty one and with ones
/// of 65,536 and 65,537 bytes that are right else.
pub fn program_inputs(seed: u64, n: usize) -> Vec<Vec<u8>> {
    let mut list = Vec::new();
    if seed == 1 {
        list.extend([vec![], fixed::longest(0), fixed::longest(1)]);
    }
    let mut dice = Dice(seed);
    while list.len() < n {
        list.push(random_run(&mut dice, b'p').whole_input());
    }
    list.truncate(n);
    list
}

/// The map of a case: the draft's, or a damaged one.
fn random_map(dice: &mut Dice, op: u8, draft: &mut Draft) -> Vec<u8> {
    let gates = draft.gates.len();
    let children = draft.gates.iter().map(|(_, children)| children.len()).sum();
    let whole = match op {
        b's' | b'x' => 70,
        b'v' => 75,
        b'r' | b'p' => 92,
        _ => 55,
    };
    if dice.below(100) < whole {
        draft.bytes()
    } else if dice.below(9) < 4 {
        damage_draft(dice, draft)
    } else {
        let mut bytes = draft.bytes();
        damage_bytes(dice, &mut bytes, gates, children);
        bytes
    }
}

/// The ops of random cases; of 45 surveys are five, exports three, moves eight,
/// runs ten and inputs of the program five.
const OPS: &[u8; 45] = b"ccckkkkeeemmmmsssssxxxvvvvvvvvrrrrrrrrrrppppp";

/// Children's gate number: mostly a gate of the map.
fn random_gate_number(dice: &mut Dice, gates: usize) -> u16 {
    match dice.below(8) {
        0 => gates as u16,
        1 => near(dice, gates),
        _ => dice.below(gates) as u16,
    }
}

/// A row, now and then damaged.
fn random_row(dice: &mut Dice, row: Vec<u8>, gates: usize) -> Vec<u8> {
    let mut body = row;
    if dice.one_in(4) {
        damage_body(dice, &mut body, gates);
    }
    body
}

/// A configuration of a survey or move with a code broken or damaged, one time in so many each.
fn spoilt(dice: &mut Dice, draft: &Draft, body: Vec<u8>, one_in: usize) -> Vec<u8> {
    let mut body = body;
    if dice.one_in(one_in) {
        break_code(dice, draft, &mut body);
    }
    if dice.one_in(one_in) {
        damage_body(dice, &mut body, draft.inputs());
    }
    body
}

/// A configuration to mark: one that obeys every gate, damaged, changed in a value or any.
fn random_marked(dice: &mut Dice, obeying: Vec<u8>, inputs: usize) -> Vec<u8> {
    let mut body = obeying;
    match dice.below(8) {
        0 | 1 => damage_body(dice, &mut body, inputs),
        2 | 3 => {
            // Values only: mostly NO, YES where an input stood alone.
            let at = dice.below(body.len());
            body[at] = 1 - body[at];
        }
        4 => body = (0..body.len()).map(|_| dice.bit()).collect(),
        _ => {}
    }
    body
}

fn random_case(dice: &mut Dice) -> Case {
    let op = OPS[dice.below(OPS.len())];
    if op == b'r' || op == b'p' {
        return random_run(dice, op);
    }
    let (mut draft, row, configuration) = draft_for(dice, op);
    let (gates, inputs) = (draft.gates.len(), draft.inputs());
    let whole = draft.bytes();
    let map = random_map(dice, op, &mut draft);
    let mut case = Case::plain(op, &map, &[]);
    match op {
        b'c' => {}
        b'k' => case.body = random_gate_number(dice, gates).to_le_bytes().to_vec(),
        b'e' => {
            case.room = random_room(dice, gates);
            case.body = random_row(dice, row, gates);
        }
        b's' => {
            case.room = random_room(dice, gates);
            let body = random_configuration(dice, &draft, configuration);
            case.body = spoilt(dice, &draft, body, 8);
        }
        b'x' => case.room = random_room(dice, text_length(&whole)).min(ROOM_LIMIT),
        b'v' => {
            case.room = if dice.one_in(2) { gates } else { random_room(dice, gates) };
            case.tape = random_entry(dice);
            let body = moving_configuration(dice, &draft, &configuration);
            case.body = spoilt(dice, &draft, body, 16);
        }
        _ => case.body = random_marked(dice, configuration, inputs),
    }
    case
}

/// At most n random cases from a seed; fewer where the next one would take the
/// case file past 500,000 bytes.
pub fn random(seed: u64, n: usize) -> Vec<Case> {
    let mut dice = Dice(seed);
    let mut cases = Vec::new();
    let mut total = 0;
    for _ in 0..n {
        let case = random_case(&mut dice);
        if total + case.size() > RANDOM_LIMIT {
            break;
        }
        total += case.size();
        cases.push(case);
    }
    cases
}
