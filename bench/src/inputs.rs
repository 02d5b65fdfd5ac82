//! The inputs that are measured: accepted maps of each family and size, each with a row and a start that keeps the codes, and the first of them with
//! tapes.

use crate::families::Family;
use crate::lent::{Buffer, Call, Lent};
use crate::random::Random;

pub const SIZES: [usize; 3] = [64, 256, 1024];

/// The maps of each family and size have this many gates together. That is more than a processor learns the branches of, so that every call meets its map
/// anew. (Of an eighth of it a processor learns some, and how many depends on where code stands: rows then differ by a tenth from run to run.)
pub const GATES_PER_GROUP: usize = 131_072;

/// So many of them are run.
pub const RUN_MAPS: usize = 5;

/// No map's text has more bytes for each of its gates.
pub const TEXT_PER_GATE: usize = 139;

/// What part of a tape is done where instructions are counted.
const SAMPLE_PART: usize = 8;

#[derive(Clone, Copy, PartialEq, Debug)]
pub enum Tape {
    DownUp,
    Greedy,
}

pub const TAPES: [Tape; 2] = [Tape::DownUp, Tape::Greedy];

pub struct Input {
    pub gates: usize,
    pub map: Vec<u8>,
    pub row: Vec<u8>,
    pub start: Vec<u8>,
    /// Empty where the map isn't run.
    tapes: [Vec<u8>; 2],
}

impl Input {
    fn random(random: &mut Random, family: Family, gates: usize, is_run: bool) -> Input {
        let circuit = family.contradictory(random, gates);
        let row = random.bits(circuit.inputs());
        let start = circuit.start(&row);
        let tapes = TAPES.map(|tape| if is_run { random_tape(random, tape, gates) } else { Vec::new() });
        Input { gates, map: circuit.bytes(), row, start, tapes }
    }

    pub fn tape(&self, tape: Tape) -> &[u8] {
        &self.tapes[tape as usize]
    }

    pub fn entries(&self, tape: Tape) -> usize {
        self.tape(tape).len() / 4
    }

    /// What a call is lent. Only Export gets memory for a text: that is long, and the maps of other calls would lie further apart.
    pub fn lent(&self, call: Call, tape: Tape) -> Lent {
        let memory = vec![0xaa; self.gates];
        let text = vec![0xaa; if call == Call::Export { TEXT_PER_GATE * self.gates } else { 0 }];
        Lent {
            map: Buffer::new(&self.map, 0xaa),
            row: Buffer::new(&self.row, 0xaa),
            configuration: Buffer::new(&self.start, 0xaa),
            tape: Buffer::new(self.tape(tape), 0xaa),
            out: Buffer::new(&memory, 0xaa),
            answer: Buffer::new(&memory, 0xaa),
            text: Buffer::new(&text, 0xaa),
            numbers: Buffer::new(&[9999; 4], 9999),
        }
    }
}

/// The maps of a family and size.
pub fn group(seed: u64, family: Family, gates: usize) -> Vec<Input> {
    (0..GATES_PER_GROUP / gates).map(|place| input(seed, family, gates, place)).collect()
}

/// The first of these, with the beginnings of their tapes: what is counted, as counting takes 50 times as long as running.
pub fn sample(seed: u64, family: Family, gates: usize) -> Vec<Input> {
    let mut inputs: Vec<Input> = (0..RUN_MAPS).map(|place| input(seed, family, gates, place)).collect();
    for tape in inputs.iter_mut().flat_map(|input| &mut input.tapes) {
        tape.truncate(tape.len() / SAMPLE_PART);
    }
    inputs
}

/// Each has random numbers of its own, so that it is the same whatever else is made.
fn input(seed: u64, family: Family, gates: usize, place: usize) -> Input {
    let number = (family as u64) << 32 | (gates as u64) << 16 | place as u64;
    let mut random = Random::new(Random::new(seed).word().wrapping_add(Random::new(number).word()));
    Input::random(&mut random, family, gates, place < RUN_MAPS)
}

/// Long enough that the tests before the first entry are a small part of a run, and short enough for many rounds.
fn entry_count(tape: Tape, gates: usize) -> usize {
    match tape {
        Tape::DownUp => 524_288 / gates,
        Tape::Greedy => 262_144 / gates,
    }
}

fn random_tape(random: &mut Random, tape: Tape, gates: usize) -> Vec<u8> {
    let mut bytes = Vec::new();
    for _ in 0..entry_count(tape, gates) {
        let kind = match tape {
            Tape::DownUp => 1 + random.below(2) as u8,
            Tape::Greedy => 0,
        };
        bytes.extend_from_slice(&random.bytes(2));
        bytes.push(kind);
        bytes.extend_from_slice(&random.bytes(1));
    }
    bytes
}
