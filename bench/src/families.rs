//! Families of maps that differ in the kinds of their gates, in fan-in and in depth.

use crate::circuit::{Circuit, Gate, AND, INPUT, NOT, OR, VOTER, XOR};
use crate::parities;
use crate::random::Random;

#[derive(Clone, Copy, PartialEq, Debug)]
pub enum Family {
    Mixed,
    Wide,
    Deep,
    Adders,
    Parities,
    Voters,
}

pub const FAMILIES: [Family; 6] = [Family::Mixed, Family::Wide, Family::Deep, Family::Adders, Family::Parities, Family::Voters];

/// Families that are taken together where lines go over several, and draw from the same random numbers where maps of several are drawn in turn.
pub struct Group {
    pub name: &'static str,
    pub families: &'static [Family],
}

/// All families, in their order. Voters came when figures of the other five had been taken, and stand apart: these five give the figures that they gave
/// without them.
pub const GROUPS: [Group; 2] = [WITHOUT_VOTERS, VOTERS_ALONE];

pub const WITHOUT_VOTERS: Group =
    Group { name: "without voters", families: &[Family::Mixed, Family::Wide, Family::Deep, Family::Adders, Family::Parities] };
pub const VOTERS_ALONE: Group = Group { name: "voters alone", families: &[Family::Voters] };

impl Family {
    pub fn name(self) -> &'static str {
        match self {
            Family::Mixed => "mixed",
            Family::Wide => "wide",
            Family::Deep => "deep",
            Family::Adders => "adders",
            Family::Parities => "parities",
            Family::Voters => "voters",
        }
    }

    pub fn what(self) -> &'static str {
        match self {
            Family::Mixed => "all kinds, fan-in 2 to 8 and mostly small, most children near",
            Family::Wide => "AND and OR of fan-in 5 to 8, one in eight a NOT, children anywhere",
            Family::Deep => "half NOT, else AND, OR and XOR of fan-in 2, a child among the three gates next below",
            Family::Adders => "full adders over sums and carries of others",
            Family::Parities => "XOR alone: equations over 3 to 7 inputs each",
            Family::Voters => "three in four a voter, else a gate as in mixed, most children near",
        }
    }

    /// Every code is what one random row gives, so that some state shows them all.
    pub fn satisfiable(self, random: &mut Random, size: usize) -> Circuit {
        match self {
            Family::Parities => parities::satisfiable(random, size),
            _ => self.grown(random, size, false),
        }
    }

    /// No state shows all codes, so no run ends Found, and the search goes on all over the map.
    pub fn contradictory(self, random: &mut Random, size: usize) -> Circuit {
        match self {
            Family::Parities => parities::contradictory(random, size),
            _ => self.grown(random, size, true),
        }
    }

    fn grown(self, random: &mut Random, size: usize, contradict: bool) -> Circuit {
        let mut draft = Draft::new(size);
        while draft.left() > 0 {
            if contradict && draft.contradiction_is_due() {
                draft.contradict(random);
            } else {
                self.grow(random, &mut draft);
            }
        }
        draft.coded(random)
    }

    fn grow(self, random: &mut Random, draft: &mut Draft) {
        match self {
            Family::Wide => draft.add(random, wide),
            Family::Deep => draft.add(random, deep),
            Family::Voters => draft.add(random, voters),
            Family::Adders if draft.left() >= FULL_ADDER + CONTRADICTION => draft.add_full_adder(random),
            _ => draft.add(random, |random, below| Gate::random(random, below, pick_near)),
        }
    }
}

/// How many gates each of these has.
const FULL_ADDER: usize = 5;
const CONTRADICTION: usize = 2;

/// Most children stand among this many gates next below, so that depth grows with size.
const NEAR: usize = 32;

fn pick_near(random: &mut Random, len: usize) -> usize {
    if random.once_in(4) {
        return random.below(len);
    }
    len - 1 - random.below(len.min(NEAR))
}

fn wide(random: &mut Random, below: &[u16]) -> Gate {
    if random.once_in(8) {
        return Gate::over(random, NOT, 1, below, Random::below);
    }
    let kind = if random.once_in(2) { AND } else { OR };
    let fan_in = 5 + random.below(4);
    Gate::over(random, kind, fan_in, below, Random::below)
}

/// One child is next below, so that the chain goes on; the other is anywhere, so that the inputs count.
fn deep(random: &mut Random, below: &[u16]) -> Gate {
    let next = below.len() - 1 - random.below(3);
    if random.once_in(2) {
        return Gate { kind: NOT, children: vec![below[next]] };
    }
    let kind = [AND, OR, XOR][random.below(3)];
    let other = random.below(next);
    Gate { kind, children: vec![below[other], below[next]] }
}

fn voters(random: &mut Random, below: &[u16]) -> Gate {
    if random.once_in(4) {
        return Gate::random(random, below, pick_near);
    }
    Gate::over(random, VOTER, 3, below, pick_near)
}

/// A map as it grows. An eighth of its gates are inputs.
struct Draft {
    size: usize,
    gates: Vec<Gate>,
    /// What may be a child.
    usable: Vec<u16>,
    contradictions: Vec<u16>,
}

impl Draft {
    fn new(size: usize) -> Draft {
        let inputs = size / 8;
        Draft { size, gates: (0..inputs).map(|_| Gate::input()).collect(), usable: (0..inputs as u16).collect(), contradictions: Vec::new() }
    }

    fn left(&self) -> usize {
        self.size - self.gates.len()
    }

    fn push(&mut self, kind: u8, children: Vec<u16>) -> u16 {
        self.gates.push(Gate { kind, children });
        self.gates.len() as u16 - 1
    }

    /// One gate in 16 is kept from being a child.
    fn add(&mut self, random: &mut Random, make: impl Fn(&mut Random, &[u16]) -> Gate) {
        let gate = make(random, &self.usable);
        let number = self.push(gate.kind, gate.children);
        if !random.once_in(16) {
            self.usable.push(number);
        }
    }

    /// The adder of document 01's examples, over three signals.
    fn add_full_adder(&mut self, random: &mut Random) {
        let signals = Gate::over(random, AND, 3, &self.usable, pick_near).children;
        let [a, b, c] = [signals[0], signals[1], signals[2]];
        let half = self.push(XOR, vec![a, b]);
        let both = self.push(AND, vec![a, b]);
        let through = self.push(AND, vec![c, half]);
        let sum = self.push(XOR, vec![c, half]);
        let carry = self.push(OR, vec![both, through]);
        self.usable.extend([sum, carry]);
    }

    /// Each 32 gates end with one, and a map ends with one.
    fn contradiction_is_due(&self) -> bool {
        let before = self.size / 8 / 32 + self.contradictions.len();
        self.left() == CONTRADICTION || self.left() > CONTRADICTION && self.gates.len() >= 32 * before + 30
    }

    /// An AND of some gate and its NOT, to be coded 1.
    fn contradict(&mut self, random: &mut Random) {
        let inputs = self.size / 8;
        let inner = self.usable[inputs + random.below(self.usable.len() - inputs)];
        let not = self.push(NOT, vec![inner]);
        let and = self.push(AND, vec![inner, not]);
        self.contradictions.push(and);
    }

    /// Every gate without a parent is coded, with the value that one random row gives it; but a contradiction with 1.
    fn coded(self, random: &mut Random) -> Circuit {
        let mut circuit = Circuit { gates: self.gates, codes: Vec::new() };
        let values = circuit.evaluate(&random.bits(circuit.inputs()));
        let has_parent = circuit.has_parent();
        let coded = (0..values.len()).filter(|&gate| circuit.gates[gate].kind != INPUT && !has_parent[gate]);
        let value = |gate: usize| if self.contradictions.contains(&(gate as u16)) { 1 } else { values[gate] };
        circuit.codes = coded.map(|gate| (gate as u16, value(gate))).collect();
        circuit
    }
}
