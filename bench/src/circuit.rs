//! Maps as they are drawn up, and their bytes.

use crate::random::Random;

pub const INPUT: u8 = 0;
pub const NOT: u8 = 1;
pub const AND: u8 = 2;
pub const OR: u8 = 3;
pub const XOR: u8 = 4;
pub const VOTER: u8 = 5;

pub struct Gate {
    pub kind: u8,
    pub children: Vec<u16>,
}

impl Gate {
    pub fn input() -> Gate {
        Gate { kind: INPUT, children: Vec::new() }
    }

    /// A gate over some of the given gates, in rising order. `pick` gives a place in them. There must be at least one. It is no voter: maps that are drawn
    /// of such gates stay what they were before there were voters.
    pub fn random(random: &mut Random, below: &[u16], pick: impl Fn(&mut Random, usize) -> usize) -> Gate {
        let kind = match random.below(20) {
            _ if below.len() == 1 => NOT,
            0..=2 => NOT,
            3..=4 => XOR,
            5..=12 => AND,
            _ => OR,
        };
        let fan_in = match kind {
            NOT => 1,
            XOR => 2,
            _ => random_fan_in(random),
        };
        Gate::over(random, kind, fan_in, below, pick)
    }

    /// A gate of this kind over so many of the given gates, or over all where there are fewer.
    pub fn over(random: &mut Random, kind: u8, fan_in: usize, below: &[u16], pick: impl Fn(&mut Random, usize) -> usize) -> Gate {
        let mut places = Vec::new();
        while places.len() < fan_in.min(below.len()) {
            let place = pick(random, below.len());
            if !places.contains(&place) {
                places.push(place);
            }
        }
        places.sort_unstable();
        Gate { kind, children: places.into_iter().map(|place| below[place]).collect() }
    }

    fn value(&self, values: &[u8]) -> u8 {
        let mut children = self.children.iter().map(|&child| values[child as usize]);
        match self.kind {
            NOT => 1 - values[self.children[0] as usize],
            AND => u8::from(children.all(|value| value == 1)),
            OR => u8::from(children.any(|value| value == 1)),
            VOTER => u8::from(children.sum::<u8>() >= 2),
            _ => children.fold(0, |parity, value| parity ^ value),
        }
    }
}

/// 2 to 8, small ones more often.
fn random_fan_in(random: &mut Random) -> usize {
    2 + random.below(7).min(random.below(7)).min(random.below(7))
}

pub struct Circuit {
    pub gates: Vec<Gate>,
    pub codes: Vec<(u16, u8)>,
}

impl Circuit {
    pub fn inputs(&self) -> usize {
        self.gates.iter().filter(|gate| gate.kind == INPUT).count()
    }

    pub fn evaluate(&self, row: &[u8]) -> Vec<u8> {
        let mut row = row.iter();
        let mut values = Vec::new();
        for gate in &self.gates {
            let value = if gate.kind == INPUT { *row.next().expect("a value per input") } else { gate.value(&values) };
            values.push(value);
        }
        values
    }

    /// A configuration that keeps the codes and obeys all gates but the coded ones.
    pub fn start(&self, row: &[u8]) -> Vec<u8> {
        self.with_codes(self.evaluate(row))
    }

    /// These values with the coded gates set to their codes.
    pub fn with_codes(&self, mut values: Vec<u8>) -> Vec<u8> {
        for &(gate, value) in &self.codes {
            values[gate as usize] = value;
        }
        values
    }

    /// One flag per gate: is it some gate's child?
    pub fn has_parent(&self) -> Vec<bool> {
        let mut flags = vec![false; self.gates.len()];
        for child in self.gates.iter().flat_map(|gate| &gate.children) {
            flags[*child as usize] = true;
        }
        flags
    }

    pub fn bytes(&self) -> Vec<u8> {
        let child_count: usize = self.gates.iter().map(|gate| gate.children.len()).sum();
        let children_at = 12 + 4 * self.gates.len();
        let codes_at = children_at + 2 * child_count;
        let mut bytes = Vec::new();
        for number in [12, self.gates.len(), children_at, child_count, codes_at, self.codes.len()] {
            bytes.extend_from_slice(&(number as u16).to_le_bytes());
        }
        let mut first = 0;
        for gate in &self.gates {
            bytes.extend_from_slice(&[gate.kind, gate.children.len() as u8]);
            bytes.extend_from_slice(&(first as u16).to_le_bytes());
            first += gate.children.len();
        }
        bytes.extend(self.gates.iter().flat_map(|gate| &gate.children).flat_map(|child| child.to_le_bytes()));
        bytes.extend(self.codes.iter().flat_map(|&(gate, value)| [gate.to_le_bytes()[0], gate.to_le_bytes()[1], value, 0]));
        bytes
    }
}
