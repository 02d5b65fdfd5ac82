//! Which of document 01's tests of a map fail, each asked on its own as far as the bytes let it be asked: a third reading of the list, beside the two
//! engines.

use crate::engine::{AND, INPUT, NOT, OR, VOTER, XOR};

/// What can be read of a map that needn't be right: records as many as the contents say and as lie in the map.
pub struct Reading {
    said: [usize; 6],
    length: usize,
    /// Kind, fan-in and first child position.
    pub gates: Vec<(u8, usize, usize)>,
    pub children: Vec<usize>,
    /// Gate, value and zero byte.
    pub codes: Vec<(usize, u8, u8)>,
}

fn number_at(map: &[u8], at: usize) -> Option<usize> {
    Some(*map.get(at)? as usize + 256 * *map.get(at + 1)? as usize)
}

pub fn reading(map: &[u8]) -> Reading {
    let mut said = [0; 6];
    for (place, number) in said.iter_mut().enumerate() {
        *number = number_at(map, 2 * place).unwrap_or(0);
    }
    let counts = if map.len() < 12 { (0, 0, 0) } else { (said[1], said[3], said[5]) };
    let second = 12 + 4 * counts.0;
    let third = second + 2 * counts.1;
    let gate = |i: usize| Some((*map.get(12 + 4 * i)?, *map.get(13 + 4 * i)? as usize, number_at(map, 14 + 4 * i)?));
    let code = |i: usize| Some((number_at(map, third + 4 * i)?, *map.get(third + 4 * i + 2)?, *map.get(third + 4 * i + 3)?));
    Reading {
        said,
        length: map.len(),
        gates: (0..counts.0).map_while(gate).collect(),
        children: (0..counts.1).map_while(|i| number_at(map, second + 2 * i)).collect(),
        codes: (0..counts.2).map_while(code).collect(),
    }
}

/// "Fan-in: 0 for an input, 1 for NOT, 2 for XOR, 2 to 8 for AND and OR." and "kind 5, with fan-in 3 only." (F-3)
pub fn allowed(kind: u8, fan_in: usize) -> bool {
    match kind {
        INPUT => fan_in == 0,
        NOT => fan_in == 1,
        XOR => fan_in == 2,
        AND | OR => (2..=8).contains(&fan_in),
        VOTER => fan_in == 3,
        _ => false,
    }
}

impl Reading {
    pub fn gate_count(&self) -> usize {
        self.said[1]
    }

    fn framed(&self) -> bool {
        let second = 12 + 4 * self.said[1];
        let third = second + 2 * self.said[3];
        self.said[0] == 12
            && self.said[2] == second
            && self.said[4] == third
            && self.length == third + 4 * self.said[5]
    }

    /// The first gate at which test 4 fails.
    pub fn wrong_kind(&self) -> Option<usize> {
        self.gates.iter().position(|(kind, fan_in, _)| !allowed(*kind, *fan_in))
    }

    /// The sum of the fan-ins before each gate, and of all.
    fn sums(&self) -> Vec<usize> {
        let mut sums = vec![0];
        for (_, fan_in, _) in &self.gates {
            sums.push(sums[sums.len() - 1] + fan_in);
        }
        sums
    }

    fn positions_right(&self) -> bool {
        let sums = self.sums();
        let all = self.gates.len() == self.gate_count();
        self.gates.iter().zip(&sums).all(|((_, _, first), sum)| first == sum)
            && (!all || sums[self.gates.len()] == self.said[3])
    }

    /// The first gate at which test 6 fails.
    pub fn wrong_child(&self) -> Option<usize> {
        let sums = self.sums();
        (0..self.gates.len()).find(|gate| {
            let end = sums[gate + 1].min(self.children.len());
            let list = &self.children[sums[*gate].min(end)..end];
            list.iter().any(|child| child >= gate) || list.windows(2).any(|pair| pair[0] >= pair[1])
        })
    }

    pub fn codes_right(&self) -> bool {
        self.codes.iter().all(|(gate, value, zero)| *gate < self.gate_count() && *value <= 1 && *zero == 0)
            && self.codes.windows(2).all(|pair| pair[0].0 < pair[1].0)
    }

    pub fn inputs(&self) -> usize {
        self.gates.iter().filter(|(kind, _, _)| *kind == INPUT).count()
    }

    /// The numbers of the tests that fail, in rising order.
    pub fn failing(&self) -> Vec<usize> {
        let short = self.length < 12;
        let fails = [
            short,
            self.length >= 4 && (self.gate_count() == 0 || self.gate_count() > 1024),
            short || !self.framed(),
            self.wrong_kind().is_some(),
            !short && !self.positions_right(),
            self.wrong_child().is_some(),
            !self.codes_right(),
        ];
        (1..=7).filter(|number| fails[number - 1]).collect()
    }
}
