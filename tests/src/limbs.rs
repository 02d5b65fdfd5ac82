//! Maps in which NOT gates are many, and a choice between their parts: one coded gate over several limbs, each a row of NOTs and other gates. Of two limbs the
//! one with more gates often has fewer that carry weight (F-5).

use crate::dice::Dice;
use crate::engine::{self, AND, INPUT, NOT, OR, VOTER, XOR};
use crate::maps::{build, Draft, Gates};

/// A map that is growing, and a value for each of its inputs.
struct Growing {
    gates: Gates,
    row: Vec<u8>,
}

impl Growing {
    fn input(&mut self, dice: &mut Dice) {
        self.gates.push((INPUT, vec![]));
        self.row.push(dice.bit());
    }

    fn top(&self) -> u16 {
        self.gates.len() as u16 - 1
    }

    /// The values that the row gives the gates.
    fn values(&self) -> Vec<u8> {
        let mut values = vec![0; self.gates.len()];
        engine::evaluate(&build(&self.gates, &[]), &self.row, &mut values).expect("growing maps are maps");
        values
    }

    /// A gate over the last one and one or two others, mostly of those from `first` on.
    fn join(&mut self, dice: &mut Dice, first: usize) {
        let top = self.top() as usize;
        let first = if dice.one_in(4) { 0 } else { first };
        let mut children = vec![top as u16];
        for _ in 0..1 + dice.below(2) {
            let other = first + dice.below(top - first);
            if !children.contains(&(other as u16)) {
                children.push(other as u16);
            }
        }
        children.sort();
        let kind = over(dice, children.len());
        self.gates.push((kind, children));
    }

    /// Some inputs, then NOTs and other gates by turn, until there are `end` gates, two more at least. Now and then a row of NOTs is as long as it can be.
    fn grow(&mut self, dice: &mut Dice, end: usize) {
        let first = self.gates.len();
        for _ in 0..1 + dice.below((end - first - 1).min(3)) {
            self.input(dice);
        }
        while self.gates.len() < end {
            if self.gates.len() > first + 1 && dice.one_in(2) {
                self.join(dice, first);
                continue;
            }
            let longest = if dice.one_in(8) { end } else { 4 };
            for _ in 0..(1 + dice.below(longest)).min(end - self.gates.len()) {
                self.gates.push((NOT, vec![self.top()]));
            }
        }
    }

    /// Grows a limb until there are `end` gates, and gives its topmost gate, which the row gives this value: by one NOT more, or, where it has the value already,
    /// with an input in the last place that nothing needs.
    fn limb(&mut self, dice: &mut Dice, end: usize, value: u8) -> u16 {
        self.grow(dice, end - 1);
        let top = self.top();
        if self.values()[top as usize] == value {
            self.input(dice);
            return top;
        }
        self.gates.push((NOT, vec![top]));
        self.top()
    }
}

/// A kind for a gate of so many children, two or more; a voter often.
fn over(dice: &mut Dice, children: usize) -> u8 {
    match children {
        2 => [AND, OR, XOR][dice.below(3)],
        3 => [AND, OR, VOTER, VOTER][dice.below(4)],
        _ => [AND, OR][dice.below(2)],
    }
}

/// A gate over up to three of the gates below.
fn beside(dice: &mut Dice, gates: &Gates) -> (u8, Vec<u16>) {
    let mut children: Vec<u16> = (0..3).map(|_| dice.below(gates.len()) as u16).collect();
    children.sort();
    children.dedup();
    match children.len() {
        1 => (NOT, children),
        n => (over(dice, n), children),
    }
}

/// The root over all limbs, which are all at `value`. Coded with what they don't give it, it has as many options as there are limbs, or a voter's three.
fn root(dice: &mut Dice, tops: Vec<u16>, value: u8) -> (u8, Vec<u16>) {
    let plain = if value == 1 { AND } else { OR };
    let other = match tops.len() {
        2 => XOR,
        3 => VOTER,
        _ => plain,
    };
    (if dice.one_in(2) { plain } else { other }, tops)
}

/// A map of `size` gates, seven or more, with a row and the values that it gives them. The root's code is the value that the row doesn't give it, so that each
/// option, where these values stand, leaves a front of one limb's topmost gate, or of two. One time in three another gate is coded too, and one time in four
/// some limbs are, as the row gives them.
pub fn limbs(dice: &mut Dice, size: usize) -> (Draft, Vec<u8>, Vec<u8>) {
    let root_at = size - 1;
    let end = root_at - (size > 7 && dice.one_in(3)) as usize;
    let count = 2 + dice.below((end / 3 - 1).min(7));
    let (value, mut map) = (dice.bit(), Growing { gates: vec![], row: vec![] });
    let tops: Vec<u16> = (1..=count).map(|limb| map.limb(dice, end * limb / count, value)).collect();
    if end < root_at {
        let gate = beside(dice, &map.gates);
        map.gates.push(gate);
    }
    map.gates.push(root(dice, tops.clone(), value));

    let values = map.values();
    let mut coded = if dice.one_in(4) { tops } else { vec![] };
    coded.retain(|_| dice.one_in(2));
    coded.extend(end as u16..root_at as u16);
    let mut codes: Vec<(u16, u8)> = coded.into_iter().map(|gate| (gate, values[gate as usize])).collect();
    codes.push((root_at as u16, 1 - values[root_at]));
    (Draft { gates: map.gates, codes }, map.row, values)
}
