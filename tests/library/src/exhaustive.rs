//! Every small map, with every start, through every call.

use crate::call::{Call, Kind, KINDS};
use crate::dress::{dressed, enough, needed};
use crate::engines::Told;
use crate::harness::Harness;
use peeriewick_tests::dice::Dice;
use peeriewick_tests::engine::{DOWN, GREEDY, INPUT, UP, VOTER};
use peeriewick_tests::maps::{build, configurations, gate_lists, has_coded_child, has_voter, many_nots, maps_of, raw, voters_below_a_not};

type Tried = Result<(), String>;

pub struct Exhaustive<'a> {
    harness: &'a mut Harness,
    dice: Dice,
}

/// Accepted maps of up to four gates, then those that check refuses.
pub fn exhaustive(harness: &mut Harness) -> Tried {
    let mut all = Exhaustive { harness, dice: Dice(1) };
    let two: Vec<Vec<u8>> = tapes(&entries(3, 4));
    for n in 1..=3 {
        for map in maps_of(n) {
            all.state_calls(&map, n)?;
            all.search_calls(&map, n, &entries(3, 4), &two)?;
        }
    }
    for map in maps_of(4) {
        match has_voter(&map) {
            true => all.voter_of_four(&map)?,
            false => all.four_gates(&map)?,
        }
    }
    for map in voters_below_a_not() {
        all.voter_of_five(&map)?;
    }
    for map in many_nots() {
        all.nots_of_five(&map)?;
    }
    all.one_gate()?;
    all.two_gates()?;
    all.changed_bytes()?;
    all.cut_and_extended()
}

/// Every kind with every draw and option below these.
fn entries(draws: u8, options: u8) -> Vec<[u8; 4]> {
    let mut list = Vec::new();
    for draw in 0..draws {
        for kind in [GREEDY, DOWN, UP] {
            list.extend((0..options).map(|option| [draw, 0, kind, option]));
        }
    }
    list
}

/// All tapes of up to two of these entries.
fn tapes(entries: &[[u8; 4]]) -> Vec<Vec<u8>> {
    let mut list = vec![vec![]];
    for first in entries {
        list.push(first.to_vec());
        list.extend(entries.iter().map(|second| [*first, *second].concat()));
    }
    list
}

impl Exhaustive<'_> {
    /// With memories that are long enough for `n` gates, or for the text.
    fn call(&mut self, call: Call, n: u16) -> Result<Told, String> {
        let needed = needed(call.kind, &call.map, n as usize);
        let rooms = (enough(&mut self.dice, needed), enough(&mut self.dice, n as usize));
        let call = dressed(&mut self.dice, call, rooms);
        self.harness.compare(&call)
    }

    /// Check, export, children of every gate and past the end, evaluate on every row, mark on every configuration.
    fn state_calls(&mut self, map: &[u8], n: u16) -> Tried {
        self.call(Call::new(Kind::Check, map), n)?;
        self.exports(map)?;
        let past = [65_535, 65_536, 1 << 16 | 1, 1 << 32, 1 << 32 | 2, 1 << 63, usize::MAX];
        for gate in (0..n as usize + 3).chain(past) {
            self.call(Call { gate, ..Call::new(Kind::Children, map) }, n)?;
        }
        let inputs = (0..n as usize).filter(|gate| map[12 + 4 * gate] == INPUT).count();
        for row in configurations(inputs as u16) {
            self.call(Call::new(Kind::Evaluate, map).with_body(&row), n)?;
        }
        for configuration in configurations(n) {
            self.call(Call::new(Kind::Mark, map).with_body(&configuration), n)?;
        }
        self.wrong_bodies(map, n)
    }

    /// Text memory as long as the text, longer, one byte shorter, of no bytes and of some length below the text's.
    fn exports(&mut self, map: &[u8]) -> Tried {
        let length = needed(Kind::Export, map, 0);
        for room in [length, length + 1 + self.dice.below(40), length - 1, 0, self.dice.below(length)] {
            let call = dressed(&mut self.dice, Call::new(Kind::Export, map), (room, 0));
            let told = self.harness.compare(&call)?;
            if told.number != if room < length { 16 } else { 0 } {
                return Err(format!("both engines tell {told:?} for {room} bytes in the call\n{call}"));
            }
        }
        Ok(())
    }

    /// Rows and configurations of every length, and with a byte above 1 at every place.
    fn wrong_bodies(&mut self, map: &[u8], n: u16) -> Tried {
        for kind in KINDS.into_iter().filter(|kind| kind.has_body()) {
            let tape: &[u8] = if kind.has_tape() { &[0, 0, DOWN, 0] } else { &[] };
            for length in 0..n as usize + 3 {
                let body: Vec<u8> = (0..length).map(|_| self.dice.bit()).collect();
                self.call(Call::new(kind, map).with_body(&body).with_tape(tape), n)?;
                for place in 0..length {
                    let mut wrong = body.clone();
                    wrong[place] = 2 + self.dice.byte() % 254;
                    self.call(Call::new(kind, map).with_body(&wrong).with_tape(tape), n)?;
                }
            }
        }
        Ok(())
    }

    /// Survey, move and run from every start; from those that break a code, which are refused, with the first entries and tapes alone.
    fn search_calls(&mut self, map: &[u8], n: u16, entries: &[[u8; 4]], tapes: &[Vec<u8>]) -> Tried {
        for start in configurations(n) {
            let told = self.call(Call::new(Kind::Survey, map).with_body(&start), n)?;
            let (moves, runs) = if told.number == 0 { (entries.len(), tapes.len()) } else { (4, 4) };
            for entry in &entries[..moves] {
                self.call(Call::new(Kind::Move, map).with_body(&start).with_tape(entry), n)?;
            }
            for tape in &tapes[..runs] {
                self.call(Call::new(Kind::Run, map).with_body(&start).with_tape(tape), n)?;
            }
            self.short_memories(map, &start)?;
            self.wrong_tapes(map, &start, n)?;
        }
        Ok(())
    }

    /// A map of four gates: check, export, survey, and single entries from every start that keeps the codes. The other calls, which no code changes but for
    /// mark's answer, where no child is coded: such maps are a tenth.
    fn four_gates(&mut self, map: &[u8]) -> Tried {
        match has_coded_child(map) {
            true => {
                self.call(Call::new(Kind::Check, map), 4)?;
                self.exports(map)?;
            }
            false => self.state_calls(map, 4)?,
        }
        for start in configurations(4) {
            if self.call(Call::new(Kind::Survey, map).with_body(&start), 4)?.number != 0 {
                continue;
            }
            for entry in entries(2, 3) {
                self.call(Call::new(Kind::Move, map).with_body(&start).with_tape(&entry), 4)?;
                self.call(Call::new(Kind::Run, map).with_body(&start).with_tape(&entry), 4)?;
            }
        }
        Ok(())
    }

    /// A map of four gates with a voter: the calls of a state; from every start that keeps the codes every single entry with options 0 to 3, and from those
    /// with a front every two entries with options 0 to 2, the first of them drawing each gate of the front.
    fn voter_of_four(&mut self, map: &[u8]) -> Tried {
        self.state_calls(map, 4)?;
        for start in configurations(4) {
            let told = self.call(Call::new(Kind::Survey, map).with_body(&start), 4)?;
            if told.number != 0 {
                continue;
            }
            for entry in entries(3, 4) {
                self.call(Call::new(Kind::Move, map).with_body(&start).with_tape(&entry), 4)?;
                self.call(Call::new(Kind::Run, map).with_body(&start).with_tape(&entry), 4)?;
            }
            for first in entries(told.numbers[0] as u8, 3) {
                for second in entries(2, 3) {
                    self.call(Call::new(Kind::Run, map).with_body(&start).with_tape(&[first, second].concat()), 4)?;
                }
            }
        }
        Ok(())
    }

    /// A map of five gates with a voter below a NOT: check, export, survey, and single entries that draw each gate of the front.
    fn voter_of_five(&mut self, map: &[u8]) -> Tried {
        self.call(Call::new(Kind::Check, map), 5)?;
        self.exports(map)?;
        for start in configurations(5) {
            let told = self.call(Call::new(Kind::Survey, map).with_body(&start), 5)?;
            if told.number != 0 {
                continue;
            }
            for entry in entries(told.numbers[0] as u8, 3) {
                self.call(Call::new(Kind::Move, map).with_body(&start).with_tape(&entry), 5)?;
                self.call(Call::new(Kind::Run, map).with_body(&start).with_tape(&entry), 5)?;
            }
        }
        Ok(())
    }

    /// A map of five gates with NOTs among them: survey, and greedy entries that draw each gate of the front, with each option that there may be.
    fn nots_of_five(&mut self, map: &[u8]) -> Tried {
        for start in configurations(5) {
            let told = self.call(Call::new(Kind::Survey, map).with_body(&start), 5)?;
            if told.number != 0 {
                continue;
            }
            for draw in 0..told.numbers[0] as u8 {
                for option in 0..4 {
                    self.call(Call::new(Kind::Move, map).with_body(&start).with_tape(&[draw, 0, GREEDY, option]), 5)?;
                }
            }
        }
        Ok(())
    }

    /// Entries and tapes of every length up to nine, with kinds from 0 to 3.
    fn wrong_tapes(&mut self, map: &[u8], start: &[u8], n: u16) -> Tried {
        for length in 0..10 {
            let tape: Vec<u8> = (0..length).map(|_| self.dice.below(4) as u8).collect();
            self.call(Call::new(Kind::Move, map).with_body(start).with_tape(&tape), n)?;
            self.call(Call::new(Kind::Run, map).with_body(start).with_tape(&tape), n)?;
        }
        Ok(())
    }

    /// Memories of every length up to the gate count, Export's text memory left out (`exports`).
    fn short_memories(&mut self, map: &[u8], body: &[u8]) -> Tried {
        for kind in [Kind::Evaluate, Kind::Survey, Kind::Move, Kind::Run] {
            for room in 0..=body.len() {
                let other = self.dice.below(body.len() + 1);
                let call = Call::new(kind, map).with_body(body);
                let call = if kind.has_tape() { call.with_tape(&[0, 0, DOWN, 0]) } else { call };
                let call = dressed(&mut self.dice, call, (room, other));
                self.harness.compare(&call)?;
            }
        }
        Ok(())
    }

    /// A map that needn't be right: check, and another call in turn.
    fn any_map(&mut self, map: &[u8], n: u16) -> Tried {
        self.call(Call::new(Kind::Check, map), n)?;
        if !self.dice.one_in(8) {
            return Ok(());
        }
        let kind = KINDS[1 + self.dice.below(KINDS.len() - 1)];
        let mut call = Call { gate: self.dice.below(n as usize + 1), ..Call::new(kind, map) };
        if kind.has_body() {
            call.body = (0..n).map(|_| self.dice.bit()).collect();
        }
        if kind.has_tape() {
            call.tape = vec![0, 0, self.dice.below(3) as u8, self.dice.bit()];
        }
        self.call(call, n).map(|_| ())
    }

    /// One gate with small numbers in every field, up to two children or three, and two codes.
    fn one_gate(&mut self) -> Tried {
        let codes: Vec<Vec<(u16, u8, u8)>> = lists(&product3(&[0, 1], &[0, 1, 2], &[0, 1]), 2);
        let children: Vec<Vec<u16>> = [lists(&[0, 1, 2], 2), vec![vec![0, 1, 2]]].concat();
        for gate in product3(&[0, 1, 2, 3, 4, 5, 6, 255], &[0, 1, 2, 3, 8, 9], &[0, 1, 2]) {
            let gate = (gate.0 as u8, gate.1, gate.2 as u16);
            for children in &children {
                for codes in &codes {
                    self.any_map(&raw(&[gate], children, codes), 1)?;
                }
            }
        }
        Ok(())
    }

    /// Two gates with small numbers in every field, up to two children and one code.
    fn two_gates(&mut self) -> Tried {
        let codes: Vec<Vec<(u16, u8, u8)>> = lists(&product3(&[0, 1, 2], &[0, 1, 2], &[0, 1]), 1);
        let children: Vec<Vec<u16>> = lists(&[0, 1, 2], 2);
        let records: Vec<(u8, u8, u16)> = product3(&[0, 1, 2, 5, 6], &[0, 1, 2], &[0, 1])
            .into_iter()
            .map(|(kind, fan_in, first)| (kind as u8, fan_in, first as u16))
            .collect();
        for one in &records {
            for two in &records {
                for children in &children {
                    for codes in &codes {
                        self.any_map(&raw(&[*one, *two], children, codes), 2)?;
                    }
                }
            }
        }
        Ok(())
    }

    /// Accepted maps with every byte changed to every small value, and every two bytes by a little.
    fn changed_bytes(&mut self) -> Tried {
        for n in 1..=3 {
            for map in maps_of(n) {
                self.changed(&map, n)?;
            }
        }
        for map in voters_to_change() {
            self.changed(&map, 4)?;
        }
        Ok(())
    }

    fn changed(&mut self, map: &[u8], n: u16) -> Tried {
        for one in 0..map.len() {
            for byte in (0..13).chain([16, 20, 24, 127, 128, 254, 255]) {
                let mut changed = map.to_vec();
                changed[one] = byte;
                self.any_map(&changed, n)?;
            }
            self.second_byte(map, one, n)?;
        }
        Ok(())
    }

    fn second_byte(&mut self, map: &[u8], one: usize, n: u16) -> Tried {
        for two in one + 1..map.len() {
            for (a, b) in [(1, 255), (255, 1), (1, 1), (2, 3)] {
                let mut changed = map.to_vec();
                changed[one] = changed[one].wrapping_add(a);
                changed[two] = changed[two].wrapping_add(b);
                self.any_map(&changed, n)?;
            }
        }
        Ok(())
    }

    /// Accepted maps cut off at every length, and longer by up to eight bytes.
    fn cut_and_extended(&mut self) -> Tried {
        let small = (1..=3).flat_map(|n| maps_of(n).into_iter().map(move |map| (n, map)));
        for (n, map) in small.chain(voters_to_change().into_iter().map(|map| (4, map))) {
            for length in 0..map.len() + 8 {
                let mut other = map.clone();
                other.resize(length, 0);
                self.any_map(&other, n)?;
            }
        }
        Ok(())
    }
}

/// Each list of three gates with a voter over them, and one code, on each gate by turn.
fn voters_to_change() -> Vec<Vec<u8>> {
    let voters = gate_lists(3).into_iter().map(|three| [&three[..], &[(VOTER, vec![0, 1, 2])]].concat());
    voters.enumerate().map(|(number, gates)| build(&gates, &[(number as u16 % 4, number as u8 / 4 % 2)])).collect()
}

/// Every choice of three numbers.
fn product3(one: &[u16], two: &[u8], three: &[u8]) -> Vec<(u16, u8, u8)> {
    let mut list = Vec::new();
    for a in one {
        for b in two {
            list.extend(three.iter().map(|c| (*a, *b, *c)));
        }
    }
    list
}

/// Every list of up to `longest` of these.
fn lists<T: Clone>(of: &[T], longest: usize) -> Vec<Vec<T>> {
    let mut all = vec![vec![]];
    let mut last = all.clone();
    for _ in 0..longest {
        let mut longer = Vec::new();
        for list in &last {
            longer.extend(of.iter().map(|one| [&list[..], std::slice::from_ref(one)].concat()));
        }
        all.extend(longer.clone());
        last = longer;
    }
    all
}
