//! Every fixed case as a call of the static library, and the numbers that a host gets of some, written by hand.

use crate::call::{Call, Kind};
use crate::engines::{FOUND, SPENT, STUCK};
use crate::harness::Harness;
use crate::lend::Way;
use peeriewick_tests::engine::{AND, DOWN, GREEDY, INPUT, NOT, OR, UP, VOTER};
use peeriewick_tests::fixed;
use peeriewick_tests::frame::{Case, PATTERN};
use peeriewick_tests::maps::build;

type Tried = Result<(), String>;

/// What every number and every byte of memory is before a call.
const BEFORE: usize = PATTERN as usize;

pub fn fixed(harness: &mut Harness) -> Tried {
    for named in fixed::fixed() {
        if let Some(call) = call_of(&named.case) {
            harness.compare(&call)?;
        }
    }
    let mut examples = Examples { harness, adder: fixed::adder() };
    examples.check()?;
    examples.children()?;
    examples.mark()?;
    examples.export()?;
    examples.survey()?;
    examples.make_move()?;
    examples.run()?;
    examples.voters()?;
    examples.weightless()
}

/// The call of a case; none for the program's.
fn call_of(case: &Case) -> Option<Call> {
    let kind = match case.op {
        b'c' => Kind::Check,
        b'k' => Kind::Children,
        b'e' => Kind::Evaluate,
        b'm' => Kind::Mark,
        b's' => Kind::Survey,
        b'x' => Kind::Export,
        b'v' => Kind::Move,
        b'r' => Kind::Run,
        _ => return None,
    };
    let mut call = places(with_memory(Call::new(kind, &case.map), case.room, case.answer), kind.numbers() + 1);
    match kind {
        Kind::Children => call.gate = case.body[0] as usize + 256 * case.body[1] as usize,
        _ => call.body = case.body.clone(),
    }
    call.tape = if kind == Kind::Run { case.lent_tape() } else { case.tape.clone() };
    Some(call)
}

fn with_memory(call: Call, room: usize, answer: usize) -> Call {
    Call { memory: vec![PATTERN; room], answer: vec![PATTERN; answer], ..call }
}

/// The call with an array of so many numbers.
fn places(call: Call, count: usize) -> Call {
    let numbers = if call.kind == Kind::Evaluate { vec![] } else { vec![BEFORE; count] };
    Call { numbers, ..call }
}

// ---------------------------------------------------------------- by hand

const A: [u8; 8] = [0, 0, 1, 1, 0, 1, 0, 1];
const B: [u8; 8] = [1, 1, 1, 1, 1, 0, 0, 1];
const DOWN_0: [u8; 4] = [0, 0, DOWN, 0];
const UP_0: [u8; 4] = [0, 0, UP, 0];

/// P9's map: 0 input, 1 NOT(0), 2 AND(0,1), code 2 = 1.
fn p9() -> Vec<u8> {
    build(&[(INPUT, vec![]), (NOT, vec![0]), (AND, vec![0, 1])], &[(2, 1)])
}

/// 0 input, 1 NOT(0), 2 input, 3 OR(1,2), code 3 = 0.
fn gap() -> Vec<u8> {
    build(&[(INPUT, vec![]), (NOT, vec![0]), (INPUT, vec![]), (OR, vec![1, 2])], &[(3, 0)])
}

/// 0, 1 inputs, 2 AND(0,1), 3 NOT(2), 4 AND(0,2), codes 3 = 1 and 4 = 1.
fn two_codes() -> Vec<u8> {
    let gates = [(INPUT, vec![]), (INPUT, vec![]), (AND, vec![0, 1]), (NOT, vec![2]), (AND, vec![0, 2])];
    build(&gates, &[(3, 1), (4, 1)])
}

/// The smallest map that is Stuck: 0 input, 1 NOT(0), both coded 0.
fn smallest_stuck() -> Vec<u8> {
    build(&[(INPUT, vec![]), (NOT, vec![0])], &[(0, 0), (1, 0)])
}

/// The same, and 2 input, 3 NOT(2), code 3 = 1.
fn half_stuck() -> Vec<u8> {
    build(&[(INPUT, vec![]), (NOT, vec![0]), (INPUT, vec![]), (NOT, vec![2])], &[(0, 0), (1, 0), (3, 1)])
}

/// Three inputs and a NOT of each, coded 1.
fn three_nots() -> Vec<u8> {
    let mut gates = vec![(INPUT, vec![]); 3];
    gates.extend((0..3).map(|input| (NOT, vec![input])));
    build(&gates, &[(3, 1), (4, 1), (5, 1)])
}

/// Three inputs and a voter over them, coded 1.
fn voter() -> Vec<u8> {
    build(&[(INPUT, vec![]), (INPUT, vec![]), (INPUT, vec![]), (VOTER, vec![0, 1, 2])], &[(3, 1)])
}

/// 0, 1, 2 inputs, 3 AND(0,1), 4 NOT(2), 5 NOT(4), 6 NOT(5), 7 OR(3,6), code 7 = 1.
fn and_or_nots() -> Vec<u8> {
    let inputs = vec![(INPUT, vec![]); 3];
    let rest = vec![(AND, vec![0, 1]), (NOT, vec![2]), (NOT, vec![4]), (NOT, vec![5]), (OR, vec![3, 6])];
    build(&[inputs, rest].concat(), &[(7, 1)])
}

struct Examples<'a> {
    harness: &'a mut Harness,
    adder: Vec<u8>,
}

impl Examples<'_> {
    /// The call is to give this number and leave these numbers, however its buffers are lent.
    fn expect(&mut self, call: Call, number: u8, numbers: &[usize]) -> Tried {
        let call = places(call, numbers.len());
        for way in [Way::Guarded(0), Way::Guarded(5), Way::Low, Way::High, Way::Exact, Way::Within] {
            let call = Call { way, ..call.clone() };
            let outcome = self.harness.proved(&call);
            if (outcome.number, &outcome.numbers[..]) != (number, numbers) {
                return Err(format!("not {number} and {numbers:?} in the call\n{call}\nstatic library: {outcome}"));
            }
            self.harness.compare(&call)?;
        }
        Ok(())
    }

    /// 8 gates, 3 inputs, 10 children, 1 code; with a place too many, with two, with none, a coded child, and refused.
    fn check(&mut self) -> Tried {
        let call = Call::new(Kind::Check, &self.adder);
        self.expect(call.clone(), 0, &[8, 3, 10, 1, BEFORE])?;
        self.expect(call.clone(), 0, &[8, 3])?;
        self.expect(call, 0, &[])?;
        self.expect(Call::new(Kind::Check, &smallest_stuck()), 0, &[2, 1, 1, 2, BEFORE])?;
        self.expect(Call::new(Kind::Check, &self.adder[..67]), 3, &[BEFORE; 5])
    }

    /// Gate 5's children; an input's, also behind a NOT, stand where they would; a gate past the end, and a refused map.
    fn children(&mut self) -> Tried {
        let (adder, gap) = (self.adder.clone(), gap());
        for (map, gate, place, length) in
            [(&adder[..], 5, 52, 4), (&adder[..], 1, 44, 0), (&gap[..], 2, 30, 0), (&adder[..], 8, 0, 0), (&adder[..67], 5, 0, 0)]
        {
            self.expect(Call { gate, ..Call::new(Kind::Children, map) }, 0, &[place, length, BEFORE])?;
        }
        Ok(())
    }

    /// Yes, no (P12), and refused.
    fn mark(&mut self) -> Tried {
        let call = Call::new(Kind::Mark, &self.adder);
        self.expect(call.clone().with_body(&[1, 0, 1, 1, 0, 1, 0, 1]), 0, &[1, BEFORE, BEFORE])?;
        self.expect(call.clone().with_body(&A), 0, &[0, BEFORE, BEFORE])?;
        self.expect(call.with_body(&[1, 0, 1]), 9, &[BEFORE; 3])
    }

    /// The adder's text of 162 bytes, into memory of that length and longer; one of no clauses; refused for a byte less, for none, and for the map.
    fn export(&mut self) -> Tried {
        let call = |map: &[u8], room| with_memory(Call::new(Kind::Export, map), room, 0);
        let one = build(&[(INPUT, vec![])], &[]);
        let adder = self.adder.clone();
        for room in [162, 163, 300] {
            self.expect(call(&adder, room), 0, &[162, BEFORE])?;
            self.expect(call(&adder, room), 0, &[162])?;
            self.expect(call(&adder, room), 0, &[])?;
        }
        self.expect(call(&one, 10), 0, &[10, BEFORE])?;
        self.expect(call(&adder, 161), 16, &[BEFORE; 2])?;
        self.expect(call(&adder, 0), 16, &[BEFORE; 2])?;
        self.expect(call(&one, 9), 16, &[BEFORE; 2])?;
        self.expect(call(&adder[..67], 162), 3, &[BEFORE; 2])?;
        self.expect(call(&adder[..67], 0), 3, &[BEFORE; 2])?;
        let left = self.harness.proved(&Call { way: Way::High, ..call(&one, 12) });
        let words = peeriewick::Refused(16).to_string();
        match left.memory == *b"p cnf 1 0\n\xaa\xaa" && words == "refused with 16: the text memory is shorter than the text" {
            true => Ok(()),
            false => Err(format!("not the text of one input: {left}, or not the words of 16: {words}")),
        }
    }

    /// P1, a front of two, a Stuck gate, and refused for short memory.
    fn survey(&mut self) -> Tried {
        let call = |map: &[u8], body: &[u8], room| with_memory(Call::new(Kind::Survey, map).with_body(body), room, 0);
        self.expect(call(&self.adder, &A, 10), 0, &[1, 3, BEFORE])?;
        self.expect(call(&two_codes(), &[1, 1, 0, 1, 1], 10), 0, &[2, 4, BEFORE])?;
        self.expect(call(&smallest_stuck(), &[0, 0], 10), 0, &[1, 1, BEFORE])?;
        self.expect(call(&self.adder, &A, 7), 14, &[BEFORE; 3])
    }

    /// P3's entry, P9's first, one that is Stuck, and an empty front.
    fn make_move(&mut self) -> Tried {
        let call = |map: &[u8], body: &[u8]| with_memory(Call::new(Kind::Move, map).with_body(body).with_tape(&DOWN_0), 10, 0);
        self.expect(call(&self.adder, &A), 0, &[3, 1, BEFORE])?;
        self.expect(call(&p9(), &[0, 0, 1]), 0, &[2, 2, BEFORE])?;
        self.expect(call(&smallest_stuck(), &[0, 0]), 0, &[1, 0, BEFORE])?;
        self.expect(call(&self.adder, &B), 15, &[BEFORE; 3])
    }

    /// P3, P5, P9, a front of three, Stuck at once and after a move, Spent before that, and a tape of one byte.
    fn run(&mut self) -> Tried {
        let call = |map: &[u8], body: &[u8], tape: &[u8]| {
            with_memory(Call::new(Kind::Run, map).with_body(body).with_tape(tape), 10, 10)
        };
        self.expect(call(&self.adder, &A, &DOWN_0), 0, &[FOUND, 1, 1, 0, BEFORE])?;
        self.expect(call(&self.adder, &A, &UP_0), 0, &[SPENT, 1, 1, 1, BEFORE])?;
        self.expect(call(&p9(), &[0, 0, 1], &DOWN_0.repeat(2)), 0, &[SPENT, 2, 3, 1, BEFORE])?;
        self.expect(call(&three_nots(), &[1; 6], &[]), 0, &[SPENT, 0, 0, 3, BEFORE])?;
        let second = [1, 0, DOWN, 0];
        for entry in [[0, 0, GREEDY, 0], DOWN_0, UP_0] {
            self.expect(call(&smallest_stuck(), &[0, 0], &entry), 0, &[STUCK, 0, 0, 0, BEFORE])?;
        }
        self.expect(call(&half_stuck(), &[0, 0, 1, 1], &second.repeat(2)), 0, &[STUCK, 1, 1, 0, BEFORE])?;
        self.expect(call(&half_stuck(), &[0, 0, 1, 1], &second), 0, &[SPENT, 1, 1, 1, BEFORE])?;
        self.expect(call(&smallest_stuck(), &[0, 0], &[]), 0, &[SPENT, 0, 0, 1, BEFORE])?;
        self.expect(call(&self.adder, &A, &[0]), 12, &[BEFORE; 5])
    }

    /// Every call on a coded voter. The first child of `start` is right, so that the pairs through it turn one gate and the third pair turns two. Its map has
    /// the children at byte 28, and its record at 24; as a voter of two and as kind 6 it is refused.
    fn voters(&mut self) -> Tried {
        let (map, start) = (voter(), [1, 0, 0, 1]);
        let on = |kind: Kind, body: &[u8], tape: &[u8]| with_memory(Call::new(kind, &map).with_body(body).with_tape(tape), 6, 6);
        self.expect(Call::new(Kind::Check, &map), 0, &[4, 3, 3, 1, BEFORE])?;
        self.expect(Call { gate: 3, ..Call::new(Kind::Children, &map) }, 0, &[28, 6, BEFORE])?;
        self.expect(Call::new(Kind::Mark, &map).with_body(&[1, 0, 1, 1]), 0, &[1, BEFORE])?;
        self.expect(Call::new(Kind::Mark, &map).with_body(&start), 0, &[0, BEFORE])?;
        self.expect(with_memory(Call::new(Kind::Survey, &map).with_body(&start), 6, 0), 0, &[1, 4, BEFORE])?;
        for (option, turned) in [(0, 1), (1, 1), (2, 2), (3, 1), (254, 2), (255, 1)] {
            let entry = [0, 0, DOWN, option];
            self.expect(with_memory(Call::new(Kind::Move, &map).with_body(&start).with_tape(&entry), 6, 0), 0, &[3, turned, BEFORE])?;
            self.expect(on(Kind::Run, &start, &entry), 0, &[FOUND, 1, turned, 0, BEFORE])?;
        }
        self.expect(on(Kind::Run, &start, &[]), 0, &[SPENT, 0, 0, 1, BEFORE])?;
        for (place, byte) in [(24, 6), (25, 2)] {
            let mut wrong = map.clone();
            wrong[place] = byte;
            self.expect(Call::new(Kind::Check, &wrong), 4, &[BEFORE; 5])?;
        }
        Ok(())
    }

    /// F-5's sizes: of the OR in the front with all gates below it, of gate 3 in its place, and of gate 6; a greedy entry leads to gate 6, and four of them
    /// down to its input, which is Found; `down 0` leads to gate 3.
    fn weightless(&mut self) -> Tried {
        let (map, start) = (and_or_nots(), [0, 0, 1, 0, 0, 1, 0, 1]);
        let on = |kind: Kind, body: &[u8], tape: &[u8]| with_memory(Call::new(kind, &map).with_body(body).with_tape(tape), 10, 10);
        let surveyed = |body: &[u8]| with_memory(Call::new(Kind::Survey, &map).with_body(body), 10, 0);
        self.expect(surveyed(&start), 0, &[1, 5, BEFORE])?;
        self.expect(surveyed(&[0, 0, 1, 1, 0, 1, 0, 1]), 0, &[1, 3, BEFORE])?;
        self.expect(surveyed(&[0, 0, 1, 0, 0, 1, 1, 1]), 0, &[1, 1, BEFORE])?;
        for (entry, gate) in [([0, 0, GREEDY, 0], 6), ([0, 0, GREEDY, 1], 6), (DOWN_0, 3)] {
            let call = with_memory(Call::new(Kind::Move, &map).with_body(&start).with_tape(&entry), 10, 0);
            self.expect(call.clone(), 0, &[7, 1, BEFORE])?;
            let left = self.harness.proved(&call);
            if left.body[gate] == start[gate] {
                return Err(format!("not gate {gate} turned in the call\n{call}\nstatic library: {left}"));
            }
        }
        self.expect(on(Kind::Run, &start, &[0, 0, GREEDY, 0].repeat(3)), 0, &[SPENT, 3, 3, 1, BEFORE])?;
        self.expect(on(Kind::Run, &start, &[0, 0, GREEDY, 0].repeat(4)), 0, &[FOUND, 4, 4, 0, BEFORE])?;
        self.expect(on(Kind::Run, &start, &[DOWN_0, [0, 0, GREEDY, 0]].concat()), 0, &[FOUND, 2, 3, 0, BEFORE])
    }
}
