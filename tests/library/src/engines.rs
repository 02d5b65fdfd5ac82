//! A call through the static library, through its safe wrapper, and through the independent engine.

use crate::call::{hex, words, Call, Kind};
use crate::lend::{Lender, Lending};
use peeriewick::raw;
use peeriewick_tests::engine::{self, Answer, Ending};
use std::fmt;

/// What a call tells: the number that it is refused with or 0, and all numbers of an accepted call's answer in the header's order.
#[derive(Debug, Clone, PartialEq, Eq)]
pub struct Told {
    pub number: u8,
    pub numbers: Vec<usize>,
}

/// What a call leaves: its number and every byte that it was lent.
#[derive(Debug, Clone, PartialEq, Eq)]
pub struct Outcome {
    pub number: u8,
    pub numbers: Vec<usize>,
    pub body: Vec<u8>,
    pub memory: Vec<u8>,
    pub answer: Vec<u8>,
    /// Guards and read-only buffers that were changed.
    pub touched: Vec<&'static str>,
}

impl fmt::Display for Outcome {
    fn fmt(&self, f: &mut fmt::Formatter<'_>) -> fmt::Result {
        write!(f, "number={} numbers={} body={}", self.number, words(&self.numbers), hex(&self.body))?;
        write!(f, " memory={} answer={}", hex(&self.memory), hex(&self.answer))?;
        match self.touched.is_empty() {
            true => Ok(()),
            false => write!(f, " touched outside: {}", self.touched.join(", ")),
        }
    }
}

// ------------------------------------------------------- the static library

/// Makes the call itself. The buffers are good for their lengths, and those written overlap no other.
fn make(call: &Call, l: &Lending) -> u8 {
    let (numbers, count) = (l.numbers.pointer as *mut usize, l.numbers.length / 8);
    let (map, size, body, length) = (l.map.pointer, l.map.length, l.body.pointer, l.body.length);
    let (memory, room) = (l.memory.pointer, l.memory.length);
    unsafe {
        match call.kind {
            Kind::Check => raw::peeriewick_check(map, size, numbers, count),
            Kind::Children => {
                raw::peeriewick_children(map, size, call.gate, numbers, count);
                0
            }
            Kind::Evaluate => raw::peeriewick_evaluate(map, size, body, length, memory, room),
            Kind::Mark => raw::peeriewick_mark(map, size, body, length, numbers, count),
            Kind::Export => raw::peeriewick_export(map, size, memory, room, numbers, count),
            Kind::Survey => raw::peeriewick_survey(map, size, body, length, memory, room, numbers, count),
            Kind::Move => {
                let (entry, four) = (l.tape.pointer, l.tape.length);
                raw::peeriewick_move(map, size, body, length, entry, four, memory, room, numbers, count)
            }
            Kind::Run => {
                let (tape, long, answer, space) = (l.tape.pointer, l.tape.length, l.answer.pointer, l.answer.length);
                raw::peeriewick_run(map, size, body, length, tape, long, memory, room, answer, space, numbers, count)
            }
        }
    }
}

pub fn proved(call: &Call, lender: &Lender) -> Outcome {
    let lending = lender.lend(call);
    let number = make(call, &lending);
    Outcome {
        number,
        numbers: lending.numbers(),
        body: lending.body.bytes().to_vec(),
        memory: lending.memory.bytes().to_vec(),
        answer: lending.answer.bytes().to_vec(),
        touched: lending.touched(call),
    }
}

// ----------------------------------------------------- the independent engine

fn told(answer: Result<Vec<usize>, u8>) -> Told {
    match answer {
        Ok(numbers) => Told { number: 0, numbers },
        Err(number) => Told { number, numbers: vec![] },
    }
}

fn whole(numbers: &[u64]) -> Vec<usize> {
    numbers.iter().map(|number| *number as usize).collect()
}

/// The place of a stretch in the map it was taken from, and its length.
fn place_of(stretch: &[u8], map: &[u8]) -> Vec<usize> {
    vec![(stretch.as_ptr() as usize).wrapping_sub(map.as_ptr() as usize), stretch.len()]
}

/// How a host is told of a run's ending: the first of its numbers.
pub const SPENT: usize = 0;
pub const FOUND: usize = 1;
pub const STUCK: usize = 2;

fn told_by_run(answer: Answer) -> Told {
    let numbers = |ending: usize, front: u64| told(Ok(whole(&[ending as u64, answer.moves, answer.flips, front])));
    match answer.ending {
        Ending::Found => numbers(FOUND, 0),
        Ending::Spent(front) => numbers(SPENT, front),
        Ending::Stuck => numbers(STUCK, 0),
        Ending::Refused(number) => told(Err(number)),
    }
}

/// What the independent engine tells; it writes the call's own memories.
fn tell(call: &mut Call) -> Told {
    let (map, body, memory) = (&call.map, &mut call.body, &mut call.memory);
    match call.kind {
        Kind::Check => told(engine::check(map).map(|c| whole(&[c.gates, c.inputs, c.children, c.codes]))),
        Kind::Children => told(Ok(place_of(engine::children(map, call.gate), map))),
        Kind::Evaluate => told(engine::evaluate(map, body, memory).map(|()| vec![])),
        Kind::Mark => told(engine::mark(map, body).map(|yes| vec![yes as usize])),
        Kind::Export => told(engine::export(map, memory).map(|length| whole(&[length]))),
        Kind::Survey => told(engine::survey(map, body, memory).map(|(front, interest)| whole(&[front, interest]))),
        Kind::Move => {
            told(engine::make_move(map, body, &call.tape, memory).map(|(gate, turned)| whole(&[gate, turned])))
        }
        Kind::Run => told_by_run(engine::run(map, body, &call.tape, memory, &mut call.answer)),
    }
}

/// The outcome of a call that tells this and leaves the memories like that: "as many as it has places for", none where it is refused.
fn outcome(told: &Told, left: Call) -> Outcome {
    let mut numbers = left.numbers;
    for (place, number) in numbers.iter_mut().zip(&told.numbers) {
        *place = *number;
    }
    let Call { body, memory, answer, .. } = left;
    Outcome { number: told.number, numbers, body, memory, answer, touched: vec![] }
}

/// What the call is to tell, and the outcome it is to have.
pub fn independent(call: &Call) -> (Told, Outcome) {
    let mut left = call.clone();
    let told = tell(&mut left);
    let outcome = outcome(&told, left);
    (told, outcome)
}

// ----------------------------------------------------------- the safe wrapper

fn tell_wrapped(call: &mut Call) -> Told {
    let (map, body, memory) = (&call.map, &mut call.body, &mut call.memory);
    let answer = match call.kind {
        Kind::Check => peeriewick::check(map).map(|c| vec![c.gates, c.inputs, c.children, c.codes]),
        Kind::Children => Ok(place_of(peeriewick::children(map, call.gate), map)),
        Kind::Evaluate => peeriewick::evaluate(map, body, memory).map(|()| vec![]),
        Kind::Mark => peeriewick::mark(map, body).map(|yes| vec![yes as usize]),
        Kind::Export => peeriewick::export(map, memory).map(|length| vec![length]),
        Kind::Survey => peeriewick::survey(map, body, memory).map(|sizes| vec![sizes.front, sizes.interest]),
        Kind::Move => peeriewick::make_move(map, body, &call.tape, memory).map(|turn| vec![turn.gate, turn.turned]),
        Kind::Run => peeriewick::run(map, body, &call.tape, memory, &mut call.answer).map(|ran| match ran.ending {
            peeriewick::Ending::Found => vec![FOUND, ran.moves, ran.flips, 0],
            peeriewick::Ending::Spent(front) => vec![SPENT, ran.moves, ran.flips, front],
            peeriewick::Ending::Stuck => vec![STUCK, ran.moves, ran.flips, 0],
        }),
    };
    told(answer.map_err(|refused| refused.0))
}

/// The same call through the wrapper, on slices of this program.
pub fn wrapped(call: &Call) -> (Told, Outcome) {
    let mut left = call.clone();
    let told = tell_wrapped(&mut left);
    let outcome = outcome(&told, left);
    (told, outcome)
}
