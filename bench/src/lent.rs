//! What a call is lent, and the comparison of both engines on it.

use crate::engine::{Engine, ENGINES};

#[derive(Clone, Copy, PartialEq, Debug)]
pub enum Call {
    Check,
    Evaluate,
    Survey,
    Run,
    Export,
}

pub const CALLS: [Call; 5] = [Call::Check, Call::Evaluate, Call::Survey, Call::Run, Call::Export];

/// Elements that must stay as they are follow each lent part.
const GUARD: usize = 16;

/// The first `len` elements are lent.
#[derive(Clone, PartialEq)]
pub struct Buffer<T> {
    elements: Vec<T>,
    len: usize,
}

impl<T: Copy> Buffer<T> {
    pub fn new(lent: &[T], guard: T) -> Buffer<T> {
        let mut elements = lent.to_vec();
        elements.resize(lent.len() + GUARD, guard);
        Buffer { elements, len: lent.len() }
    }

    pub fn get(&self) -> &[T] {
        &self.elements[..self.len]
    }

    pub fn get_mut(&mut self) -> &mut [T] {
        &mut self.elements[..self.len]
    }
}

#[derive(Clone, PartialEq)]
pub struct Lent {
    pub map: Buffer<u8>,
    pub row: Buffer<u8>,
    pub configuration: Buffer<u8>,
    pub tape: Buffer<u8>,
    /// Output of evaluate and survey, work memory of a run.
    pub out: Buffer<u8>,
    pub answer: Buffer<u8>,
    pub text: Buffer<u8>,
    pub numbers: Buffer<usize>,
}

impl Lent {
    /// Makes a call and returns the number that it is refused with, or 0.
    pub fn call(&mut self, engine: &Engine, call: Call) -> u8 {
        let map = self.map.get();
        let out = self.out.get_mut();
        let numbers = self.numbers.get_mut();
        match call {
            Call::Check => engine.check(map, numbers),
            Call::Evaluate => engine.evaluate(map, self.row.get(), out),
            Call::Survey => engine.survey(map, self.configuration.get(), out, numbers),
            Call::Run => engine.run(map, self.configuration.get_mut(), self.tape.get(), out, self.answer.get_mut(), numbers),
            Call::Export => engine.export(map, self.text.get_mut(), numbers),
        }
    }

    /// A line for each lent buffer with its guard.
    fn lines(&self) -> Vec<String> {
        let bytes = [
            ("map", &self.map),
            ("row", &self.row),
            ("configuration", &self.configuration),
            ("tape", &self.tape),
            ("output or work", &self.out),
            ("answer", &self.answer),
            ("text", &self.text),
        ];
        let mut lines: Vec<String> = bytes.iter().map(|(name, buffer)| format!("{}, {} lent: {:?}", name, buffer.len, buffer.elements)).collect();
        lines.push(format!("numbers, {} lent: {:?}", self.numbers.len, self.numbers.elements));
        lines
    }
}

/// Makes the call with both engines, each on its own copy. Gives the common answer and what was lent afterwards, or a report of the difference.
pub fn compare(lent: &Lent, call: Call) -> Result<(u8, Lent), String> {
    let [plain, proved] = ENGINES.map(|engine| {
        let mut copy = lent.clone();
        let answer = copy.call(&engine, call);
        (answer, copy)
    });
    if plain == proved {
        return Ok(plain);
    }
    let mut report = format!("{:?} differs: {} returns {}, {} returns {}.", call, ENGINES[0].name, plain.0, ENGINES[1].name, proved.0);
    report += &format!("\nBefore:\n  {}", lent.lines().join("\n  "));
    for (plain, proved) in plain.1.lines().iter().zip(proved.1.lines()).filter(|(plain, proved)| *plain != proved) {
        report += &format!("\nAfter {}:\n  {}\nAfter {}:\n  {}", ENGINES[0].name, plain, ENGINES[1].name, proved);
    }
    Err(report)
}
