//! One call with all that is lent to it, and its text: a line that `replay` reads.

use crate::lend::Way;
use std::fmt;

#[derive(Debug, Clone, Copy, PartialEq, Eq)]
pub enum Kind {
    Check,
    Children,
    Evaluate,
    Mark,
    Export,
    Survey,
    Move,
    Run,
}

pub const KINDS: [Kind; 8] =
    [Kind::Check, Kind::Children, Kind::Evaluate, Kind::Mark, Kind::Export, Kind::Survey, Kind::Move, Kind::Run];

impl Kind {
    pub fn name(self) -> &'static str {
        match self {
            Kind::Check => "check",
            Kind::Children => "children",
            Kind::Evaluate => "evaluate",
            Kind::Mark => "mark",
            Kind::Export => "export",
            Kind::Survey => "survey",
            Kind::Move => "move",
            Kind::Run => "run",
        }
    }

    /// How many numbers the call's answer has, by the header.
    pub fn numbers(self) -> usize {
        match self {
            Kind::Check | Kind::Run => 4,
            Kind::Children | Kind::Survey | Kind::Move => 2,
            Kind::Mark | Kind::Export => 1,
            Kind::Evaluate => 0,
        }
    }

    pub fn has_body(self) -> bool {
        !matches!(self, Kind::Check | Kind::Children | Kind::Export)
    }

    pub fn has_tape(self) -> bool {
        matches!(self, Kind::Move | Kind::Run)
    }

    pub fn has_memory(self) -> bool {
        matches!(self, Kind::Evaluate | Kind::Export | Kind::Survey | Kind::Move | Kind::Run)
    }

    /// Whether the call may write the row or configuration.
    pub fn writes_body(self) -> bool {
        self.has_tape()
    }
}

/// A call and every byte lent to it; what its kind doesn't take is empty.
#[derive(Debug, Clone, PartialEq, Eq)]
pub struct Call {
    pub kind: Kind,
    pub map: Vec<u8>,
    /// For Children.
    pub gate: usize,
    /// The row or configuration.
    pub body: Vec<u8>,
    /// The tape, or Move's entry.
    pub tape: Vec<u8>,
    /// Output, text or work memory as it is before the call.
    pub memory: Vec<u8>,
    /// Run's answer memory as it is before the call.
    pub answer: Vec<u8>,
    /// The array for the answer's numbers as it is before the call.
    pub numbers: Vec<usize>,
    pub way: Way,
    /// Whether empty buffers are lent as NULL.
    pub null: bool,
}

impl Call {
    pub fn new(kind: Kind, map: &[u8]) -> Call {
        Call {
            kind,
            map: map.to_vec(),
            gate: 0,
            body: vec![],
            tape: vec![],
            memory: vec![],
            answer: vec![],
            numbers: vec![],
            way: Way::Guarded(0),
            null: false,
        }
    }

    pub fn with_body(self, body: &[u8]) -> Call {
        Call { body: body.to_vec(), ..self }
    }

    pub fn with_tape(self, tape: &[u8]) -> Call {
        Call { tape: tape.to_vec(), ..self }
    }
}

pub fn hex(bytes: &[u8]) -> String {
    let digit = |half: u8| char::from(b"0123456789abcdef"[half as usize]);
    bytes.iter().flat_map(|byte| [digit(byte / 16), digit(byte % 16)]).collect()
}

fn bytes_of(text: &str) -> Result<Vec<u8>, String> {
    if text.len() % 2 != 0 || !text.is_ascii() {
        return Err(format!("not hexadecimal: {text}"));
    }
    let byte = |at: usize| u8::from_str_radix(&text[at..at + 2], 16).map_err(|e| format!("{text}: {e}"));
    (0..text.len()).step_by(2).map(byte).collect()
}

pub fn words(numbers: &[usize]) -> String {
    let list: Vec<String> = numbers.iter().map(|number| format!("{number:x}")).collect();
    list.join(",")
}

fn words_of(text: &str) -> Result<Vec<usize>, String> {
    let number = |word: &str| usize::from_str_radix(word, 16).map_err(|e| format!("{word}: {e}"));
    text.split(',').filter(|word| !word.is_empty()).map(number).collect()
}

/// `run way=.. null=.. gate=.. map=.. body=.. tape=.. memory=.. answer=.. numbers=..`, bytes and numbers in hexadecimal.
impl fmt::Display for Call {
    fn fmt(&self, f: &mut fmt::Formatter<'_>) -> fmt::Result {
        write!(f, "{} way={} null={} gate={:x}", self.kind.name(), self.way, self.null as u8, self.gate)?;
        write!(f, " map={} body={} tape={}", hex(&self.map), hex(&self.body), hex(&self.tape))?;
        write!(f, " memory={} answer={}", hex(&self.memory), hex(&self.answer))?;
        write!(f, " numbers={}", words(&self.numbers))
    }
}

/// Reads such a line; what is not named is empty.
pub fn parse(line: &str) -> Result<Call, String> {
    let mut parts = line.split_whitespace();
    let name = parts.next().ok_or("no call named")?;
    let kind = KINDS.into_iter().find(|kind| kind.name() == name).ok_or(format!("no such call: {name}"))?;
    let mut call = Call::new(kind, &[]);
    for part in parts {
        let (key, text) = part.split_once('=').ok_or(format!("no '=' in {part}"))?;
        match key {
            "way" => call.way = Way::parse(text)?,
            "null" => call.null = text == "1",
            "gate" => call.gate = usize::from_str_radix(text, 16).map_err(|e| format!("{text}: {e}"))?,
            "map" => call.map = bytes_of(text)?,
            "body" => call.body = bytes_of(text)?,
            "tape" => call.tape = bytes_of(text)?,
            "memory" => call.memory = bytes_of(text)?,
            "answer" => call.answer = bytes_of(text)?,
            "numbers" => call.numbers = words_of(text)?,
            _ => return Err(format!("no such part of a call: {key}")),
        }
    }
    Ok(call)
}
