//! Peeriewick for hosts in Rust: the calls of document 01 on slices, over the proved engine's archive.
//!
//! Any bytes may be given to any call. A call that is refused gives [`Refused`] with its number and leaves every slice as it was; an accepted
//! one writes into the first bytes of a slice and leaves its surplus. Nothing allocates or keeps anything between calls. What a host in C
//! must see to itself (good pointers, buffers that don't overlap) the language sees to here.
//!
//! `docs/FORMAT.md` has the bytes of maps, rows, configurations, tapes and surveys. A row or configuration has exactly its length; output, work and answer
//! memory may be longer than needed and hold anything.

pub mod raw;

use std::fmt;

/// The kinds of gate: the first byte of a gate's record in a map.
pub mod kind {
    pub const INPUT: u8 = 0;
    pub const NOT: u8 = 1;
    pub const AND: u8 = 2;
    pub const OR: u8 = 3;
    pub const XOR: u8 = 4;
    /// 1 where at least two of its three children are.
    pub const VOTER: u8 = 5;
}

/// The kinds of a tape entry: its third byte.
#[cfg(feature = "search")]
pub mod entry {
    pub const GREEDY: u8 = 0;
    pub const DOWN: u8 = 1;
    pub const UP: u8 = 2;
}

/// What a survey says of a gate: its byte is the sum of those that hold.
#[cfg(feature = "survey")]
pub mod bit {
    pub const CONE: u8 = 1;
    pub const FRONT: u8 = 2;
    pub const INTEREST: u8 = 4;
}

/// The number of the first test that fails, as document 01 lists them.
#[derive(Clone, Copy, PartialEq, Eq, Hash)]
pub struct Refused(pub u8);

impl Refused {
    /// What is wrong, in words.
    pub fn reason(self) -> &'static str {
        match self.0 {
            1 => "the map is shorter than 12 bytes",
            2 => "the map has no gate or more than 1,024",
            3 => "an offset or the map's length isn't what the counts give",
            4 => "a kind is above 5 or a fan-in isn't allowed for its kind",
            5 => "a first child position or the child count is wrong",
            6 => "a child isn't below its gate or doesn't ascend",
            7 => "a code's gate is past the last or doesn't ascend, or its value or zero byte is wrong",
            9 => "the row or configuration has the wrong length",
            10 => "the row or configuration has a byte above 1",
            11 => "a coded gate's value isn't its code",
            12 => "the tape's length isn't a multiple of 4 or is above 65,532, or a lent entry isn't 4 bytes",
            13 => "an entry has a kind above 2",
            14 => "output, work or answer memory is shorter than the gate count",
            15 => "the front is empty",
            16 => "the text memory is shorter than the text",
            _ => "no number of document 01",
        }
    }
}

impl fmt::Display for Refused {
    fn fmt(&self, f: &mut fmt::Formatter<'_>) -> fmt::Result {
        write!(f, "refused with {}: {}", self.0, self.reason())
    }
}

/// With its words too: it is what a `main` that ends with it prints.
impl fmt::Debug for Refused {
    fn fmt(&self, f: &mut fmt::Formatter<'_>) -> fmt::Result {
        write!(f, "Refused({}: {})", self.0, self.reason())
    }
}

impl std::error::Error for Refused {}

/// The result of a call that returned this number: 0 is none.
fn result<T>(number: u8, answer: T) -> Result<T, Refused> {
    match number {
        0 => Ok(answer),
        _ => Err(Refused(number)),
    }
}

/// Check's counts.
#[derive(Debug, Clone, Copy, PartialEq, Eq, Hash)]
pub struct Counts {
    pub gates: usize,
    pub inputs: usize,
    pub children: usize,
    pub codes: usize,
}

/// Checks a map. Refused with 1 to 7.
pub fn check(map: &[u8]) -> Result<Counts, Refused> {
    let mut n = [0usize; 4];
    let number = unsafe { raw::peeriewick_check(map.as_ptr(), map.len(), n.as_mut_ptr(), n.len()) };
    let [gates, inputs, children, codes] = n;
    result(number, Counts { gates, inputs, children, codes })
}

/// The part of the map that holds the children of a gate, two bytes each: no copy. Empty for an input, a gate past the end or a map that [`check`]
/// refuses.
pub fn children(map: &[u8], gate: usize) -> &[u8] {
    let mut n = [0usize; 2];
    unsafe { raw::peeriewick_children(map.as_ptr(), map.len(), gate, n.as_mut_ptr(), n.len()) };
    let [at, length] = n;
    &map[at..at + length]
}

/// Writes the value of every gate into `out`, for a row of one byte 0 or 1 per input, by gate number. Refused with 1 to 7, 9, 10 and 14.
pub fn evaluate(map: &[u8], row: &[u8], out: &mut [u8]) -> Result<(), Refused> {
    let number = unsafe {
        raw::peeriewick_evaluate(map.as_ptr(), map.len(), row.as_ptr(), row.len(), out.as_mut_ptr(), out.len())
    };
    result(number, ())
}

/// Does the configuration obey every gate and show every code? Refused with 1 to 7, 9 and 10.
pub fn mark(map: &[u8], configuration: &[u8]) -> Result<bool, Refused> {
    let mut n = [0usize; 1];
    let number = unsafe {
        raw::peeriewick_mark(
            map.as_ptr(),
            map.len(),
            configuration.as_ptr(),
            configuration.len(),
            n.as_mut_ptr(),
            n.len(),
        )
    };
    result(number, n[0] == 1)
}

/// The longest text that [`export`] writes: text memory of this size is enough for any map.
pub const LONGEST_TEXT: usize = 141_716;

/// Writes the map as DIMACS CNF into `text` and returns the text's length: the line `p cnf`, each gate's clauses and a unit clause for each code, over
/// variables that are the gate numbers plus 1. An assignment satisfies the clauses exactly where [`mark`] says yes. Refused with 1 to 7 and 16.
pub fn export(map: &[u8], text: &mut [u8]) -> Result<usize, Refused> {
    let mut n = [0usize; 1];
    let number = unsafe {
        raw::peeriewick_export(map.as_ptr(), map.len(), text.as_mut_ptr(), text.len(), n.as_mut_ptr(), n.len())
    };
    let [length] = n;
    result(number, length)
}

/// The sizes of front and interest set. NOT gates count in the first alone.
#[cfg(feature = "survey")]
#[derive(Debug, Clone, Copy, PartialEq, Eq, Hash)]
pub struct Sizes {
    pub front: usize,
    pub interest: usize,
}

/// Writes a byte per gate into `out`: 1 in the cone, plus 2 in the front, plus 4 interesting ([`bit`]). Refused with 1 to 7, 9 to 11
/// and 14.
#[cfg(feature = "survey")]
pub fn survey(map: &[u8], configuration: &[u8], out: &mut [u8]) -> Result<Sizes, Refused> {
    let mut n = [0usize; 2];
    let number = unsafe {
        raw::peeriewick_survey(
            map.as_ptr(),
            map.len(),
            configuration.as_ptr(),
            configuration.len(),
            out.as_mut_ptr(),
            out.len(),
            n.as_mut_ptr(),
            n.len(),
        )
    };
    let [front, interest] = n;
    result(number, Sizes { front, interest })
}

/// The gate that an entry drew, and how many values it turned: 0 exactly where it is stuck.
#[cfg(feature = "search")]
#[derive(Debug, Clone, Copy, PartialEq, Eq, Hash)]
pub struct Turn {
    pub gate: usize,
    pub turned: usize,
}

/// Does one tape entry of 4 bytes on the configuration, and writes the survey of the new one into `work`. Where the drawn gate is coded and each of its
/// options would turn a coded gate the move is stuck: 0 are turned, the configuration stays as it was, and `work` gets its survey. Refused with 1 to 7 and
/// 9 to 15. (`move` is a reserved word.)
#[cfg(feature = "search")]
pub fn make_move(map: &[u8], configuration: &mut [u8], entry: &[u8], work: &mut [u8]) -> Result<Turn, Refused> {
    let mut n = [0usize; 2];
    let number = unsafe {
        raw::peeriewick_move(
            map.as_ptr(),
            map.len(),
            configuration.as_mut_ptr(),
            configuration.len(),
            entry.as_ptr(),
            entry.len(),
            work.as_mut_ptr(),
            work.len(),
            n.as_mut_ptr(),
            n.len(),
        )
    };
    let [gate, turned] = n;
    result(number, Turn { gate, turned })
}

/// How a run that is not refused ends.
#[cfg(feature = "search")]
#[derive(Debug, Clone, Copy, PartialEq, Eq, Hash)]
pub enum Ending {
    /// The front is empty, and `answer` begins with the value of every gate in a state that shows the codes: the state is its bytes at the inputs.
    Found,
    /// The tape is used up, and the front has this size.
    Spent(usize),
    /// The next entry draws a coded gate, each of whose options would turn a coded gate; it is undone and not counted. This comes only where no state shows
    /// the codes.
    Stuck,
}

/// A run's ending, the number of entries done and the sum of the values they turned.
#[cfg(feature = "search")]
#[derive(Debug, Clone, Copy, PartialEq, Eq, Hash)]
pub struct Outcome {
    pub ending: Ending,
    pub moves: usize,
    pub flips: usize,
}

/// Does the tape's entries until the front is empty, the tape is used up or an entry is stuck. The configuration is then the last one, `work` has its
/// survey, and `answer` is written for [`Ending::Found`] alone. Refused with 1 to 7 and 9 to 14.
#[cfg(feature = "search")]
pub fn run(
    map: &[u8],
    configuration: &mut [u8],
    tape: &[u8],
    work: &mut [u8],
    answer: &mut [u8],
) -> Result<Outcome, Refused> {
    let mut n = [0usize; 4];
    let number = unsafe {
        raw::peeriewick_run(
            map.as_ptr(),
            map.len(),
            configuration.as_mut_ptr(),
            configuration.len(),
            tape.as_ptr(),
            tape.len(),
            work.as_mut_ptr(),
            work.len(),
            answer.as_mut_ptr(),
            answer.len(),
            n.as_mut_ptr(),
            n.len(),
        )
    };
    let [ending, moves, flips, front] = n;
    // as the header numbers them; 0 is Spent
    let ending = match ending {
        1 => Ending::Found,
        2 => Ending::Stuck,
        _ => Ending::Spent(front),
    };
    result(number, Outcome { ending, moves, flips })
}
