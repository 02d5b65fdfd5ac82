//! The frame that cases are written in (FORMAT.md), and the lines that the
//! independent engine gives for them.

use crate::engine::{self, Ending};
use crate::maps::push16;

/// "A case file has at most 524,288 bytes."
pub const FILE_LIMIT: usize = 524_288;
/// Files of random cases stay smaller.
pub const RANDOM_LIMIT: usize = 500_000;
/// "room and answer are at most 2,048."
pub const ROOM_LIMIT: usize = 2_048;
/// "Tape length times `times` is at most 66,000, and so is the whole input of
/// 'p'."
pub const LENT_LIMIT: usize = 66_000;
/// "The memories of 'e', 's', 'x', 'v' and 'r' are `room` and `answer` bytes, each
/// 170 (0xAA) before the call."
pub const PATTERN: u8 = 170;

/// One framed case.
#[derive(Debug, Clone, PartialEq, Eq)]
pub struct Case {
    pub op: u8,
    pub map: Vec<u8>,
    pub body: Vec<u8>,
    pub room: usize,
    /// The lent entry of a move, of any length, or what the tape of ops 'r' and
    /// 'p' repeats; nothing for the other ops.
    pub tape: Vec<u8>,
    /// How often the tape is repeated, for 'r' and 'p'; 0 for the other ops.
    pub times: usize,
    /// The length of the answer memory of a run; 0 for the other ops.
    pub answer: usize,
}

/// The bytes before the map: "tape u32: length of the tape, for ops 'v', 'r' and
/// 'p' alone", "times u16" and "answer u16" "for ops 'r' and 'p' alone".
fn head(op: u8) -> usize {
    match op {
        b'v' => 11,
        b'r' | b'p' => 15,
        _ => 7,
    }
}

impl Case {
    /// A case with no memory and no tape.
    pub fn plain(op: u8, map: &[u8], body: &[u8]) -> Case {
        Case { op, map: map.to_vec(), body: body.to_vec(), room: 0, tape: vec![], times: 0, answer: 0 }
    }

    /// A run: the tape and how often, the lengths of work and answer memory.
    pub fn run(map: &[u8], start: &[u8], tape: (&[u8], usize), rooms: (usize, usize)) -> Case {
        let plain = Case::plain(b'r', map, start);
        Case { room: rooms.0, tape: tape.0.to_vec(), times: tape.1, answer: rooms.1, ..plain }
    }

    /// An input of the program that is right as far as lengths go.
    pub fn program(map: &[u8], start: &[u8], tape: (&[u8], usize)) -> Case {
        let lengths = [map.len(), start.len(), tape.0.len() * tape.1];
        Case::input(&[&lengths_of(lengths)[..], map].concat(), start, tape)
    }

    /// An input of the program from its pieces, no lengths put before them.
    pub fn input(map: &[u8], body: &[u8], tape: (&[u8], usize)) -> Case {
        let plain = Case::plain(b'p', map, body);
        Case { tape: tape.0.to_vec(), times: tape.1, ..plain }
    }

    /// The bytes of the case in a case file.
    pub fn framed(&self) -> Vec<u8> {
        let mut bytes = vec![self.op];
        push16(&mut bytes, self.map.len());
        push16(&mut bytes, self.body.len());
        push16(&mut bytes, self.room);
        if head(self.op) >= 11 {
            push16(&mut bytes, self.tape.len() % 65_536);
            push16(&mut bytes, self.tape.len() / 65_536);
        }
        if head(self.op) == 15 {
            push16(&mut bytes, self.times);
            push16(&mut bytes, self.answer);
        }
        bytes.extend_from_slice(&self.map);
        bytes.extend_from_slice(&self.body);
        bytes.extend_from_slice(&self.tape);
        bytes
    }

    pub fn size(&self) -> usize {
        head(self.op) + self.map.len() + self.body.len() + self.tape.len()
    }

    /// "The tape lent to 'r' is the tape's bytes, `times` times over."
    pub fn lent_tape(&self) -> Vec<u8> {
        self.tape.repeat(self.times)
    }

    /// "What the program gets on standard input is, for 'p', the map's bytes,
    /// then the body's, then the tape's `times` times over."
    pub fn whole_input(&self) -> Vec<u8> {
        [&self.map[..], &self.body, &self.lent_tape()].concat()
    }

    /// Whether the numbers are ones that the format allows for the op.
    fn is_of_the_format(&self) -> bool {
        let lent = self.tape.len() * self.times;
        match self.op {
            b'c' => self.body.is_empty() && self.room == 0,
            b'k' => self.body.len() == 2 && self.room == 0,
            b'e' | b's' | b'v' => self.room <= ROOM_LIMIT,
            b'x' => self.body.is_empty() && self.room <= ROOM_LIMIT,
            b'm' => self.room == 0,
            b'r' => self.room <= ROOM_LIMIT && self.answer <= ROOM_LIMIT && lent <= LENT_LIMIT,
            b'p' => self.room == 0 && self.answer == 0 && self.map.len() + self.body.len() + lent <= LENT_LIMIT,
            _ => false,
        }
    }
}

/// The three lengths that an input of the program begins with.
pub fn lengths_of(three: [usize; 3]) -> Vec<u8> {
    let mut bytes = Vec::new();
    for length in three {
        push16(&mut bytes, length);
    }
    bytes
}

/// The bytes of a case file.
pub fn file<'a>(cases: impl IntoIterator<Item = &'a Case>) -> Vec<u8> {
    let mut bytes = Vec::new();
    for case in cases {
        bytes.extend_from_slice(&case.framed());
    }
    bytes
}

/// Reads a case file. "The program stops at the end of the file or at a case
/// that is cut off." What the format doesn't allow is an error, never a guess.
pub fn parse(bytes: &[u8]) -> Result<Vec<Case>, String> {
    if bytes.len() > FILE_LIMIT {
        return Err(format!("the case file has {} bytes", bytes.len()));
    }
    let mut cases = Vec::new();
    let mut at = 0;
    while bytes.len() - at >= 7 {
        let number = |place: usize| bytes[at + place] as usize + 256 * bytes[at + place + 1] as usize;
        let op = bytes[at];
        if bytes.len() - at < head(op) {
            break;
        }
        let room = number(5);
        let tape_length = if head(op) >= 11 { number(7) + 65_536 * number(9) } else { 0 };
        let (times, answer) = if head(op) == 15 { (number(11), number(13)) } else { (0, 0) };
        let map_at = at + head(op);
        let body_at = map_at + number(1);
        let tape_at = body_at + number(3);
        let end = tape_at + tape_length;
        if bytes.len() < end {
            break;
        }
        let map = bytes[map_at..body_at].to_vec();
        let body = bytes[body_at..tape_at].to_vec();
        let tape = bytes[tape_at..end].to_vec();
        at = end;
        let case = Case { op, map, body, room, tape, times, answer };
        if !case.is_of_the_format() {
            return Err(format!("case {} isn't of the format", cases.len()));
        }
        cases.push(case);
    }
    Ok(cases)
}

fn with_memory(word: String, memory: &[u8]) -> String {
    let mut line = word;
    if !memory.is_empty() {
        line.push(' ');
    }
    for byte in memory {
        line.push_str(&format!("{byte:02x}"));
    }
    line
}

/// "conf is the configuration after the call, `-` where it is empty": in
/// hexadecimal like the memory, since a refused one may have any bytes. The
/// memories of a run are written in the same way.
fn with_configuration(word: String, configuration: &[u8]) -> String {
    if configuration.is_empty() {
        return word + " -";
    }
    with_memory(word, configuration)
}

/// "`FOUND moves flips conf work answer`, `SPENT moves flips front conf work
/// answer`, `STUCK moves flips conf work answer` or `REFUSED n conf work answer`"
fn run_line(case: &Case) -> String {
    let mut configuration = case.body.clone();
    let mut work = vec![PATTERN; case.room];
    let mut answer = vec![PATTERN; case.answer];
    let outcome = engine::run(&case.map, &mut configuration, &case.lent_tape(), &mut work, &mut answer);
    let mut line = match outcome.ending {
        Ending::Found => format!("FOUND {} {}", outcome.moves, outcome.flips),
        Ending::Spent(front) => format!("SPENT {} {} {front}", outcome.moves, outcome.flips),
        Ending::Stuck => format!("STUCK {} {}", outcome.moves, outcome.flips),
        Ending::Refused(number) => format!("REFUSED {number}"),
    };
    for memory in [configuration, work, answer] {
        line = with_configuration(line, &memory);
    }
    line
}

fn children_line(case: &Case) -> String {
    let gate = case.body[0] as usize + 256 * case.body[1] as usize;
    let mut line = String::from("CHILDREN");
    for pair in engine::children(&case.map, gate).chunks(2) {
        line.push_str(&format!(" {}", pair[0] as u16 + 256 * pair[1] as u16));
    }
    line
}

fn move_line(case: &Case) -> String {
    let mut configuration = case.body.clone();
    let mut memory = vec![PATTERN; case.room];
    let word = match engine::make_move(&case.map, &mut configuration, &case.tape, &mut memory) {
        Ok((gate, turned)) => format!("MOVED {gate} {turned}"),
        Err(number) => refused(number),
    };
    with_memory(with_configuration(word, &configuration), &memory)
}

fn refused(number: u8) -> String {
    format!("REFUSED {number}")
}

/// The line that the independent engine gives for a case, without line feed.
pub fn answer(case: &Case) -> String {
    let mut memory = vec![PATTERN; case.room];
    match case.op {
        b'c' => match engine::check(&case.map) {
            Ok(n) => format!("OK {} {} {} {}", n.gates, n.inputs, n.children, n.codes),
            Err(number) => refused(number),
        },
        b'k' => children_line(case),
        b'e' => {
            let outcome = engine::evaluate(&case.map, &case.body, &mut memory);
            with_memory(outcome.map_or_else(refused, |()| String::from("DONE")), &memory)
        }
        b'm' => match engine::mark(&case.map, &case.body) {
            Ok(true) => String::from("YES"),
            Ok(false) => String::from("NO"),
            Err(number) => refused(number),
        },
        b's' => {
            let outcome = engine::survey(&case.map, &case.body, &mut memory);
            let sizes = |(front, interest)| format!("SIZES {front} {interest}");
            with_memory(outcome.map_or_else(refused, sizes), &memory)
        }
        b'x' => {
            let outcome = engine::export(&case.map, &mut memory);
            with_memory(outcome.map_or_else(refused, |length| format!("TEXT {length}")), &memory)
        }
        b'v' => move_line(case),
        b'r' => run_line(case),
        b'p' => engine::program(&case.whole_input()),
        other => panic!("no such op: {other}"),
    }
}
