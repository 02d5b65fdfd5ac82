//! Inputs that show how the program reads: exact ones of 65,536 bytes, the same with more bytes behind, and short ones; and the pieces in which an
//! input goes into a pipe.

use crate::engine::DOWN;
use crate::fixed::{adder, longest, longest_stuck, longest_with};
use crate::frame::Case;
use crate::random::program_inputs;

const P3_START: [u8; 8] = [0, 0, 1, 1, 0, 1, 0, 1];

/// P3's 86 bytes.
fn p3() -> Vec<u8> {
    Case::program(&adder(), &P3_START, (&[0, 0, DOWN, 0], 1)).whole_input()
}

/// Inputs of exactly 65,536 bytes, by the ending of their runs. The last byte decides the row of those found; in `stuck` the last entry draws the gate that
/// is Stuck, and in `refused` its kind is above 2.
fn longest_inputs() -> [(&'static str, Vec<u8>); 5] {
    let down = |option| [0, 0, DOWN, option];
    [
        ("found-011", longest_with([down(1), down(0), down(1)])),
        ("found-101", longest_with([down(1), down(0), down(0)])),
        ("spent", longest(0)),
        ("stuck", longest_stuck()),
        ("refused", longest_with([down(1), down(0), [0, 0, 3, 1]])),
    ]
}

/// The inputs with their names. `-and-1` and `-and-1048576` say how many bytes stand behind a whole input.
pub fn inputs() -> Vec<(String, Vec<u8>)> {
    let mut list = vec![(String::from("p3"), p3()), (String::from("p3-and-1"), [p3(), vec![0]].concat())];
    for (name, input) in longest_inputs() {
        for more in [1, 1_048_576] {
            list.push((format!("{name}-and-{more}"), [&input[..], &vec![0; more]].concat()));
        }
        list.push((String::from(name), input));
    }
    let random = program_inputs(5, 6).into_iter().enumerate();
    list.extend(random.map(|(number, input)| (format!("random-{number}"), input)));
    list
}

/// The pieces of an input: 1 to 5 bytes, then byte by byte up to the twentieth, then a thirtieth of it each, and its last byte alone.
pub fn pieces(input: &[u8]) -> Vec<&[u8]> {
    let mut list = Vec::new();
    let mut rest = input;
    while !rest.is_empty() {
        let length = match input.len() - rest.len() {
            0 => 1 + input.len() % 5,
            1..=19 => 1,
            _ => 1 + input.len() / 30,
        };
        let all_but_the_last = (rest.len() - 1).max(1);
        let (piece, behind) = rest.split_at(length.min(all_but_the_last));
        list.push(piece);
        rest = behind;
    }
    list
}
