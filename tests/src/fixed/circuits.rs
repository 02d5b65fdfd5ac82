//! The maps of the fixed cases.

use crate::engine::{AND, INPUT, NOT, OR, VOTER, XOR};
use crate::maps::{build, push16};

pub(super) fn map(gates: &[(u8, &[u16])], codes: &[(u16, u8)]) -> Vec<u8> {
    let gates: Vec<(u8, Vec<u16>)> = gates.iter().map(|(k, c)| (*k, c.to_vec())).collect();
    build(&gates, codes)
}

/// Twelve bytes of contents and nothing else.
pub(super) fn header(six: [u16; 6]) -> Vec<u8> {
    let mut bytes = Vec::new();
    for number in six {
        push16(&mut bytes, number as usize);
    }
    bytes
}


pub(super) const ADDER: [(u8, &[u16]); 8] = [
    (INPUT, &[]),
    (INPUT, &[]),
    (INPUT, &[]),
    (XOR, &[0, 1]),
    (AND, &[0, 1]),
    (AND, &[2, 3]),
    (XOR, &[2, 3]),
    (OR, &[4, 5]),
];

/// The adder of the bench examples: gates from byte 12, children from byte 44,
/// code from byte 64, 68 bytes.
pub fn adder() -> Vec<u8> {
    map(&ADDER, &[(7, 1)])
}

/// P9's map: 0 input, 1 NOT(0), 2 AND(0,1), code 2 = 1.
pub(super) fn p9() -> Vec<u8> {
    map(&[(INPUT, &[]), (NOT, &[0]), (AND, &[0, 1])], &[(2, 1)])
}

/// P11's map: 0, 1 inputs, 2 NOT(0), 3 AND(0,2), 4 OR(1,3), code 4 = 1.
pub(super) fn p11() -> Vec<u8> {
    map(
        &[(INPUT, &[]), (INPUT, &[]), (NOT, &[0]), (AND, &[0, 2]), (OR, &[1, 3])],
        &[(4, 1)],
    )
}

/// Inputs that stand after other gates: 0 input, 1 NOT(0), 2 input,
/// 3 XOR(1,2), 4 input, 5 OR(0,4). Gates from 12, children from 36.
pub(super) fn mixed() -> Vec<u8> {
    map(
        &[
            (INPUT, &[]),
            (NOT, &[0]),
            (INPUT, &[]),
            (XOR, &[1, 2]),
            (INPUT, &[]),
            (OR, &[0, 4]),
        ],
        &[],
    )
}

pub(super) const EIGHT: [u16; 8] = [0, 1, 2, 3, 4, 5, 6, 7];

/// Eight inputs, 8 AND(0..7), 9 OR(0..7).
pub(super) fn wide() -> Vec<u8> {
    let mut gates = vec![(INPUT, vec![]); 8];
    gates.push((AND, EIGHT.to_vec()));
    gates.push((OR, EIGHT.to_vec()));
    build(&gates, &[])
}

/// Eight inputs, ANDs of the first 2 to 8 of them (gates 8 to 14), ORs of the
/// first 2 to 8 (gates 15 to 21).
pub(super) fn fans() -> Vec<u8> {
    let mut gates = vec![(INPUT, vec![]); 8];
    for kind in [AND, OR] {
        for fan_in in 2..=8 {
            gates.push((kind, EIGHT[..fan_in].to_vec()));
        }
    }
    build(&gates, &[])
}

/// `n` inputs and no other gate.
pub(super) fn inputs(n: usize, codes: &[(u16, u8)]) -> Vec<u8> {
    build(&vec![(INPUT, vec![]); n], codes)
}

/// `n` inputs and one last gate with all of them as children.
pub(super) fn over(n: u16, kind: u8) -> Vec<u8> {
    let mut gates = vec![(INPUT, vec![]); n as usize];
    gates.push((kind, (0..n).collect()));
    build(&gates, &[])
}

/// An input and `n` - 1 NOTs, each of the gate before; the last is coded 1.
pub(super) fn chain(n: u16) -> Vec<u8> {
    let mut gates = vec![(INPUT, vec![])];
    for g in 1..n {
        gates.push((NOT, vec![g - 1]));
    }
    build(&gates, &[(n - 1, 1)])
}

/// `n` inputs and one last gate with all of them as children, coded `value`.
pub(super) fn shown(n: u16, kind: u8, value: u8) -> Vec<u8> {
    let mut gates = vec![(INPUT, vec![]); n as usize];
    gates.push((kind, (0..n).collect()));
    build(&gates, &[(n, value)])
}

/// 512 layers of two gates: inputs, then ORs, XORs and ANDs by turn, each over
/// both gates of the layer before; the last two gates are coded 0. Layer k has
/// the gates 2k and 2k + 1, and is of ANDs where 3 divides k.
pub(super) fn layers() -> Vec<u8> {
    let mut gates = vec![(INPUT, vec![]); 2];
    for k in 1..512 {
        for _ in 0..2 {
            gates.push(([AND, OR, XOR][k as usize % 3], vec![2 * k - 2, 2 * k - 1]));
        }
    }
    build(&gates, &[(1022, 0), (1023, 0)])
}

/// One input and 270 NOTs of it, all coded 1 but the last, which is coded 0.
pub(super) fn fan_of_nots() -> Vec<u8> {
    let mut gates = vec![(INPUT, vec![])];
    let mut codes = Vec::new();
    for g in 1..271 {
        gates.push((NOT, vec![0]));
        codes.push((g, if g < 270 { 1 } else { 0 }));
    }
    build(&gates, &codes)
}

/// Six levels: 0 to 4 inputs, 5 AND(0,1), 6 NOT(5), 7 OR(2,6), 8 XOR(3,7),
/// 9 NOT(4), 10 AND(8,9), code 10 = 1.
pub(super) fn deep() -> Vec<u8> {
    map(
        &[
            (INPUT, &[]),
            (INPUT, &[]),
            (INPUT, &[]),
            (INPUT, &[]),
            (INPUT, &[]),
            (AND, &[0, 1]),
            (NOT, &[5]),
            (OR, &[2, 6]),
            (XOR, &[3, 7]),
            (NOT, &[4]),
            (AND, &[8, 9]),
        ],
        &[(10, 1)],
    )
}

/// 8 OR(2,3,4,5,6,7), coded 1, over inputs, an AND, a XOR and a NOT.
pub(super) fn six() -> Vec<u8> {
    map(
        &[
            (INPUT, &[]),
            (INPUT, &[]),
            (AND, &[0, 1]),
            (INPUT, &[]),
            (XOR, &[0, 1]),
            (INPUT, &[]),
            (NOT, &[1]),
            (INPUT, &[]),
            (OR, &[2, 3, 4, 5, 6, 7]),
        ],
        &[(8, 1)],
    )
}

/// The most of everything, 24,516 bytes: an input, a NOT, and ANDs and ORs by
/// turn of as many gates next below as there are, eight at most; all coded.
pub(super) fn full() -> Vec<u8> {
    let mut gates = vec![(INPUT, vec![]), (NOT, vec![0])];
    for g in 2..1024u16 {
        gates.push(([AND, OR][g as usize % 2], (g.saturating_sub(8)..g).collect()));
    }
    let codes: Vec<(u16, u8)> = (0..1024).map(|g| (g, (g % 2) as u8)).collect();
    let map = build(&gates, &codes);
    assert_eq!(map.len(), 24_516);
    map
}

/// The smallest map that is Stuck: 0 input, 1 NOT(0), both coded 0.
pub(super) fn smallest_stuck() -> Vec<u8> {
    map(&[(INPUT, &[]), (NOT, &[0])], &[(0, 0), (1, 0)])
}

/// The same, and 2 input, 3 NOT(2), code 3 = 1.
pub(super) fn half_stuck() -> Vec<u8> {
    map(&[(INPUT, &[]), (NOT, &[0]), (INPUT, &[]), (NOT, &[2])], &[(0, 0), (1, 0), (3, 1)])
}

/// Eight inputs, 8 AND(0..7) coded 1 and 9 OR(0..7) coded 0.
pub(super) fn torn() -> Vec<u8> {
    let mut gates = vec![(INPUT, vec![]); 8];
    gates.push((AND, EIGHT.to_vec()));
    gates.push((OR, EIGHT.to_vec()));
    build(&gates, &[(8, 1), (9, 0)])
}

/// Eight inputs, 8 OR(0..7) coded 1 and 9 OR(0..7) coded 0.
pub(super) fn split() -> Vec<u8> {
    let mut gates = vec![(INPUT, vec![]); 8];
    gates.push((OR, EIGHT.to_vec()));
    gates.push((OR, EIGHT.to_vec()));
    build(&gates, &[(8, 1), (9, 0)])
}

/// Two inputs, 2 XOR(0,1) coded 1 and 3 XOR(0,1) coded 0.
pub(super) fn twin_xors() -> Vec<u8> {
    map(&[(INPUT, &[]), (INPUT, &[]), (XOR, &[0, 1]), (XOR, &[0, 1])], &[(2, 1), (3, 0)])
}

/// No state shows code 7 = 1: gates 2 and 6 are ANDs of a gate and its NOT.
pub(super) fn hopeless() -> Vec<u8> {
    map(
        &[
            (INPUT, &[]),
            (NOT, &[0]),
            (AND, &[0, 1]),
            (INPUT, &[]),
            (INPUT, &[]),
            (NOT, &[3]),
            (AND, &[3, 4, 5]),
            (OR, &[2, 6]),
        ],
        &[(7, 1)],
    )
}

/// Three coded NOTs of three inputs.
pub(super) fn three_nots() -> Vec<u8> {
    map(
        &[(INPUT, &[]), (INPUT, &[]), (INPUT, &[]), (NOT, &[0]), (NOT, &[1]), (NOT, &[2])],
        &[(3, 1), (4, 1), (5, 1)],
    )
}

/// `n` times an input and its NOT, which is coded 0 and 1 by turn.
pub(super) fn pairs(n: u16) -> Vec<u8> {
    let mut gates = Vec::new();
    let mut codes = Vec::new();
    for k in 0..n {
        gates.push((INPUT, vec![]));
        gates.push((NOT, vec![2 * k]));
        codes.push((2 * k + 1, (k % 2) as u8));
    }
    build(&gates, &codes)
}

/// The odd parity of eight inputs: XORs 8 to 11 over the inputs, 12 and 13 over
/// those, 14 over 12 and 13, code 14 = 1.
pub(super) fn parity() -> Vec<u8> {
    let mut gates = vec![(INPUT, vec![]); 8];
    for pair in [[0, 1], [2, 3], [4, 5], [6, 7], [8, 9], [10, 11], [12, 13]] {
        gates.push((XOR, pair.to_vec()));
    }
    build(&gates, &[(14, 1)])
}

/// The mixed map's gates with codes.
pub(super) fn mixed_with(codes: &[(u16, u8)]) -> Vec<u8> {
    map(
        &[(INPUT, &[]), (NOT, &[0]), (INPUT, &[]), (XOR, &[1, 2]), (INPUT, &[]), (OR, &[0, 4])],
        codes,
    )
}

/// 1,024 inputs, every eighth of them coded 1.
pub(super) fn thousand_inputs() -> Vec<u8> {
    let codes: Vec<(u16, u8)> = (0..128).map(|k| (8 * k, 1)).collect();
    inputs(1024, &codes)
}

/// 0 input, 1 NOT(0), 2 input, 3 OR(1,2), code 3 = 0: an input's place in a row
/// is not its gate number. Gates from 12, children from 28.
pub(super) fn gap() -> Vec<u8> {
    map(&[(INPUT, &[]), (NOT, &[0]), (INPUT, &[]), (OR, &[1, 2])], &[(3, 0)])
}

/// 0, 1 inputs, 2 AND(0,1), 3 NOT(2), code 3 = 1.
pub(super) fn nand() -> Vec<u8> {
    map(&[(INPUT, &[]), (INPUT, &[]), (AND, &[0, 1]), (NOT, &[2])], &[(3, 1)])
}

/// 0, 1 inputs, 2 AND(0,1), 3 NOT(2), 4 AND(0,2), codes 3 = 1 and 4 = 1, from 42.
pub(super) fn two_codes() -> Vec<u8> {
    map(
        &[(INPUT, &[]), (INPUT, &[]), (AND, &[0, 1]), (NOT, &[2]), (AND, &[0, 2])],
        &[(3, 1), (4, 1)],
    )
}

/// 0, 1 inputs, 2 AND(0,1), 3 input, 4 OR(0,2,3), code 4 = 1: from all others at
/// 0 the first and the last of three options are the best.
pub(super) fn tie() -> Vec<u8> {
    map(
        &[(INPUT, &[]), (INPUT, &[]), (AND, &[0, 1]), (INPUT, &[]), (OR, &[0, 2, 3])],
        &[(4, 1)],
    )
}

/// `n` inputs and a gate over all of them.
pub(super) fn alone(kind: u8, n: u16, codes: &[(u16, u8)]) -> Vec<u8> {
    build(&[vec![(INPUT, vec![]); n as usize], vec![(kind, (0..n).collect())]].concat(), codes)
}

/// `n` inputs, a gate over all of them, and a NOT of that one.
pub(super) fn below_a_not(kind: u8, n: u16, codes: &[(u16, u8)]) -> Vec<u8> {
    build(&[vec![(INPUT, vec![]); n as usize], vec![(kind, (0..n).collect()), (NOT, vec![n])]].concat(), codes)
}

/// 0 to 2 inputs, 3 VOTER(0,1,2), 4 NOT(3), 5 VOTER(0,3,4), 6 XOR(3,5),
/// 7 AND(4,5,6), 8 OR(6,7). As 4 is not 3, 5 is what 0 is.
pub(super) fn every_kind(codes: &[(u16, u8)]) -> Vec<u8> {
    map(
        &[
            (INPUT, &[]),
            (INPUT, &[]),
            (INPUT, &[]),
            (VOTER, &[0, 1, 2]),
            (NOT, &[3]),
            (VOTER, &[0, 3, 4]),
            (XOR, &[3, 5]),
            (AND, &[4, 5, 6]),
            (OR, &[6, 7]),
        ],
        codes,
    )
}

/// Voters over inputs that stand after other gates: 0 input, 1 NOT(0), 2 input,
/// 3 VOTER(0,1,2), 4 input, 5 VOTER(1,3,4).
pub(super) fn mixed_voters() -> Vec<u8> {
    map(
        &[
            (INPUT, &[]),
            (NOT, &[0]),
            (INPUT, &[]),
            (VOTER, &[0, 1, 2]),
            (INPUT, &[]),
            (VOTER, &[1, 3, 4]),
        ],
        &[],
    )
}

/// 0 to 4 inputs, 5 VOTER(0,1,2), 6 VOTER(2,3,4), 7 VOTER(0,5,6), coded `value`.
pub(super) fn voter_of_voters(value: u8) -> Vec<u8> {
    let mut gates = vec![(INPUT, vec![]); 5];
    gates.extend([(VOTER, vec![0, 1, 2]), (VOTER, vec![2, 3, 4]), (VOTER, vec![0, 5, 6])]);
    build(&gates, &[(7, value)])
}

/// Three inputs and voters, each over the three gates before it, `n` gates in all;
/// the last is coded 1.
pub(super) fn chain_of_voters(n: u16) -> Vec<u8> {
    let mut gates = vec![(INPUT, vec![]); 3];
    gates.extend((3..n).map(|gate| (VOTER, vec![gate - 3, gate - 2, gate - 1])));
    build(&gates, &[(n - 1, 1)])
}

/// 0 to 2 inputs, 3 VOTER(0,1,2) and 4 another gate over some of these inputs.
pub(super) fn beside_a_voter(kind: u8, children: &[u16], codes: &[(u16, u8)]) -> Vec<u8> {
    map(&[(INPUT, &[]), (INPUT, &[]), (INPUT, &[]), (VOTER, &[0, 1, 2]), (kind, children)], codes)
}

/// 0 to 2 inputs, 3 AND(0,1,2), 4 NOT(0), 5 XOR(0,1), 6 VOTER(3,4,5), code 6 = 1.
pub(super) fn costly_voter() -> Vec<u8> {
    map(
        &[
            (INPUT, &[]),
            (INPUT, &[]),
            (INPUT, &[]),
            (AND, &[0, 1, 2]),
            (NOT, &[0]),
            (XOR, &[0, 1]),
            (VOTER, &[3, 4, 5]),
        ],
        &[(6, 1)],
    )
}

/// The full adder with a voter for its carry: 0 to 2 inputs, 3 XOR(0,1), 4 XOR(2,3),
/// the sum, and 5 VOTER(0,1,2), the carry; codes 4 = 0 and 5 = 1.
pub(super) fn voting_adder() -> Vec<u8> {
    map(
        &[(INPUT, &[]), (INPUT, &[]), (INPUT, &[]), (XOR, &[0, 1]), (XOR, &[2, 3]), (VOTER, &[0, 1, 2])],
        &[(4, 0), (5, 1)],
    )
}
