//! What the documents say of single calls, and that the lists of cases are not bare.

use crate::choices::{greedy_by, marks, shows_f5};
use crate::engine::*;
use crate::fixed::{adder, fixed};
use crate::frame::*;
use crate::maps::build;
use crate::random::random;
use std::collections::BTreeSet;

/// The adder of the bench examples, byte by byte.
const ADDER: [u8; 68] = [
    12, 0, 8, 0, 44, 0, 10, 0, 64, 0, 1, 0, // contents
    0, 0, 0, 0, // 0 input
    0, 0, 0, 0, // 1 input
    0, 0, 0, 0, // 2 input
    4, 2, 0, 0, // 3 XOR(0,1)
    2, 2, 2, 0, // 4 AND(0,1)
    2, 2, 4, 0, // 5 AND(2,3)
    4, 2, 6, 0, // 6 XOR(2,3)
    3, 2, 8, 0, // 7 OR(4,5)
    0, 0, 1, 0, 0, 0, 1, 0, 2, 0, 3, 0, 2, 0, 3, 0, 4, 0, 5, 0, // children
    7, 0, 1, 0, // code 7 = 1
];

#[test]
fn the_adder_is_accepted() {
    let counts = Counts { gates: 8, inputs: 3, children: 10, codes: 1 };
    assert_eq!(check(&ADDER), Ok(counts));
    assert_eq!(adder(), ADDER);
}

#[test]
fn p12_mark_of_a_is_no() {
    assert_eq!(mark(&ADDER, &[0, 0, 1, 1, 0, 1, 0, 1]), Ok(false));
}

#[test]
fn rows_of_p3_p4_and_p8_are_keys() {
    // P3: row 1 0 1; P4: row 0 1 1; P8: answer 1 1 0 0 1 0 0 1, B itself isn't one.
    for (row, values) in [
        ([1, 0, 1], [1, 0, 1, 1, 0, 1, 0, 1]),
        ([0, 1, 1], [0, 1, 1, 1, 0, 1, 0, 1]),
        ([1, 1, 0], [1, 1, 0, 0, 1, 0, 0, 1]),
    ] {
        let mut output = [170; 9];
        assert_eq!(evaluate(&ADDER, &row, &mut output), Ok(()));
        assert_eq!(output[..8], values);
        assert_eq!(output[8], 170);
        assert_eq!(mark(&ADDER, &values), Ok(true));
    }
    assert_eq!(mark(&ADDER, &[1, 1, 1, 1, 1, 0, 0, 1]), Ok(false));
}

#[test]
fn p1_survey_of_a() {
    let mut output = [170; 9];
    assert_eq!(survey(&ADDER, &[0, 0, 1, 1, 0, 1, 0, 1], &mut output), Ok((1, 3)));
    assert_eq!(output, [4, 4, 1, 7, 0, 1, 0, 1, 170]);
}

#[test]
fn p2_survey_of_b() {
    let mut output = [170; 8];
    assert_eq!(survey(&ADDER, &[1, 1, 1, 1, 1, 0, 0, 1], &mut output), Ok((0, 0)));
    assert_eq!(output, [1, 1, 0, 0, 1, 0, 0, 1]);
}

/// P5 and P6 name a survey or sizes of the configurations they end with.
#[test]
fn surveys_of_p5_and_p6() {
    let mut output = [170; 8];
    assert_eq!(survey(&ADDER, &[0, 0, 1, 0, 0, 1, 0, 1], &mut output), Ok((1, 5)));
    assert_eq!(output, [4, 4, 4, 4, 0, 7, 0, 1]);
    let turned = [0, 0, 1, 0, 1, 0, 0, 1];
    assert_eq!(survey(&ADDER, &turned, &mut output), Ok((1, 3)));
}

#[test]
fn declined_calls_leave_the_memory() {
    let mut output = [170; 7];
    assert_eq!(evaluate(&ADDER, &[1, 0, 1], &mut output), Err(14));
    assert_eq!(output, [170; 7]);
    assert_eq!(evaluate(&ADDER, &[1, 0, 2], &mut output), Err(10));
    assert_eq!(evaluate(&ADDER, &[1, 0, 2, 0], &mut output), Err(9));
    assert_eq!(evaluate(&ADDER[..67], &[1, 0, 2, 0], &mut output), Err(3));
    assert_eq!(output, [170; 7]);
}

#[test]
fn declined_surveys_leave_the_memory() {
    let mut output = [170; 7];
    assert_eq!(survey(&ADDER, &[0, 0, 1, 1, 0, 1, 0, 1], &mut output), Err(14));
    assert_eq!(survey(&ADDER, &[0, 0, 1, 1, 0, 1, 0, 0], &mut output), Err(11));
    assert_eq!(survey(&ADDER, &[2, 0, 1, 1, 0, 1, 0, 0], &mut output), Err(10));
    assert_eq!(survey(&ADDER, &[2, 0, 1, 1, 0, 1, 0], &mut output), Err(9));
    assert_eq!(survey(&ADDER[..67], &[2, 0, 1, 1, 0, 1, 0], &mut output), Err(3));
    assert_eq!(output, [170; 7]);
}

/// The moves of P3 to P7: configuration, entry, gate, new one, survey.
#[test]
fn moves_of_p3_to_p7() {
    let a = [0, 0, 1, 1, 0, 1, 0, 1];
    let c = [0, 0, 1, 0, 0, 0, 0, 1];
    for (start, entry, gate, after, bytes) in [
        (a, [0, 0, DOWN, 0], 3, [1, 0, 1, 1, 0, 1, 0, 1], [1, 1, 1, 1, 0, 1, 0, 1]),
        (a, [0, 0, DOWN, 3], 3, [0, 1, 1, 1, 0, 1, 0, 1], [1, 1, 1, 1, 0, 1, 0, 1]),
        (a, [0, 0, UP, 0], 3, [0, 0, 1, 0, 0, 1, 0, 1], [4, 4, 4, 4, 0, 7, 0, 1]),
        (c, [0, 0, GREEDY, 0], 7, [0, 0, 1, 0, 1, 0, 0, 1], [4, 4, 0, 0, 7, 0, 0, 1]),
        (c, [0, 0, UP, 1], 7, [0, 0, 1, 0, 0, 1, 0, 1], [4, 4, 4, 4, 0, 7, 0, 1]),
    ] {
        let mut configuration = start;
        let mut work = [170; 9];
        assert_eq!(make_move(&ADDER, &mut configuration, &entry, &mut work), Ok((gate, 1)));
        assert_eq!(configuration, after);
        assert_eq!(work[..8], bytes);
        assert_eq!(work[8], 170);
    }
}

/// F-5: "one example where the greedy option changes." 0, 1, 2 inputs, 3 AND(0,1),
/// 4 NOT(2), 5 NOT(4), 6 NOT(5), 7 OR(3,6), code 7 = 1. Turning gate 3 leaves three
/// interesting gates, and turning gate 6 four, of which three are NOTs.
#[test]
fn not_gates_carry_no_weight() {
    let input = (INPUT, vec![]);
    let nots = [(NOT, vec![2]), (NOT, vec![4]), (NOT, vec![5])];
    let gates = [&[input.clone(), input.clone(), input, (AND, vec![0, 1])][..], &nots, &[(OR, vec![3, 6])]].concat();
    let map = build(&gates, &[(7, 1)]);
    let (start, third, sixth) = ([0, 0, 1, 0, 0, 1, 0, 1], [0, 0, 1, 1, 0, 1, 0, 1], [0, 0, 1, 0, 0, 1, 1, 1]);
    let mut bytes = [170; 8];
    assert_eq!((survey(&map, &third, &mut bytes), marks(&map, &third)), (Ok((1, 3)), 3));
    assert_eq!(bytes, [4, 4, 0, 7, 0, 0, 0, 1]);
    assert_eq!((survey(&map, &sixth, &mut bytes), marks(&map, &sixth)), (Ok((1, 1)), 4));
    assert_eq!(bytes, [0, 0, 4, 0, 4, 4, 7, 1]);
    for option in 0..4 {
        let (entry, mut configuration, mut work) = ([0, 0, GREEDY, option], start, [170; 8]);
        assert_eq!(make_move(&map, &mut configuration, &entry, &mut work), Ok((7, 1)));
        assert_eq!((configuration, work), (sixth, bytes));
        assert_eq!(greedy_by(&map, &start, &entry, |way| marks(&map, way)), third);
        assert!(shows_f5(&map, &start, &entry, &sixth) && !shows_f5(&map, &start, &entry, &third));
    }
}

#[test]
fn declined_moves_leave_both_memories() {
    let a = [0, 0, 1, 1, 0, 1, 0, 1];
    let b = [1, 1, 1, 1, 1, 0, 0, 1];
    let broken = [0, 0, 1, 1, 0, 1, 0, 0];
    let above = [2, 0, 1, 1, 0, 1, 0, 0];
    let go: &[u8] = &[0, 0, DOWN, 0];
    let list: [(&[u8], &[u8], &[u8], usize, u8); 9] = [
        (&ADDER[..11], &a, go, 8, 1),
        (&ADDER[..67], &a, go, 8, 3),
        (&ADDER, &a[..7], go, 8, 9),
        (&ADDER, &above, go, 8, 10),
        (&ADDER, &broken, go, 8, 11),
        (&ADDER, &a, &[0, 0, 3, 0, 0], 8, 12),
        (&ADDER, &a, &[0, 0, 3, 0], 7, 13),
        (&ADDER, &b, go, 7, 14),
        (&ADDER, &b, go, 8, 15),
    ];
    for (map, start, entry, room, number) in list {
        let mut configuration = start.to_vec();
        let mut work = vec![170; room];
        assert_eq!(make_move(map, &mut configuration, entry, &mut work), Err(number));
        assert_eq!(configuration, start);
        assert_eq!(work, vec![170; room]);
    }
}

#[test]
fn children_are_a_stretch_of_the_lent_map() {
    let stretch = children(&ADDER, 7);
    assert_eq!(stretch, [4, 0, 5, 0]);
    assert!(std::ptr::eq(stretch, &ADDER[60..64]));
    assert!(children(&ADDER, 0).is_empty());
    assert!(children(&ADDER, 8).is_empty());
    assert!(children(&ADDER[..67], 7).is_empty());
}

#[test]
fn fixed_lines_are_those_written_by_hand() {
    for named in fixed() {
        assert_eq!(answer(&named.case), named.expected, "{}", named.name);
    }
}

/// "gives n" in a name stands for REFUSED n, and no other line is one.
#[test]
fn fixed_names_say_their_numbers() {
    for named in fixed() {
        let said = named.name.split(" gives ").nth(1).map(|rest| {
            let end = rest.find(',').expect("a comma after the number");
            format!("REFUSED {}", &rest[..end])
        });
        let words: Vec<&str> = named.expected.split(' ').collect();
        let line = if words[0] == "REFUSED" { Some(words[..2].join(" ")) } else { None };
        assert_eq!(line, said, "{}", named.name);
        assert!(!named.name.contains('\n'));
    }
}

#[test]
fn fixed_names_are_unlike_and_the_list_is_small() {
    let list = fixed();
    let names: BTreeSet<&str> = list.iter().map(|named| named.name.as_str()).collect();
    assert_eq!(names.len(), list.len());
    let bytes = file(list.iter().map(|named| &named.case));
    println!("{} fixed cases, {} bytes", list.len(), bytes.len());
    assert!(bytes.len() <= FILE_LIMIT);
    let back = parse(&bytes).unwrap();
    assert_eq!(back.len(), list.len());
    assert!(back.iter().zip(&list).all(|(case, named)| *case == named.case));
}

fn numbers<'a>(lines: impl Iterator<Item = &'a String>) -> BTreeSet<u8> {
    lines
        .filter_map(|line| line.strip_prefix("REFUSED "))
        .map(|rest| rest.split(' ').next().unwrap().parse().unwrap())
        .collect()
}

/// "Number 8 is no longer given." (F-1); the others keep their numbers.
pub(crate) fn without_8(numbers: std::ops::RangeInclusive<u8>) -> BTreeSet<u8> {
    numbers.filter(|number| *number != 8).collect()
}

#[test]
fn fixed_covers_every_number_for_every_op() {
    let list = fixed();
    let of = |op: u8| numbers(list.iter().filter(|n| n.case.op == op).map(|n| &n.expected));
    assert_eq!(of(b'c'), (1..=7).collect());
    assert_eq!(of(b'e'), without_8(1..=10).into_iter().chain([14]).collect());
    assert_eq!(of(b'm'), without_8(1..=10));
    assert_eq!(of(b's'), without_8(1..=11).into_iter().chain([14]).collect());
    assert_eq!(of(b'x'), (1..=7).chain([16]).collect());
    assert_eq!(of(b'v'), without_8(1..=15));
    assert_eq!(of(b'r'), without_8(1..=14));
    assert_eq!(of(b'p'), without_8(0..=13));
}

#[test]
fn random_covers_every_number() {
    let cases = random(1, 1200);
    assert!(cases.len() >= 960, "only {} cases fit", cases.len());
    let lines: Vec<String> = cases.iter().map(answer).collect();
    assert_eq!(numbers(lines.iter()), without_8(0..=16));
    for word in ["OK ", "DONE ", "YES", "NO", "CHILDREN ", "SIZES ", "TEXT ", "MOVED ", "FOUND ", "SPENT ", "STUCK "] {
        let count = lines.iter().filter(|line| line.starts_with(word)).count();
        assert!(count >= 15, "{word}: {count}");
    }
    let declined = lines.iter().filter(|line| line.starts_with("REFUSED")).count();
    assert!(2 * declined < cases.len());
}

/// The surveys among random cases meet every byte and fronts of all sorts.
#[test]
fn random_surveys_are_not_bare() {
    let surveys: Vec<Case> = (0..4)
        .flat_map(|seed| random(seed, 900))
        .filter(|case| case.op == b's')
        .collect();
    let lines: Vec<String> = surveys.iter().map(answer).collect();
    assert_eq!(numbers(lines.iter()), without_8(1..=11).into_iter().chain([14]).collect());
    let (mut none, mut one, mut more) = (0, 0, 0);
    // Fronts of NOT gates alone, and interest sets that are NOT gates for the most part.
    let (mut front_of_nots, mut mostly_nots) = (0, 0);
    let mut with_byte = [0; 8];
    for case in &surveys {
        let mut memory = [170; ROOM_LIMIT];
        if let Ok((front, _)) = survey(&case.map, &case.body, &mut memory) {
            match front {
                0 => none += 1,
                1 => one += 1,
                _ => more += 1,
            }
            let nots = |part: u8| (0..case.body.len()).filter(|gate| case.map[12 + 4 * gate] == NOT && memory[*gate] & part == part).count() as u64;
            front_of_nots += (front > 0 && nots(2) == front) as u32;
            mostly_nots += (2 * nots(4) > marks(&case.map, &case.body)) as u32;
            for (byte, count) in with_byte.iter_mut().enumerate() {
                *count += memory.contains(&(byte as u8)) as u32;
            }
        }
    }
    println!("{} surveys, fronts: {none} none, {one} one, {more} more; bytes {with_byte:?}", surveys.len());
    println!("{front_of_nots} fronts of NOT gates alone, {mostly_nots} interest sets of NOT gates for the most part");
    assert!(none >= 30 && one >= 30 && more >= 30);
    assert!(front_of_nots >= 15 && mostly_nots >= 15);
    for byte in [0, 1, 4, 5, 7] {
        assert!(with_byte[byte] >= 30, "byte {byte}: {}", with_byte[byte]);
    }
    // The front is in the cone and interesting, so no other byte can come.
    assert_eq!((with_byte[2], with_byte[3], with_byte[6]), (0, 0, 0));
}

/// The exports among random cases meet every number, texts with and without
/// surplus, memories one byte short, and every kind.
#[test]
fn random_exports_are_not_bare() {
    let exports: Vec<Case> = (0..6).flat_map(|seed| random(seed, 900)).filter(|case| case.op == b'x').collect();
    let lines: Vec<String> = exports.iter().map(answer).collect();
    assert_eq!(numbers(lines.iter()), (1..=7).chain([16]).collect());
    let (mut exact, mut surplus, mut one_short) = (0, 0, 0);
    let mut kinds = [0; 6];
    for case in &exports {
        if let Ok(text) = text(&case.map) {
            exact += (case.room == text.len()) as u32;
            surplus += (case.room > text.len()) as u32;
            one_short += (case.room + 1 == text.len()) as u32;
            for gate in 0..check(&case.map).unwrap().gates as usize {
                kinds[case.map[12 + 4 * gate] as usize] += (case.room >= text.len()) as u32;
            }
        }
    }
    println!("{} exports: {exact} exact, {surplus} with surplus, {one_short} one short, kinds {kinds:?}", exports.len());
    assert!(exact >= 30 && surplus >= 15 && one_short >= 5);
    assert!(kinds.iter().all(|count| *count >= 30));
}

/// The outcome of a move case with another kind and option.
fn outcome(case: &Case, kind: u8, option: u8) -> Result<(u64, u64, Vec<u8>), u8> {
    let mut configuration = case.body.clone();
    let mut work = vec![170; case.room];
    let mut entry = case.tape.clone();
    if entry.len() == 4 {
        entry[2] = kind;
        entry[3] = option;
    }
    let (gate, turned) = make_move(&case.map, &mut configuration, &entry, &mut work)?;
    Ok((gate, turned, configuration))
}

/// How many configurations a kind can lead to from a move case; an option
/// byte below 8 reaches each.
fn ways(case: &Case, kind: u8) -> usize {
    let list: BTreeSet<Vec<u8>> = (0..8).map(|option| outcome(case, kind, option).unwrap().2).collect();
    list.len()
}

/// What the moves among random cases met.
#[derive(Debug, Default)]
struct Met {
    kinds: [u32; 3],
    several: u32,
    upward: u32,
    coded: u32,
    stuck: u32,
    /// Turned itself for want of options, by an entry that isn't up.
    for_want: u32,
    /// Greedy choices with fewer than all options, with ties, and with both.
    fewer: u32,
    tied: u32,
    both: u32,
    /// Greedy choices that would be others, did NOT gates carry weight (F-5).
    weightless: u32,
    /// Moves that drew a voter at 0 and at 1, and turned nothing, one of its children, two of them, or the voter itself.
    voters: [[u32; 4]; 2],
}

impl Met {
    fn note(&mut self, case: &Case, (kind, option): (u8, u8)) {
        let (gate, turned, after) = match outcome(case, kind, option) {
            Ok(outcome) => outcome,
            Err(_) => return,
        };
        self.kinds[kind as usize] += 1;
        let itself = after[gate as usize] != case.body[gate as usize];
        if case.map[12 + 4 * gate as usize] == VOTER {
            self.voters[case.body[gate as usize] as usize][if itself { 3 } else { turned as usize }] += 1;
        }
        if turned == 0 {
            self.stuck += 1;
            return;
        }
        self.several += (turned > 1) as u32;
        if kind == UP {
            self.upward += itself as u32;
            self.coded += !itself as u32;
        } else {
            self.for_want += itself as u32;
        }
        if kind == GREEDY {
            let (all, best) = (ways(case, DOWN), ways(case, GREEDY));
            self.fewer += (best < all) as u32;
            self.tied += (best > 1) as u32;
            self.both += (1 < best && best < all) as u32;
            self.weightless += shows_f5(&case.map, &case.body, &[case.tape[0], case.tape[1], kind, option], &after) as u32;
        }
    }
}

/// The moves among random cases meet every number, every kind, greedy choices of
/// all sorts, and gates without an option left, coded or not.
#[test]
fn random_moves_are_not_bare() {
    let moves: Vec<Case> = (0..20)
        .flat_map(|seed| random(seed, 800))
        .filter(|case| case.op == b'v')
        .collect();
    let lines: Vec<String> = moves.iter().map(answer).collect();
    assert_eq!(numbers(lines.iter()), without_8(1..=15));
    let mut met = Met::default();
    for case in &moves {
        if let [_, _, kind, option] = case.tape[..] {
            met.note(case, (kind, option));
        }
    }
    println!("{} moves: {met:?}", moves.len());
    assert!(met.kinds.iter().all(|count| *count >= 80));
    assert!(met.several >= 30 && met.upward >= 30 && met.coded >= 30);
    assert!(met.stuck >= 30 && met.for_want >= 30);
    assert!(met.fewer >= 30 && met.tied >= 30 && met.both >= 15 && met.weightless >= 30);
    assert!(met.voters.iter().flatten().all(|count| *count >= 5), "{:?}", met.voters);
}

#[test]
fn random_keeps_to_the_format() {
    for seed in 0..20 {
        let cases = random(seed, 3000);
        let bytes = file(&cases);
        assert!(bytes.len() <= RANDOM_LIMIT && RANDOM_LIMIT <= FILE_LIMIT);
        assert_eq!(parse(&bytes), Ok(cases));
    }
    assert_eq!(random(7, 50), random(7, 50));
    assert_ne!(random(7, 50), random(8, 50));
}

#[test]
fn a_case_that_is_cut_off_ends_the_file() {
    let list = fixed();
    let bytes = file(list[..3].iter().map(|named| &named.case));
    assert_eq!(parse(&bytes[..bytes.len() - 1]).unwrap().len(), 2);
    assert_eq!(parse(&bytes[..6]).unwrap().len(), 0);
    assert_eq!(parse(&[]).unwrap().len(), 0);
}

/// A move's head is four bytes longer than the others', and the tape is last.
#[test]
fn a_move_that_is_cut_off_ends_the_file() {
    let body = vec![0, 0, 1, 1, 0, 1, 0, 1];
    let case = Case { op: b'v', map: ADDER.to_vec(), body, room: 8, tape: vec![1, 2, 3], times: 0, answer: 0 };
    let bytes = case.framed();
    assert_eq!(bytes[..11], [b'v', 68, 0, 8, 0, 8, 0, 3, 0, 0, 0]);
    assert_eq!(bytes[bytes.len() - 4..], [1, 1, 2, 3]);
    assert_eq!(bytes.len(), case.size());
    for length in 0..bytes.len() {
        assert_eq!(parse(&bytes[..length]), Ok(vec![]));
    }
    assert_eq!(parse(&bytes), Ok(vec![case]));
}
