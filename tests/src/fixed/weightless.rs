//! NOT gates carry no weight (F-5): they get the mark 4 and are left out of the interest set's size, which greedy compares.

use super::*;

pub(super) fn weightless(l: &mut List) {
    example(l);
    example_run(l);
    longer_limb(l);
    new_ties(l);
    old_ties(l);
    smallest_tie(l);
    some_left(l);
    pairs_of_limbs(l);
    a_right_child(l);
    nots_of_one_input(l);
    chains(l);
    nots_in_the_front(l);
    nots_below(l);
    without_nots(l);
}

/// 0, 1, 2 inputs, 3 AND(0,1), 4 NOT(2), 5 NOT(4), 6 NOT(5), 7 OR(3,6), code 7 = 1.
fn and_or_nots() -> Vec<u8> {
    map(
        &[
            (INPUT, &[]),
            (INPUT, &[]),
            (INPUT, &[]),
            (AND, &[0, 1]),
            (NOT, &[2]),
            (NOT, &[4]),
            (NOT, &[5]),
            (OR, &[3, 6]),
        ],
        &[(7, 1)],
    )
}

/// Gate 3 leaves gates 3, 0 and 1 to interest, gate 6 the gates 6, 5, 4 and 2: sizes 3 and 1, which were 3 and 4.
fn example(l: &mut List) {
    let (map, start) = (and_or_nots(), "00100101");
    l.surveyed("AND or three NOTs, the OR in the front", &map, start, 1, 5, "44444447");
    l.surveyed("AND or three NOTs, the AND turned", &map, "00110101", 1, 3, "44070001");
    l.surveyed("AND or three NOTs, the last NOT turned", &map, "00100111", 1, 1, "00404471");
    for option in [0, 1, 2, 3, 254, 255] {
        l.moved(&format!("AND or three NOTs, greedy {option}"), &map, start, greedy(option), (7, 1), "00100111", "00404471");
    }
    for (way, entry) in [("down 0", down(0)), ("down 254", down(254)), ("up 0", up(0))] {
        l.moved(&format!("AND or three NOTs, {way}"), &map, start, entry, (7, 1), "00110101", "44070001");
    }
    for (way, entry) in [("down 1", down(1)), ("up 255", up(255))] {
        l.moved(&format!("AND or three NOTs, {way}"), &map, start, entry, (7, 1), "00100111", "00404471");
    }
}

/// From gate 6 down to the input, one NOT after the other.
fn example_run(l: &mut List) {
    let (map, start) = (and_or_nots(), "00100101");
    for (count, after, bytes) in [(1, "00100111", "00404471"), (2, "00100011", "00404711"), (3, "00101011", "00407111")] {
        l.both_spent(&format!("AND or three NOTs, {count} greedy"), &map, start, (&[greedy(0)], count), (count, count, 1), [after, bytes]);
    }
    for count in [4, 5] {
        let after = ["00001011", "00101111", "00001011", "000"];
        l.both_found(&format!("AND or three NOTs, {count} greedy"), &map, start, (&[greedy(2)], count), (4, 4), after);
    }
    let after = ["11110101", "11010001", "11011011", "110"];
    l.both_found("AND or three NOTs, down and greedy", &map, start, (&[down(0), greedy(0)], 1), (2, 3), after);
}

/// 258 NOTs in the place of three, over an input at 0: sizes 3 and 1 too, which were 3 and 259.
fn longer_limb(l: &mut List) {
    let mut gates = vec![(INPUT, vec![]), (INPUT, vec![]), (INPUT, vec![]), (AND, vec![0, 1]), (NOT, vec![2])];
    gates.extend((5..262).map(|gate| (NOT, vec![gate - 1])));
    gates.push((OR, vec![3, 261]));
    let map = build(&gates, &[(262, 1)]);
    let (start, after) = (format!("0000{}1", "10".repeat(129)), format!("0000{}111", "10".repeat(128)));
    let bytes = format!("0040{}71", "4".repeat(257));
    l.moved("AND or 258 NOTs, greedy 0", &map, &start, greedy(0), (262, 1), &after, &bytes);
}

/// Gate 6 is in the front too. Gate 3 leaves 3, 0, 1 and 6, gate 4 leaves 4, 2, 0, 1 and 6: sizes 4 and 4, which were 4 and 5.
fn new_ties(l: &mut List) {
    let map = map(
        &[
            (INPUT, &[]),
            (INPUT, &[]),
            (INPUT, &[]),
            (AND, &[0, 1]),
            (NOT, &[2]),
            (OR, &[3, 4]),
            (XOR, &[0, 1]),
        ],
        &[(5, 1), (6, 1)],
    );
    l.surveyed("AND or NOT beside a XOR, the AND turned", &map, "0011011", 2, 4, "4407017");
    l.surveyed("AND or NOT beside a XOR, the NOT turned", &map, "0010111", 2, 4, "4440717");
    for option in [0, 2, 254] {
        l.moved(&format!("AND or NOT beside a XOR, greedy {option}"), &map, "0010011", greedy(option), (5, 1), "0011011", "4407017");
    }
    for option in [1, 3, 255] {
        l.moved(&format!("AND or NOT beside a XOR, greedy {option}"), &map, "0010011", greedy(option), (5, 1), "0010111", "4440717");
    }
}

/// Gate 3 leaves 3, 0 and 1, gate 5 leaves 5, 4 and 2: sizes 3 and 1, which were 3 and 3.
fn old_ties(l: &mut List) {
    let map = map(
        &[
            (INPUT, &[]),
            (INPUT, &[]),
            (INPUT, &[]),
            (AND, &[0, 1]),
            (NOT, &[2]),
            (NOT, &[4]),
            (OR, &[3, 5]),
        ],
        &[(6, 1)],
    );
    for option in [0, 1, 2, 255] {
        l.moved(&format!("AND or two NOTs, greedy {option}"), &map, "0000101", greedy(option), (6, 1), "0000111", "0040471");
    }
    l.moved("AND or two NOTs, down 0", &map, "0000101", down(0), (6, 1), "0001101", "4407001");
}

/// 3 XOR(0,2) is the wrong one. Gate 0 leaves 1 and 0, gate 2 leaves 2, 1 and 0: sizes 1 and 1, which were 2 and 3.
fn smallest_tie(l: &mut List) {
    let map = map(&[(INPUT, &[]), (NOT, &[0]), (NOT, &[1]), (XOR, &[0, 2])], &[(3, 1)]);
    for (option, after, bytes) in [(0, "1101", "5711"), (1, "0111", "5471"), (2, "1101", "5711"), (255, "0111", "5471")] {
        l.moved(&format!("XOR of an input and its NOT's NOT, greedy {option}"), &map, "0101", greedy(option), (3, 1), after, bytes);
    }
}

/// 0, 1, 2 inputs, 3 AND(0,1), 4 NOT(2), 5 NOT(4), 6 NOT(5), 7 XOR(1,2), 8 NOT(7), 9 OR(3,6,8): its options are of sizes 3, 1 and 3, which were 3, 4 and 4.
fn three_limbs(codes: &[(u16, u8)]) -> Vec<u8> {
    let gates: [(u8, &[u16]); 10] = [
        (INPUT, &[]),
        (INPUT, &[]),
        (INPUT, &[]),
        (AND, &[0, 1]),
        (NOT, &[2]),
        (NOT, &[4]),
        (NOT, &[5]),
        (XOR, &[1, 2]),
        (NOT, &[7]),
        (OR, &[3, 6, 8]),
    ];
    map(&gates, &[codes, &[(9, 1)]].concat())
}

/// F-1's options left, compared by the new size.
fn some_left(l: &mut List) {
    let start = "0010010101";
    let (first, second, third) = ("0011010101", "0010011101", "0010010111");
    for option in [0, 1, 2] {
        let name = |left: &str| format!("options of 3, 1 and 3, {left} left, greedy {option}");
        l.moved(&name("all"), &three_limbs(&[]), start, greedy(option), (9, 1), second, "0040447001");
        // Sizes 3 and 3: a tie, which was none.
        let (after, bytes) = if option == 1 { (third, "0450111471") } else { (first, "4417111001") };
        l.moved(&name("the first and the third"), &three_limbs(&[(6, 0)]), start, greedy(option), (9, 1), after, bytes);
        // Sizes 1 and 3: no tie, which was one.
        l.moved(&name("the second and the third"), &three_limbs(&[(3, 0)]), start, greedy(option), (9, 1), second, "1141447001");
        l.moved(&name("the third alone"), &three_limbs(&[(3, 0), (6, 0)]), start, greedy(option), (9, 1), third, "1551111471");
    }
    let none = three_limbs(&[(3, 0), (6, 0), (8, 0)]);
    l.surveyed("options of 3, 1 and 3, none left", &none, start, 1, 6, "5555555557");
    l.unturned("options of 3, 1 and 3, none left, greedy 1", &none, start, greedy(1), 9, "5555555557");
    // Gate 8, gate 7, and of its inputs the one that leaves the coded gate 6 right.
    let after = ["0110010011", "0110111111", "0110010011", "011"];
    let tape = [greedy(1), greedy(0), greedy(1)];
    l.both_found("options of 3, 1 and 3, the first and the third left, three greedy", &three_limbs(&[(6, 0)]), start, (&tape, 1), (3, 3), after);
}

/// 0 to 3 inputs, 4 AND(0,1), 5 NOT(2), 6 NOT(5), 7 NOT(6), 8 NOT(3), 9 NOT(8), 10 VOTER(4,7,9), code 10 = 1.
fn voter_of_limbs() -> Vec<u8> {
    map(
        &[
            (INPUT, &[]),
            (INPUT, &[]),
            (INPUT, &[]),
            (INPUT, &[]),
            (AND, &[0, 1]),
            (NOT, &[2]),
            (NOT, &[5]),
            (NOT, &[6]),
            (NOT, &[3]),
            (NOT, &[8]),
            (VOTER, &[4, 7, 9]),
        ],
        &[(10, 1)],
    )
}

/// F-3's pairs. From all three children wrong they leave sizes 4, 4 and 2, which were 7, 6 and 7.
fn pairs_of_limbs(l: &mut List) {
    let (map, start) = (voter_of_limbs(), "00100010101");
    l.surveyed("voter of an AND and two rows of NOTs, the second pair turned", &map, "00101010111", 2, 4, "44047000471");
    l.surveyed("voter of an AND and two rows of NOTs, the third pair turned", &map, "00100011111", 2, 2, "00440447471");
    for option in [0, 1, 2, 255] {
        let name = format!("voter of an AND and two rows of NOTs, greedy {option}");
        l.moved(&name, &map, start, greedy(option), (10, 2), "00100011111", "00440447471");
    }
    l.moved("voter of an AND and two rows of NOTs, down 1", &map, start, down(1), (10, 2), "00101010111", "44047000471");
}

/// With the AND right the pairs leave sizes 1, 1 and 2, which were 4, 3 and 7.
fn a_right_child(l: &mut List) {
    let (map, start) = (voter_of_limbs(), "11101010101");
    for (option, after, bytes) in [
        (0, "11101011101", "11401447001"),
        (1, "11101010111", "11041000471"),
        (254, "11101011101", "11401447001"),
        (255, "11101010111", "11041000471"),
    ] {
        l.moved(&format!("voter of an AND that is right and two rows of NOTs, greedy {option}"), &map, start, greedy(option), (10, 1), after, bytes);
    }
}

/// 0, 1 inputs, 2 NOT(0), 3 NOT(0), 4 VOTER(1,2,3), its first child right. Each pair leaves gate 0 and one NOT or both: sizes 1, 1 and 1, which were 2, 2 and
/// 3, with fronts of 1, 1 and 2.
fn nots_of_one_input(l: &mut List) {
    let map = map(&[(INPUT, &[]), (INPUT, &[]), (NOT, &[0]), (NOT, &[0]), (VOTER, &[1, 2, 3])], &[(4, 1)]);
    l.surveyed("voter of two NOTs of one input, both turned", &map, "11111", 2, 1, "41771");
    for (option, turned, after, bytes) in [(0, 1, "11101", "41701"), (1, 1, "11011", "41071"), (2, 2, "11111", "41771"), (254, 2, "11111", "41771")] {
        l.moved(&format!("voter of two NOTs of one input, greedy {option}"), &map, "11001", greedy(option), (4, turned), after, bytes);
    }
}

/// Of NOTs alone, and of NOTs and other gates by turn.
fn chains(l: &mut List) {
    for (name, configuration, bytes) in [("the lower NOT", "001", "471"), ("the upper NOT", "011", "447")] {
        l.surveyed(&format!("chain of 3 gates, {name} in the front"), &chain(3), configuration, 1, 1, bytes);
    }
    l.surveyed("chain of 3 gates, no front", &chain(3), "101", 0, 0, "111");
    l.surveyed("chain of 5 gates, the coded gate in the front", &chain(5), "01011", 1, 1, "44447");
    let turned = format!("{}11", "01".repeat(511));
    let bytes = format!("{}7", "4".repeat(1023));
    l.surveyed("chain of 1,024 gates, the coded gate in the front", &chain(1024), &turned, 1, 1, &bytes);

    let gates = [(INPUT, &[][..]), (NOT, &[0]), (AND, &[0, 1]), (NOT, &[2]), (OR, &[2, 3]), (NOT, &[4]), (XOR, &[0, 5])];
    let map = map(&gates, &[(6, 1)]);
    l.surveyed("NOTs and other gates by turn, the XOR in the front", &map, "0101101", 1, 4, "4444447");
    l.surveyed("NOTs and other gates by turn, the last NOT in the front", &map, "0101111", 1, 3, "5444471");
    l.surveyed("NOTs and other gates by turn, the AND in the front", &map, "1101101", 1, 2, "5471111");
}

/// The front's size counts NOTs like others. Below a NOT there is an input, so that both sizes are 0 or none is.
fn nots_in_the_front(l: &mut List) {
    l.surveyed("three NOTs of three inputs, all in the front", &three_nots(), "111111", 3, 3, "444777");
    let twice = map(&[(INPUT, &[]), (NOT, &[0]), (NOT, &[0])], &[(1, 1), (2, 0)]);
    l.surveyed("two NOTs of one input, the second in the front", &twice, "010", 1, 1, "517");
    let over_and = map(&[(INPUT, &[]), (INPUT, &[]), (AND, &[0, 1]), (NOT, &[2])], &[(2, 1), (3, 1)]);
    l.surveyed("a NOT over a coded AND, both in the front", &over_and, "0011", 2, 3, "4477");
    l.surveyed("a NOT over a coded AND, the NOT in the front", &over_and, "1111", 1, 3, "5557");
    let over_not = map(&[(INPUT, &[]), (NOT, &[0]), (NOT, &[1])], &[(1, 0), (2, 0)]);
    l.surveyed("a NOT over a coded NOT, in the front", &over_not, "100", 1, 1, "557");
}

/// A XOR and a voter over NOTs.
fn nots_below(l: &mut List) {
    let xor = map(&[(INPUT, &[]), (INPUT, &[]), (NOT, &[0]), (NOT, &[1]), (XOR, &[2, 3])], &[(4, 1)]);
    l.surveyed("XOR of two NOTs, in the front", &xor, "00111", 1, 3, "44447");
    let gates = [(INPUT, &[][..]), (INPUT, &[]), (INPUT, &[]), (NOT, &[0]), (NOT, &[1]), (NOT, &[2]), (VOTER, &[3, 4, 5])];
    let voter = map(&gates, &[(6, 1)]);
    l.surveyed("voter of three NOTs, in the front", &voter, "1110001", 1, 4, "4444447");
    l.surveyed("voter of three NOTs, two of them in the front", &voter, "1110111", 2, 2, "0440771");
    l.moved("voter of three NOTs, greedy 2", &voter, "1110001", greedy(2), (6, 2), "1110111", "0440771");
}

/// The example with a XOR in each NOT's place: every gate carries weight, and the sizes are 3 and 5.
fn without_nots(l: &mut List) {
    let map = map(
        &[
            (INPUT, &[]),
            (INPUT, &[]),
            (INPUT, &[]),
            (AND, &[0, 1]),
            (XOR, &[0, 2]),
            (XOR, &[0, 4]),
            (XOR, &[0, 5]),
            (OR, &[3, 6]),
        ],
        &[(7, 1)],
    );
    l.surveyed("AND or three XORs, the OR in the front", &map, "00000001", 1, 8, "44444447");
    l.surveyed("AND or three XORs, the last XOR turned", &map, "00000011", 1, 5, "40404471");
    for option in [0, 1] {
        l.moved(&format!("AND or three XORs, greedy {option}"), &map, "00000001", greedy(option), (7, 1), "00010001", "44070001");
    }
}
