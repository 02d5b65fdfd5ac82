//! Move: the bench examples, each kind of gate, and greedy's choices.

use super::*;

/// The moves of the bench examples, and the same with other option bytes.
pub(super) fn bench(l: &mut List) {
    examples(l);
    options(l);
    one_option(l);
    memories(l);
}

/// Each kind of gate, by itself and at the two values.
pub(super) fn kinds(l: &mut List) {
    not_and_xor(l);
    one_per_child(l);
    all_wrong(l);
    some_right(l);
}

/// Greedy: ties, and what else the size of the interest set counts.
pub(super) fn greedy_choices(l: &mut List) {
    ties_of_six(l);
    other_ties_of_six(l);
    costly(l);
    of_three(l);
    beside_another(l);
    breaking_another(l);
}

/// P3 to P7, P9 and P11.
fn examples(l: &mut List) {
    let adder = adder();
    let a = "00110101";
    let c = "00100001";
    l.moved("A, down 0 (P3)", &adder, a, down(0), (3, 1), "10110101", "11110101");
    l.moved("A, down 3 (P4)", &adder, a, down(3), (3, 1), "01110101", "11110101");
    l.moved("A, up (P5)", &adder, a, up(0), (3, 1), "00100101", "44440701");
    l.moved("C, greedy (P6)", &adder, c, greedy(0), (7, 1), "00101001", "44007001");
    l.moved("C, up, option 1 (P7)", &adder, c, up(1), (7, 1), "00100101", "44440701");
    let p9 = p9();
    l.moved("P9's first down", &p9, "001", down(0), (2, 2), "111", "571");
    l.moved("P9's second down", &p9, "111", down(0), (1, 1), "011", "447");
    let p11 = p11();
    l.moved("P11's up", &p11, "00111", up(0), (3, 1), "00101", "44447");
    l.moved("P11's down 0", &p11, "00101", down(0), (4, 1), "01101", "01001");
}

/// The option byte for each kind.
fn options(l: &mut List) {
    let adder = adder();
    let a = "00110101";
    let c = "00100001";
    // Down: option modulo 2.
    for option in [2, 4, 128, 254] {
        l.moved(&format!("A, down {option}"), &adder, a, down(option), (3, 1), "10110101", "11110101");
    }
    for option in [1, 127, 253, 255] {
        l.moved(&format!("A, down {option}"), &adder, a, down(option), (3, 1), "01110101", "11110101");
    }
    // Up on an uncoded gate: option unread.
    for option in [1, 2, 3, 128, 255] {
        l.moved(&format!("A, up, option {option}"), &adder, a, up(option), (3, 1), "00100101", "44440701");
    }
    // Up on the coded gate is down: option modulo 2.
    for option in [0, 2, 254] {
        l.moved(&format!("C, up, option {option}"), &adder, c, up(option), (7, 1), "00101001", "44007001");
        l.moved(&format!("C, down {option}"), &adder, c, down(option), (7, 1), "00101001", "44007001");
    }
    for option in [3, 255] {
        l.moved(&format!("C, up, option {option}"), &adder, c, up(option), (7, 1), "00100101", "44440701");
        l.moved(&format!("C, down {option}"), &adder, c, down(option), (7, 1), "00100101", "44440701");
    }
    // Greedy with a single best option: every option byte takes it.
    for option in [1, 2, 3, 255] {
        l.moved(&format!("C, greedy, option {option}"), &adder, c, greedy(option), (7, 1), "00101001", "44007001");
    }
    // Greedy with two that tie.
    for option in [0, 2, 254] {
        l.moved(&format!("A, greedy, option {option}"), &adder, a, greedy(option), (3, 1), "10110101", "11110101");
    }
    for option in [1, 3, 255] {
        l.moved(&format!("A, greedy, option {option}"), &adder, a, greedy(option), (3, 1), "01110101", "11110101");
    }
}

/// One option alone, whatever the kind and the option byte.
fn one_option(l: &mut List) {
    let p9 = p9();
    let p11 = p11();
    for (name, entry) in [("greedy 0", greedy(0)), ("greedy 7", greedy(7)), ("greedy 255", greedy(255)), ("down 1", down(1)), ("down 255", down(255))] {
        l.moved(&format!("P9's start, {name}"), &p9, "001", entry, (2, 2), "111", "571");
        l.moved(&format!("P9 after one down, {name}"), &p9, "111", entry, (1, 1), "011", "447");
    }
    l.moved("P9's start, up on the coded gate", &p9, "001", up(0), (2, 2), "111", "571");
    l.moved("P9's start, up on the coded gate, option 255", &p9, "001", up(255), (2, 2), "111", "571");
    l.moved("P9's start with one child right", &p9, "101", down(0), (2, 1), "111", "571");
    l.moved("P9 after one down, up on a NOT", &p9, "111", up(0), (1, 1), "101", "447");
    l.moved("P9 after one down, up on a NOT, option 1", &p9, "111", up(1), (1, 1), "101", "447");
    l.moved("P11's start, down", &p11, "00111", down(0), (3, 1), "10111", "50711");
    l.moved("P11's start, down 200", &p11, "00111", down(200), (3, 1), "10111", "50711");
    l.moved("P11 after up, down 1", &p11, "00101", down(1), (4, 1), "00111", "40471");
    l.moved("P11 after up, up on the coded gate, option 7", &p11, "00101", up(7), (4, 1), "00111", "40471");
}

/// Work memory.
fn memories(l: &mut List) {
    let adder = adder();
    let a = "00110101";
    let c = "00100001";
    let line = |surplus| moved((3, 1), "10110101", "11110101", surplus);
    for surplus in [1, 2, 92, 2040] {
        let name = format!("A, down 0, surplus of {surplus}");
        l.make_move(&name, &adder, &digits(a), &down(0), 8 + surplus, &line(surplus));
    }
    let line = moved((7, 1), "00101001", "44007001", 5);
    l.make_move("C, greedy, surplus of 5", &adder, &digits(c), &greedy(0), 13, &line);
    let line = moved((3, 1), "00100101", "44440701", 8);
    l.make_move("A, up, surplus of 8", &adder, &digits(a), &up(0), 16, &line);
}

/// NOT: its child. XOR: first child or second child.
fn not_and_xor(l: &mut List) {
    for (value, before, after) in [(1, "11", "01"), (0, "00", "10")] {
        let not = shown(1, NOT, value);
        for (name, entry) in [("down 0", down(0)), ("down 255", down(255)), ("up 9", up(9)), ("greedy 3", greedy(3))] {
            l.moved(&format!("coded NOT at {value}, {name}"), &not, before, entry, (1, 1), after, "11");
        }
    }
    // XOR: first child or second child.
    for (value, before, first, second) in [
        (1, "001", "101", "011"),
        (1, "111", "011", "101"),
        (0, "010", "110", "000"),
        (0, "100", "000", "110"),
    ] {
        let xor = shown(2, XOR, value);
        for (name, entry, after) in [
            ("down 0", down(0), first),
            ("down 1", down(1), second),
            ("down 254", down(254), first),
            ("down 255", down(255), second),
            ("up 0", up(0), first),
            ("up 1", up(1), second),
            ("up 2", up(2), first),
            ("up 255", up(255), second),
            ("greedy 2", greedy(2), first),
            ("greedy 3", greedy(3), second),
        ] {
            l.moved(&format!("coded XOR, {before}, {name}"), &xor, before, entry, (2, 1), after, "111");
        }
    }
}

/// AND at 0 and OR at 1 of every fan-in: one option per child.
fn one_per_child(l: &mut List) {
    for (n, at_255, at_100) in [(2, 1, 0), (3, 0, 1), (4, 3, 0), (5, 0, 0), (6, 3, 4), (7, 3, 2), (8, 7, 4)] {
        for (name, kind, value, child, turned) in [("AND", AND, 0, "1", "0"), ("OR", OR, 1, "0", "1")] {
            let gate = shown(n as u16, kind, value);
            let before = format!("{}{value}", child.repeat(n));
            for (option, place) in [(255, at_255), (100, at_100), (n as u8 - 1, n - 1), (n as u8, 0)] {
                let after = format!("{}{turned}{}{value}", child.repeat(place), child.repeat(n - 1 - place));
                let bytes = format!("{}1{}1", "0".repeat(place), "0".repeat(n - 1 - place));
                l.moved(&format!("{name} of {n} at {value}, down {option}"), &gate, &before, down(option), (n, 1), &after, &bytes);
                if n % 3 == 2 {
                    l.moved(&format!("{name} of {n} at {value}, up {option}"), &gate, &before, up(option), (n, 1), &after, &bytes);
                    l.moved(&format!("{name} of {n} at {value}, greedy {option}"), &gate, &before, greedy(option), (n, 1), &after, &bytes);
                }
            }
        }
    }
}

/// AND at 1 and OR at 0 of every fan-in, all children wrong.
fn all_wrong(l: &mut List) {
    for n in 2..=8 {
        for (name, kind, value, child) in [("AND", AND, 1, "0"), ("OR", OR, 0, "1")] {
            let gate = shown(n as u16, kind, value);
            let before = format!("{}{value}", child.repeat(n));
            let after = value.to_string().repeat(n + 1);
            let bytes = "1".repeat(n + 1);
            for (kind, entry) in [("down 0", down(0)), ("down 255", down(255)), ("up 5", up(5)), ("greedy 1", greedy(1))] {
                l.moved(&format!("{name} of {n} at {value}, all children wrong, {kind}"), &gate, &before, entry, (n, n), &after, &bytes);
            }
        }
    }
}

/// AND at 1 and OR at 0, some children right.
fn some_right(l: &mut List) {
    for (kind, name, before, turned) in [
        (AND, "AND", "01011101 1", 3),
        (AND, "AND", "01111111 1", 1),
        (AND, "AND", "11111110 1", 1),
        (AND, "AND", "10000000 1", 7),
        (AND, "AND", "00001111 1", 4),
        (OR, "OR", "01011101 0", 5),
        (OR, "OR", "10000000 0", 1),
        (OR, "OR", "00000001 0", 1),
        (OR, "OR", "11111110 0", 7),
        (OR, "OR", "10101010 0", 4),
    ] {
        let value = digits(before)[8];
        let after = value.to_string().repeat(9);
        let gate = shown(8, kind, value);
        for (way, entry) in [("down 2", down(2)), ("up 1", up(1)), ("greedy 255", greedy(255))] {
            l.moved(&format!("{name} of 8, {before}, {way}"), &gate, before, entry, (8, turned), &after, "111111111");
        }
    }
}

/// What it leaves to turn each child of the OR of `six`, gates 2 to 7: configuration and survey.
const SIX_TURNED: [(&str, &str); 6] = [
    ("001000001", "447000001"),
    ("000100001", "000100001"),
    ("000010001", "440070001"),
    ("000001001", "000001001"),
    ("000000101", "010000101"),
    ("000000011", "000000011"),
];

/// 8 OR(2,3,4,5,6,7) at 1. Of its six options those of gates 3, 5, 6 and 7
/// leave no front, those of gates 2 and 4 an interest set of 3.
fn ties_of_six(l: &mut List) {
    let six = six();
    let start = "000000001";
    for (option, gate) in [(0, 3), (1, 5), (2, 6), (3, 7), (4, 3), (5, 5), (6, 6), (7, 7), (9, 5), (254, 6), (255, 7)] {
        let (after, bytes) = SIX_TURNED[gate - 2];
        l.moved(&format!("four ties of six options, greedy {option}"), &six, start, greedy(option), (8, 1), after, bytes);
    }
    for (option, gate) in [(0, 2), (1, 3), (2, 4), (3, 5), (4, 6), (5, 7), (6, 2), (8, 4), (254, 4), (255, 5)] {
        let (after, bytes) = SIX_TURNED[gate - 2];
        l.moved(&format!("six options, down {option}"), &six, start, down(option), (8, 1), after, bytes);
        l.moved(&format!("six options, up on the coded gate, option {option}"), &six, start, up(option), (8, 1), after, bytes);
    }
}

/// With gate 1 at 1 the options of gates 3, 4, 5 and 7 tie.
fn other_ties_of_six(l: &mut List) {
    let six = six();
    for (option, after, bytes) in [
        (0, "010100001", "000100001"),
        (1, "010010001", "110010001"),
        (2, "010001001", "000001001"),
        (7, "010000011", "000000011"),
        (252, "010100001", "000100001"),
    ] {
        l.moved(&format!("four other ties of six options, greedy {option}"), &six, "010000001", greedy(option), (8, 1), after, bytes);
    }
}

/// Every option leaves a front, with interest sets of size 4, 1, 3 and 1.
fn costly(l: &mut List) {
    let costly = map(
        &[
            (INPUT, &[]),
            (INPUT, &[]),
            (INPUT, &[]),
            (AND, &[0, 1, 2]),
            (NOT, &[0]),
            (XOR, &[0, 1]),
            (NOT, &[1]),
            (OR, &[3, 4, 5, 6]),
        ],
        &[(7, 1)],
    );
    for option in [0, 2, 128, 254] {
        l.moved(&format!("two ties at 1, greedy {option}"), &costly, "11000001", greedy(option), (7, 1), "11001001", "40007001");
    }
    for option in [1, 3, 5, 255] {
        l.moved(&format!("two ties at 1, greedy {option}"), &costly, "11000001", greedy(option), (7, 1), "11000011", "04000071");
    }
    l.moved("options of 4, 1, 3 and 1, down 0", &costly, "11000001", down(0), (7, 1), "11010001", "44470001");
    l.moved("options of 4, 1, 3 and 1, down 254", &costly, "11000001", down(254), (7, 1), "11000101", "44000701");
}

/// AND at 0 of gates 2, 3 and 4.
fn of_three(l: &mut List) {
    let three = map(
        &[(INPUT, &[]), (INPUT, &[]), (OR, &[0, 1]), (INPUT, &[]), (NOT, &[0]), (AND, &[2, 3, 4])],
        &[(5, 0)],
    );
    for option in [0, 2, 4] {
        l.moved(&format!("AND at 0, two ties of three, greedy {option}"), &three, "101110", greedy(option), (5, 1), "101010", "000101");
    }
    for option in [1, 3, 5, 255] {
        l.moved(&format!("AND at 0, two ties of three, greedy {option}"), &three, "101110", greedy(option), (5, 1), "101100", "100011");
    }
    for option in [0, 1, 2, 255] {
        l.moved(&format!("AND at 0, the second option alone, greedy {option}"), &three, "011110", greedy(option), (5, 1), "011010", "000101");
    }
}

/// The other front gate's interest counts too: gate 5 gives 5, gate 6 gives
/// 7, although gate 6 by itself would have 3 and gate 5 would have 4.
fn beside_another(l: &mut List) {
    let beside = map(
        &[
            (INPUT, &[]),
            (INPUT, &[]),
            (INPUT, &[]),
            (INPUT, &[]),
            (INPUT, &[]),
            (AND, &[0, 1, 2]),
            (AND, &[3, 4]),
            (OR, &[5, 6]),
            (OR, &[0, 1, 2]),
        ],
        &[(7, 1), (8, 1)],
    );
    for option in [0, 1, 255] {
        let name = format!("interest shared with another front gate, greedy {option}");
        l.moved(&name, &beside, "000000011", greedy(option), (7, 1), "000001011", "444007017");
    }
    l.moved("the other front gate, greedy 0", &beside, "000000011", drawn(1, greedy(0)), (8, 1), "100000011", "544444471");
    l.moved("the other front gate, greedy 1", &beside, "000000011", drawn(1, greedy(1)), (8, 1), "010000011", "454444471");
}

/// An option that makes another coded gate wrong, and a XOR with options of 3 and 0.
fn breaking_another(l: &mut List) {
    let pair = map(
        &[(INPUT, &[]), (INPUT, &[]), (INPUT, &[]), (AND, &[0, 1]), (OR, &[1, 2])],
        &[(3, 0), (4, 1)],
    );
    for option in [0, 1, 4, 255] {
        l.moved(&format!("an option that breaks another gate is left, greedy {option}"), &pair, "10001", greedy(option), (4, 1), "10101", "01111");
    }
    l.moved("an option that breaks another gate, down 0", &pair, "10001", down(0), (4, 1), "11001", "45071");
    l.moved("an option that breaks another gate, down 1", &pair, "10001", down(1), (4, 1), "10101", "01111");

    // XOR with options of 3 and 0.
    let zero = map(&ADDER, &[(7, 0)]);
    for option in [0, 1, 2, 255] {
        l.moved(&format!("XOR at 0, the second option alone, greedy {option}"), &zero, "01100000", greedy(option), (3, 1), "00100000", "11011101");
    }
}
