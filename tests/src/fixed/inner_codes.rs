//! Survey and Move where a coded gate is a child (F-1): which options are left,
//! what is turned where none is, and moves that are Stuck.

use super::*;

pub(super) fn inner_codes(l: &mut List) {
    surveys(l);
    accepted(l);
    smallest(l);
    coded_gates_stuck(l);
    uncoded_gates_turned(l);
    right_children_coded(l);
    first_left(l);
    some_left(l);
    one_left(l);
    ties_left(l);
    single_best_left(l);
    costly_left(l);
    inputs_of_the_adder(l);
    draw_decides(l);
    refused(l);
}

/// Entries of every kind, with option bytes that matter nowhere if none is left.
fn every_kind() -> Vec<(String, [u8; 4])> {
    let mut list = Vec::new();
    for option in [0, 255] {
        list.push((format!("greedy {option}"), greedy(option)));
        list.push((format!("down {option}"), down(option)));
        list.push((format!("up {option}"), up(option)));
    }
    list
}

/// A coded gate is in the cone, whether a parent needs it or not.
fn surveys(l: &mut List) {
    l.surveyed("the smallest map that is Stuck", &smallest_stuck(), "00", 1, 1, "57");
    let kept = map(&[(INPUT, &[]), (NOT, &[0])], &[(0, 1), (1, 0)]);
    l.surveyed("a NOT and its input, both coded and both right", &kept, "10", 0, 0, "11");
    l.surveyed("adder, A with its code on a child", &map(&ADDER, &[(5, 1)]), A, 1, 3, "44170100");
    l.surveyed("adder, B with a child coded that no gate needs", &map(&ADDER, &[(3, 1), (7, 1)]), B, 1, 3, "55071001");
    l.surveyed("adder, C with a justified child coded", &map(&ADDER, &[(3, 0), (7, 1)]), C, 1, 7, "55454407");
    l.surveyed("adder, A with two inputs coded", &map(&ADDER, &[(0, 0), (1, 0), (7, 1)]), A, 1, 3, "55170101");
    let or = map(&[(INPUT, &[]), (INPUT, &[]), (OR, &[0, 1])], &[(0, 0), (2, 1)]);
    l.surveyed("a coded child at 0 of an OR at 1", &or, "011", 0, 0, "111");
    let nots = [(INPUT, &[][..]), (NOT, &[0]), (NOT, &[1]), (NOT, &[2])];
    let every = |values: [u8; 4]| map(&nots, &[(0, values[0]), (1, values[1]), (2, values[2]), (3, values[3])]);
    l.surveyed("a chain with every gate coded, all right", &every([0, 1, 0, 1]), "0101", 0, 0, "1111");
    l.surveyed("a chain with every gate coded, every NOT wrong", &every([0, 0, 0, 0]), "0000", 3, 1, "5777");
    l.surveyed("a chain with every gate coded, the middle NOT wrong", &every([0, 1, 1, 0]), "0110", 1, 1, "5571");
}

/// What number 8 would have refused.
fn accepted(l: &mut List) {
    let (five, three) = (map(&ADDER, &[(5, 1)]), map(&ADDER, &[(3, 1), (7, 1)]));
    l.moved("A with its code on a child, down 0", &five, A, down(0), (3, 1), "10110101", "11110100");
    l.moved("A with its code on a child, up", &five, A, up(3), (3, 1), "00100101", "44440700");
    l.moved("A with the XOR coded, down 1", &three, A, down(1), (3, 1), "01110101", "11110101");
    // Up on the coded XOR is down.
    l.moved("A with the XOR coded, up 0", &three, A, up(0), (3, 1), "10110101", "11110101");
    l.moved("A with the XOR coded, up 255", &three, A, up(255), (3, 1), "01110101", "11110101");
}

/// 0 input, 1 NOT(0), both coded with the same value: any entry is undone.
fn smallest(l: &mut List) {
    let ones = map(&[(INPUT, &[]), (NOT, &[0])], &[(0, 1), (1, 1)]);
    for (name, entry) in every_kind() {
        l.unturned(&format!("the smallest map that is Stuck, {name}"), &smallest_stuck(), "00", entry, 1, "57");
        l.unturned(&format!("NOT and input coded 1, {name}"), &ones, "11", entry, 1, "57");
    }
    l.unturned("the smallest map that is Stuck, draw 65,535", &smallest_stuck(), "00", drawn(65_535, down(1)), 1, "57");
    for surplus in [1, 2046] {
        let line = moved((1, 0), "00", "57", surplus);
        let name = format!("the smallest map that is Stuck, surplus of {surplus}");
        l.make_move(&name, &smallest_stuck(), &digits("00"), &down(0), 2 + surplus, &line);
    }
}

/// The gate is coded, and each of its options turns a coded child.
fn coded_gates_stuck(l: &mut List) {
    let list: [(&str, u8, &[(u16, u8)], &str, &str); 15] = [
        ("AND at 1, its wrong child coded", AND, &[(0, 0), (2, 1)], "011", "547"),
        ("AND at 1, the first of two wrong children coded", AND, &[(0, 0), (2, 1)], "001", "547"),
        ("AND at 1, the second of two wrong children coded", AND, &[(1, 0), (2, 1)], "001", "457"),
        ("AND at 1, both wrong children coded", AND, &[(0, 0), (1, 0), (2, 1)], "001", "557"),
        ("AND at 1, the right child coded too", AND, &[(0, 1), (1, 0), (2, 1)], "101", "557"),
        ("AND at 0, both children coded", AND, &[(0, 1), (1, 1), (2, 0)], "110", "557"),
        ("OR at 0, its wrong child coded", OR, &[(1, 1), (2, 0)], "010", "457"),
        ("OR at 0, the first of two wrong children coded", OR, &[(0, 1), (2, 0)], "110", "547"),
        ("OR at 1, both children coded", OR, &[(0, 0), (1, 0), (2, 1)], "001", "557"),
        ("XOR at 1, both children coded 0", XOR, &[(0, 0), (1, 0), (2, 1)], "001", "557"),
        ("XOR at 1, both children coded 1", XOR, &[(0, 1), (1, 1), (2, 1)], "111", "557"),
        ("XOR at 0, both children coded", XOR, &[(0, 0), (1, 1), (2, 0)], "010", "557"),
        ("AND of 3 at 1, one wrong child coded", AND, &[(0, 0), (1, 1), (3, 1)], "0101", "5547"),
        ("AND of 8 at 1, the last wrong child coded", AND, &[(7, 0), (8, 1)], "00000000 1", "44444445 7"),
        ("OR of 8 at 0, one wrong child of three coded", OR, &[(4, 1), (8, 0)], "01001010 0", "44445444 7"),
    ];
    for (name, kind, codes, before, bytes) in list {
        let n = digits(before).len() - 1;
        let map = alone(kind, n as u16, codes);
        for (way, entry) in [("greedy", greedy(9)), ("down", drawn(7, down(1))), ("up", up(2))] {
            l.unturned(&format!("coded {name}, {way}"), &map, before, entry, n, bytes);
        }
    }
    let codes: Vec<(u16, u8)> = (0..9).map(|gate| (gate, (gate == 8) as u8)).collect();
    for option in [0, 8] {
        let name = format!("coded OR of 8 at 1, all children coded, down {option}");
        l.unturned(&name, &alone(OR, 8, &codes), "00000000 1", down(option), 8, "55555555 7");
    }
}

/// The same on uncoded gates, which a coded NOT holds in the cone: the gate
/// itself is turned, whatever the kind, and then the NOT is wrong.
fn uncoded_gates_turned(l: &mut List) {
    let list: [(&str, u8, &[(u16, u8)], [&str; 3]); 11] = [
        ("NOT at 0, its child coded", NOT, &[(0, 0), (2, 1)], ["001", "011", "547"]),
        ("NOT at 1, its child coded", NOT, &[(0, 1), (2, 0)], ["110", "100", "547"]),
        ("AND at 1, its wrong child coded", AND, &[(0, 0), (3, 0)], ["0110", "0100", "5447"]),
        ("AND at 1, the first of two wrong children coded", AND, &[(0, 0), (3, 0)], ["0010", "0000", "5447"]),
        ("AND at 1, the second of two wrong children coded", AND, &[(1, 0), (3, 0)], ["0010", "0000", "4547"]),
        ("AND at 0, both children coded", AND, &[(0, 1), (1, 1), (3, 1)], ["1101", "1111", "5547"]),
        ("OR at 0, its wrong child coded", OR, &[(0, 1), (3, 1)], ["1001", "1011", "5447"]),
        ("OR at 0, the second of two wrong children coded", OR, &[(1, 1), (3, 1)], ["1101", "1111", "4547"]),
        ("OR at 1, both children coded", OR, &[(0, 0), (1, 0), (3, 0)], ["0010", "0000", "5547"]),
        ("XOR at 1, both children coded", XOR, &[(0, 0), (1, 0), (3, 0)], ["0010", "0000", "5547"]),
        ("XOR at 0, both children coded", XOR, &[(0, 1), (1, 0), (3, 1)], ["1001", "1011", "5547"]),
    ];
    for (name, kind, codes, [before, after, bytes]) in list {
        let n = digits(before).len() - 2;
        let map = below_a_not(kind, n as u16, codes);
        for (way, entry) in [("greedy 1", greedy(1)), ("down 1", down(1)), ("up 3", up(3))] {
            l.moved(&format!("uncoded {name}, {way}"), &map, before, entry, (n, 1), after, bytes);
        }
    }
}

/// "A gate belongs to an option only if the option turns it.": a coded child
/// that is right takes no option away.
fn right_children_coded(l: &mut List) {
    let list: [(&str, u8, &[(u16, u8)], [&str; 3], usize); 5] = [
        ("AND at 1, its right child coded", AND, &[(0, 1), (2, 1)], ["101", "111", "111"], 1),
        ("OR at 0, its right child coded", OR, &[(1, 0), (2, 0)], ["100", "000", "111"], 1),
        ("AND of 3 at 1, one right child coded, two wrong", AND, &[(1, 1), (3, 1)], ["0101", "1111", "1111"], 2),
        ("AND of 8 at 1, four right children coded", AND, &[(0, 1), (1, 1), (2, 1), (3, 1), (8, 1)], ["11110000 1", "11111111 1", "11111111 1"], 4),
        ("OR of 8 at 0, the last right child coded", OR, &[(7, 0), (8, 0)], ["11111110 0", "00000000 0", "11111111 1"], 7),
    ];
    for (name, kind, codes, [before, after, bytes], turned) in list {
        let n = digits(before).len() - 1;
        let map = alone(kind, n as u16, codes);
        for (way, entry) in [("greedy 3", greedy(3)), ("down 0", down(0)), ("up 255", up(255))] {
            l.moved(&format!("coded {name}, {way}"), &map, before, entry, (n, turned), after, bytes);
        }
    }
    let uncoded = below_a_not(AND, 2, &[(0, 1), (3, 0)]);
    l.moved("uncoded AND at 1, its right child coded, down", &uncoded, "1010", down(5), (2, 1), "1110", "1111");
    l.moved("uncoded AND at 1, its right child coded, greedy", &uncoded, "1010", greedy(5), (2, 1), "1110", "1111");
    l.moved("uncoded AND at 1, its right child coded, up", &uncoded, "1010", up(5), (2, 1), "1000", "5447");
}

/// The first of four children is coded: option 0 is the second child.
fn first_left(l: &mut List) {
    let or = alone(OR, 4, &[(0, 0), (4, 1)]);
    let (second, third, fourth) = (("01001", "11001"), ("00101", "10101"), ("00011", "10011"));
    for (option, (after, bytes)) in [(0, second), (1, third), (2, fourth), (3, second), (254, fourth), (255, second)] {
        // No option leaves a front, so that greedy has three ties.
        for (way, entry) in [("down", down(option)), ("up", up(option)), ("greedy", greedy(option))] {
            l.moved(&format!("OR at 1, the first of four children coded, {way} {option}"), &or, "00001", entry, (4, 1), after, bytes);
        }
    }
    let and = alone(AND, 4, &[(0, 1), (4, 0)]);
    for (option, after, bytes) in [(0, "10110", "11001"), (1, "11010", "10101"), (2, "11100", "10011"), (3, "10110", "11001")] {
        l.moved(&format!("AND at 0, the first of four children coded, down {option}"), &and, "11110", down(option), (4, 1), after, bytes);
    }
}

/// The second and fourth of four children are coded: options 0 and 1 are the
/// first and third child. XOR with one child coded has the other alone.
fn some_left(l: &mut List) {
    let or = alone(OR, 4, &[(1, 0), (3, 0), (4, 1)]);
    for (option, after, bytes) in [(0, "10001", "11011"), (1, "00101", "01111"), (2, "10001", "11011"), (255, "00101", "01111")] {
        for (way, entry) in [("down", down(option)), ("up", up(option)), ("greedy", greedy(option))] {
            let name = format!("OR at 1, the second and fourth of four children coded, {way} {option}");
            l.moved(&name, &or, "00001", entry, (4, 1), after, bytes);
        }
    }
    let (first, second) = (alone(XOR, 2, &[(0, 0), (2, 1)]), alone(XOR, 2, &[(1, 0), (2, 1)]));
    for (way, entry) in every_kind() {
        l.moved(&format!("XOR at 1, the first child coded, {way}"), &first, "001", entry, (2, 1), "011", "111");
        l.moved(&format!("XOR at 1, the second child coded, {way}"), &second, "001", entry, (2, 1), "101", "111");
    }
    l.moved("XOR at 0, the first child coded", &alone(XOR, 2, &[(0, 1), (2, 0)]), "100", down(0), (2, 1), "110", "111");
}

/// All children but one are coded: every kind and option takes that one.
fn one_left(l: &mut List) {
    for (name, free, after) in [("first", 0, "10000000 1"), ("fourth", 3, "00010000 1"), ("last", 7, "00000001 1")] {
        let codes: Vec<(u16, u8)> = (0..9).filter(|gate| *gate != free).map(|gate| (gate, (gate == 8) as u8)).collect();
        for (way, entry) in [("greedy 7", greedy(7)), ("down 1", down(1)), ("up 255", up(255))] {
            let name = format!("OR of 8 at 1, all children coded but the {name}, {way}");
            l.moved(&name, &alone(OR, 8, &codes), "00000000 1", entry, (8, 1), after, "11111111 1");
        }
    }
}

/// The map of `six` with more codes on children of its OR.
fn six_with(codes: &[(u16, u8)]) -> Vec<u8> {
    let gates: [(u8, &[u16]); 9] = [
        (INPUT, &[]),
        (INPUT, &[]),
        (AND, &[0, 1]),
        (INPUT, &[]),
        (XOR, &[0, 1]),
        (INPUT, &[]),
        (NOT, &[1]),
        (INPUT, &[]),
        (OR, &[2, 3, 4, 5, 6, 7]),
    ];
    map(&gates, &[codes, &[(8, 1)]].concat())
}

/// Gate 3 is coded: of the options left, gates 2, 4, 5, 6 and 7, those of 5, 6
/// and 7 leave no front.
fn ties_left(l: &mut List) {
    let six = six_with(&[(3, 0)]);
    let turned = |gate| match gate {
        2 => ("001000001", "447100001"),
        4 => ("000010001", "440170001"),
        5 => ("000001001", "000101001"),
        6 => ("000000101", "010100101"),
        _ => ("000000011", "000100011"),
    };
    for (option, gate) in [(0, 5), (1, 6), (2, 7), (3, 5), (4, 6), (254, 7), (255, 5)] {
        let (after, bytes) = turned(gate);
        l.moved(&format!("three ties of five options left, greedy {option}"), &six, "000000001", greedy(option), (8, 1), after, bytes);
    }
    for (option, gate) in [(0, 2), (1, 4), (2, 5), (4, 7), (5, 2), (254, 7)] {
        let (after, bytes) = turned(gate);
        l.moved(&format!("five options left, down {option}"), &six, "000000001", down(option), (8, 1), after, bytes);
    }
    for (option, gate) in [(0, 2), (3, 6), (254, 7), (255, 2)] {
        let (after, bytes) = turned(gate);
        l.moved(&format!("five options left, up on the coded gate, option {option}"), &six, "000000001", up(option), (8, 1), after, bytes);
    }
}

/// Gates 3, 5 and 7 are coded: of 2, 4 and 6 one alone leaves no front. With
/// gate 1 at 0 it is 6, with gate 1 at 1 it is 4.
fn single_best_left(l: &mut List) {
    let six = six_with(&[(3, 0), (5, 0), (7, 0)]);
    for option in [0, 1, 255] {
        l.moved(&format!("one best of three options left, greedy {option}"), &six, "000000001", greedy(option), (8, 1), "000000101", "010101111");
        l.moved(&format!("another best of three options left, greedy {option}"), &six, "010000001", greedy(option), (8, 1), "010010001", "110111011");
    }
    // 4 OR(0,2,3): of its two best options one is out, then both.
    let gates = [(INPUT, &[][..]), (INPUT, &[]), (AND, &[0, 1]), (INPUT, &[]), (OR, &[0, 2, 3])];
    let (one, none) = (map(&gates, &[(3, 0), (4, 1)]), map(&gates, &[(0, 0), (3, 0), (4, 1)]));
    for option in [0, 1, 255] {
        l.moved(&format!("one of two ties left, greedy {option}"), &one, "00001", greedy(option), (4, 1), "10001", "10011");
        l.moved(&format!("neither of two ties left, greedy {option}"), &none, "00001", greedy(option), (4, 1), "00101", "54711");
    }
    l.moved("one of two ties left, down 1", &one, "00001", down(1), (4, 1), "00101", "44711");
}

/// Every option leaves a front, with interest sets of size 4, 1, 3 and 1; the
/// first of size 1 is out, then both are.
fn costly_left(l: &mut List) {
    let gates: [(u8, &[u16]); 8] = [
        (INPUT, &[]),
        (INPUT, &[]),
        (INPUT, &[]),
        (AND, &[0, 1, 2]),
        (NOT, &[0]),
        (XOR, &[0, 1]),
        (NOT, &[1]),
        (OR, &[3, 4, 5, 6]),
    ];
    let (one, both) = (map(&gates, &[(4, 0), (7, 1)]), map(&gates, &[(4, 0), (6, 0), (7, 1)]));
    for option in [0, 1, 255] {
        l.moved(&format!("options of 4, 3 and 1 left, greedy {option}"), &one, "11000001", greedy(option), (7, 1), "11000011", "14001071");
        l.moved(&format!("options of 4 and 3 left, greedy {option}"), &both, "11000001", greedy(option), (7, 1), "11000101", "55001711");
    }
    l.moved("options of 4, 3 and 1 left, down 1", &one, "11000001", down(1), (7, 1), "11000101", "54001701");
    l.moved("options of 4 and 3 left, down 2", &both, "11000001", down(2), (7, 1), "11010001", "55471011");
}

/// Coded inputs below the adder's XOR, which is uncoded.
fn inputs_of_the_adder(l: &mut List) {
    let (one, both) = (map(&ADDER, &[(0, 0), (7, 1)]), map(&ADDER, &[(0, 0), (1, 0), (7, 1)]));
    for option in [0, 1] {
        l.moved(&format!("A with input 0 coded, down {option}"), &one, A, down(option), (3, 1), "01110101", "11110101");
        l.moved(&format!("A with input 0 coded, greedy {option}"), &one, A, greedy(option), (3, 1), "01110101", "11110101");
        l.moved(&format!("A with input 0 coded, up {option}"), &one, A, up(option), (3, 1), "00100101", "54440701");
        l.moved(&format!("A with two inputs coded, down {option}"), &both, A, down(option), (3, 1), "00100101", "55440701");
        l.moved(&format!("A with two inputs coded, greedy {option}"), &both, A, greedy(option), (3, 1), "00100101", "55440701");
        l.moved(&format!("A with two inputs coded, up {option}"), &both, A, up(option), (3, 1), "00100101", "55440701");
    }
    // An AND at 1 whose wrong child, the XOR, is coded.
    let xor = map(&ADDER, &[(3, 0), (7, 1)]);
    l.moved("C with the XOR coded, greedy", &xor, C, greedy(0), (7, 1), "00101001", "55017001");
    l.moved("C with the XOR coded, down 1", &xor, C, down(1), (7, 1), "00100101", "55450701");
    for (way, entry) in [("greedy", greedy(1)), ("down", down(1)), ("up", up(1))] {
        l.moved(&format!("AND over the coded XOR, {way}"), &xor, "00100101", entry, (5, 1), C, "55454407");
    }
}

/// Gate 1 of `half_stuck` is Stuck, gate 3 goes on: the draw decides.
fn draw_decides(l: &mut List) {
    let half = half_stuck();
    for (draw, entry) in [(0, down(0)), (2, greedy(5)), (256, up(1)), (65_534, down(9))] {
        l.unturned(&format!("a Stuck gate and another, draw {draw}"), &half, "0011", drawn(draw, entry), 1, "5747");
    }
    for (draw, entry) in [(1, down(0)), (3, greedy(5)), (257, up(1)), (65_535, down(9))] {
        l.moved(&format!("a Stuck gate and another, draw {draw}"), &half, "0011", drawn(draw, entry), (3, 1), "0001", "5711");
    }
    l.unturned("a Stuck gate alone, draw 65,535", &half, "0001", drawn(65_535, up(0)), 1, "5711");
}

/// A Stuck move is accepted where all tests pass, and only there.
fn refused(l: &mut List) {
    let (stuck, start) = (smallest_stuck(), digits("00"));
    l.unmoved("gives 11, smallest Stuck map, input's code broken", 11, &stuck, &digits("10"), &down(0), 2);
    l.unmoved("gives 12, smallest Stuck map, an entry of 5 bytes", 12, &stuck, &start, &[0; 5], 2);
    l.unmoved("gives 13, smallest Stuck map, kind 3", 13, &stuck, &start, &[0, 0, 3, 0], 2);
    l.unmoved("gives 14, smallest Stuck map, work memory of 1 byte", 14, &stuck, &start, &down(0), 1);
    let kept = map(&[(INPUT, &[]), (NOT, &[0])], &[(0, 1), (1, 0)]);
    l.unmoved("gives 15, a NOT and its input, both coded and both right", 15, &kept, &digits("10"), &up(0), 2);
}
