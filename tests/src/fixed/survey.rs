//! Survey.

use super::*;

/// Each kind and value, codes, and memory.
pub(super) fn survey(l: &mut List) {
    bench(l);
    codes(l);
    coded_inputs(l);
    kinds(l);
    eight(l);
    every_fan_in(l);
    memories(l);
}

/// Gates with several parents, and fronts below and beside other gates.
pub(super) fn shared(l: &mut List) {
    one_of_two_parents(l);
    relevant_to_one(l);
    unneeded(l);
    below_another(l);
    nots(l);
    between_gates(l);
    six_levels(l);
}

/// The bench examples and the configurations they pass through.
fn bench(l: &mut List) {
    let adder = adder();
    l.surveyed("configuration A (P1)", &adder, "00110101", 1, 3, "44170101");
    l.surveyed("configuration B (P2)", &adder, "11111001", 0, 0, "11001001");
    l.surveyed("A after down 0 (P3)", &adder, "10110101", 0, 0, "11110101");
    l.surveyed("A after down 3 (P4)", &adder, "01110101", 0, 0, "11110101");
    l.surveyed("A after up (P5), C with gate 5 turned (P7)", &adder, "00100101", 1, 5, "44440701");
    l.surveyed("configuration C", &adder, "00100001", 1, 7, "44444407");
    l.surveyed("C with gate 4 turned (P6)", &adder, "00101001", 1, 3, "44007001");
    let p9 = p9();
    l.surveyed("P9's start", &p9, "001", 1, 2, "447");
    l.surveyed("P9 after one down: a NOT in the front", &p9, "111", 1, 1, "571");
    l.surveyed("P9 after two downs", &p9, "011", 1, 2, "447");
    let p11 = p11();
    l.surveyed("P11's start: a NOT below the front", &p11, "00111", 1, 2, "40471");
    l.surveyed("P11 after up", &p11, "00101", 1, 4, "44447");
    l.surveyed("P11 after up and down 0", &p11, "01101", 0, 0, "01001");
}

/// The adder with other codes, and maps without codes.
fn codes(l: &mut List) {
    let zero = map(&ADDER, &[(7, 0)]);
    l.surveyed("adder, code 7 = 0, all 0", &zero, "00000000", 0, 0, "11111101");
    l.surveyed("adder, code 7 = 0, input 2 irrelevant", &zero, "00100000", 0, 0, "11011101");
    l.surveyed("adder, code 7 = 0, XOR in the front", &zero, "01100000", 1, 3, "54071101");
    l.surveyed("adder, code 7 = 0, coded OR in the front", &zero, "11001000", 1, 7, "44444407");
    let two = map(&ADDER, &[(6, 0), (7, 1)]);
    l.surveyed("adder with two codes, both shown", &two, "11001001", 0, 0, "11111011");
    l.surveyed("adder with two codes, configuration A", &two, "00110101", 1, 3, "44170111");
    l.surveyed("adder with two codes, both coded gates in the front", &two, "00100001", 2, 8, "44444477");

    // Maps without codes.
    let bare = map(&ADDER, &[]);
    l.surveyed("adder without codes, configuration A", &bare, "00110101", 0, 0, "00000000");
    l.surveyed("adder without codes, row 110", &bare, "11001001", 0, 0, "00000000");
    l.surveyed("one input, no code, at 0", &inputs(1, &[]), "0", 0, 0, "0");
    l.surveyed("one input, no code, at 1 (P10)", &inputs(1, &[]), "1", 0, 0, "0");
    l.surveyed("AND and OR of 8 without codes, both wrong", &wide(), "1111111100", 0, 0, "0000000000");
    l.surveyed("inputs after other gates, no codes", &mixed(), "111111", 0, 0, "000000");
}

/// Coded inputs.
fn coded_inputs(l: &mut List) {
    l.surveyed("one input, code 1", &inputs(1, &[(0, 1)]), "1", 0, 0, "1");
    l.surveyed("one input, code 0", &inputs(1, &[(0, 0)]), "0", 0, 0, "1");
    l.surveyed("three inputs, the middle one coded", &inputs(3, &[(1, 1)]), "111", 0, 0, "010");
    let beside = map(&[(INPUT, &[]), (INPUT, &[]), (NOT, &[0])], &[(1, 1), (2, 0)]);
    l.surveyed("a coded input beside a justified NOT", &beside, "110", 0, 0, "111");
    l.surveyed("a coded input beside a NOT in the front", &beside, "010", 1, 1, "417");
}

/// Each kind by itself, each value, each row.
fn kinds(l: &mut List) {
    for value in [0, 1] {
        let not = shown(1, NOT, value);
        for row in [0, 1] {
            let name = format!("NOT of {row} at {value}");
            let configuration = format!("{row}{value}");
            if row == value {
                l.surveyed(&name, &not, &configuration, 1, 1, "47");
            } else {
                l.surveyed(&name, &not, &configuration, 0, 0, "11");
            }
        }
    }
    for (kind, name, value, lines) in [
        (AND, "AND", 1, ["447", "447", "447", "111"]),
        (AND, "AND", 0, ["111", "101", "011", "447"]),
        (OR, "OR", 1, ["447", "011", "101", "111"]),
        (OR, "OR", 0, ["111", "447", "447", "447"]),
        (XOR, "XOR", 1, ["447", "111", "111", "447"]),
        (XOR, "XOR", 0, ["111", "447", "447", "111"]),
    ] {
        for (row, bytes) in ["00", "01", "10", "11"].iter().zip(lines) {
            let (front, interest) = if bytes == "447" { (1, 3) } else { (0, 0) };
            let name = format!("{name} of {row} at {value}");
            l.surveyed(&name, &shown(2, kind, value), &format!("{row}{value}"), front, interest, bytes);
        }
    }
}

/// Eight children.
fn eight(l: &mut List) {
    for (name, kind, configuration, bytes) in [
        ("AND of 8 at 0, three children at 0", AND, "01011101 0", "10100010 1"),
        ("AND of 8 at 0, the first child at 0", AND, "01111111 0", "10000000 1"),
        ("AND of 8 at 0, the last child at 0", AND, "11111110 0", "00000001 1"),
        ("AND of 8 at 0, all children at 0", AND, "00000000 0", "11111111 1"),
        ("AND of 8 at 1", AND, "11111111 1", "11111111 1"),
        ("OR of 8 at 1, five children at 1", OR, "01011101 1", "01011101 1"),
        ("OR of 8 at 1, the first child at 1", OR, "10000000 1", "10000000 1"),
        ("OR of 8 at 1, the last child at 1", OR, "00000001 1", "00000001 1"),
        ("OR of 8 at 1, all children at 1", OR, "11111111 1", "11111111 1"),
        ("OR of 8 at 0", OR, "00000000 0", "11111111 1"),
    ] {
        let value = digits(configuration)[8];
        l.surveyed(name, &shown(8, kind, value), configuration, 0, 0, bytes);
    }
    for (name, kind, configuration) in [
        ("AND of 8 at 1, the last child at 0", AND, "11111110 1"),
        ("AND of 8 at 1, the first child at 0", AND, "01111111 1"),
        ("AND of 8 at 0, all children at 1", AND, "11111111 0"),
        ("OR of 8 at 0, the last child at 1", OR, "00000001 0"),
        ("OR of 8 at 0, the first child at 1", OR, "10000000 0"),
        ("OR of 8 at 1, all children at 0", OR, "00000000 1"),
    ] {
        let value = digits(configuration)[8];
        l.surveyed(name, &shown(8, kind, value), configuration, 1, 9, "44444444 7");
    }
}

/// AND at 0 and OR at 1 of three to seven, justified by the last child alone.
fn every_fan_in(l: &mut List) {
    for n in 3..8 {
        let others = n as usize - 1;
        let bytes = format!("{}11", "0".repeat(others));
        let configuration = format!("{}00", "1".repeat(others));
        l.surveyed(&format!("AND of {n} at 0, only the last child at 0"), &shown(n, AND, 0), &configuration, 0, 0, &bytes);
        let configuration = format!("{}11", "0".repeat(others));
        l.surveyed(&format!("OR of {n} at 1, only the last child at 1"), &shown(n, OR, 1), &configuration, 0, 0, &bytes);
    }
}

/// Output memory.
fn memories(l: &mut List) {
    let adder = adder();
    let a = digits("00110101");
    l.survey("A, one byte of surplus", &adder, &a, 9, &sizes(1, 3, "44170101", 1));
    l.survey("A, surplus of 92", &adder, &a, 100, &sizes(1, 3, "44170101", 92));
    l.survey("A, the largest room", &adder, &a, 2048, &sizes(1, 3, "44170101", 2040));
    l.survey("B, surplus of 8", &adder, &digits("11111001"), 16, &sizes(0, 0, "11001001", 8));
    l.survey("one input, no code, one byte of surplus", &inputs(1, &[]), &[1], 2, &sizes(0, 0, "0", 1));
}

/// One parent unjustified, the other justified: gate 1 has 1 + 4.
fn one_of_two_parents(l: &mut List) {
    let shared = map(
        &[(INPUT, &[]), (INPUT, &[]), (INPUT, &[]), (AND, &[0, 1]), (OR, &[1, 2]), (AND, &[3, 4])],
        &[(5, 1)],
    );
    l.surveyed("gate 1 below a front gate and in the cone by another", &shared, "010111", 1, 3, "450711");
    l.surveyed("gate 1 in the cone by both parents", &shared, "110111", 0, 0, "110111");
    l.surveyed("gate 1 below both parents, both in the front", &shared, "000111", 2, 5, "444771");
}

/// Irrelevant child of one parent, relevant child of another.
fn relevant_to_one(l: &mut List) {
    let gates: [(u8, &[u16]); 4] = [(INPUT, &[]), (INPUT, &[]), (OR, &[0, 1]), (NOT, &[0])];
    l.surveyed("gate 0 irrelevant to the OR", &map(&gates, &[(2, 1)]), "0111", 0, 0, "0110");
    l.surveyed("gate 0 relevant to the NOT", &map(&gates, &[(3, 1)]), "0111", 0, 0, "1001");
    l.surveyed("gate 0 irrelevant to the OR, relevant to the NOT", &map(&gates, &[(2, 1), (3, 1)]), "0111", 0, 0, "1111");
    let pair = map(
        &[(INPUT, &[]), (INPUT, &[]), (INPUT, &[]), (AND, &[0, 1]), (OR, &[1, 2])],
        &[(3, 0), (4, 1)],
    );
    for (configuration, front, interest, bytes) in [
        ("01001", 0, 0, "11011"),
        ("10101", 0, 0, "01111"),
        ("00101", 0, 0, "11111"),
        ("01101", 0, 0, "11111"),
        ("11001", 1, 3, "45071"),
        ("11101", 1, 3, "45171"),
        ("00001", 1, 3, "15417"),
        ("10001", 1, 3, "05417"),
    ] {
        let name = format!("AND at 0 and OR at 1 that share gate 1, {configuration}");
        l.surveyed(&name, &pair, configuration, front, interest, bytes);
    }
}

/// Unjustified gates that no one needs stay out of the front.
fn unneeded(l: &mut List) {
    let aside: [(u8, &[u16]); 3] = [(INPUT, &[]), (INPUT, &[]), (NOT, &[0])];
    let and = map(&[aside[0], aside[1], aside[2], (AND, &[1, 2])], &[(3, 0)]);
    l.surveyed("a wrong NOT at 1 below an AND at 0", &and, "1010", 0, 0, "0101");
    l.surveyed("a wrong NOT at 0 below an AND at 0", &and, "0000", 1, 1, "4171");
    let or = map(&[aside[0], aside[1], aside[2], (OR, &[1, 2])], &[(3, 1)]);
    l.surveyed("a wrong NOT at 0 below an OR at 1", &or, "0101", 0, 0, "0101");
    l.surveyed("a wrong NOT at 1 below an OR at 1", &or, "1111", 1, 1, "4171");
}

/// A front gate below another front gate.
fn below_another(l: &mut List) {
    let nested = map(
        &[(INPUT, &[]), (INPUT, &[]), (AND, &[0, 1]), (NOT, &[2]), (AND, &[2, 3])],
        &[(4, 1)],
    );
    l.surveyed("a front gate that is a front gate's child", &nested, "01111", 2, 3, "44771");
    l.surveyed("a justified gate that is a front gate's child", &nested, "11111", 1, 3, "55571");
    let apart = map(
        &[(INPUT, &[]), (INPUT, &[]), (XOR, &[0, 1]), (NOT, &[2]), (NOT, &[3]), (XOR, &[2, 4])],
        &[(5, 1)],
    );
    l.surveyed("a front gate two levels below a front gate", &apart, "001001", 2, 3, "447471");
    l.surveyed("a front NOT above a justified XOR", &apart, "101001", 1, 3, "555471");
}

/// NOT gates all along.
fn nots(l: &mut List) {
    let nots = map(&[(INPUT, &[]), (NOT, &[0]), (NOT, &[1]), (AND, &[1, 2])], &[(3, 1)]);
    l.surveyed("a NOT in the cone and below a front NOT", &nots, "0111", 1, 1, "5571");
    l.surveyed("two NOTs in the front, one below the other", &nots, "1111", 2, 1, "4771");
    let twice = map(&[(INPUT, &[]), (NOT, &[0]), (NOT, &[1]), (AND, &[0, 2])], &[(3, 1)]);
    l.surveyed("two NOTs below a front gate", &twice, "0101", 1, 2, "4447");
    l.surveyed("two NOTs in the cone", &twice, "1011", 0, 0, "1111");
}

/// Inputs after other gates, two codes.
fn between_gates(l: &mut List) {
    let mixed: [(u8, &[u16]); 6] = [
        (INPUT, &[]),
        (NOT, &[0]),
        (INPUT, &[]),
        (XOR, &[1, 2]),
        (INPUT, &[]),
        (OR, &[0, 4]),
    ];
    let mixed = map(&mixed, &[(3, 1), (5, 0)]);
    l.surveyed("inputs after other gates, all in the cone", &mixed, "010100", 0, 0, "111111");
    l.surveyed("inputs after other gates, front of two", &mixed, "110100", 2, 3, "471147");
}

/// Six levels.
fn six_levels(l: &mut List) {
    let deep = deep();
    l.surveyed("six levels, justified all along", &deep, "10000011111", 0, 0, "01011111111");
    l.surveyed("six levels, front near the top", &deep, "10010011111", 1, 7, "44441444711");
    l.surveyed("six levels, front near the top and wrong gates below", &deep, "10010111111", 1, 7, "44441444711");
    l.surveyed("six levels, front near the inputs", &deep, "11000011111", 1, 3, "44011711111");
    l.surveyed("six levels, front of two at different levels", &deep, "11001011111", 2, 4, "44014711171");
    l.surveyed("six levels, the coded gate in the front", &deep, "10000011101", 1, 9, "44444444447");
}

pub(super) fn large(l: &mut List) {
    let chain_of_1024 = chain(1024);
    l.surveyed("chain of 1,024 gates, justified all along", &chain_of_1024, &"01".repeat(512), 0, 0, &"1".repeat(1024));
    // Gate 512 and gate 511 are both 0.
    let broken = format!("{}{}", "10".repeat(256), "01".repeat(256));
    let bytes = format!("{}7{}", "4".repeat(512), "1".repeat(511));
    l.surveyed("chain of 1,024 gates, only gate 512 unjustified", &chain_of_1024, &broken, 1, 1, &bytes);

    let chain = chain(40);
    let turned = format!("{}11{}", "01".repeat(10), "01".repeat(9));
    let bytes = format!("{}7{}", "4".repeat(21), "1".repeat(18));
    l.surveyed("chain of 40 gates, gates 20 and 21 unjustified", &chain, &turned, 1, 1, &bytes);
    let turned = format!("{}11", "01".repeat(19));
    l.surveyed("chain of 40 gates, the coded gate in the front", &chain, &turned, 1, 1, &format!("{}7", "4".repeat(39)));
    let turned = format!("11{}", "01".repeat(19));
    l.surveyed("chain of 40 gates, the lowest NOT in the front", &chain, &turned, 1, 1, &format!("47{}", "1".repeat(38)));
    let bare = with16(&chain[..chain.len() - 4], 10, 0);
    l.surveyed("chain of 40 gates without codes, all wrong", &bare, &"1".repeat(40), 0, 0, &"0".repeat(40));

    let layers = layers();
    l.surveyed("512 layers of two gates, all in the cone", &layers, &"0".repeat(1024), 0, 0, &"1".repeat(1024));
    // Gate 598 stands below ANDs that gate 599 justifies; gate 402 stands
    // below the ORs 404 and 405, which are at 0.
    let mut turned = vec![0; 1024];
    turned[598] = 1;
    turned[402] = 1;
    let bytes = format!("{}77{}0{}", "4".repeat(404), "1".repeat(192), "1".repeat(425));
    l.survey("512 layers of two gates, front in the middle", &layers, &turned, 1024, &sizes(2, 406, &bytes, 0));

    let coded: Vec<(u16, u8)> = (0..40).map(|g| (g, (g % 2) as u8)).collect();
    l.surveyed("40 coded inputs", &inputs(40, &coded), &"01".repeat(20), 0, 0, &"1".repeat(40));
    let ones = format!("1{}0", "1".repeat(269));
    let bytes = format!("5{}1", "7".repeat(269));
    l.surveyed("270 coded NOTs of one input, all but the last in the front", &fan_of_nots(), &ones, 269, 1, &bytes);
}

/// Each number.
pub(super) fn refused(l: &mut List) {
    let adder = adder();
    let a = digits("00110101");
    let none = header([12, 0, 12, 0, 12, 0]);
    let two = map(&ADDER, &[(6, 0), (7, 1)]);
    l.survey("gives 1, empty map", &[], &a, 8, &declined(1, 8));
    l.survey("gives 1, 11 bytes", &adder[..11], &a, 8, &declined(1, 8));
    l.survey("gives 2, 0 gates", &none, &[], 8, &declined(2, 8));
    l.survey("gives 2, 1,025 gates", &with16(&adder, 2, 1025), &a, 8, &declined(2, 8));
    l.survey("gives 3, one byte too long", &[&adder[..], &[0]].concat(), &a, 8, &declined(3, 8));
    l.survey("gives 3, one byte cut off", &adder[..67], &a, 8, &declined(3, 8));
    l.survey("gives 4, kind 6 at the last gate", &with(&adder, 40, 6), &a, 8, &declined(4, 8));
    l.survey("gives 5, position wrong at the last gate", &with(&adder, 42, 7), &a, 8, &declined(5, 8));
    l.survey("gives 6, child equal to its gate", &with(&adder, 62, 7), &a, 8, &declined(6, 8));
    l.survey("gives 7, zero byte 1", &with(&adder, 67, 1), &a, 8, &declined(7, 8));
    l.survey("gives 9, empty configuration", &adder, &[], 8, &declined(9, 8));
    l.survey("gives 9, seven bytes", &adder, &digits("0011010"), 8, &declined(9, 8));
    l.survey("gives 9, nine bytes", &adder, &digits("001101011"), 9, &declined(9, 9));
    l.survey("gives 9, a row for a configuration", &adder, &digits("101"), 8, &declined(9, 8));
    l.survey("gives 9, 4 bytes for 260 gates (low byte)", &inputs(260, &[]), &[1; 4], 260, &declined(9, 260));
    l.survey("gives 10, first byte 2", &adder, &digits("20110101"), 8, &declined(10, 8));
    l.survey("gives 10, byte 255 on a gate outside the cone", &adder, &[0, 0, 1, 1, 0, 1, 255, 1], 8, &declined(10, 8));
    l.survey("gives 10, byte 128 in a map without codes", &inputs(2, &[]), &[0, 128], 2, &declined(10, 2));
    l.survey("gives 11, code 7 = 1 broken", &adder, &digits("00110100"), 8, &declined(11, 8));
    l.survey("gives 11, gates obeyed and the code broken", &adder, &digits("00000000"), 8, &declined(11, 8));
    l.survey("gives 11, code 7 = 0 broken", &map(&ADDER, &[(7, 0)]), &a, 8, &declined(11, 8));
    l.survey("gives 11, the first of two codes broken", &two, &digits("11101011"), 8, &declined(11, 8));
    l.survey("gives 11, the second of two codes broken", &two, &digits("00000000"), 12, &declined(11, 12));
    l.survey("gives 11, a coded input broken", &inputs(1, &[(0, 1)]), &[0], 1, &declined(11, 1));
    l.survey("gives 11, code on gate 259 broken, gate 3 right", &inputs(260, &[(259, 1)]), &digits(&format!("0001{}", "0".repeat(256))), 260, &declined(11, 260));
    l.survey("gives 14, memory of 7 bytes", &adder, &a, 7, &declined(14, 7));
    l.survey("gives 14, memory of 1 byte", &adder, &a, 1, &declined(14, 1));
    l.survey("gives 14, no memory", &adder, &a, 0, &declined(14, 0));
    l.survey("gives 14, memory for the inputs only", &adder, &a, 3, &declined(14, 3));
    l.survey("gives 14, memory of 7 bytes, no codes", &map(&ADDER, &[]), &a, 7, &declined(14, 7));
    l.survey("gives 14, one input and no memory", &inputs(1, &[]), &[0], 0, &declined(14, 0));
    l.survey("gives 14, 260 gates and memory of 4 bytes (low byte)", &inputs(260, &[]), &[1; 260], 4, &declined(14, 4));
}

/// "with the first that holds"
pub(super) fn precedence(l: &mut List) {
    let adder = adder();
    let a = digits("00110101");
    let none = header([12, 0, 12, 0, 12, 0]);
    let two = map(&ADDER, &[(6, 0), (7, 1)]);
    let coded_child = map(&ADDER, &[(3, 1)]);
    l.survey("gives 1, before all: no bytes anywhere", &[], &[], 0, &declined(1, 0));
    l.survey("gives 1, before 2: 11 zeros", &[0; 11], &a, 8, &declined(1, 8));
    l.survey("gives 2, before 3: 1,025 gates and a byte too many", &[&with16(&adder, 2, 1025)[..], &[0]].concat(), &a, 8, &declined(2, 8));
    l.survey("gives 2, before 14: 0 gates and no memory", &none, &[2], 0, &declined(2, 0));
    l.survey("gives 3, before 4: kind 6 and a byte too many", &[&with(&adder, 12, 6)[..], &[0]].concat(), &a, 8, &declined(3, 8));
    l.survey("gives 4, before 5: kind 6 at the last gate, position wrong at gate 0", &with(&with(&adder, 40, 6), 14, 1), &a, 8, &declined(4, 8));
    l.survey("gives 5, before 6: position wrong at the last gate, equal children at gate 3", &with(&with(&adder, 42, 7), 46, 0), &a, 8, &declined(5, 8));
    l.survey("gives 6, before 7: equal children at the last gate, value 2", &with(&with(&adder, 62, 4), 66, 2), &a, 8, &declined(6, 8));
    l.survey("gives 7, coded child first, value 2 in the last code", &map(&ADDER, &[(3, 1), (7, 2)]), &a, 8, &declined(7, 8));
    l.survey("gives 7, before 9: value 2 and an empty configuration", &with(&adder, 66, 2), &[], 8, &declined(7, 8));
    l.survey("gives 7, before 14: value 2 and memory of 7 bytes", &with(&adder, 66, 2), &a, 7, &declined(7, 7));
    l.survey("gives 9, coded child and an empty configuration", &coded_child, &[], 8, &declined(9, 8));
    l.survey("gives 10, coded child at 2", &coded_child, &digits("00120101"), 8, &declined(10, 8));
    l.survey("gives 11, coded child that breaks its code", &coded_child, &digits("00100101"), 8, &declined(11, 8));
    l.survey("gives 14, coded child and no memory", &coded_child, &a, 0, &declined(14, 0));
    l.survey("gives 9, before 10: nine bytes, one of them 2", &adder, &digits("001101012"), 9, &declined(9, 9));
    l.survey("gives 9, before 10: seven bytes, all of them 255", &adder, &[255; 7], 8, &declined(9, 8));
    l.survey("gives 9, before 11: nine bytes, code broken", &adder, &digits("001101000"), 9, &declined(9, 9));
    l.survey("gives 9, before 14: seven bytes and memory of 7 bytes", &adder, &digits("0011010"), 7, &declined(9, 7));
    l.survey("gives 10, before 11: byte 2 on the coded gate", &adder, &digits("00110102"), 8, &declined(10, 8));
    l.survey("gives 10, before 11: code broken, byte 2 on the first gate", &adder, &digits("20110100"), 8, &declined(10, 8));
    l.survey("gives 10, before 11: first code broken, byte 2 on the second", &two, &digits("11101012"), 8, &declined(10, 8));
    l.survey("gives 10, before 14: byte 2 and memory of 7 bytes", &adder, &digits("00210101"), 7, &declined(10, 7));
    l.survey("gives 11, before 14: code broken and memory of 7 bytes", &adder, &digits("00110100"), 7, &declined(11, 7));
    l.survey("gives 11, before 14: code broken and no memory", &adder, &digits("00110100"), 0, &declined(11, 0));
}
