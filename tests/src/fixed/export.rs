//! Export. Texts and their lengths are written by hand.

use super::*;

pub(super) fn export(l: &mut List) {
    inputs_alone(l);
    kinds(l);
    eight(l);
    codes(l);
    voters(l);
    memories(l);
    digits_of_variables(l);
}

/// Inputs have no clauses; a map without codes and other gates has none at all.
fn inputs_alone(l: &mut List) {
    l.exported("one input, no code", &inputs(1, &[]), 10, "p cnf 1 0\n");
    l.exported("one input, code 1", &inputs(1, &[(0, 1)]), 14, "p cnf 1 1\n1 0\n");
    l.exported("one input, code 0", &inputs(1, &[(0, 0)]), 15, "p cnf 1 1\n-1 0\n");
    l.exported("three inputs, no code", &inputs(3, &[]), 10, "p cnf 3 0\n");
    l.exported("three inputs, the first and last coded", &inputs(3, &[(0, 0), (2, 1)]), 19, "p cnf 3 2\n-1 0\n3 0\n");
    l.exported("three inputs, all coded", &inputs(3, &[(0, 1), (1, 0), (2, 1)]), 23, "p cnf 3 3\n1 0\n-2 0\n3 0\n");
}

/// Each kind by itself.
fn kinds(l: &mut List) {
    l.exported("a NOT", &alone(NOT, 1, &[]), 24, "p cnf 2 2\n-2 -1 0\n2 1 0\n");
    l.exported("an AND of two", &alone(AND, 2, &[]), 34, "p cnf 3 3\n-3 1 0\n-3 2 0\n3 -1 -2 0\n");
    l.exported("an AND of three", &alone(AND, 3, &[]), 44, "p cnf 4 4\n-4 1 0\n-4 2 0\n-4 3 0\n4 -1 -2 -3 0\n");
    l.exported("an OR of two", &alone(OR, 2, &[]), 33, "p cnf 3 3\n-3 1 2 0\n3 -1 0\n3 -2 0\n");
    l.exported("an OR of three", &alone(OR, 3, &[]), 42, "p cnf 4 4\n-4 1 2 3 0\n4 -1 0\n4 -2 0\n4 -3 0\n");
    l.exported("a XOR", &alone(XOR, 2, &[]), 48, "p cnf 3 4\n-3 1 2 0\n-3 -1 -2 0\n3 1 -2 0\n3 -1 2 0\n");
    l.exported("a voter", &alone(VOTER, 3, &[]), 67, "p cnf 4 6\n-4 1 2 0\n-4 1 3 0\n-4 2 3 0\n4 -1 -2 0\n4 -1 -3 0\n4 -2 -3 0\n");
    l.exported(
        "inputs after other gates",
        &mixed(),
        85,
        "p cnf 6 9\n-2 -1 0\n2 1 0\n-4 2 3 0\n-4 -2 -3 0\n4 2 -3 0\n4 -2 3 0\n-6 1 5 0\n6 -1 0\n6 -5 0\n",
    );
    l.exported("P9", &p9(), 52, "p cnf 3 6\n-2 -1 0\n2 1 0\n-3 1 0\n-3 2 0\n3 -1 -2 0\n3 0\n");
    l.exported("P11", &p11(), 75, "p cnf 5 9\n-3 -1 0\n3 1 0\n-4 1 0\n-4 3 0\n4 -1 -3 0\n-5 2 4 0\n5 -2 0\n5 -4 0\n5 0\n");
}

/// Fan-in 8, and between 2 and 8.
fn eight(l: &mut List) {
    l.exported(
        "an AND of eight",
        &alone(AND, 8, &[]),
        94,
        "p cnf 9 9\n-9 1 0\n-9 2 0\n-9 3 0\n-9 4 0\n-9 5 0\n-9 6 0\n-9 7 0\n-9 8 0\n9 -1 -2 -3 -4 -5 -6 -7 -8 0\n",
    );
    l.exported(
        "an OR of eight",
        &alone(OR, 8, &[]),
        87,
        "p cnf 9 9\n-9 1 2 3 4 5 6 7 8 0\n9 -1 0\n9 -2 0\n9 -3 0\n9 -4 0\n9 -5 0\n9 -6 0\n9 -7 0\n9 -8 0\n",
    );
    l.exported(
        "an AND coded 1 and an OR coded 0 of the same eight",
        &torn(),
        192,
        "p cnf 10 20\n\
         -9 1 0\n-9 2 0\n-9 3 0\n-9 4 0\n-9 5 0\n-9 6 0\n-9 7 0\n-9 8 0\n9 -1 -2 -3 -4 -5 -6 -7 -8 0\n\
         -10 1 2 3 4 5 6 7 8 0\n10 -1 0\n10 -2 0\n10 -3 0\n10 -4 0\n10 -5 0\n10 -6 0\n10 -7 0\n10 -8 0\n\
         9 0\n-10 0\n",
    );
    l.exported(
        "an OR of six over gates of other kinds",
        &six(),
        150,
        "p cnf 9 17\n\
         -3 1 0\n-3 2 0\n3 -1 -2 0\n\
         -5 1 2 0\n-5 -1 -2 0\n5 1 -2 0\n5 -1 2 0\n\
         -7 -2 0\n7 2 0\n\
         -9 3 4 5 6 7 8 0\n9 -3 0\n9 -4 0\n9 -5 0\n9 -6 0\n9 -7 0\n9 -8 0\n\
         9 0\n",
    );
}

/// The adder's lines but for its head and units.
const ADDER_LINES: &str = "-4 1 2 0\n-4 -1 -2 0\n4 1 -2 0\n4 -1 2 0\n\
     -5 1 0\n-5 2 0\n5 -1 -2 0\n\
     -6 3 0\n-6 4 0\n6 -3 -4 0\n\
     -7 3 4 0\n-7 -3 -4 0\n7 3 -4 0\n7 -3 4 0\n\
     -8 5 6 0\n8 -5 0\n8 -6 0\n";

/// The adder with no code, one and several; codes on children and inputs too, which change no gate's clauses; maps that no state satisfies.
fn codes(l: &mut List) {
    for (name, codes, length, head, units) in [
        ("without codes", &[][..], 158, "p cnf 8 17\n", ""),
        ("with its code 1", &[(7, 1)], 162, "p cnf 8 18\n", "8 0\n"),
        ("with code 0", &[(7, 0)], 163, "p cnf 8 18\n", "-8 0\n"),
        ("with two codes", &[(6, 0), (7, 1)], 167, "p cnf 8 19\n", "-7 0\n8 0\n"),
        ("with a coded child", &[(4, 1)], 162, "p cnf 8 18\n", "5 0\n"),
        ("with a coded child at 0 and its parent", &[(5, 0), (7, 1)], 167, "p cnf 8 19\n", "-6 0\n8 0\n"),
        ("with a coded input and a coded gate over it", &[(0, 0), (4, 1)], 167, "p cnf 8 19\n", "-1 0\n5 0\n"),
        (
            "with every gate coded",
            &[(0, 1), (1, 1), (2, 0), (3, 0), (4, 1), (5, 0), (6, 0), (7, 1)],
            194,
            "p cnf 8 25\n",
            "1 0\n2 0\n-3 0\n-4 0\n5 0\n-6 0\n-7 0\n8 0\n",
        ),
    ] {
        l.exported(&format!("adder {name}"), &map(&ADDER, codes), length, &[head, ADDER_LINES, units].concat());
    }
    l.exported("an input and its NOT, both coded 0", &smallest_stuck(), 34, "p cnf 2 4\n-2 -1 0\n2 1 0\n-1 0\n-2 0\n");
    l.exported(
        "two XORs of the same children, coded 1 and 0",
        &twin_xors(),
        96,
        "p cnf 4 10\n-3 1 2 0\n-3 -1 -2 0\n3 1 -2 0\n3 -1 2 0\n-4 1 2 0\n-4 -1 -2 0\n4 1 -2 0\n4 -1 2 0\n3 0\n-4 0\n",
    );
    l.exported(
        "a gate that is no child between the others",
        &two_codes(),
        81,
        "p cnf 5 10\n-3 1 0\n-3 2 0\n3 -1 -2 0\n-4 -3 0\n4 3 0\n-5 1 0\n-5 3 0\n5 -1 -3 0\n4 0\n5 0\n",
    );
}

/// Voters (F-3), and coded children of theirs.
fn voters(l: &mut List) {
    let lines = "-4 1 2 0\n-4 1 3 0\n-4 2 3 0\n4 -1 -2 0\n4 -1 -3 0\n4 -2 -3 0\n";
    for (name, codes, length, head, units) in [
        ("coded 1", &[(3, 1)][..], 71, "p cnf 4 7\n", "4 0\n"),
        ("coded 0", &[(3, 0)], 72, "p cnf 4 7\n", "-4 0\n"),
        ("with its second child coded", &[(1, 1)], 71, "p cnf 4 7\n", "2 0\n"),
        ("coded 1 with two children coded 0", &[(0, 0), (2, 0), (3, 1)], 81, "p cnf 4 9\n", "-1 0\n-3 0\n4 0\n"),
    ] {
        l.exported(&format!("a voter {name}"), &alone(VOTER, 3, codes), length, &[head, lines, units].concat());
    }
    l.exported(
        "voters over inputs after other gates",
        &mixed_voters(),
        139,
        "p cnf 6 14\n\
         -2 -1 0\n2 1 0\n\
         -4 1 2 0\n-4 1 3 0\n-4 2 3 0\n4 -1 -2 0\n4 -1 -3 0\n4 -2 -3 0\n\
         -6 2 4 0\n-6 2 5 0\n-6 4 5 0\n6 -2 -4 0\n6 -2 -5 0\n6 -4 -5 0\n",
    );
    l.exported(
        "every kind, an inner voter and the last gate coded",
        &every_kind(&[(5, 0), (8, 1)]),
        243,
        "p cnf 9 27\n\
         -4 1 2 0\n-4 1 3 0\n-4 2 3 0\n4 -1 -2 0\n4 -1 -3 0\n4 -2 -3 0\n\
         -5 -4 0\n5 4 0\n\
         -6 1 4 0\n-6 1 5 0\n-6 4 5 0\n6 -1 -4 0\n6 -1 -5 0\n6 -4 -5 0\n\
         -7 4 6 0\n-7 -4 -6 0\n7 4 -6 0\n7 -4 6 0\n\
         -8 5 0\n-8 6 0\n-8 7 0\n8 -5 -6 -7 0\n\
         -9 7 8 0\n9 -7 0\n9 -8 0\n\
         -6 0\n9 0\n",
    );
}

/// Memory that is longer than the text keeps its surplus, and shorter memory gives 16 and stays as it was.
fn memories(l: &mut List) {
    let text = ["p cnf 8 18\n", ADDER_LINES, "8 0\n"].concat();
    let adder = adder();
    for (name, room) in [("one byte", 163), ("two bytes", 164), ("14 bytes", 176), ("256 bytes", 418)] {
        l.export(&format!("adder, surplus of {name}"), &adder, room, &written(162, &text, room - 162));
    }
    l.export("adder, the largest memory", &adder, 2048, &written(162, &text, 1886));
    l.export("one input, no code, surplus", &inputs(1, &[]), 12, &written(10, "p cnf 1 0\n", 2));
    for room in [161, 160, 158, 100, 68, 11, 10, 8, 1, 0] {
        l.unwritten(&format!("gives 16, adder and memory of {room}"), 16, &adder, room);
    }
    l.unwritten("gives 16, one input, no code, memory of 9", 16, &inputs(1, &[]), 9);
    l.unwritten("gives 16, one input, no code, no memory", 16, &inputs(1, &[]), 0);
    l.unwritten("gives 16, one input, code 0, memory of 14, enough for code 1", 16, &inputs(1, &[(0, 0)]), 14);
    l.unwritten("gives 16, a voter coded 0, memory of 71", 16, &alone(VOTER, 3, &[(3, 0)]), 71);
    l.unwritten("gives 16, adder with a coded child, memory for the text without it", 16, &map(&ADDER, &[(4, 1)]), 158);
}

/// The chain of 100 gates: gate g is a NOT of gate g - 1, and the last is coded 1.
fn chain_text() -> String {
    let nots: Vec<String> = (2..=100).map(|g| format!("-{g} -{0} 0\n{g} {0} 0\n", g - 1)).collect();
    format!("p cnf 100 199\n{}100 0\n", nots.concat())
}

/// Variables of two, three and four digits. A byte more or less of a memory shows a length that is wrong by a digit.
fn digits_of_variables(l: &mut List) {
    l.exported(
        "an AND of nine and ten",
        &build(&[vec![(INPUT, vec![]); 10], vec![(AND, vec![8, 9])]].concat(), &[(9, 0), (10, 1)]),
        51,
        "p cnf 11 5\n-11 9 0\n-11 10 0\n11 -9 -10 0\n-10 0\n11 0\n",
    );
    // 14 bytes of head; lines of a NOT are 14 bytes up to variable 9, 16 at 10, 18 up to 99 and 20 at 100: 8 * 14 + 16 + 89 * 18 + 20 + 6.
    l.exported("a chain of 100 gates", &chain(100), 1770, &chain_text());
    l.unwritten("gives 16, a chain of 100 gates and memory of 1,769", 16, &chain(100), 1769);
    l.unwritten("gives 16, a chain of 100 gates and memory of 234 (low byte)", 16, &chain(100), 234);
    // 15 bytes of head; units of 4 bytes at variables 1 and 9, of 5 at 11 more, of 6 at 112 and of 7 at 3.
    let units: Vec<String> = (0..128).map(|k| format!("{} 0\n", 8 * k + 1)).collect();
    l.exported("1,024 inputs, every eighth coded", &thousand_inputs(), 771, &format!("p cnf 1024 128\n{}", units.concat()));
    let mut gates = vec![(INPUT, vec![]); 998];
    gates.extend([(NOT, vec![997]), (XOR, vec![0, 998]), (VOTER, vec![9, 99, 999]), (AND, vec![8, 98, 998, 1000])]);
    l.exported(
        "gates about the thousandth",
        &build(&gates, &[(98, 1), (99, 0), (998, 0), (999, 1)]),
        290,
        "p cnf 1002 21\n\
         -999 -998 0\n999 998 0\n\
         -1000 1 999 0\n-1000 -1 -999 0\n1000 1 -999 0\n1000 -1 999 0\n\
         -1001 10 100 0\n-1001 10 1000 0\n-1001 100 1000 0\n1001 -10 -100 0\n1001 -10 -1000 0\n1001 -100 -1000 0\n\
         -1002 9 0\n-1002 99 0\n-1002 999 0\n-1002 1001 0\n1002 -9 -99 -999 -1001 0\n\
         99 0\n-100 0\n-999 0\n1000 0\n",
    );
    l.unwritten("gives 16, a chain of 300 gates and the largest memory", 16, &chain(300), 2048);
}

/// Each number of a map, with memory that is enough for the adder's text.
pub(super) fn refused(l: &mut List) {
    let adder = adder();
    l.unwritten("gives 1, empty map", 1, &[], 162);
    l.unwritten("gives 1, 11 bytes", 1, &adder[..11], 162);
    l.unwritten("gives 2, 0 gates", 2, &header([12, 0, 12, 0, 12, 0]), 162);
    l.unwritten("gives 2, 1,025 gates", 2, &with16(&adder, 2, 1025), 162);
    l.unwritten("gives 3, one byte too long", 3, &[&adder[..], &[0]].concat(), 162);
    l.unwritten("gives 3, wrapped third offset", 3, &[header([12, 1, 16, 32768, 16, 0]), vec![0; 4]].concat(), 162);
    l.unwritten("gives 4, kind 6 at the last gate", 4, &with(&adder, 40, 6), 162);
    l.unwritten("gives 4, fan-in 9", 4, &over(9, OR), 162);
    l.unwritten("gives 4, a voter of two", 4, &alone(VOTER, 2, &[]), 162);
    l.unwritten("gives 5, position wrong at the last gate", 5, &with(&adder, 42, 7), 162);
    l.unwritten("gives 6, child equal to its gate", 6, &with(&adder, 62, 7), 162);
    l.unwritten("gives 7, value 2", 7, &with(&adder, 66, 2), 162);
    l.unwritten("gives 7, zero byte 1", 7, &with(&adder, 67, 1), 162);
    l.unwritten("gives 7, two codes on one gate", 7, &map(&ADDER, &[(7, 1), (7, 1)]), 200);
}

/// The map's numbers come before 16, and among them the smallest.
pub(super) fn precedence(l: &mut List) {
    let adder = adder();
    l.unwritten("gives 1, before all: no bytes anywhere", 1, &[], 0);
    l.unwritten("gives 1, before 2: 11 zeros", 1, &[0; 11], 162);
    l.unwritten("gives 1, before 16: 11 bytes and memory of 161", 1, &adder[..11], 161);
    l.unwritten("gives 2, before 16: 0 gates and no memory", 2, &header([12, 0, 12, 0, 12, 0]), 0);
    l.unwritten("gives 2, before 3: 1,025 gates and a byte too many", 2, &[&with16(&adder, 2, 1025)[..], &[0]].concat(), 0);
    l.unwritten("gives 3, before 4: kind 6 and a byte too many", 3, &[&with(&adder, 12, 6)[..], &[0]].concat(), 161);
    l.unwritten("gives 3, before 16: a byte too few and no memory", 3, &adder[..67], 0);
    l.unwritten("gives 4, before 5: kind 6 at the last gate, position wrong at gate 0", 4, &with(&with(&adder, 40, 6), 14, 1), 9);
    l.unwritten("gives 4, before 16: kind 6 and no memory", 4, &with(&adder, 40, 6), 0);
    l.unwritten("gives 5, before 6: position wrong at the last gate, equal children at gate 3", 5, &with(&with(&adder, 42, 7), 46, 0), 162);
    l.unwritten("gives 5, before 16: position wrong and memory of 161", 5, &with(&adder, 42, 7), 161);
    l.unwritten("gives 6, before 7: equal children at the last gate, value 2", 6, &with(&with(&adder, 62, 4), 66, 2), 162);
    l.unwritten("gives 6, before 16: child equal to its gate and no memory", 6, &with(&adder, 62, 7), 0);
    l.unwritten("gives 7, before 16: value 2 and memory of 161", 7, &with(&adder, 66, 2), 161);
    l.unwritten("gives 7, before 16: zero byte 1 and no memory", 7, &with(&adder, 67, 1), 0);
}
