//! Evaluate.

use super::*;

/// Which of two numbers comes first is asked in `check::precedence`.
pub(super) fn evaluate(l: &mut List) {
    rows(l);
    kinds(l);
    eight(l);
    large(l);
    refused(l);
}

/// The adder with all rows, and inputs that stand after other gates. The code (7 = 1) doesn't matter to Evaluate.
fn rows(l: &mut List) {
    let adder = adder();
    for (row, values) in [
        ("000", "00000000"),
        ("001", "00100010"),
        ("010", "01010010"),
        ("011", "01110101"),
        ("100", "10010010"),
        ("101", "10110101"),
        ("110", "11001001"),
        ("111", "11101011"),
    ] {
        l.evaluate(&format!("adder row {row}, room exact"), &adder, &digits(row), 8, &done(values, 0));
    }
    l.evaluate("adder row 101, one byte of surplus", &adder, &digits("101"), 9, &done("10110101", 1));
    l.evaluate("adder row 110, surplus of 92", &adder, &digits("110"), 100, &done("11001001", 92));
    l.evaluate("adder row 000, the largest room", &adder, &digits("000"), 2048, &done("00000000", 2040));
    l.evaluate("adder without codes", &map(&ADDER, &[]), &digits("011"), 8, &done("01110101", 0));
    l.evaluate("coded child", &map(&ADDER, &[(5, 1)]), &digits("101"), 8, &done("10110101", 0));
    l.evaluate("coded child and coded input, not shown", &map(&ADDER, &[(0, 1), (5, 1)]), &digits("010"), 8, &done("01010010", 0));
    l.evaluate("adder with code 7 = 0 not shown", &map(&ADDER, &[(7, 0)]), &digits("011"), 8, &done("01110101", 0));

    // Inputs that stand after other gates.
    let mixed = mixed();
    l.evaluate("inputs after other gates, row 010", &mixed, &digits("010"), 6, &done("011000", 0));
    l.evaluate("inputs after other gates, row 101", &mixed, &digits("101"), 6, &done("100011", 0));
    l.evaluate("inputs after other gates, row 001", &mixed, &digits("001"), 8, &done("010111", 2));
    l.evaluate("inputs after other gates, row 110", &mixed, &digits("110"), 6, &done("101101", 0));
}

/// Each kind by itself.
fn kinds(l: &mut List) {
    let not = map(&[(INPUT, &[]), (NOT, &[0])], &[]);
    l.evaluate("NOT of 0", &not, &[0], 2, &done("01", 0));
    l.evaluate("NOT of 1", &not, &[1], 2, &done("10", 0));
    for (kind, name, values) in [(AND, "AND", "0001"), (OR, "OR", "0111"), (XOR, "XOR", "0110")] {
        for (row, value) in ["00", "01", "10", "11"].iter().zip(values.chars()) {
            l.evaluate(&format!("{name} of {row}"), &over(2, kind), &digits(row), 3, &done(&format!("{row}{value}"), 0));
        }
    }
    l.evaluate("one input at 0", &inputs(1, &[]), &[0], 1, &done("0", 0));
    l.evaluate("one input at 1", &inputs(1, &[]), &[1], 1, &done("1", 0));
    l.evaluate("one input, coded 1, at 0", &inputs(1, &[(0, 1)]), &[0], 1, &done("0", 0));
}

/// AND of 8 and OR of 8.
fn eight(l: &mut List) {
    let wide = wide();
    l.evaluate("AND and OR of 8, all 0", &wide, &[0; 8], 10, &done("00000000 0 0", 0));
    l.evaluate("AND and OR of 8, all 1", &wide, &[1; 8], 10, &done("11111111 1 1", 0));
    for row in ["10000000", "01000000", "00100000", "00010000", "00001000", "00000100", "00000010", "00000001"] {
        l.evaluate(&format!("AND and OR of 8, row {row}"), &wide, &digits(row), 10, &done(&format!("{row} 0 1"), 0));
    }
    for row in ["01111111", "10111111", "11011111", "11101111", "11110111", "11111011", "11111101", "11111110"] {
        l.evaluate(&format!("AND and OR of 8, row {row}"), &wide, &digits(row), 10, &done(&format!("{row} 0 1"), 0));
    }
    let fans = fans();
    l.evaluate("fan-ins 2 to 8, row 00000001", &fans, &digits("00000001"), 22, &done("00000001 0000000 0000001", 0));
    l.evaluate("fan-ins 2 to 8, row 11110111", &fans, &digits("11110111"), 22, &done("11110111 1110000 1111111", 0));
    l.evaluate("fan-ins 2 to 8, row 00001000", &fans, &digits("00001000"), 22, &done("00001000 0000000 0001111", 0));
}

/// Large maps.
fn large(l: &mut List) {
    l.evaluate("chain of 1,024 gates, row 0", &chain(1024), &[0], 1024, &done(&"01".repeat(512), 0));
    l.evaluate("chain of 300 gates, row 1, surplus", &chain(300), &[1], 306, &done(&"10".repeat(150), 6));
    l.evaluate("gives 14, chain of 300 gates and memory of 299 bytes", &chain(300), &[0], 299, &declined(14, 299));
    l.evaluate("gives 14, chain of 300 gates and memory of 44 bytes (low byte)", &chain(300), &[0], 44, &declined(14, 44));
    l.evaluate("1,024 inputs", &inputs(1024, &[]), &digits(&"0110".repeat(256)), 1024, &done(&"0110".repeat(256), 0));
    l.evaluate("gives 9, 259 bytes for 260 inputs", &inputs(260, &[]), &[1; 259], 260, &declined(9, 260));
    l.evaluate("gives 9, 261 bytes for 260 inputs", &inputs(260, &[]), &[1; 261], 260, &declined(9, 260));
    l.evaluate("gives 9, 4 bytes for 260 inputs (low byte)", &inputs(260, &[]), &[1; 4], 260, &declined(9, 260));
    l.evaluate("gives 10, last of 260 bytes", &inputs(260, &[]), &[vec![1; 259], vec![2]].concat(), 260, &declined(10, 260));
}

/// Each number, with patterned memory.
fn refused(l: &mut List) {
    let adder = adder();
    let mixed = mixed();
    let row = digits("101");
    l.evaluate("gives 1, empty map", &[], &row, 8, &declined(1, 8));
    l.evaluate("gives 1, empty map and no memory", &[], &[], 0, &declined(1, 0));
    l.evaluate("gives 1, 11 bytes", &adder[..11], &row, 8, &declined(1, 8));
    l.evaluate("gives 2, 0 gates", &header([12, 0, 12, 0, 12, 0]), &[], 8, &declined(2, 8));
    l.evaluate("gives 2, 0 gates and no memory", &header([12, 0, 12, 0, 12, 0]), &[], 0, &declined(2, 0));
    l.evaluate("gives 2, 1,025 gates", &with16(&adder, 2, 1025), &row, 8, &declined(2, 8));
    l.evaluate("gives 3, one byte too long", &[&adder[..], &[0]].concat(), &row, 8, &declined(3, 8));
    l.evaluate("gives 3, wrapped third offset", &[header([12, 1, 16, 32768, 16, 0]), vec![0; 4]].concat(), &[1], 4, &declined(3, 4));
    l.evaluate("gives 4, kind 6 at the last gate", &with(&adder, 40, 6), &row, 8, &declined(4, 8));
    l.evaluate("gives 4, fan-in 9", &over(9, OR), &[1; 9], 10, &declined(4, 10));
    l.evaluate("gives 5, position wrong at the last gate", &with(&adder, 42, 7), &row, 8, &declined(5, 8));
    l.evaluate("gives 6, child equal to its gate", &with(&adder, 62, 7), &row, 8, &declined(6, 8));
    l.evaluate("gives 7, zero byte 1", &with(&adder, 67, 1), &row, 8, &declined(7, 8));
    l.evaluate("gives 9, empty row", &adder, &[], 8, &declined(9, 8));
    l.evaluate("gives 9, two bytes", &adder, &digits("10"), 8, &declined(9, 8));
    l.evaluate("gives 9, four bytes", &adder, &digits("1010"), 8, &declined(9, 8));
    l.evaluate("gives 9, a configuration for a row", &adder, &digits("11001001"), 8, &declined(9, 8));
    l.evaluate("gives 10, first byte 2", &adder, &[2, 0, 0], 8, &declined(10, 8));
    l.evaluate("gives 10, last byte 255", &adder, &[1, 0, 255], 12, &declined(10, 12));
    l.evaluate("gives 14, no memory", &adder, &row, 0, &declined(14, 0));
    l.evaluate("gives 14, memory of 1 byte", &adder, &row, 1, &declined(14, 1));
    l.evaluate("gives 14, memory of 7 bytes", &adder, &row, 7, &declined(14, 7));
    l.evaluate("gives 14, memory for the inputs only", &mixed, &row, 3, &declined(14, 3));
    l.evaluate("gives 14, one input and no memory", &inputs(1, &[]), &[0], 0, &declined(14, 0));
}
