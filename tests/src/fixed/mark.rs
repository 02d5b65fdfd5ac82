//! Mark.

use super::*;

/// Which of two numbers comes first is asked in `check::precedence`.
pub(super) fn mark(l: &mut List) {
    full_adder(l);
    kinds(l);
    large(l);
    refused(l);
}

/// The adder with and without codes.
fn full_adder(l: &mut List) {
    let adder = adder();
    l.mark("configuration A (P12)", &adder, &digits("00110101"), "NO");
    l.mark("configuration B", &adder, &digits("11111001"), "NO");
    l.mark("configuration C", &adder, &digits("00100001"), "NO");
    l.mark("adder, row 011", &adder, &digits("01110101"), "YES");
    l.mark("adder, row 101", &adder, &digits("10110101"), "YES");
    l.mark("adder, row 110", &adder, &digits("11001001"), "YES");
    l.mark("adder, row 111", &adder, &digits("11101011"), "YES");
    l.mark("adder, row 000 obeys the gates and not the code", &adder, &digits("00000000"), "NO");
    l.mark("adder, row 100 obeys the gates and not the code", &adder, &digits("10010010"), "NO");
    l.mark("adder, code 7 = 0, row 000", &map(&ADDER, &[(7, 0)]), &digits("00000000"), "YES");
    l.mark("adder, code 7 = 0, row 110", &map(&ADDER, &[(7, 0)]), &digits("11001001"), "NO");
    l.mark("adder without codes, row 000", &map(&ADDER, &[]), &digits("00000000"), "YES");
    l.mark("adder without codes, row 110", &map(&ADDER, &[]), &digits("11001001"), "YES");
    l.mark("adder without codes, configuration A", &map(&ADDER, &[]), &digits("00110101"), "NO");
    l.mark("adder with two codes, both kept", &map(&ADDER, &[(6, 0), (7, 1)]), &digits("11001001"), "YES");
    l.mark("adder with two codes, the first broken", &map(&ADDER, &[(6, 0), (7, 1)]), &digits("11101011"), "NO");
    l.mark("adder with two codes, the second broken", &map(&ADDER, &[(6, 0), (7, 1)]), &digits("00000000"), "NO");
    l.mark("adder with a coded child, shown", &map(&ADDER, &[(4, 1)]), &digits("11001001"), "YES");
    l.mark("adder with a coded child, not shown", &map(&ADDER, &[(4, 1)]), &digits("10110101"), "NO");
    l.mark("adder with a coded child, shown by a gate that is wrong", &map(&ADDER, &[(4, 1)]), &digits("10111101"), "NO");
    l.mark("adder with a coded input below it, not shown", &map(&ADDER, &[(0, 0), (4, 1)]), &digits("11001001"), "NO");
    for (gate, configuration) in [
        "01001001", "10001001", "11101001", "11011001", "11000001", "11001101", "11001011", "11001000",
    ]
    .iter()
    .enumerate()
    {
        l.mark(&format!("adder, row 110 with gate {gate} turned"), &adder, &digits(configuration), "NO");
    }
}

/// Other maps and kinds.
fn kinds(l: &mut List) {
    let mixed = mixed();
    l.mark("inputs after other gates, row 010", &mixed, &digits("011000"), "YES");
    l.mark("inputs after other gates, row 101", &mixed, &digits("100011"), "YES");
    l.mark("inputs after other gates, NOT wrong", &mixed, &digits("001100"), "NO");
    l.mark("one input, no code, at 0", &inputs(1, &[]), &[0], "YES");
    l.mark("one input, no code, at 1", &inputs(1, &[]), &[1], "YES");
    l.mark("one input, code 1, at 1", &inputs(1, &[(0, 1)]), &[1], "YES");
    l.mark("one input, code 1, at 0", &inputs(1, &[(0, 1)]), &[0], "NO");
    l.mark("one input, code 0, at 0", &inputs(1, &[(0, 0)]), &[0], "YES");
    l.mark("one input, code 0, at 1", &inputs(1, &[(0, 0)]), &[1], "NO");
    let p9 = p9();
    l.mark("P9's map can't be satisfied, 0 1 0", &p9, &digits("010"), "NO");
    l.mark("P9's map can't be satisfied, 1 1 1", &p9, &digits("111"), "NO");
    let wide = wide();
    l.mark("AND and OR of 8, all 1", &wide, &digits("1111111111"), "YES");
    l.mark("AND of 8 at 1 with the last child 0", &wide, &digits("1111111011"), "NO");
    l.mark("OR of 8 at 0 with the last child 1", &wide, &digits("0000000100"), "NO");
    l.mark("OR of 8 at 1 with all children 0", &wide, &digits("0000000001"), "NO");
    l.mark("AND of 8 at 0 with all children 1", &wide, &digits("1111111101"), "NO");
    l.mark("XOR of 1 1 at 1", &over(2, XOR), &digits("111"), "NO");
    l.mark("XOR of 1 1 at 0", &over(2, XOR), &digits("110"), "YES");
}

/// Large maps.
fn large(l: &mut List) {
    let coded: Vec<(u16, u8)> = (0..1024).map(|g| (g, (g % 2) as u8)).collect();
    l.mark("300 coded inputs, all kept", &inputs(300, &coded[..300]), &digits(&"01".repeat(150)), "YES");
    l.mark("300 coded inputs, gate 256 broken", &inputs(300, &coded[..300]), &digits(&format!("{}11{}", "01".repeat(128), "01".repeat(21))), "NO");
    l.mark("1,024 coded inputs, the last broken", &inputs(1024, &coded), &digits(&format!("{}00", "01".repeat(511))), "NO");
    l.mark("chain of 1,024 gates, code kept", &chain(1024), &digits(&"01".repeat(512)), "YES");
    l.mark("chain of 300 gates, code broken", &chain(300), &digits(&"10".repeat(150)), "NO");
    l.mark("chain of 300 gates, only the last two wrong", &chain(300), &digits(&format!("{}11", "01".repeat(149))), "NO");
    l.mark("gives 9, 44 bytes for 300 gates (low byte)", &chain(300), &digits(&"01".repeat(22)), "REFUSED 9");
}

/// Each number.
fn refused(l: &mut List) {
    let adder = adder();
    let key = digits("11001001");
    l.mark("gives 1, empty map", &[], &[], "REFUSED 1");
    l.mark("gives 1, 11 bytes", &adder[..11], &key, "REFUSED 1");
    l.mark("gives 2, 0 gates", &header([12, 0, 12, 0, 12, 0]), &[], "REFUSED 2");
    l.mark("gives 2, 1,025 gates", &with16(&adder, 2, 1025), &key, "REFUSED 2");
    l.mark("gives 3, one byte too long", &[&adder[..], &[0]].concat(), &key, "REFUSED 3");
    l.mark("gives 4, kind 6 at the last gate", &with(&adder, 40, 6), &key, "REFUSED 4");
    l.mark("gives 5, position wrong at the last gate", &with(&adder, 42, 7), &key, "REFUSED 5");
    l.mark("gives 6, child equal to its gate", &with(&adder, 62, 7), &key, "REFUSED 6");
    l.mark("gives 7, value 2", &with(&adder, 66, 2), &key, "REFUSED 7");
    l.mark("gives 9, empty configuration", &adder, &[], "REFUSED 9");
    l.mark("gives 9, seven bytes", &adder, &digits("1100100"), "REFUSED 9");
    l.mark("gives 9, nine bytes", &adder, &digits("110010010"), "REFUSED 9");
    l.mark("gives 9, a row for a configuration", &adder, &digits("110"), "REFUSED 9");
    l.mark("gives 10, first byte 2", &adder, &digits("21001001"), "REFUSED 10");
    l.mark("gives 10, last byte 2 on the coded gate", &adder, &digits("11001002"), "REFUSED 10");
    l.mark("gives 10, byte 255 after a gate that is wrong", &adder, &[1, 1, 0, 1, 1, 0, 255, 1], "REFUSED 10");
}
