//! Check and Children.

use super::*;

pub(super) fn accepted(l: &mut List) {
    l.check("adder", &adder(), "OK 8 3 10 1");
    l.check("adder without codes", &map(&ADDER, &[]), "OK 8 3 10 0");
    l.check("adder with two codes", &map(&ADDER, &[(6, 0), (7, 1)]), "OK 8 3 10 2");
    l.check("one input, no code (P10)", &inputs(1, &[]), "OK 1 1 0 0");
    l.check("one coded input", &inputs(1, &[(0, 1)]), "OK 1 1 0 1");
    l.check("P9's map", &p9(), "OK 3 1 3 1");
    l.check("P11's map", &p11(), "OK 5 2 5 1");
    l.check("inputs after other gates", &mixed(), "OK 6 3 5 0");
    l.check(
        "a coded input that is nobody's child",
        &map(&[(INPUT, &[]), (INPUT, &[]), (NOT, &[0])], &[(1, 1), (2, 0)]),
        "OK 3 2 1 2",
    );
    l.check("fan-in 8 for AND", &over(8, AND), "OK 9 8 8 0");
    l.check("fan-in 8 for OR", &over(8, OR), "OK 9 8 8 0");
    l.check("fan-in 2 for AND", &over(2, AND), "OK 3 2 2 0");
    l.check("fan-in 2 for OR", &over(2, OR), "OK 3 2 2 0");
    l.check("fan-in 2 to 8 for AND and OR", &fans(), "OK 22 8 70 0");
    l.check("exactly 1,024 gates", &inputs(1024, &[]), "OK 1024 1024 0 0");
    l.check("chain of 300 gates", &chain(300), "OK 300 1 299 1");
    l.check("the longest map: 1,024 gates, all coded, and 8,156 children", &full(), "OK 1024 1 8156 1024");
    coded_children(l);
}

/// "a coded gate may now be a child" (F-1).
fn coded_children(l: &mut List) {
    l.check("coded gate in the middle", &map(&ADDER, &[(3, 1)]), "OK 8 3 10 1");
    l.check("coded input with a parent", &map(&ADDER, &[(0, 1)]), "OK 8 3 10 1");
    l.check("second code on the last child", &map(&ADDER, &[(5, 1), (7, 1)]), "OK 8 3 10 2");
    l.check("the smallest map that is Stuck", &smallest_stuck(), "OK 2 1 1 2");
    l.check(
        "last of three codes on a child",
        &map(&[(INPUT, &[]), (INPUT, &[]), (INPUT, &[]), (NOT, &[2])], &[(0, 1), (1, 1), (2, 1)]),
        "OK 4 3 1 3",
    );
    let every: Vec<(u16, u8)> = (0..8).map(|gate| (gate, 0)).collect();
    l.check("adder with every gate coded", &map(&ADDER, &every), "OK 8 3 10 8");
    let late = chain(300);
    let late = with16(&late, late.len() - 4, 298);
    l.check("code 298 of a chain of 300 gates", &late, "OK 300 1 299 1");
}

/// Each number.
pub(super) fn refused(l: &mut List) {
    contents(l);
    offsets(l);
    wrong_lengths(l);
    kinds(l);
    positions(l);
    children_refused(l);
    codes(l);
}

/// Numbers 1 and 2.
fn contents(l: &mut List) {
    let adder = adder();
    l.check("gives 1, empty map", &[], "REFUSED 1");
    l.check("gives 1, one byte", &[12], "REFUSED 1");
    l.check("gives 1, adder cut to 11 bytes", &adder[..11], "REFUSED 1");
    l.check("gives 1, 11 bytes of 255", &[255; 11], "REFUSED 1");

    l.check("gives 2, header of 12 zeros", &[0; 12], "REFUSED 2");
    l.check("gives 2, 0 gates in a header of 12 bytes", &header([12, 0, 12, 0, 12, 0]), "REFUSED 2");
    l.check("gives 2, 0 gates and a child", &raw(&[], &[0], &[]), "REFUSED 2");
    l.check("gives 2, 0 gates and a code", &raw(&[], &[], &[(0, 0, 0)]), "REFUSED 2");
    l.check("gives 2, 1,025 gates with all else right", &inputs(1025, &[]), "REFUSED 2");
    l.check("gives 2, 1,025 gates in a bare header", &header([12, 1025, 4112, 0, 4112, 0]), "REFUSED 2");
    l.check("gives 2, 1,280 gates (low byte 0)", &header([12, 1280, 5132, 0, 5132, 0]), "REFUSED 2");
    l.check("gives 2, 65,535 gates", &header([12, 65535, 8, 0, 8, 0]), "REFUSED 2");
    l.check("gives 2, header of 12 bytes of 255", &[255; 12], "REFUSED 2");
}

/// Number 3: offsets and counts in the contents.
fn offsets(l: &mut List) {
    let adder = adder();
    for (name, at, number) in [
        ("first offset 0", 0, 0),
        ("first offset 11", 0, 11),
        ("first offset 13", 0, 13),
        ("first offset 268 (low byte right)", 0, 268),
        ("second offset 0", 4, 0),
        ("second offset 42", 4, 42),
        ("second offset 45", 4, 45),
        ("second offset 300 (low byte right)", 4, 300),
        ("third offset 0", 8, 0),
        ("third offset 62", 8, 62),
        ("third offset 65", 8, 65),
        ("third offset 320 (low byte right)", 8, 320),
        ("one gate less in the contents", 2, 7),
        ("one gate more in the contents", 2, 9),
        ("one child less in the contents", 6, 9),
        ("one child more in the contents", 6, 11),
        ("no code in the contents", 10, 0),
        ("two codes in the contents", 10, 2),
    ] {
        l.check(&format!("gives 3, {name}"), &with16(&adder, at, number), "REFUSED 3");
    }
    l.check("gives 3, one byte cut off", &adder[..67], "REFUSED 3");
}

/// Number 3: the length, and contents that wrap.
fn wrong_lengths(l: &mut List) {
    let adder = adder();
    l.check("gives 3, the code cut off", &adder[..64], "REFUSED 3");
    l.check("gives 3, adder cut to its contents", &adder[..12], "REFUSED 3");
    l.check("gives 3, one byte too long", &[&adder[..], &[0]].concat(), "REFUSED 3");
    l.check("gives 3, four bytes too long", &[&adder[..], &[0; 4]].concat(), "REFUSED 3");
    l.check("gives 3, 1 gate and no body", &header([12, 1, 16, 0, 16, 0]), "REFUSED 3");
    let one = |six| [header(six), vec![0; 4]].concat();
    l.check("gives 3, offsets of a gap", &[header([12, 1, 18, 0, 18, 0]), vec![0; 6]].concat(), "REFUSED 3");
    l.check(
        "gives 3, 1 gate and 32,768 children, third offset wraps modulo 65,536",
        &one([12, 1, 16, 32768, 16, 0]),
        "REFUSED 3",
    );
    l.check(
        "gives 3, 1 gate and 16,384 codes, length wraps modulo 65,536",
        &one([12, 1, 16, 0, 16, 16384]),
        "REFUSED 3",
    );
    l.check(
        "gives 3, 1 gate and 32,767 children, third offset 65,550 as 14",
        &one([12, 1, 16, 32767, 14, 0]),
        "REFUSED 3",
    );
    l.check(
        "gives 3, 1 gate, all other counts 65,535",
        &one([12, 1, 16, 65535, 14, 65535]),
        "REFUSED 3",
    );
}

/// Number 4.
fn kinds(l: &mut List) {
    let adder = adder();
    l.check("gives 4, kind 6 of the only gate", &raw(&[(6, 0, 0)], &[], &[]), "REFUSED 4");
    l.check("gives 4, kind 6 with fan-in 2", &with(&adder, 24, 6), "REFUSED 4");
    l.check("gives 4, kind 6 of the last gate", &with(&adder, 40, 6), "REFUSED 4");
    l.check("gives 4, kind 255", &with(&adder, 40, 255), "REFUSED 4");
    l.check("gives 4, kind 128 of an input", &with(&adder, 12, 128), "REFUSED 4");
    l.check("gives 4, fan-in 9 for AND", &over(9, AND), "REFUSED 4");
    l.check("gives 4, fan-in 9 for OR", &over(9, OR), "REFUSED 4");
    l.check("gives 4, fan-in 1 for AND", &over(1, AND), "REFUSED 4");
    l.check("gives 4, fan-in 1 for OR", &over(1, OR), "REFUSED 4");
    l.check("gives 4, fan-in 0 for AND", &map(&[(INPUT, &[]), (AND, &[])], &[]), "REFUSED 4");
    l.check("gives 4, fan-in 0 for OR", &map(&[(INPUT, &[]), (OR, &[])], &[]), "REFUSED 4");
    l.check("gives 4, fan-in 255 for OR", &over(255, OR), "REFUSED 4");
    l.check("gives 4, fan-in 0 for NOT", &map(&[(INPUT, &[]), (NOT, &[])], &[]), "REFUSED 4");
    l.check("gives 4, fan-in 2 for NOT", &over(2, NOT), "REFUSED 4");
    l.check("gives 4, fan-in 0 for XOR", &map(&[(INPUT, &[]), (XOR, &[])], &[]), "REFUSED 4");
    l.check("gives 4, fan-in 1 for XOR", &over(1, XOR), "REFUSED 4");
    l.check("gives 4, fan-in 3 for XOR", &over(3, XOR), "REFUSED 4");
    l.check("gives 4, fan-in 1 for an input", &over(1, INPUT), "REFUSED 4");
    l.check("gives 4, fan-in 2 for an input", &over(2, INPUT), "REFUSED 4");
}

/// Number 5.
fn positions(l: &mut List) {
    let adder = adder();
    l.check("gives 5, first child position of gate 0 is 1", &with(&adder, 14, 1), "REFUSED 5");
    l.check("gives 5, high byte of a first child position", &with(&adder, 27, 1), "REFUSED 5");
    l.check("gives 5, last first child position one low", &with(&adder, 42, 7), "REFUSED 5");
    l.check("gives 5, last first child position one high", &with(&adder, 42, 9), "REFUSED 5");
    l.check("gives 5, an input after a NOT with position 0", &with(&mixed(), 22, 0), "REFUSED 5");
    l.check("gives 5, one child too many", &raw(&[(0, 0, 0), (1, 1, 0)], &[0, 0], &[]), "REFUSED 5");
    l.check("gives 5, one child too few", &raw(&[(0, 0, 0), (1, 1, 0)], &[], &[]), "REFUSED 5");
    l.check("gives 5, an input and a child", &raw(&[(0, 0, 0)], &[0], &[]), "REFUSED 5");
    l.check("gives 5, fan-in raised within bounds", &with(&adder, 33, 3), "REFUSED 5");
    l.check(
        "gives 5, two gates share their children",
        &raw(&[(0, 0, 0), (0, 0, 0), (2, 2, 0), (3, 2, 0)], &[0, 1], &[]),
        "REFUSED 5",
    );
    l.check(
        "gives 5, children of two gates in turned order",
        &raw(&[(0, 0, 0), (1, 1, 1), (1, 1, 0)], &[0, 0], &[]),
        "REFUSED 5",
    );
}

/// Number 6.
fn children_refused(l: &mut List) {
    let adder = adder();
    l.check("gives 6, equal children of an AND", &with(&adder, 50, 0), "REFUSED 6");
    l.check("gives 6, equal children of an XOR", &with(&adder, 46, 0), "REFUSED 6");
    l.check(
        "gives 6, equal children at places 7 and 8 of an OR",
        &with(&over(8, OR), 12 + 36 + 14, 6),
        "REFUSED 6",
    );
    l.check(
        "gives 6, descending children",
        &map(&[(INPUT, &[]), (INPUT, &[]), (XOR, &[1, 0])], &[]),
        "REFUSED 6",
    );
    l.check(
        "gives 6, third child below the second and above the first",
        &map(&[(INPUT, &[]), (INPUT, &[]), (INPUT, &[]), (OR, &[0, 2, 1])], &[]),
        "REFUSED 6",
    );
    l.check(
        "gives 6, child equal to its gate",
        &map(&[(INPUT, &[]), (NOT, &[1])], &[]),
        "REFUSED 6",
    );
    l.check("gives 6, last child equal to its gate", &with(&adder, 62, 7), "REFUSED 6");
    l.check(
        "gives 6, child above its gate",
        &map(&[(INPUT, &[]), (NOT, &[2]), (INPUT, &[])], &[]),
        "REFUSED 6",
    );
    l.check("gives 6, child past the last gate", &with(&adder, 62, 8), "REFUSED 6");
    l.check("gives 6, child 65,535", &with16(&adder, 62, 65535), "REFUSED 6");
    l.check("gives 6, high byte of a child", &with(&adder, 63, 1), "REFUSED 6");
    l.check("gives 6, gate 0 is a NOT of gate 0", &map(&[(NOT, &[0])], &[]), "REFUSED 6");
    l.check("gives 6, gate 0 is a XOR", &map(&[(XOR, &[0, 1]), (INPUT, &[])], &[]), "REFUSED 6");
}

/// Number 7.
fn codes(l: &mut List) {
    let adder = adder();
    l.check("gives 7, equal codes", &map(&ADDER, &[(7, 1), (7, 1)]), "REFUSED 7");
    l.check("gives 7, descending codes", &map(&ADDER, &[(7, 1), (6, 0)]), "REFUSED 7");
    l.check(
        "gives 7, third code between the first two",
        &inputs(6, &[(1, 0), (5, 1), (3, 0)]),
        "REFUSED 7",
    );
    l.check("gives 7, code's gate one past the end", &map(&ADDER, &[(8, 1)]), "REFUSED 7");
    l.check("gives 7, code's gate 65,535", &map(&ADDER, &[(65535, 1)]), "REFUSED 7");
    l.check("gives 7, code's gate 263 (low byte right)", &map(&ADDER, &[(263, 1)]), "REFUSED 7");
    l.check("gives 7, value 2", &with(&adder, 66, 2), "REFUSED 7");
    l.check("gives 7, value 255", &with(&adder, 66, 255), "REFUSED 7");
    l.check("gives 7, zero byte 1", &with(&adder, 67, 1), "REFUSED 7");
    l.check("gives 7, zero byte 128", &with(&adder, 67, 128), "REFUSED 7");
    l.check("gives 7, zero byte 1 of the first of two codes", &with(&inputs(2, &[(0, 1), (1, 1)]), 23, 1), "REFUSED 7");
    l.check("gives 7, two codes on one input", &inputs(1, &[(0, 0), (0, 1)]), "REFUSED 7");
    let more: Vec<(u16, u8)> = (0..301).map(|g| (g, 0)).collect();
    l.check("gives 7, 301 codes on 300 inputs", &inputs(300, &more), "REFUSED 7");
}

/// "Each test runs over all it concerns before the next."
pub(super) fn precedence(l: &mut List) {
    let adder = adder();
    l.check("gives 1, before 2: 11 zeros", &[0; 11], "REFUSED 1");
    l.check("gives 2, before 3: 0 gates and wrong offsets", &with16(&adder, 2, 0), "REFUSED 2");
    l.check("gives 2, before 3: 1,025 gates in the adder", &with16(&adder, 2, 1025), "REFUSED 2");
    l.check("gives 2, before 3: 1,025 gates and first offset 0", &with(&inputs(1025, &[])[..200], 0, 0), "REFUSED 2");
    l.check("gives 3, before 4: kind 6 and a byte too many", &[&with(&adder, 12, 6)[..], &[0]].concat(), "REFUSED 3");
    l.check("gives 3, before 4: kind 6 and first offset 13", &with(&with(&adder, 12, 6), 0, 13), "REFUSED 3");
    l.check("gives 3, before 7: value 2 and a byte too few", &with(&adder, 66, 2)[..67], "REFUSED 3");
    l.check("gives 4, before 5: kind 6 at the last gate, position wrong at gate 0", &with(&with(&adder, 40, 6), 14, 1), "REFUSED 4");
    l.check("gives 4, before 5: fan-in 9 at the last gate makes the count wrong", &with(&adder, 41, 9), "REFUSED 4");
    l.check("gives 4, before 6: kind 6 at the last gate, equal children at gate 3", &with(&with(&adder, 40, 6), 46, 0), "REFUSED 4");
    l.check("gives 5, before 6: position wrong at the last gate, equal children at gate 3", &with(&with(&adder, 42, 7), 46, 0), "REFUSED 5");
    l.check("gives 5, before 6: child count wrong, child equal to its gate", &raw(&[(0, 0, 0), (1, 1, 0)], &[1, 0], &[]), "REFUSED 5");
    l.check("gives 5, before 7: position wrong at the last gate, value 2", &with(&with(&adder, 42, 7), 66, 2), "REFUSED 5");
    l.check("gives 6, before 7: equal children at the last gate, value 2", &with(&with(&adder, 62, 4), 66, 2), "REFUSED 6");
    l.check("gives 6, child equal to its gate is coded", &map(&[(INPUT, &[]), (NOT, &[1])], &[(1, 1)]), "REFUSED 6");
    l.check("gives 7, coded child first, value 2 in the last code", &map(&ADDER, &[(3, 1), (7, 2)]), "REFUSED 7");
    l.check("gives 7, coded child twice", &map(&ADDER, &[(3, 1), (3, 1)]), "REFUSED 7");
    l.check("gives 7, value 2 on a coded child", &map(&ADDER, &[(3, 2)]), "REFUSED 7");

    let coded_child = map(&ADDER, &[(3, 1)]);
    l.evaluate("gives 9, coded child and an empty row", &coded_child, &[], 8, &declined(9, 8));
    l.evaluate("gives 9, before 10: four bytes, one of them 2", &adder, &[0, 2, 0, 0], 9, &declined(9, 9));
    l.evaluate("gives 9, before 14: two bytes and no memory", &adder, &[0, 0], 0, &declined(9, 0));
    l.evaluate("gives 10, before 14: byte 2 and memory of 7 bytes", &adder, &[0, 0, 2], 7, &declined(10, 7));
    l.evaluate("gives 7, before 14: value 2 and memory of 7 bytes", &with(&adder, 66, 2), &[0, 0, 0], 7, &declined(7, 7));
    l.mark("gives 9, coded child and an empty configuration", &coded_child, &[], "REFUSED 9");
    l.mark("gives 9, before 10: nine bytes, one of them 2", &adder, &digits("200000000"), "REFUSED 9");
    l.mark("gives 9, before 10: seven bytes, all of them 255", &adder, &[255; 7], "REFUSED 9");
}

pub(super) fn children(l: &mut List) {
    let adder = adder();
    l.children("of an input", &adder, 0, "CHILDREN");
    l.children("of the last input", &adder, 2, "CHILDREN");
    l.children("of a XOR", &adder, 3, "CHILDREN 0 1");
    l.children("of an AND", &adder, 5, "CHILDREN 2 3");
    l.children("of the last gate", &adder, 7, "CHILDREN 4 5");
    l.children("of a gate one past the end", &adder, 8, "CHILDREN");
    l.children("of gate 259 (low byte 3)", &adder, 259, "CHILDREN");
    l.children("of gate 65,535", &adder, 65535, "CHILDREN");
    l.children("of gate 16,384 (place wraps to the first record)", &adder, 16384, "CHILDREN");
    let mixed = mixed();
    l.children("of a NOT", &mixed, 1, "CHILDREN 0");
    l.children("of an input after a NOT", &mixed, 2, "CHILDREN");
    l.children("of a XOR between inputs", &mixed, 3, "CHILDREN 1 2");
    l.children("of an OR after three inputs", &mixed, 5, "CHILDREN 0 4");
    l.children("of an AND of 8", &wide(), 8, "CHILDREN 0 1 2 3 4 5 6 7");
    l.children("of an OR of 8", &wide(), 9, "CHILDREN 0 1 2 3 4 5 6 7");
    l.children("of an AND of 5", &fans(), 11, "CHILDREN 0 1 2 3 4");
    l.children("of gate 1023 of the chain", &chain(1024), 1023, "CHILDREN 1022");
    l.children("of gate 256 of a chain of 300 gates", &chain(300), 256, "CHILDREN 255");
    l.children("of gate 257 of a chain of 300 gates", &chain(300), 257, "CHILDREN 256");
    l.children("of gate 300 of a chain of 300 gates", &chain(300), 300, "CHILDREN");
    l.children("of the only gate", &inputs(1, &[]), 0, "CHILDREN");

    // A map that Check refuses, for each number.
    l.children("of a map of no bytes", &[], 0, "CHILDREN");
    l.children("of a map refused with 1", &adder[..11], 3, "CHILDREN");
    l.children("of a map refused with 2", &with16(&adder, 2, 0), 3, "CHILDREN");
    l.children("of a map refused with 3", &adder[..67], 3, "CHILDREN");
    l.children("of a map refused with 4", &with(&adder, 40, 6), 3, "CHILDREN");
    l.children("of a map refused with 5", &with(&adder, 42, 7), 3, "CHILDREN");
    l.children("of a map refused with 6", &with(&adder, 62, 7), 3, "CHILDREN");
    l.children("of a map refused with 7", &with(&adder, 66, 2), 3, "CHILDREN");

    // A coded child takes nothing away.
    l.children("of a gate below a coded child", &map(&ADDER, &[(5, 1)]), 3, "CHILDREN 0 1");
    l.children("of a coded child", &map(&ADDER, &[(5, 1)]), 5, "CHILDREN 2 3");
    l.children("that are coded", &smallest_stuck(), 1, "CHILDREN 0");
}
