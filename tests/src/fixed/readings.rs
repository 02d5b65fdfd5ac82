//! More cases of every call on which wrong readings show.

use super::*;
use crate::frame::lengths_of;

pub(super) fn readings(l: &mut List) {
    accepted_maps(l);
    refused_maps(l);
    children(l);
    rows_and_marks(l);
    surveys(l);
    options(l);
    choices(l);
    refused_moves(l);
    runs(l);
}

fn accepted_maps(l: &mut List) {
    l.check("NOT of an AND", &nand(), "OK 4 2 3 1");
    l.check("an input behind a NOT", &gap(), "OK 4 2 3 1");
    l.check("OR of 3, coded", &shown(3, OR, 1), "OK 4 3 3 1");
    l.check("OR of two inputs and the AND between them", &tie(), "OK 5 3 5 1");
    l.check("three coded NOTs", &three_nots(), "OK 6 3 3 3");
    l.check("AND of 8, coded", &shown(8, AND, 1), "OK 9 8 8 1");
    l.check("codes on a NOT and an AND", &two_codes(), "OK 5 2 5 2");
    l.check("adder with its code on gate 6", &map(&ADDER, &[(6, 1)]), "OK 8 3 10 1");
}

fn refused_maps(l: &mut List) {
    let (adder, gap, wide, codes) = (adder(), gap(), shown(8, AND, 1), two_codes());
    l.check("gives 3, 1,024 gates in the adder's contents", &with16(&adder, 2, 1024), "REFUSED 3");
    for (name, map, at, fan_in) in [
        ("fan-in 1 for an input of the adder", &adder, 13, 1),
        ("fan-in 3 for a XOR of the adder", &adder, 25, 3),
        ("fan-in 1 for an AND of the adder", &adder, 29, 1),
        ("fan-in 1 for the OR of the adder", &adder, 41, 1),
        ("fan-in 2 for a NOT before an input", &gap, 17, 2),
        ("fan-in 9 in the record of an AND of 8", &wide, 45, 9),
    ] {
        l.check(&format!("gives 4, {name}"), &with(map, at, fan_in), "REFUSED 4");
    }
    l.check("gives 4, before 5: kind 6 at the last gate, position wrong at gate 3", &with(&with(&adder, 40, 6), 26, 1), "REFUSED 4");
    l.check("gives 5, fan-in 3 for the OR of the adder makes the total wrong", &with(&adder, 41, 3), "REFUSED 5");
    l.check("gives 5, an input behind a NOT with position 0", &with(&gap, 22, 0), "REFUSED 5");
    l.check("gives 5, before 6: last position one high, equal children at gate 3", &with(&with(&adder, 42, 9), 46, 0), "REFUSED 5");
    l.check("gives 6, descending children of an AND of the adder", &with(&adder, 52, 4), "REFUSED 6");
    l.check("gives 6, before 7: equal children at gate 3, value 2", &with(&with(&adder, 46, 0), 66, 2), "REFUSED 6");
    l.check("gives 7, the codes of a NOT and an AND in turned order", &with(&with(&codes, 42, 4), 46, 3), "REFUSED 7");
    l.check("gives 7, the code of a NOT twice", &with(&codes, 46, 3), "REFUSED 7");
    l.check("gives 7, coded child, zero byte 1", &with(&with(&adder, 64, 3), 67, 1), "REFUSED 7");
}

fn children(l: &mut List) {
    let adder = adder();
    l.children("of the second input", &adder, 1, "CHILDREN");
    l.children("of the first AND", &adder, 4, "CHILDREN 0 1");
    l.children("of the second XOR", &adder, 6, "CHILDREN 2 3");
    l.children("of gate 5 of a map refused with 3", &adder[..67], 5, "CHILDREN");
    l.children("of an input behind a NOT", &gap(), 2, "CHILDREN");
    l.children("of an OR over a NOT and an input", &gap(), 3, "CHILDREN 1 2");
}

/// Evaluate and Mark.
fn rows_and_marks(l: &mut List) {
    let adder = adder();
    l.evaluate("an input behind a NOT, row 01", &gap(), &digits("01"), 4, &done("0111", 0));
    l.evaluate("adder row 101, surplus of 2", &adder, &digits("101"), 10, &done("10110101", 2));
    l.evaluate("gives 9, coded child and an empty row, surplus of 2", &map(&ADDER, &[(3, 1)]), &[], 10, &declined(9, 10));
    l.evaluate("gives 9, four bytes, surplus of 2", &adder, &digits("1101"), 10, &declined(9, 10));
    l.evaluate("gives 10, before 14: second byte 2 and memory of 7 bytes", &adder, &[1, 2, 1], 7, &declined(10, 7));
    l.mark("adder, row 001 obeys the gates and not the code", &adder, &digits("00100010"), "NO");
    l.mark("gives 9, row 101 for a configuration", &adder, &digits("101"), "REFUSED 9");
    l.mark("gives 10, eight bytes of 170", &adder, &[170; 8], "REFUSED 10");
}

fn surveys(l: &mut List) {
    let adder = adder();
    l.survey("A, surplus of 2", &adder, &digits(A), 10, &sizes(1, 3, "44170101", 2));
    l.surveyed("adder, OR at 1 with both children at 1", &adder, "11111101", 1, 3, "55171101");
    l.surveyed("OR at 0 over a NOT and an input", &gap(), "1000", 0, 0, "1111");
    l.surveyed("NOT of an AND at 0 with one child at 0", &nand(), "0101", 0, 0, "1011");
    l.surveyed("NOT of an AND at 0 with both children at 0", &nand(), "0001", 0, 0, "1111");
    l.surveyed("codes on a NOT and an AND, a front gate below another", &two_codes(), "11011", 2, 4, "44717");
    l.survey("gives 9, coded child and no bytes, surplus of 2", &map(&ADDER, &[(3, 1)]), &[], 10, &declined(9, 10));
    l.survey("gives 9, before 10: nine bytes, the first 2, surplus of 1", &adder, &digits("200110101"), 10, &declined(9, 10));
    l.survey("gives 10, before 11: first byte 2, code broken, surplus of 2", &adder, &digits("20110100"), 10, &declined(10, 10));
}

/// Down: which options a gate has, in which order.
fn options(l: &mut List) {
    l.moved("P9's start with one child right, down 1", &p9(), "101", down(1), (2, 1), "111", "571");
    for option in [0, 1] {
        l.moved(&format!("OR at 0 with one wrong child, down {option}"), &gap(), "0100", down(option), (3, 1), "0000", "4711");
    }
    for (option, after, bytes) in [(0, "0101", "1011"), (1, "1001", "0111"), (2, "0101", "1011")] {
        l.moved(&format!("AND at 0 below a NOT, down {option}"), &nand(), "1101", down(option), (2, 1), after, bytes);
    }
    let both = map(&ADDER, &[(6, 1), (7, 1)]);
    for (option, after, bytes) in [(0, "00010111", "44570711"), (1, "00100111", "55550711"), (2, "00010111", "44570711")] {
        let name = format!("XOR over an input and a XOR, down {option}");
        l.moved(&name, &both, "00110111", drawn(1, down(option)), (6, 1), after, bytes);
    }
}

/// Greedy among ties, and a draw past the front.
fn choices(l: &mut List) {
    l.moved("OR of 3 at 1, greedy 5", &shown(3, OR, 1), "0001", greedy(5), (3, 1), "0011", "0011");
    // Interest 0, 3 and 0.
    let (first, second, third) = (("10001", "10001"), ("00101", "44701"), ("00011", "00011"));
    for (name, entry, (after, bytes)) in [
        ("greedy 0", greedy(0), first),
        ("greedy 1", greedy(1), third),
        ("greedy 2", greedy(2), first),
        ("down 1", down(1), second),
    ] {
        l.moved(&format!("the first and the last of three options tie, {name}"), &tie(), "00001", entry, (4, 1), after, bytes);
    }
    l.moved("codes on a NOT and an AND, draw 3", &two_codes(), "11011", drawn(3, down(0)), (4, 1), "11111", "55571");
}

fn refused_moves(l: &mut List) {
    let adder = adder();
    let (a, b, code_broken) = (digits(A), digits(B), digits("00110100"));
    l.unmoved("gives 9, coded child and no bytes, surplus of 2", 9, &map(&ADDER, &[(3, 1)]), &[], &down(0), 10);
    l.unmoved("gives 11, before 12: code broken and no entry, surplus of 2", 11, &adder, &code_broken, &[], 10);
    l.unmoved("gives 12, before 13: five bytes, kind 3, surplus of 2", 12, &adder, &a, &[0, 0, 3, 0, 0], 10);
    l.unmoved("gives 12, the same entry twice, surplus of 2", 12, &adder, &a, &[down(0), down(0)].concat(), 10);
    l.unmoved("gives 15, B, surplus of 2", 15, &adder, &b, &down(0), 10);
}

/// Run, and the program.
fn runs(l: &mut List) {
    let adder = adder();
    let (a, b, code_broken) = (digits(A), digits(B), digits("00110100"));
    let (first, second) = (["10110101", "11110101", "10110101"], ["01110101", "11110101", "01110101"]);
    l.found("B, down 0 that stays unread", &adder, B, (&[down(0)], 1), (0, 0), [B, "11001001", "11001001"]);
    let line = found((0, 0), [B, "11001001", "11001001"], (2, 2));
    l.run("B, down 0 and up that stay unread, surplus of 2 and 2", &adder, &b, (&[down(0), up(0)].concat(), 1), (10, 10), &line);
    l.found("A, down 0, two ups unread", &adder, A, (&[down(0), up(0), up(0)], 1), (1, 1), first);
    l.found("A, down 1", &adder, A, (&[down(1)], 1), (1, 1), second);
    l.spent("three NOTs, empty tape", &three_nots(), "111111", (&[], 1), (0, 0, 3), ["111111", "444777"]);
    l.not_run("gives 9, coded child, no bytes and an empty tape", 9, &map(&ADDER, &[(3, 1)]), &[], (&[], 0), (8, 8));
    l.not_run("gives 11, before 12: code broken and a tape of 1 byte", 11, &adder, &code_broken, (&[0], 1), (8, 8));
    l.not_run("gives 13, before 14: kind 3 behind an entry, work memory of 3 bytes", 13, &adder, &a, (&[down(0), [0, 0, 3, 0]].concat(), 1), (3, 8));
    l.input("gives 0, 6 bytes that say one byte of map", &lengths_of([1, 0, 0]), "REFUSED 0");
}
