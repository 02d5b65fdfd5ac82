//! Refused moves.

use super::*;

/// Each number.
pub(super) fn refused(l: &mut List) {
    map_or_configuration(l);
    entry_memory_or_front(l);
}

/// Numbers 1 to 11.
fn map_or_configuration(l: &mut List) {
    let adder = adder();
    let a = digits("00110101");
    let go = down(0);
    let none = header([12, 0, 12, 0, 12, 0]);
    let two = map(&ADDER, &[(6, 0), (7, 1)]);
    l.unmoved("gives 1, empty map", 1, &[], &a, &go, 8);
    l.unmoved("gives 1, 11 bytes", 1, &adder[..11], &a, &go, 8);
    l.unmoved("gives 2, 0 gates", 2, &none, &[], &go, 8);
    l.unmoved("gives 2, 1,025 gates", 2, &with16(&adder, 2, 1025), &a, &go, 8);
    l.unmoved("gives 3, one byte too long", 3, &[&adder[..], &[0]].concat(), &a, &go, 8);
    l.unmoved("gives 3, one byte cut off", 3, &adder[..67], &a, &go, 8);
    l.unmoved("gives 4, kind 6 at the last gate", 4, &with(&adder, 40, 6), &a, &go, 8);
    l.unmoved("gives 5, position wrong at the last gate", 5, &with(&adder, 42, 7), &a, &go, 8);
    l.unmoved("gives 6, child equal to its gate", 6, &with(&adder, 62, 7), &a, &go, 8);
    l.unmoved("gives 7, zero byte 1", 7, &with(&adder, 67, 1), &a, &go, 8);
    l.unmoved("gives 9, empty configuration", 9, &adder, &[], &go, 8);
    l.unmoved("gives 9, empty configuration and no memory", 9, &adder, &[], &go, 0);
    l.unmoved("gives 9, seven bytes", 9, &adder, &digits("0011010"), &go, 8);
    l.unmoved("gives 9, nine bytes", 9, &adder, &digits("001101011"), &go, 9);
    l.unmoved("gives 9, 4 bytes for 260 gates (low byte)", 9, &inputs(260, &[]), &[1; 4], &go, 260);
    l.unmoved("gives 10, first byte 2", 10, &adder, &digits("20110101"), &go, 8);
    l.unmoved("gives 10, byte 255 on a gate outside the cone", 10, &adder, &[0, 0, 1, 1, 0, 1, 255, 1], &go, 8);
    l.unmoved("gives 11, code 7 = 1 broken", 11, &adder, &digits("00110100"), &go, 8);
    l.unmoved("gives 11, the first of two codes broken", 11, &two, &digits("11101011"), &go, 8);
    l.unmoved("gives 11, the second of two codes broken", 11, &two, &digits("00000000"), &go, 12);
}

/// Numbers 12 to 15.
fn entry_memory_or_front(l: &mut List) {
    let adder = adder();
    let a = digits("00110101");
    let b = digits("11111001");
    let go = down(0);
    for length in [0, 1, 2, 3, 5, 6, 7, 8, 12, 260] {
        let name = format!("gives 12, entry of length {length}");
        l.unmoved(&name, 12, &adder, &a, &vec![0; length], 8);
    }
    l.unmoved("gives 12, two entries that are right by themselves", 12, &adder, &a, &[down(0), down(1)].concat(), 8);
    for kind in [3, 4, 128, 254, 255] {
        l.unmoved(&format!("gives 13, kind {kind}"), 13, &adder, &a, &[0, 0, kind, 0], 8);
    }
    l.unmoved("gives 13, all bytes 255", 13, &adder, &a, &[255; 4], 8);
    for room in [0, 1, 3, 7] {
        let name = format!("gives 14, work memory of length {room}");
        l.unmoved(&name, 14, &adder, &a, &go, room);
    }
    l.unmoved("gives 14, greedy and work memory of 7 bytes", 14, &adder, &digits("00100001"), &greedy(0), 7);
    l.unmoved("gives 14, up and work memory of 7 bytes", 14, &adder, &a, &up(0), 7);
    l.unmoved("gives 14, 260 gates and work memory of 4 bytes (low byte)", 14, &inputs(260, &[]), &[1; 260], &go, 4);
    for (name, entry) in [("greedy", greedy(0)), ("down", down(0)), ("up", up(0)), ("draw 65,535", drawn(65_535, down(255)))] {
        l.unmoved(&format!("gives 15, B, {name}"), 15, &adder, &b, &entry, 8);
    }
    l.unmoved("gives 15, B, surplus of 4", 15, &adder, &b, &go, 12);
    l.unmoved("gives 15, A after down 0", 15, &adder, &digits("10110101"), &go, 8);
    l.unmoved("gives 15, no codes and wrong gates", 15, &map(&ADDER, &[]), &a, &go, 8);
    l.unmoved("gives 15, one input, no code", 15, &inputs(1, &[]), &[1], &go, 1);
    l.unmoved("gives 15, one coded input", 15, &inputs(1, &[(0, 1)]), &[1], &up(0), 1);
    let aside = map(&[(INPUT, &[]), (INPUT, &[]), (NOT, &[0]), (AND, &[1, 2])], &[(3, 0)]);
    l.unmoved("gives 15, a wrong NOT outside the cone", 15, &aside, &digits("1010"), &greedy(1), 6);
    l.unmoved("gives 15, chain of 40 gates", 15, &chain(40), &digits(&"01".repeat(20)), &go, 40);
}

/// "with the first that holds"
pub(super) fn precedence(l: &mut List) {
    map_or_configuration_first(l);
    entry_or_memory_first(l);
}

/// Numbers 1 to 10 before others.
fn map_or_configuration_first(l: &mut List) {
    let adder = adder();
    let a = digits("00110101");
    let go = down(0);
    let none = header([12, 0, 12, 0, 12, 0]);
    let coded_child = map(&ADDER, &[(3, 1)]);
    l.unmoved("gives 1, before all: no bytes anywhere", 1, &[], &[], &[], 0);
    l.unmoved("gives 1, before 2: 11 zeros", 1, &[0; 11], &a, &go, 8);
    l.unmoved("gives 2, before 3: 1,025 gates and a byte too many", 2, &[&with16(&adder, 2, 1025)[..], &[0]].concat(), &a, &go, 8);
    l.unmoved("gives 2, before 12 and 14: 0 gates, no entry, no memory", 2, &none, &[2], &[], 0);
    l.unmoved("gives 3, before 4: kind 6 and a byte too many", 3, &[&with(&adder, 12, 6)[..], &[0]].concat(), &a, &go, 8);
    l.unmoved("gives 4, before 5: kind 6 at the last gate, position wrong at gate 0", 4, &with(&with(&adder, 40, 6), 14, 1), &a, &go, 8);
    l.unmoved("gives 5, before 6: position wrong at the last gate, equal children at gate 3", 5, &with(&with(&adder, 42, 7), 46, 0), &a, &go, 8);
    l.unmoved("gives 6, before 7: equal children at the last gate, value 2", 6, &with(&with(&adder, 62, 4), 66, 2), &a, &go, 8);
    l.unmoved("gives 7, coded child first, value 2 in the last code", 7, &map(&ADDER, &[(3, 1), (7, 2)]), &a, &go, 8);
    l.unmoved("gives 9, coded child and an empty configuration", 9, &coded_child, &[], &go, 8);
    l.unmoved("gives 11, coded child that breaks its code", 11, &coded_child, &digits("00100101"), &go, 8);
    l.unmoved("gives 12, coded child and no entry", 12, &coded_child, &a, &[], 8);
    l.unmoved("gives 9, before 10: nine bytes, one of them 2", 9, &adder, &digits("001101012"), &go, 9);
    l.unmoved("gives 9, before 12: seven bytes and no entry", 9, &adder, &digits("0011010"), &[], 8);
    l.unmoved("gives 9, before 13: seven bytes and kind 3", 9, &adder, &digits("0011010"), &[0, 0, 3, 0], 8);
    l.unmoved("gives 9, before 14: seven bytes and work memory of 7 bytes", 9, &adder, &digits("0011010"), &go, 7);
    l.unmoved("gives 10, before 11: byte 2 on the coded gate", 10, &adder, &digits("00110102"), &go, 8);
    l.unmoved("gives 10, before 11: code broken, byte 2 on the first gate", 10, &adder, &digits("20110100"), &go, 8);
    l.unmoved("gives 10, before 12: byte 2 and an entry of 3 bytes", 10, &adder, &digits("00210101"), &[0; 3], 8);
}

/// Numbers 11 to 14 before others.
fn entry_or_memory_first(l: &mut List) {
    let adder = adder();
    let a = digits("00110101");
    let b = digits("11111001");
    let code_broken = digits("00110100");
    let go = down(0);
    l.unmoved("gives 11, before 12: code broken and an entry of 5 bytes", 11, &adder, &code_broken, &[0; 5], 8);
    l.unmoved("gives 11, before 12: code broken and no entry", 11, &adder, &code_broken, &[], 8);
    l.unmoved("gives 11, before 13: code broken and kind 3", 11, &adder, &code_broken, &[0, 0, 3, 0], 8);
    l.unmoved("gives 11, before 14: code broken and no memory", 11, &adder, &code_broken, &go, 0);
    l.unmoved("gives 11, before 15: code broken and no gate wrong", 11, &adder, &digits("00000000"), &go, 8);
    l.unmoved("gives 12, before 13: five bytes, kind 3", 12, &adder, &a, &[0, 0, 3, 0, 0], 8);
    l.unmoved("gives 12, before 13: three bytes, kind 3", 12, &adder, &a, &[0, 0, 3], 8);
    l.unmoved("gives 12, before 13: eight bytes, kind 255 twice", 12, &adder, &a, &[255; 8], 8);
    l.unmoved("gives 12, before 14: no entry and no memory", 12, &adder, &a, &[], 0);
    l.unmoved("gives 12, before 15: three bytes and B", 12, &adder, &b, &[0; 3], 8);
    l.unmoved("gives 13, before 14: kind 3 and work memory of 7 bytes", 13, &adder, &a, &[0, 0, 3, 0], 7);
    l.unmoved("gives 13, before 14: kind 3 and no memory", 13, &adder, &a, &[0, 0, 3, 0], 0);
    l.unmoved("gives 13, before 15: kind 3 and B", 13, &adder, &b, &[0, 0, 3, 0], 8);
    l.unmoved("gives 14, before 15: work memory of 7 bytes and B", 14, &adder, &b, &go, 7);
    l.unmoved("gives 14, before 15: no memory and B", 14, &adder, &b, &greedy(0), 0);
    l.unmoved("gives 14, before 15: no codes and no memory", 14, &inputs(1, &[]), &[0], &up(0), 0);
}
