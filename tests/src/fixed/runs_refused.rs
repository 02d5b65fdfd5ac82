//! Refused runs.

use super::*;

/// Each number but 12 and 14, which tapes and memories give.
pub(super) fn refused(l: &mut List) {
    map_or_configuration(l);
    entry_kinds(l);
}

/// Numbers 1 to 11.
fn map_or_configuration(l: &mut List) {
    let adder = adder();
    let a = digits(A);
    let go = down(0);
    let tape: (&[u8], usize) = (&go, 1);
    let none = header([12, 0, 12, 0, 12, 0]);
    let two = map(&ADDER, &[(6, 0), (7, 1)]);
    let eight = (8, 8);
    l.not_run("gives 1, empty map", 1, &[], &a, tape, eight);
    l.not_run("gives 1, 11 bytes", 1, &adder[..11], &a, tape, (3, 5));
    l.not_run("gives 2, 0 gates", 2, &none, &[], tape, eight);
    l.not_run("gives 2, 1,025 gates", 2, &with16(&adder, 2, 1025), &a, tape, eight);
    l.not_run("gives 3, one byte too long", 3, &[&adder[..], &[0]].concat(), &a, tape, eight);
    l.not_run("gives 3, one byte cut off", 3, &adder[..67], &a, tape, eight);
    l.not_run("gives 4, kind 6 at the last gate", 4, &with(&adder, 40, 6), &a, tape, eight);
    l.not_run("gives 4, fan-in 9", 4, &over(9, OR), &[1; 10], tape, (10, 10));
    l.not_run("gives 5, position wrong at the last gate", 5, &with(&adder, 42, 7), &a, tape, eight);
    l.not_run("gives 6, child equal to its gate", 6, &with(&adder, 62, 7), &a, tape, eight);
    l.not_run("gives 7, zero byte 1", 7, &with(&adder, 67, 1), &a, tape, eight);
    l.not_run("gives 9, empty configuration", 9, &adder, &[], tape, eight);
    l.not_run("gives 9, no bytes but the map's", 9, &adder, &[], (&[], 0), (0, 0));
    l.not_run("gives 9, seven bytes", 9, &adder, &a[..7], tape, eight);
    l.not_run("gives 9, nine bytes", 9, &adder, &digits("001101011"), tape, (9, 9));
    l.not_run("gives 9, a row for a configuration", 9, &adder, &digits("101"), tape, eight);
    l.not_run("gives 9, 4 bytes for 260 gates (low byte)", 9, &inputs(260, &[]), &[1; 4], tape, (260, 260));
    l.not_run("gives 10, first byte 2", 10, &adder, &digits("20110101"), tape, eight);
    l.not_run("gives 10, byte 255 on a gate outside the cone", 10, &adder, &[0, 0, 1, 1, 0, 1, 255, 1], tape, eight);
    l.not_run("gives 10, byte 2 and an empty tape", 10, &inputs(1, &[]), &[2], (&[], 0), (1, 1));
    l.not_run("gives 11, code 7 = 1 broken", 11, &adder, &digits("00110100"), tape, eight);
    l.not_run("gives 11, code broken and no gate wrong", 11, &adder, &[0; 8], (&[], 0), eight);
    l.not_run("gives 11, the first of two codes broken", 11, &two, &digits("11101011"), tape, eight);
    l.not_run("gives 11, the second of two codes broken", 11, &two, &[0; 8], tape, (12, 9));
}

/// Number 13.
fn entry_kinds(l: &mut List) {
    let adder = adder();
    let (a, b) = (digits(A), digits(B));
    let eight = (8, 8);
    for kind in [3, 4, 128, 255] {
        l.not_run(&format!("gives 13, kind {kind}"), 13, &adder, &a, (&[0, 0, kind, 0], 1), eight);
    }
    l.not_run("gives 13, all bytes 255", 13, &adder, &a, (&[255; 4], 1), eight);
    let bad = [0, 0, 3, 0];
    for (name, entries) in [
        ("first", [bad, up(0), up(0)]),
        ("middle", [up(0), bad, up(0)]),
        ("last", [up(0), up(0), bad]),
    ] {
        l.not_run(&format!("gives 13, kind 3 in the {name} of three entries"), 13, &adder, &a, (&entries.concat(), 1), eight);
    }
    l.not_run("gives 13, kind 3 after the entry that would find", 13, &adder, &a, (&[down(0), bad].concat(), 1), eight);
    l.not_run("gives 13, kind 3 and a front empty at once", 13, &adder, &b, (&bad, 1), eight);
    l.not_run("gives 13, kind 3 in the last entry and a front empty at once", 13, &adder, &b, (&[down(0), down(0), bad].concat(), 1), eight);
    l.not_run("gives 13, kind 3 in every second of 16,382 entries", 13, &adder, &a, (&[down(0), bad].concat(), 8191), eight);
    let late = [[up(0); 299].concat(), vec![0, 0, 255, 0]].concat();
    l.not_run("gives 13, kind 255 in the last of 300 entries", 13, &adder, &a, (&late, 1), eight);
    l.not_run("gives 13, no codes and kind 3", 13, &inputs(2, &[]), &[1, 1], (&bad, 1), (2, 2));
}

/// "with the first that holds"
pub(super) fn precedence(l: &mut List) {
    map_or_configuration_first(l);
    tape_or_memory_first(l);
}

/// Numbers 1 to 10 before others.
fn map_or_configuration_first(l: &mut List) {
    let adder = adder();
    let a = digits(A);
    let none = header([12, 0, 12, 0, 12, 0]);
    let coded_child = map(&ADDER, &[(3, 1)]);
    let go = down(0);
    let tape: (&[u8], usize) = (&go, 1);
    let bad: (&[u8], usize) = (&[0, 0, 3, 0], 1);
    let odd: (&[u8], usize) = (&[0; 5], 1);
    let eight = (8, 8);
    l.not_run("gives 1, before all: no bytes anywhere", 1, &[], &[], (&[], 0), (0, 0));
    l.not_run("gives 1, before 2: 11 zeros", 1, &[0; 11], &a, tape, eight);
    l.not_run("gives 2, before 3: 1,025 gates and a byte too many", 2, &[&with16(&adder, 2, 1025)[..], &[0]].concat(), &a, tape, eight);
    l.not_run("gives 2, before 9 to 14: 0 gates and all else wrong", 2, &none, &[2], odd, (0, 0));
    l.not_run("gives 3, before 4: kind 6 and a byte too many", 3, &[&with(&adder, 12, 6)[..], &[0]].concat(), &a, tape, eight);
    l.not_run("gives 4, before 5: kind 6 at the last gate, position wrong at gate 0", 4, &with(&with(&adder, 40, 6), 14, 1), &a, tape, eight);
    l.not_run("gives 5, before 6: position wrong at the last gate, equal children at gate 3", 5, &with(&with(&adder, 42, 7), 46, 0), &a, tape, eight);
    l.not_run("gives 6, before 7: equal children at the last gate, value 2", 6, &with(&with(&adder, 62, 4), 66, 2), &a, tape, eight);
    l.not_run("gives 7, coded child first, value 2 in the last code", 7, &map(&ADDER, &[(3, 1), (7, 2)]), &a, tape, eight);
    l.not_run("gives 7, before 14: value 2 and no memory", 7, &with(&adder, 66, 2), &a, tape, (0, 0));
    l.not_run("gives 9, coded child and an empty configuration", 9, &coded_child, &[], tape, eight);
    l.not_run("gives 11, coded child that breaks its code", 11, &coded_child, &digits("00100101"), tape, eight);
    l.not_run("gives 12, coded child and a tape of 5 bytes", 12, &coded_child, &a, odd, eight);
    l.not_run("gives 9, before 10: nine bytes, one of them 2", 9, &adder, &digits("001101012"), tape, (9, 9));
    l.not_run("gives 9, before 12: seven bytes and a tape of 5 bytes", 9, &adder, &a[..7], odd, eight);
    l.not_run("gives 9, before 13: seven bytes and kind 3", 9, &adder, &a[..7], bad, eight);
    l.not_run("gives 9, before 14: seven bytes and memories of 7 bytes", 9, &adder, &a[..7], tape, (7, 7));
    l.not_run("gives 10, before 11: byte 2 on the coded gate", 10, &adder, &digits("00110102"), tape, eight);
    l.not_run("gives 10, before 11: code broken, byte 2 on the first gate", 10, &adder, &digits("20110100"), tape, eight);
    l.not_run("gives 10, before 12: byte 2 and a tape of 5 bytes", 10, &adder, &digits("00210101"), odd, eight);
    l.not_run("gives 10, before 14: byte 2 and no memory", 10, &adder, &digits("00210101"), tape, (0, 0));
}

/// Numbers 11 to 13 before others.
fn tape_or_memory_first(l: &mut List) {
    let adder = adder();
    let (a, b) = (digits(A), digits(B));
    let code_broken = digits("00110100");
    let go = down(0);
    let tape: (&[u8], usize) = (&go, 1);
    let bad: (&[u8], usize) = (&[0, 0, 3, 0], 1);
    let odd: (&[u8], usize) = (&[0; 5], 1);
    let eight = (8, 8);
    l.not_run("gives 11, before 12: code broken and a tape of 5 bytes", 11, &adder, &code_broken, odd, eight);
    l.not_run("gives 11, before 12: code broken and a tape of 65,536 bytes", 11, &adder, &code_broken, (&go, 16_384), eight);
    l.not_run("gives 11, before 13: code broken and kind 3", 11, &adder, &code_broken, bad, eight);
    l.not_run("gives 11, before 14: code broken and memories of 7 bytes", 11, &adder, &code_broken, tape, (7, 7));
    l.not_run("gives 12, before 13: five bytes, kind 3", 12, &adder, &a, (&[0, 0, 3, 0, 0], 1), eight);
    l.not_run("gives 12, before 13: three bytes, kind 3", 12, &adder, &a, (&[0, 0, 3], 1), eight);
    l.not_run("gives 12, before 13: 65,536 bytes, kind 3 in every entry", 12, &adder, &a, (&[0, 0, 3, 0], 16_384), eight);
    l.not_run("gives 12, before 13: kind 3 first, two bytes too many", 12, &adder, &a, (&[0, 0, 3, 0, 0, 0, 1, 0, 0, 0], 1), eight);
    l.not_run("gives 12, before 14: five bytes and no memory", 12, &adder, &a, odd, (0, 0));
    l.not_run("gives 12, before 14: five bytes and answer memory of 7 bytes", 12, &adder, &b, odd, (8, 7));
    l.not_run("gives 13, before 14: kind 3 and work memory of 7 bytes", 13, &adder, &a, bad, (7, 8));
    l.not_run("gives 13, before 14: kind 3 and answer memory of 7 bytes", 13, &adder, &a, bad, (8, 7));
    l.not_run("gives 13, before 14: kind 3 and no memory", 13, &adder, &a, bad, (0, 0));
    l.not_run("gives 13, before 14: kind 3 never reached and no memory", 13, &adder, &b, (&[down(0), [9, 9, 9, 9]].concat(), 1), (0, 0));
}
