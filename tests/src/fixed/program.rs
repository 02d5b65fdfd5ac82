//! The program alone.

use super::*;
use crate::frame::lengths_of;

/// An input of the program of 65,536 bytes, or some more where the start is
/// longer than it should be: the torn map with 16,357 entries. It is Spent.
pub fn longest(more: usize) -> Vec<u8> {
    let start = [digits("0000000010"), vec![0; more]].concat();
    let input = Case::program(&torn(), &start, (&down(0), 16_357)).whole_input();
    assert_eq!(input.len(), 65_536 + more);
    input
}

/// An input of 65,536 bytes whose last three entries are `last`: the adder with
/// two more inputs, from C. Of the 16,358 ups before, each second one turns gate
/// 4 back. Down 1, down 0 and any down then find by the last entry.
pub fn longest_with(last: [[u8; 4]; 3]) -> Vec<u8> {
    let more: [(u8, &[u16]); 2] = [(INPUT, &[]), (INPUT, &[])];
    let gates = [&ADDER[..], &more].concat();
    let tape = [up(0).repeat(16_358), last.concat()].concat();
    let start = [digits(C), vec![1, 1]].concat();
    let input = Case::program(&map(&gates, &[(7, 1)]), &start, (&tape, 1)).whole_input();
    assert_eq!(input.len(), 65_536);
    input
}

/// An input of 65,536 bytes: the torn map behind the smallest one that is Stuck.
/// Draw 1 takes the AND and the OR of eight by turn, 16,351 times, and the last
/// entry draws gate 1, which is Stuck.
pub fn longest_stuck() -> Vec<u8> {
    let mut gates = vec![(INPUT, vec![]), (NOT, vec![0])];
    gates.extend(vec![(INPUT, vec![]); 8]);
    gates.extend([(AND, (2..10).collect()), (OR, (2..10).collect())]);
    let map = build(&gates, &[(0, 0), (1, 0), (10, 1), (11, 0)]);
    let tape = [drawn(1, down(0)).repeat(16_351), greedy(0).to_vec()].concat();
    let input = Case::program(&map, &digits("00 00000000 10"), (&tape, 1)).whole_input();
    assert_eq!(input.len(), 65_536);
    input
}

/// "the number is 0 if the input passes 65,536 bytes or isn't exactly the 6 bytes
/// and the three lengths together."
pub(super) fn inputs_refused(l: &mut List) {
    short_inputs(l);
    wrong_lengths(l);
    long_inputs(l);
}

/// P3's bodies behind these lengths.
fn p3_with(lengths: [usize; 3]) -> Vec<u8> {
    [&lengths_of(lengths)[..], &adder(), &digits(A), &down(0)].concat()
}

/// Inputs cut off, and with bytes behind.
fn short_inputs(l: &mut List) {
    let right = p3_with([68, 8, 4]);
    for length in 0..6 {
        l.input(&format!("gives 0, {length} bytes of 0"), &vec![0; length], "REFUSED 0");
    }
    l.input("gives 0, 1 byte of 255", &[255], "REFUSED 0");
    l.input("gives 0, the first 5 bytes of P3", &right[..5], "REFUSED 0");
    l.input("gives 0, the first 6 bytes of P3", &right[..6], "REFUSED 0");
    l.input("gives 0, P3 without its last byte", &right[..85], "REFUSED 0");
    l.input("gives 0, P3 without its tape", &right[..82], "REFUSED 0");
    l.input("gives 0, P3 and a byte more", &[&right[..], &[0]].concat(), "REFUSED 0");
    l.input("gives 0, P3 and an entry more", &[&right[..], &down(0)].concat(), "REFUSED 0");
    l.input("gives 0, P3 without its lengths", &right[6..], "REFUSED 0");
    l.input("gives 0, 6 bytes that say one byte of tape", &lengths_of([0, 0, 1]), "REFUSED 0");
    l.input("gives 0, 6 bytes of 255", &[255; 6], "REFUSED 0");
    l.input("gives 0, 7 bytes that say nothing follows", &[0; 7], "REFUSED 0");
}

/// P3 with other lengths before it.
fn wrong_lengths(l: &mut List) {
    for (name, lengths) in [
        ("map one short", [67, 8, 4]),
        ("map one long", [69, 8, 4]),
        ("configuration one short", [68, 7, 4]),
        ("configuration one long", [68, 9, 4]),
        ("tape one short", [68, 8, 3]),
        ("tape one long", [68, 8, 5]),
        ("map 256 long", [324, 8, 4]),
        ("configuration 256 long", [68, 264, 4]),
        ("tape 256 long", [68, 8, 260]),
        ("high bytes first", [17_408, 2_048, 1_024]),
        ("sum right modulo 65,536", [65_535, 65_535, 82]),
        ("sum right modulo 65,536 with the map's right", [68, 65_535, 13]),
        ("all 0", [0, 0, 0]),
        ("map alone", [68, 0, 0]),
    ] {
        l.input(&format!("gives 0, P3 with lengths wrong, {name}"), &p3_with(lengths), "REFUSED 0");
    }
}

/// Inputs around 65,536 bytes: the torn map's with 16,357 entries.
fn long_inputs(l: &mut List) {
    let torn = torn();
    let right = p3_with([68, 8, 4]);
    let start = digits("0000000010");
    let go = down(0);
    let lengths = |configuration, tape| lengths_of([92, configuration, tape]);
    let long = |l: &mut List, name: &str, lengths: Vec<u8>, start: &[u8], times: usize| {
        let case = Case::input(&[&lengths[..], &torn].concat(), start, (&go, times));
        l.add(&format!("program {name}"), case, "REFUSED 0");
    };
    let eleven = [&start[..], &[0]].concat();
    long(l, "gives 0, 65,537 bytes, lengths right", lengths(11, 65_428), &eleven, 16_357);
    long(l, "gives 0, 65,537 bytes, lengths for 65,536", lengths(10, 65_428), &eleven, 16_357);
    long(l, "gives 0, 65,540 bytes, lengths right", lengths(10, 65_432), &start, 16_358);
    long(l, "gives 0, 65,640 bytes, tape of 65,532", lengths(10, 65_532), &start, 16_383);
    long(l, "gives 0, 65,536 bytes, tape one byte short", lengths(10, 65_427), &start, 16_357);
    long(l, "gives 0, 65,536 bytes, tape one byte long", lengths(10, 65_429), &start, 16_357);
    long(l, "gives 0, 65,535 bytes, lengths for 65,536", lengths(10, 65_428), &start[..9], 16_357);
    let padded = Case::input(&right, &[], (&[0; 4], 16_384));
    l.add("program gives 0, P3 and 65,536 bytes more", padded, "REFUSED 0");
    l.add("program gives 0, 66,000 bytes of 0", Case::input(&[], &[], (&[0; 4], 16_500)), "REFUSED 0");
    l.add("program gives 0, 65,536 bytes of 0", Case::input(&[], &[], (&[0; 4], 16_384)), "REFUSED 0");
    l.add("program gives 0, 65,537 bytes of 255", Case::input(&[255], &[], (&[255; 4], 16_384)), "REFUSED 0");
}

/// The row's digits.
pub(super) fn rows(l: &mut List) {
    // Inputs 0, 2 and 4 between other gates.
    for (codes, start, bytes, answer, row) in [
        ([(3, 1), (5, 1)], "101101", "111101", "101101", "110"),
        ([(3, 1), (5, 1)], "010111", "111111", "010111", "001"),
        ([(3, 1), (5, 1)], "101111", "111111", "101111", "111"),
        ([(3, 0), (5, 1)], "100011", "111111", "100011", "101"),
        ([(3, 0), (5, 1)], "011011", "111111", "011011", "011"),
    ] {
        let name = format!("inputs between other gates, {start}");
        l.both_found(&name, &mixed_with(&codes), start, (&[], 1), (0, 0), [start, bytes, answer, row]);
    }
    l.both_found("inputs between other gates, input 2 outside the cone", &mixed_with(&[(5, 1)]), "111111", (&[], 1), (0, 0), ["111111", "100011", "100011", "101"]);
    l.both_found("inputs between other gates, input 4 outside the cone", &mixed_with(&[(3, 0)]), "011011", (&[], 1), (0, 0), ["011011", "111100", "011000", "010"]);
    l.both_found("inputs between other gates, one move", &mixed_with(&[(5, 1)]), "011001", (&[down(1)], 1), (1, 1), ["011011", "000011", "010111", "001"]);

    // Many inputs.
    let codes: Vec<(u16, u8)> = (0..100).map(|k| (3 * k, 1)).collect();
    let line = format!("FOUND 0 0 {}", "100".repeat(100));
    l.program("300 inputs, every third coded 1", &inputs(300, &codes), &[1; 300], (&up(0), 1), &line);
    let codes: Vec<(u16, u8)> = (0..70).map(|g| (g, (g % 2) as u8)).collect();
    let (all, ones) = ("01".repeat(35), "1".repeat(70));
    l.both_found("70 inputs, all coded", &inputs(70, &codes), &all, (&[], 1), (0, 0), [&all, &ones, &all, &all]);
}

/// Each number but 14, which the program's own memories rule out.
pub(super) fn refused(l: &mut List) {
    map_or_configuration(l);
    tape_or_kind(l);
}

/// Numbers 1 to 11.
fn map_or_configuration(l: &mut List) {
    let adder = adder();
    let a = digits(A);
    let go = down(0);
    let tape: (&[u8], usize) = (&go, 1);
    let none = header([12, 0, 12, 0, 12, 0]);
    let two = map(&ADDER, &[(6, 0), (7, 1)]);
    l.not_printed("gives 1, 6 bytes of 0", 1, &[], &[], (&[], 0));
    l.not_printed("gives 1, empty map", 1, &[], &a, tape);
    l.not_printed("gives 1, 11 bytes", 1, &adder[..11], &a, tape);
    l.not_printed("gives 2, 0 gates", 2, &none, &[], tape);
    l.not_printed("gives 2, 1,025 gates", 2, &with16(&adder, 2, 1025), &a, tape);
    l.not_printed("gives 3, one byte too long", 3, &[&adder[..], &[0]].concat(), &a, tape);
    l.not_printed("gives 3, one byte cut off", 3, &adder[..67], &a, tape);
    l.not_printed("gives 4, kind 6 at the last gate", 4, &with(&adder, 40, 6), &a, tape);
    l.not_printed("gives 4, fan-in 9", 4, &over(9, AND), &[1; 10], tape);
    l.not_printed("gives 5, position wrong at the last gate", 5, &with(&adder, 42, 7), &a, tape);
    l.not_printed("gives 6, child equal to its gate", 6, &with(&adder, 62, 7), &a, tape);
    l.not_printed("gives 7, zero byte 1", 7, &with(&adder, 67, 1), &a, tape);
    l.not_printed("gives 9, empty configuration", 9, &adder, &[], tape);
    l.not_printed("gives 9, seven bytes", 9, &adder, &a[..7], tape);
    l.not_printed("gives 9, nine bytes", 9, &adder, &digits("001101011"), tape);
    l.not_printed("gives 9, 1,024 bytes", 9, &adder, &[0; 1024], tape);
    l.not_printed("gives 9, 1,025 bytes", 9, &adder, &[0; 1025], tape);
    l.not_printed("gives 10, first byte 2", 10, &adder, &digits("20110101"), tape);
    l.not_printed("gives 10, the digit 1", 10, &adder, &[0, 0, 1, 1, 0, 1, 0, b'1'], tape);
    l.not_printed("gives 11, code 7 = 1 broken", 11, &adder, &digits("00110100"), tape);
    l.not_printed("gives 11, the first of two codes broken", 11, &two, &digits("11101011"), tape);
}

/// Numbers 12 and 13.
fn tape_or_kind(l: &mut List) {
    let adder = adder();
    let a = digits(A);
    for length in [1, 2, 3, 5, 6, 7, 4095] {
        l.not_printed(&format!("gives 12, tape of length {length}"), 12, &adder, &a, (&[0], length));
    }
    l.not_printed("gives 12, tape of length 65,453, 65,535 bytes in all", 12, &adder, &a, (&[0], 65_453));
    l.not_printed("gives 12, tape of length 65,454, 65,536 bytes in all", 12, &adder, &a, (&[0; 2], 32_727));
    let bad = [0, 0, 3, 0];
    for (name, entries) in [
        ("first", [bad, up(0), up(0)]),
        ("middle", [up(0), bad, up(0)]),
        ("last", [up(0), up(0), bad]),
    ] {
        l.not_printed(&format!("gives 13, kind 3 in the {name} of three entries"), 13, &adder, &a, (&entries.concat(), 1));
    }
    l.not_printed("gives 13, kind 3 after the entry that would find", 13, &adder, &a, (&[down(0), bad].concat(), 1));
    l.not_printed("gives 13, kind 3 and a front empty at once", 13, &adder, &digits(B), (&bad, 1));
    l.not_printed("gives 13, the digit 1 for a kind", 13, &adder, &a, (&[0, 0, b'1', 0], 1));
    l.not_printed("gives 13, 65,534 bytes in all", 13, &adder, &a, (&bad, 16_363));
}

/// "with the first that holds"
pub(super) fn precedence(l: &mut List) {
    let adder = adder();
    let a = digits(A);
    let bad: (&[u8], usize) = (&[0, 0, 3, 0], 1);
    let odd: (&[u8], usize) = (&[0, 0, 3, 0, 0], 1);
    let bodies = [&adder[..], &a, &down(0)].concat();

    l.input("gives 0, before 1: a map of 11 bytes and a byte too many", &[&lengths_of([11, 0, 0])[..], &adder[..12]].concat(), "REFUSED 0");
    l.input("gives 0, before 13: kind 3 and a byte too few", &[&lengths_of([68, 8, 5])[..], &adder, &a, bad.0].concat(), "REFUSED 0");
    for (name, lengths, number) in [
        ("gives 3, the map's length one less, the configuration's one more", [67, 9, 4], 3),
        ("gives 3, the map's length one more, the configuration's one less", [69, 7, 4], 3),
        ("gives 3, the map has all bytes", [80, 0, 0], 3),
        ("gives 1, the configuration has all bytes", [0, 80, 0], 1),
        ("gives 1, the tape has all bytes", [0, 0, 80], 1),
        ("gives 9, the configuration's length one more, the tape's one less", [68, 9, 3], 9),
        ("gives 9, the configuration's length one less, the tape's one more", [68, 7, 5], 9),
        ("gives 9, configuration and tape change lengths", [68, 4, 8], 9),
        ("gives 9, the configuration has the tape's bytes", [68, 12, 0], 9),
        ("gives 9, the tape has the configuration's bytes", [68, 0, 12], 9),
    ] {
        let bytes = [&lengths_of(lengths)[..], &bodies].concat();
        l.input(&format!("{name}, P3's bodies"), &bytes, &format!("REFUSED {number}"));
    }
    l.not_printed("gives 2, before 9 to 13: 0 gates and all else wrong", 2, &header([12, 0, 12, 0, 12, 0]), &[2], odd);
    l.not_printed("gives 9, coded child and an empty configuration", 9, &map(&ADDER, &[(3, 1)]), &[], odd);
    l.not_printed("gives 11, coded child that breaks its code", 11, &map(&ADDER, &[(3, 1)]), &digits("00100101"), odd);
    l.not_printed("gives 9, before 10: nine bytes, one of them 2", 9, &adder, &digits("001101012"), bad);
    l.not_printed("gives 10, before 11: byte 2, code broken", 10, &adder, &digits("20110100"), bad);
    l.not_printed("gives 10, before 12: byte 2 and a tape of 5 bytes", 10, &adder, &digits("00210101"), odd);
    l.not_printed("gives 11, before 12: code broken and a tape of 5 bytes", 11, &adder, &digits("00110100"), odd);
    l.not_printed("gives 11, before 13: code broken and kind 3", 11, &adder, &digits("00110100"), bad);
    l.not_printed("gives 12, before 13: five bytes, kind 3", 12, &adder, &a, odd);
    l.not_printed("gives 12, before 13: five bytes, kind 3, B", 12, &adder, &digits(B), odd);
}
