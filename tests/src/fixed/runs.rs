//! Run, and the program on the same.

use super::*;

/// The bench examples, endings, draws and kinds of gates.
pub(super) fn runs(l: &mut List) {
    bench(l);
    at_once(l);
    later(l);
    spent_at_the_end(l);
    unsatisfied(l);
    one_after_another(l);
    draws_of_three(l);
    not_and_or(l);
    shrinking_fronts(l);
    not_and_xor(l);
    eight(l);
    all_along(l);
}

/// P3 to P11.
fn bench(l: &mut List) {
    let adder = adder();
    l.both_found("A, down 0 (P3)", &adder, A, (&[down(0)], 1), (1, 1), ["10110101", "11110101", "10110101", "101"]);
    l.both_found("A, down 3 (P4)", &adder, A, (&[down(3)], 1), (1, 1), ["01110101", "11110101", "01110101", "011"]);
    l.both_spent("A, up (P5)", &adder, A, (&[up(0)], 1), (1, 1, 1), ["00100101", "44440701"]);
    l.both_spent("C, greedy (P6)", &adder, C, (&[greedy(0)], 1), (1, 1, 1), ["00101001", "44007001"]);
    l.both_spent("C, up, option 1 (P7)", &adder, C, (&[up(1)], 1), (1, 1, 1), ["00100101", "44440701"]);
    l.both_found("B, empty tape (P8)", &adder, B, (&[], 1), (0, 0), [B, "11001001", "11001001", "110"]);
    l.both_spent("P9", &p9(), "001", (&[down(0), down(0)], 1), (2, 3, 1), ["011", "447"]);
    l.both_found("one input, no code (P10)", &inputs(1, &[]), "1", (&[], 1), (0, 0), ["1", "0", "0", "0"]);
    l.both_found("P11", &p11(), "00111", (&[up(0), down(0)], 1), (2, 2), ["01101", "01001", "01101", "01"]);
    let p3 = [&[68, 0, 8, 0, 4, 0][..], &adder, &digits(A), &down(0)].concat();
    assert_eq!(p3.len(), 86);
    l.input("P3 as 86 bytes", &p3, "FOUND 1 1 101");
}

/// Found before any entry.
fn at_once(l: &mut List) {
    let adder = adder();
    let rest = [down(1), up(0), greedy(9)];
    let b = [B, "11001001", "11001001", "110"];
    l.both_found("B, three entries that stay unread", &adder, B, (&rest, 1), (0, 0), b);
    l.found("B, one entry that stays unread", &adder, B, (&[drawn(65_535, down(255))], 1), (0, 0), [b[0], b[1], b[2]]);
    l.found("B, times 0", &adder, B, (&rest, 0), (0, 0), [b[0], b[1], b[2]]);
}

/// Found in the middle of a tape and at its end.
fn later(l: &mut List) {
    let adder = adder();
    let rest = [down(1), up(0), greedy(9)];
    let first = ["10110101", "11110101", "10110101", "101"];
    let second = ["01110101", "11110101", "01110101", "011"];
    l.both_found("A, down 0, three entries unread", &adder, A, (&[down(0), rest[0], rest[1], rest[2]], 1), (1, 1), first);
    l.both_found("A, down 1 and 2,000 more", &adder, A, (&[down(1)], 2_001), (1, 1), second);
    l.both_spent("C, down 1", &adder, C, (&[down(1)], 1), (1, 1, 1), ["00100101", "44440701"]);
    l.both_spent("C, down 1, down 0", &adder, C, (&[down(1), down(0)], 1), (2, 2, 1), [A, "44170101"]);
    l.both_found("C, down 1, down 0, down 0", &adder, C, (&[down(1), down(0), down(0)], 1), (3, 3), first);
    l.both_found("C, down 1 three times", &adder, C, (&[down(1)], 3), (3, 3), second);
    l.both_found("C, down 1 four times", &adder, C, (&[down(1)], 4), (3, 3), second);
    let third = ["11101001", "11001001", "11001001", "110"];
    l.both_spent("C, down 0", &adder, C, (&[down(0)], 1), (1, 1, 1), ["00101001", "44007001"]);
    l.both_found("C, down 0 twice", &adder, C, (&[down(0)], 2), (2, 3), third);
    l.both_found("C, greedy twice", &adder, C, (&[greedy(0), greedy(255)], 1), (2, 3), third);
    l.both_found("C, greedy, up, greedy twice, two entries unread", &adder, C, (&[greedy(7), up(0), greedy(1), greedy(7), down(3), down(3)], 1), (4, 5), third);
    l.both_found("C, greedy, down and an entry unread", &adder, C, (&[greedy(2), down(9), up(1)], 1), (2, 3), third);
}

/// Spent with every entry done: gates 5 and 4 turned upward and down again.
fn spent_at_the_end(l: &mut List) {
    let adder = adder();
    let first = ["10110101", "11110101", "10110101", "101"];
    let second = ["01110101", "11110101", "01110101", "011"];
    for (count, after, bytes) in [
        (1, "00100101", "44440701"),
        (2, C, "44444407"),
        (3, "00101001", "44007001"),
        (4, C, "44444407"),
        (5, "00101001", "44007001"),
        (16, C, "44444407"),
    ] {
        l.both_spent(&format!("A, up {count} times"), &adder, A, (&[up(0)], count), (count, count, 1), [after, bytes]);
    }
    l.both_spent("A, up, up, up 1", &adder, A, (&[up(0), up(9), up(1)], 1), (3, 3, 1), ["00100101", "44440701"]);
    l.both_found("A, up, up, up 1, down, down 1", &adder, A, (&[up(0), up(9), up(1), down(1), down(1)], 1), (5, 5), second);
    l.both_found("A, up, up, up 1, down, down 0, two unread", &adder, A, (&[up(0), up(9), up(1), down(1), down(0), up(0), up(0)], 1), (5, 5), first);
    l.both_spent("A, empty tape", &adder, A, (&[], 1), (0, 0, 1), [A, "44170101"]);
    l.spent("A, times 0", &adder, A, (&[down(0)], 0), (0, 0, 1), [A, "44170101"]);
}

/// P9: no state shows its code.
fn unsatisfied(l: &mut List) {
    l.both_spent("P9's start, empty tape", &p9(), "001", (&[], 1), (0, 0, 1), ["001", "447"]);
    l.both_spent("P9's start, one down", &p9(), "001", (&[down(0)], 1), (1, 2, 1), ["111", "571"]);
    l.both_spent("P9's start, three downs", &p9(), "001", (&[down(0)], 3), (3, 4, 1), ["111", "571"]);
    l.both_spent("P9's start, greedy 100 times", &p9(), "001", (&[greedy(3)], 100), (100, 101, 1), ["011", "447"]);
    l.both_spent("P9's start, down and up", &p9(), "001", (&[down(0), up(0)], 1), (2, 3, 1), ["101", "447"]);
    l.both_spent("P9's start, down and up 50 times", &p9(), "001", (&[down(0), up(0)], 50), (100, 101, 1), ["101", "447"]);
}

/// P11's map: the moves after the first work on what it left.
fn one_after_another(l: &mut List) {
    let p11 = p11();
    l.both_spent("P11's start, up", &p11, "00111", (&[up(0)], 1), (1, 1, 1), ["00101", "44447"]);
    l.both_found("P11, two entries unread", &p11, "00111", (&[up(5), down(2), up(0), down(0)], 1), (2, 2), ["01101", "01001", "01101", "01"]);
    l.both_spent("P11's start, down", &p11, "00111", (&[down(0)], 1), (1, 1, 1), ["10111", "50711"]);
    l.both_spent("P11's start, down twice", &p11, "00111", (&[down(1)], 2), (2, 2, 1), ["00111", "40471"]);
    l.both_spent("P11's start, down and up", &p11, "00111", (&[down(0), up(0)], 1), (2, 2, 1), ["10011", "40471"]);
    l.both_spent("P11's start, down, up, down", &p11, "00111", (&[down(0), up(0), down(0)], 1), (3, 3, 1), ["10111", "50711"]);
    l.both_spent("P11's start, up and down 1, 40 times", &p11, "00111", (&[up(0), down(1)], 40), (80, 80, 1), ["00111", "40471"]);
}

/// Draws modulo the size that the front has at that entry.
fn draws_of_three(l: &mut List) {
    let nots = three_nots();
    let all = ["000111", "111111", "000111", "000"];
    let three = |a, b, c| [drawn(a, down(0)), drawn(b, up(1)), drawn(c, greedy(2))];
    for (a, b, c) in [(0, 0, 0), (2, 1, 0), (65_535, 65_535, 65_535), (65_534, 65_533, 256), (1, 32_768, 65_280)] {
        l.both_found(&format!("three NOTs, draws {a}, {b}, {c}"), &nots, "111111", (&three(a, b, c), 1), (3, 3), all);
    }
    for (draw, one, two) in [
        (0, ["011111", "144177"], ["001111", "114117"]),
        (1, ["101111", "414717"], ["100111", "411711"]),
        (2, ["110111", "441771"], ["010111", "141171"]),
        (255, ["011111", "144177"], ["010111", "141171"]),
        (256, ["101111", "414717"], ["001111", "114117"]),
        (65_533, ["101111", "414717"], ["100111", "411711"]),
        (65_534, ["110111", "441771"], ["010111", "141171"]),
        (65_535, ["011111", "144177"], ["010111", "141171"]),
    ] {
        let entry = [drawn(draw, down(7))];
        l.both_spent(&format!("three NOTs, draw {draw} once"), &nots, "111111", (&entry, 1), (1, 1, 2), one);
        l.both_spent(&format!("three NOTs, draw {draw} twice"), &nots, "111111", (&entry, 2), (2, 2, 1), two);
    }
    l.both_found("A, draw 65,535", &adder(), A, (&[drawn(65_535, down(0))], 1), (1, 1), ["10110101", "11110101", "10110101", "101"]);
}

/// An uncoded NOT and a coded OR at 0 in the front.
fn not_and_or(l: &mut List) {
    let mixed = mixed_with(&[(3, 1), (5, 0)]);
    let shown = ["010100", "111111", "010100", "000"];
    for draw in [0, 1, 65_534, 65_535] {
        l.both_found(&format!("NOT and OR in the front, draw {draw}"), &mixed, "110100", (&[drawn(draw, down(0))], 1), (1, 1), shown);
    }
    l.both_spent("NOT and OR in the front, up", &mixed, "110100", (&[drawn(65_534, up(0))], 1), (1, 1, 2), ["100100", "444747"]);
}

/// Fronts of 60 that shrink, and a front of 269 and one of one by turn.
fn shrinking_fronts(l: &mut List) {
    let pairs = pairs(60);
    let start = "0011".repeat(30);
    let all = "1001".repeat(30);
    let row = "10".repeat(30);
    let ones = "1".repeat(120);
    for draw in [0, 65_535] {
        let tape: Tape = (&[drawn(draw, down(0))], 61);
        l.both_found(&format!("60 pairs, draw {draw}"), &pairs, &start, tape, (60, 60), [&all, &ones, &all, &row]);
    }
    let after = format!("{}1011", "1001".repeat(29));
    let bytes = format!("{}47", "1".repeat(118));
    l.both_spent("60 pairs, the first of the front 59 times", &pairs, &start, (&[up(0)], 59), (59, 59, 1), [&after, &bytes]);
    let after = format!("0001{}", "1001".repeat(29));
    let bytes = format!("47{}", "1".repeat(118));
    l.both_spent("60 pairs, the second of the front 59 times", &pairs, &start, (&[drawn(1, down(1))], 59), (59, 59, 1), [&after, &bytes]);
    let after = format!("{}{start}", "1001".repeat(5));
    let bytes = format!("{}{}", "1".repeat(20), "47".repeat(50));
    l.both_spent("60 pairs, the first of the front 10 times", &pairs, &start, (&[down(3)], 10), (10, 10, 50), [&after[..120], &bytes]);

    // A front of 269 and a front of one by turn.
    let ones = format!("1{}0", "1".repeat(269));
    let bytes = format!("5{}1", "7".repeat(269));
    l.spent("270 NOTs of one input, 100 entries", &fan_of_nots(), &ones, (&[drawn(65_535, down(0))], 100), (100, 100, 269), [&ones, &bytes]);
}

/// NOT and XOR at the two values.
fn not_and_xor(l: &mut List) {
    for (value, before, after, row) in [(1, "11", "01", "0"), (0, "00", "10", "1")] {
        l.both_found(&format!("coded NOT at {value}"), &shown(1, NOT, value), before, (&[up(9)], 1), (1, 1), [after, "11", after, row]);
    }
    for (value, before, option, after, row) in [
        (1, "001", 254, "101", "10"),
        (1, "001", 255, "011", "01"),
        (1, "111", 0, "011", "01"),
        (0, "010", 1, "000", "00"),
        (0, "100", 3, "110", "11"),
    ] {
        let name = format!("coded XOR, {before}, down {option}");
        l.both_found(&name, &shown(2, XOR, value), before, (&[down(option), up(0)], 1), (1, 1), [after, "111", after, row]);
    }
}

/// AND and OR of eight at the two values.
fn eight(l: &mut List) {
    // AND at 1 and OR at 0 of eight: every wrong child at once.
    let ones = "1".repeat(9);
    let zeros = "0".repeat(9);
    for (kind, name, before, turned) in [
        (AND, "AND", "00000000 1", 8),
        (AND, "AND", "01011101 1", 3),
        (AND, "AND", "11111110 1", 1),
        (OR, "OR", "11111111 0", 8),
        (OR, "OR", "01011101 0", 5),
        (OR, "OR", "00000001 0", 1),
    ] {
        let value = digits(before)[8];
        let after = if value == 1 { &ones } else { &zeros };
        let name = format!("{name} of 8, {before}");
        l.both_found(&name, &shown(8, kind, value), before, (&[down(200)], 2), (1, turned), [after, &ones, after, &after[1..]]);
    }
    // AND at 0 and OR at 1 of eight: one child. Inputs outside the cone are 0.
    for option in [0, 3, 7, 8, 255] {
        let place = option as usize % 8;
        let bytes = format!("{}1{}1", "0".repeat(place), "0".repeat(7 - place));
        let after = format!("{}0{}0", "1".repeat(place), "1".repeat(7 - place));
        let name = format!("AND of 8 at 0, all children at 1, down {option}");
        l.both_found(&name, &shown(8, AND, 0), "11111111 0", (&[down(option)], 1), (1, 1), [&after, &bytes, &zeros, &zeros[1..]]);
        let name = format!("OR of 8 at 1, all children at 0, up {option}");
        l.both_found(&name, &shown(8, OR, 1), "00000000 1", (&[up(option)], 1), (1, 1), [&bytes, &bytes, &bytes, &bytes[..8]]);
    }
    // AND at 0 and OR at 1 of the same eight.
    let gates = [vec![(INPUT, vec![]); 8], vec![(AND, EIGHT.to_vec()), (OR, EIGHT.to_vec())]].concat();
    let both = build(&gates, &[(8, 0), (9, 1)]);
    l.both_found("AND at 0 and OR at 1 of eight, all 1", &both, "11111111 01", (&[greedy(7)], 1), (1, 1), ["11111110 01", "11111111 11", "11111110 01", "11111110"]);
    l.both_found("AND at 0 and OR at 1 of eight, all 0", &both, "00000000 01", (&[down(2)], 1), (1, 1), ["00100000 01", "11111111 11", "00100000 01", "00100000"]);
    l.both_found("AND at 0 and OR at 1 of eight, some 1", &both, "01010011 01", (&[down(2)], 1), (0, 0), ["01010011 01", "11111111 11", "01010011 01", "01010011"]);
}

/// NOTs all along, and XORs all along.
fn all_along(l: &mut List) {
    let chain = chain(40);
    let (kept, all) = ("01".repeat(20), "1".repeat(40));
    let middle = format!("{}{}", "10".repeat(10), "01".repeat(10));
    for (entry, times) in [(down(0), 20), (greedy(1), 25)] {
        l.both_found(&format!("chain of 40 gates, gate 20 wrong, {times} entries"), &chain, &middle, (&[entry], times), (20, 20), [&kept, &all, &kept, "0"]);
    }
    let after = format!("11{}", "01".repeat(19));
    let bytes = format!("47{}", "1".repeat(38));
    l.both_spent("chain of 40 gates, gate 20 wrong, 19 downs", &chain, &middle, (&[down(0)], 19), (19, 19, 1), [&after, &bytes]);
    let top = [format!("{}11", "10".repeat(19)), format!("{}7", "4".repeat(39))];
    let next = [format!("{}01", "10".repeat(19)), format!("{}71", "4".repeat(38))];
    for (count, [after, bytes]) in [(19, &top), (20, &next), (1001, &top)] {
        l.both_spent(&format!("chain of 40 gates, gate 20 wrong, {count} ups"), &chain, &middle, (&[up(0)], count), (count, count, 1), [after, bytes]);
    }

    let parity = parity();
    let start = "00000000 0000 00 1";
    let after = "00000100 0010 01 1";
    let all = "1".repeat(15);
    let three = [down(1), down(0), down(1)];
    l.both_spent("parity of eight, one entry", &parity, start, (&three[..1], 1), (1, 1, 1), ["00000000 0000 01 1", "11114444 1144 17 1"]);
    l.both_spent("parity of eight, two entries", &parity, start, (&three[..2], 1), (2, 2, 1), ["00000000 0010 01 1", "11114411 1171 11 1"]);
    l.both_found("parity of eight, three entries", &parity, start, (&three, 1), (3, 3), [after, &all, after, "00000100"]);
    l.both_found("parity of eight, greedy with ties", &parity, start, (&[greedy(1), greedy(0), greedy(3)], 2), (3, 3), [after, &all, after, "00000100"]);
}
