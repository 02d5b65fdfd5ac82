//! Run: options and ties, longer ways, empty fronts, memories, long tapes and large maps.

use super::*;

pub(super) fn longer_runs(l: &mut List) {
    six_options(l);
    sharing(l);
    ties_without_end(l);
    eight_ties(l);
    one_smallest(l);
    below(l);
    nothing_to_do(l);
    memories(l);
    torn_tapes(l);
    whole_tapes(l);
    tape_lengths(l);
    large(l);
}

/// An OR of six gates.
fn six_options(l: &mut List) {
    let six = six();
    let start = "000000001";
    for (name, tape, counts, after) in [
        ("greedy 0", vec![greedy(0)], (1, 1), ["000100001", "000100001", "000100101", "00100"]),
        ("greedy 5", vec![greedy(5)], (1, 1), ["000001001", "000001001", "000001101", "00010"]),
        ("greedy 2", vec![greedy(2)], (1, 1), ["000000101", "010000101", "000000101", "00000"]),
        ("greedy 255", vec![greedy(255)], (1, 1), ["000000011", "000000011", "000000111", "00001"]),
        ("down 0 twice", vec![down(0), down(0)], (2, 3), ["111000001", "111000001", "111000001", "11000"]),
        ("down 2, down 1", vec![down(2), down(1)], (2, 2), ["010010001", "110010001", "010010001", "01000"]),
        ("down 8, greedy 0", vec![down(8), greedy(0)], (2, 2), ["100010001", "110010001", "100010101", "10000"]),
    ] {
        l.both_found(&format!("OR of six gates, {name}"), &six, start, (&tape, 1), counts, after);
    }
}

/// An option that makes another coded gate wrong.
fn sharing(l: &mut List) {
    let pair = map(
        &[(INPUT, &[]), (INPUT, &[]), (INPUT, &[]), (AND, &[0, 1]), (OR, &[1, 2])],
        &[(3, 0), (4, 1)],
    );
    l.both_found("AND and OR that share gate 1, greedy", &pair, "10001", (&[greedy(1), down(0)], 1), (1, 1), ["10101", "01111", "00101", "001"]);
    l.both_spent("AND and OR that share gate 1, down 0", &pair, "10001", (&[down(0)], 1), (1, 1, 1), ["11001", "45071"]);
    l.both_found("AND and OR that share gate 1, down 0 twice", &pair, "10001", (&[down(0)], 2), (2, 2), ["01001", "11011", "01001", "010"]);
    l.both_spent("AND and OR that share gate 1, round 30 times", &pair, "10001", (&[down(0), down(1)], 30), (60, 60, 1), ["10001", "05417"]);
}

/// Two ties at every entry, and no end.
fn ties_without_end(l: &mut List) {
    let twins = twin_xors();
    let four = [("1010", "5517"), ("1110", "5571"), ("0110", "5517"), ("0010", "5571")];
    for (count, (after, bytes)) in (1..5).zip(four) {
        let tape = [greedy(0), greedy(1), greedy(254), greedy(255)];
        l.both_spent(&format!("two XORs that disagree, {count} greedy"), &twins, "0010", (&tape[..count], 1), (count, count, 1), [after, bytes]);
    }
    l.spent("two XORs that disagree, 16,382 greedy", &twins, "0010", (&[greedy(0), greedy(1)], 8191), (16_382, 16_382, 1), ["1110", "5571"]);
    l.program("two XORs that disagree, 16,370 greedy", &twins, &digits("0010"), (&[greedy(0), greedy(1)].concat(), 8185), "SPENT 16370 16370 1");
}

/// Eight ties, then a single option.
fn eight_ties(l: &mut List) {
    let split = split();
    l.both_spent("two ORs that disagree, 1 greedy", &split, "00000000 10", (&[greedy(10)], 1), (1, 1, 1), ["00100000 10", "44544444 17"]);
    l.both_spent("two ORs that disagree, 2 greedy", &split, "00000000 10", (&[greedy(10)], 2), (2, 2, 1), ["00000000 10", "55555555 71"]);
    l.both_spent("two ORs that disagree, 2,001 greedy", &split, "00000000 10", (&[greedy(255)], 2001), (2001, 2001, 1), ["00000001 10", "44444445 17"]);
    l.both_spent("two ORs that disagree, two wrong children", &split, "10010000 10", (&[greedy(255), greedy(4)], 1), (2, 3, 1), ["00001000 10", "44445444 17"]);
}

/// One option alone is smallest, whatever the option byte.
fn one_smallest(l: &mut List) {
    let hopeless = hopeless();
    let start = "01000101";
    let round = [greedy(255), up(1), greedy(3)];
    l.both_spent("AND of three is left, one greedy", &hopeless, start, (&round[..1], 1), (1, 1, 1), ["01100101", "44700001"]);
    l.both_spent("AND of three is left, greedy and up", &hopeless, start, (&round[..2], 1), (2, 2, 1), ["01000101", "44444447"]);
    l.both_spent("AND of three is left, one round", &hopeless, start, (&round, 1), (3, 3, 1), ["01100101", "44700001"]);
    l.both_spent("AND of three is left, two rounds", &hopeless, start, (&round, 2), (6, 6, 1), ["11100101", "57100001"]);
    l.both_spent("AND of three is left, 1,000 rounds", &hopeless, start, (&round, 1000), (3000, 3000, 1), ["11100101", "57100001"]);
    l.spent("AND of three is left, 5,461 rounds", &hopeless, start, (&round, 5461), (16_383, 16_383, 1), ["01100101", "44700001"]);
    l.both_spent("AND of three taken by down 1", &hopeless, start, (&[down(1)], 1), (1, 1, 1), ["01000111", "00044471"]);
    l.both_spent("AND of three taken, its wrong children turned", &hopeless, start, (&[down(1), greedy(0)], 1), (2, 3, 1), ["01011111", "00051711"]);
}

/// Fronts below the coded gates, and longer ways.
fn below(l: &mut List) {
    let shared = map(
        &[(INPUT, &[]), (INPUT, &[]), (INPUT, &[]), (AND, &[0, 1]), (OR, &[1, 2]), (AND, &[3, 4])],
        &[(5, 1)],
    );
    let start = "000111";
    l.both_found("AND and OR below an AND, the AND first", &shared, start, (&[down(9)], 1), (1, 2), ["110111", "110111", "110111", "110"]);
    l.both_found("AND and OR below an AND, child 1 first", &shared, start, (&[drawn(1, down(0)), down(0)], 1), (2, 2), ["110111", "110111", "110111", "110"]);
    l.both_found("AND and OR below an AND, child 2 first", &shared, start, (&[drawn(3, down(1)), drawn(3, down(0))], 1), (2, 3), ["111111", "111111", "111111", "111"]);
    l.both_spent("AND and OR below an AND, up", &shared, start, (&[up(0)], 1), (1, 1, 1), ["000011", "444447"]);
    l.both_spent("AND and OR below an AND, up and greedy 9 times", &shared, start, (&[up(0), greedy(3)], 9), (18, 18, 2), [start, "444771"]);

    // Six levels, front of two.
    let deep = deep();
    let start = "11001011111";
    let answer = "00000011111";
    l.both_found("six levels, gate 9 first", &deep, start, (&[drawn(1, down(0)), down(1)], 1), (2, 2), ["10000011111", "01011111111", answer, "00000"]);
    l.both_found("six levels, gate 5 first", &deep, start, (&[down(0), drawn(5, down(0)), up(0)], 1), (2, 2), ["01000011111", "10011111111", answer, "00000"]);
    l.both_spent("six levels, gate 9 upward and back 100 times", &deep, start, (&[drawn(3, up(7)), drawn(9, up(200))], 100), (200, 200, 2), [start, "44014711171"]);

    // Six levels, all the way down.
    let start = "10010011111";
    let way = [down(1), down(0), down(0), down(0)];
    for (count, after, bytes) in [
        (1, "10010010111", "44411447111"),
        (2, "10010000111", "44111471111"),
        (3, "10010100111", "44111711111"),
    ] {
        l.both_spent(&format!("six levels, XOR near the top, {count} downs"), &deep, start, (&way[..count], 1), (count, count, 1), [after, bytes]);
    }
    l.both_found("six levels, XOR near the top, 4 downs", &deep, start, (&way, 1), (4, 4), ["11010100111", "11111111111", "11010100111", "11010"]);
    l.both_found("six levels, XOR near the top, greedy", &deep, start, (&[greedy(1)], 9), (1, 1), ["10000011111", "01011111111", answer, "00000"]);
}

/// Starts whose front is empty: Found at once, the inputs outside the cone at 0.
fn nothing_to_do(l: &mut List) {
    let adder = adder();
    let go = [down(0), up(1)];
    for (start, bytes, answer, row) in [
        ("11001001", "11001001", "11001001", "110"),
        ("11101011", "11001001", "11001001", "110"),
        ("10110101", "11110101", "10110101", "101"),
        ("01110101", "11110101", "01110101", "011"),
    ] {
        l.both_found(&format!("adder, start {start} with an empty front"), &adder, start, (&go, 1), (0, 0), [start, bytes, answer, row]);
    }

    // No codes.
    let zeros = "00000000";
    l.both_found("adder without codes, A", &map(&ADDER, &[]), A, (&go, 1), (0, 0), [A, zeros, zeros, "000"]);
    l.both_found("inputs after other gates, no codes", &mixed(), "111111", (&go, 3), (0, 0), ["111111", "000000", "010100", "000"]);
    l.both_found("AND and OR of 8 without codes", &wide(), "11111111 00", (&[], 1), (0, 0), ["11111111 00", "0000000000", "0000000000", zeros]);
    let chain = chain(40);
    let bare = with16(&chain[..chain.len() - 4], 10, 0);
    l.both_found("chain of 40 gates without codes", &bare, &"1".repeat(40), (&go, 1), (0, 0), [&"1".repeat(40), &"0".repeat(40), &"01".repeat(20), "0"]);
    l.both_found("one input, no code, at 0", &inputs(1, &[]), "0", (&go, 1), (0, 0), ["0", "0", "0", "0"]);

    // Coded inputs.
    l.both_found("one input, code 1", &inputs(1, &[(0, 1)]), "1", (&go, 1), (0, 0), ["1", "1", "1", "1"]);
    l.both_found("one input, code 0", &inputs(1, &[(0, 0)]), "0", (&[], 1), (0, 0), ["0", "1", "0", "0"]);
    l.both_found("three inputs, the middle one coded", &inputs(3, &[(1, 1)]), "111", (&[], 1), (0, 0), ["111", "010", "010", "010"]);
    let beside = map(&[(INPUT, &[]), (INPUT, &[]), (NOT, &[0])], &[(1, 1), (2, 0)]);
    l.both_found("a coded input beside a NOT in the front", &beside, "010", (&go, 1), (1, 1), ["110", "111", "110", "11"]);

    // A gate outside the cone that is wrong in the start is right in the answer.
    let aside = map(&[(INPUT, &[]), (INPUT, &[]), (NOT, &[0]), (AND, &[1, 2])], &[(3, 0)]);
    l.both_found("a wrong NOT at 1 outside the cone", &aside, "1010", (&go, 1), (0, 0), ["1010", "0101", "0010", "00"]);
    l.both_found("a right NOT at 0 in the cone", &aside, "1000", (&go, 1), (0, 0), ["1000", "1111", "1000", "10"]);
}

/// Work and answer memory: exact, longer, too short.
fn memories(l: &mut List) {
    let adder = adder();
    let (a, b) = (digits(A), digits(B));
    let go = down(0);
    let after = ["10110101", "11110101", "10110101"];
    for surplus in [(1, 0), (0, 1), (1, 1), (92, 3), (0, 2040), (2040, 2040)] {
        let name = format!("A, down 0, surplus of {} and {}", surplus.0, surplus.1);
        let rooms = (8 + surplus.0, 8 + surplus.1);
        l.run(&name, &adder, &a, (&go, 1), rooms, &found((1, 1), after, surplus));
        let name = format!("A, up, surplus of {} and {}", surplus.0, surplus.1);
        l.run(&name, &adder, &a, (&up(0), 1), rooms, &spent((1, 1, 1), ["00100101", "44440701"], surplus));
    }
    l.run("B, surplus of 5 and 7", &adder, &b, (&[], 0), (13, 15), &found((0, 0), [B, "11001001", "11001001"], (5, 7)));
    l.run("one input, surplus of 1 and 2", &inputs(1, &[]), &[1], (&[], 0), (2, 3), &found((0, 0), ["1", "0", "0"], (1, 2)));
    for rooms in [(7, 8), (8, 7), (7, 7), (0, 8), (8, 0), (0, 0), (1, 100), (100, 1), (7, 2048), (2048, 7), (3, 3)] {
        let name = |what: &str| format!("gives 14, {what}, memories of {} and {} bytes", rooms.0, rooms.1);
        l.not_run(&name("A, down 0"), 14, &adder, &a, (&go, 1), rooms);
        l.not_run(&name("B, empty tape"), 14, &adder, &b, (&[], 0), rooms);
    }
    l.not_run("gives 14, A, up, answer memory of 7 bytes that Spent doesn't write", 14, &adder, &a, (&up(0), 1), (8, 7));
    l.not_run("gives 14, no codes, answer memory of 7 bytes", 14, &map(&ADDER, &[]), &a, (&[], 0), (8, 7));
    l.not_run("gives 14, one input and no work memory", 14, &inputs(1, &[]), &[0], (&[], 0), (0, 1));
    l.not_run("gives 14, one input and no answer memory", 14, &inputs(1, &[]), &[0], (&[], 0), (1, 0));
    l.not_run("gives 14, 260 gates and answer memory of 4 bytes (low byte)", 14, &inputs(260, &[]), &[1; 260], (&[], 0), (260, 4));
}

/// Every entry turns all eight children, of the AND and the OR by turn.
fn torn_tapes(l: &mut List) {
    let torn = torn();
    let start = "00000000 10";
    let (ones, ones_bytes) = ("11111111 10", "55555555 17");
    let (zeros, zeros_bytes) = ("00000000 10", "55555555 71");
    l.both_spent("AND at 1 and OR at 0 of eight, empty tape", &torn, start, (&[], 1), (0, 0, 1), [zeros, zeros_bytes]);
    l.both_spent("AND at 1 and OR at 0 of eight, 1 entry", &torn, start, (&[down(0)], 1), (1, 8, 1), [ones, ones_bytes]);
    l.both_spent("AND at 1 and OR at 0 of eight, 2 entries", &torn, start, (&[down(0)], 2), (2, 16, 1), [zeros, zeros_bytes]);
    l.spent("AND at 1 and OR at 0 of eight, 16,382 entries", &torn, start, (&[down(0)], 16_382), (16_382, 131_056, 1), [zeros, zeros_bytes]);
    l.spent("AND at 1 and OR at 0 of eight, 16,383 entries: 131,064 flips", &torn, start, (&[down(0)], 16_383), (16_383, 131_064, 1), [ones, ones_bytes]);
    let three = [drawn(65_535, up(9)), drawn(1, greedy(200)), drawn(256, down(255))];
    l.spent("AND at 1 and OR at 0 of eight, 5,461 times three kinds", &torn, start, (&three, 5461), (16_383, 131_064, 1), [ones, ones_bytes]);
    l.program("AND at 1 and OR at 0 of eight, 16,356 entries, 65,532 bytes", &torn, &digits(start), (&down(0), 16_356), "SPENT 16356 130848 1");
    l.program("AND at 1 and OR at 0 of eight, 16,357 entries, 65,536 bytes", &torn, &digits(start), (&down(0), 16_357), "SPENT 16357 130856 1");

    // Both in the front at first.
    let start = "01010101 10";
    l.both_spent("AND and OR both in the front, empty tape", &torn, start, (&[], 1), (0, 0, 2), [start, "44444444 77"]);
    l.both_spent("AND and OR both in the front, draw 0", &torn, start, (&[down(0)], 3), (3, 20, 1), [ones, ones_bytes]);
    l.both_spent("AND and OR both in the front, draw 1", &torn, start, (&[drawn(1, down(0))], 3), (3, 20, 1), [zeros, zeros_bytes]);
    l.spent("AND and OR both in the front, draw 65,535, 16,383 entries", &torn, start, (&[drawn(65_535, down(0))], 16_383), (16_383, 131_060, 1), [zeros, zeros_bytes]);
}

/// Tapes up to the longest.
fn whole_tapes(l: &mut List) {
    let adder = adder();
    // P9's map with an input more: one flip an entry, save two at the first.
    let p9_and_input = map(&[(INPUT, &[]), (NOT, &[0]), (AND, &[0, 1]), (INPUT, &[])], &[(2, 1)]);
    l.program("P9's map with an input more, 65,536 bytes", &p9_and_input, &digits("0011"), (&down(0), 16_372), "SPENT 16372 16373 1");
    l.spent("P9's map with an input more, 16,383 entries", &p9_and_input, "0011", (&[down(0)], 16_383), (16_383, 16_384, 1), ["1111", "5710"]);

    l.spent("A, up 16,383 times", &adder, A, (&[up(0)], 16_383), (16_383, 16_383, 1), ["00101001", "44007001"]);
    l.spent("P11's start, up and down 1, 8,191 times", &p11(), "00111", (&[up(0), down(1)], 8191), (16_382, 16_382, 1), ["00111", "40471"]);
    l.spent("P11's start, down 16,383 times", &p11(), "00111", (&[down(0)], 16_383), (16_383, 16_383, 1), ["10111", "50711"]);
    l.found("B, 16,383 entries that stay unread", &adder, B, (&[greedy(0)], 16_383), (0, 0), [B, "11001001", "11001001"]);
    l.program("B, 16,363 entries that stay unread", &adder, &digits(B), (&greedy(0), 16_363), "FOUND 0 0 110");
    l.found("A, down 0, 16,382 entries unread", &adder, A, (&[down(0)], 16_383), (1, 1), ["10110101", "11110101", "10110101"]);
    l.program("A, down 0, 16,362 entries unread", &adder, &digits(A), (&down(0), 16_363), "FOUND 1 1 101");
    l.found("C, three ways round, then Found", &adder, C, (&[up(0), up(0), up(0), up(0), down(1), down(0), down(0)], 9), (7, 7), ["10110101", "11110101", "10110101"]);
}

/// Lengths that aren't allowed.
fn tape_lengths(l: &mut List) {
    let adder = adder();
    for length in [1, 2, 3, 5, 6, 7, 9, 4095, 65_529, 65_530, 65_531, 65_533, 65_534, 65_535] {
        l.not_run(&format!("gives 12, tape of length {length}"), 12, &adder, &digits(A), (&[0], length), (8, 8));
    }
    for (entries, length) in [(16_384, "65,536"), (16_385, "65,540"), (16_386, "65,544"), (16_500, "66,000")] {
        l.not_run(&format!("gives 12, tape of length {length}"), 12, &adder, &digits(A), (&down(0), entries), (8, 8));
    }
    l.not_run("gives 12, tape of length 65,538", 12, &adder, &digits(A), (&[0; 2], 32_769), (8, 8));
    l.not_run("gives 12, tape of length 65,541", 12, &adder, &digits(A), (&[0; 3], 21_847), (8, 8));
    l.not_run("gives 12, B and a tape of length 65,536", 12, &adder, &digits(B), (&down(0), 16_384), (8, 8));
    l.not_run("gives 12, B and a tape of length 2", 12, &adder, &digits(B), (&[0; 2], 1), (8, 8));
}

/// Maps of 1,024 gates.
fn large(l: &mut List) {
    let chain = chain(1024);
    let broken = format!("{}{}", "10".repeat(256), "01".repeat(256));
    let (kept, all) = ("01".repeat(512), "1".repeat(1024));
    l.found("chain of 1,024 gates, gate 512 wrong", &chain, &broken, (&[drawn(65_535, down(0))], 600), (512, 512), [&kept, &all, &kept]);

    // 512 pairs, all wrong: a front of 512 that shrinks by one an entry.
    let start = digits(&"0011".repeat(256));
    let line = format!("FOUND 512 512 {}", "10".repeat(256));
    l.program("512 pairs, draw 65,535", &pairs(512), &start, (&drawn(65_535, up(0)), 520), &line);

    let line = format!("FOUND 0 0 {}", "10000000".repeat(128));
    l.program("1,024 inputs, every eighth coded 1", &thousand_inputs(), &[1; 1024], (&down(0), 2), &line);
}
