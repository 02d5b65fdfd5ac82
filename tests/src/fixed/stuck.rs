//! Run and the program where a coded gate is a child (F-1): Stuck, and runs that go on.

use super::*;

pub(super) fn stuck(l: &mut List) {
    smallest(l);
    memories(l);
    refused(l);
    kinds(l);
    after_some_moves(l);
    many_moves(l);
    turned_for_want(l);
    chains(l);
    found_with_inner_codes(l);
}

/// 0 input, 1 NOT(0), both coded 0: Stuck at the first entry, whatever it is;
/// with no entry it is Spent.
fn smallest(l: &mut List) {
    let map = smallest_stuck();
    l.both_spent("the smallest map that is Stuck, empty tape", &map, "00", (&[], 1), (0, 0, 1), ["00", "57"]);
    l.spent("the smallest map that is Stuck, times 0", &map, "00", (&[down(0)], 0), (0, 0, 1), ["00", "57"]);
    for option in [0, 255] {
        for (kind, entry) in [("greedy", greedy(option)), ("down", down(option)), ("up", up(option))] {
            let name = format!("the smallest map that is Stuck, {kind} {option}");
            l.both_stuck(&name, &map, "00", (&[entry], 1), (0, 0), ["00", "57"]);
        }
    }
    let three = [drawn(65_535, up(1)), greedy(0), down(0)];
    l.both_stuck("the smallest map that is Stuck, two entries unread", &map, "00", (&three, 1), (0, 0), ["00", "57"]);
    l.stuck("the smallest map that is Stuck, 16,382 entries unread", &map, "00", (&[down(0)], 16_383), (0, 0), ["00", "57"]);
    l.program("the smallest map that is Stuck, 16,374 entries, 65,534 bytes", &map, &digits("00"), (&down(0), 16_374), "STUCK 0 0");
    let bytes = [&[30, 0, 2, 0, 4, 0, 12, 0, 2, 0, 20, 0, 1, 0, 22, 0, 2, 0][..], &[0, 0, 0, 0, 1, 1, 0, 0, 0, 0, 0, 0, 0, 0, 1, 0, 0, 0, 0, 0, 0, 0, 1, 0]].concat();
    l.input("the smallest map that is Stuck as 42 bytes", &bytes, "STUCK 0 0");
}

/// Work memory is written, answer memory is not.
fn memories(l: &mut List) {
    let (map, start) = (smallest_stuck(), digits("00"));
    for surplus in [(1, 0), (0, 1), (5, 7), (2046, 2046)] {
        let name = format!("the smallest map that is Stuck, surplus of {} and {}", surplus.0, surplus.1);
        l.run(&name, &map, &start, (&down(0), 1), (2 + surplus.0, 2 + surplus.1), &stuck_line((0, 0), ["00", "57"], surplus));
    }
    for rooms in [(1, 2), (2, 1), (0, 0)] {
        let name = format!("gives 14, smallest Stuck map, memories of {} and {} bytes", rooms.0, rooms.1);
        l.not_run(&name, 14, &map, &start, (&down(0), 1), rooms);
    }
}

/// The tests come before.
fn refused(l: &mut List) {
    let (map, start) = (smallest_stuck(), digits("00"));
    let bad = [down(0), [0, 0, 3, 0]].concat();
    l.not_run("gives 11, smallest Stuck map, NOT's code broken", 11, &map, &digits("01"), (&down(0), 1), (2, 2));
    l.not_run("gives 12, smallest Stuck map, tape of 5 bytes", 12, &map, &start, (&[0; 5], 1), (2, 2));
    l.not_run("gives 13, smallest Stuck map, kind 3 never reached", 13, &map, &start, (&bad, 1), (2, 2));
    l.not_printed("gives 13, smallest Stuck map, kind 3 never reached", 13, &map, &start, (&bad, 1));
}

/// Each kind of gate.
fn kinds(l: &mut List) {
    let over = |kind: u8, codes: &[(u16, u8)]| map(&[(INPUT, &[]), (INPUT, &[]), (kind, &[0, 1])], codes);
    let list: [(&str, u8, &[(u16, u8)], &str, &str); 6] = [
        ("AND at 1, one of two wrong children coded", AND, &[(0, 0), (2, 1)], "001", "547"),
        ("AND at 0, both children coded", AND, &[(0, 1), (1, 1), (2, 0)], "110", "557"),
        ("OR at 0, one of two wrong children coded", OR, &[(1, 1), (2, 0)], "110", "457"),
        ("OR at 1, both children coded", OR, &[(0, 0), (1, 0), (2, 1)], "001", "557"),
        ("XOR at 1, both children coded", XOR, &[(0, 1), (1, 1), (2, 1)], "111", "557"),
        ("XOR at 0, both children coded", XOR, &[(0, 0), (1, 1), (2, 0)], "010", "557"),
    ];
    for (name, kind, codes, start, bytes) in list {
        l.both_stuck(&format!("coded {name}, greedy"), &over(kind, codes), start, (&[greedy(3)], 2), (0, 0), [start, bytes]);
        l.stuck(&format!("coded {name}, down"), &over(kind, codes), start, (&[down(1)], 2), (0, 0), [start, bytes]);
        l.stuck(&format!("coded {name}, up"), &over(kind, codes), start, (&[up(0)], 2), (0, 0), [start, bytes]);
    }
    // A coded gate drawn first, on other codes, goes on: XOR with one child coded.
    let xor = over(XOR, &[(0, 1), (2, 0)]);
    l.both_found("coded XOR, one child coded", &xor, "100", (&[down(0)], 2), (1, 1), ["110", "111", "110", "11"]);
}

/// The entry that is Stuck is undone and uncounted, those before it are done.
fn after_some_moves(l: &mut List) {
    let half = half_stuck();
    let (go, stay) = (drawn(1, down(0)), down(0));
    l.both_stuck("a Stuck gate and another, Stuck at once", &half, "0011", (&[stay, go], 1), (0, 0), ["0011", "5747"]);
    l.both_spent("a Stuck gate and another, empty tape", &half, "0011", (&[], 1), (0, 0, 2), ["0011", "5747"]);
    l.both_spent("a Stuck gate and another, one entry", &half, "0011", (&[go], 1), (1, 1, 1), ["0001", "5711"]);
    l.both_stuck("a Stuck gate and another, Stuck at the second entry", &half, "0011", (&[go], 2), (1, 1), ["0001", "5711"]);
    l.both_stuck("a Stuck gate and another, an entry unread", &half, "0011", (&[go, greedy(7), up(0)], 1), (1, 1), ["0001", "5711"]);
    let line = stuck_line((1, 1), ["0001", "5711"], (3, 2));
    l.run("a Stuck gate and another, surplus of 3 and 2", &half, &digits("0011"), (&go, 2), (7, 6), &line);

    // 5 AND(2,3,4), coded 1: its three children turn before the run is Stuck.
    let gates = [(INPUT, &[][..]), (NOT, &[0]), (INPUT, &[]), (INPUT, &[]), (INPUT, &[]), (AND, &[2, 3, 4])];
    let and = map(&gates, &[(0, 0), (1, 0), (5, 1)]);
    l.both_stuck("a Stuck gate and an AND of three", &and, "000001", (&[drawn(1, up(0))], 9), (1, 3), ["001111", "571111"]);

    // 2 AND(0,1) and 3 NOT(2), both coded 1: gate 3 is Stuck at any time, gate 2 goes on.
    let gates = [(INPUT, &[][..]), (INPUT, &[]), (AND, &[0, 1]), (NOT, &[2])];
    let not = map(&gates, &[(2, 1), (3, 1)]);
    l.both_stuck("a NOT over a coded AND, Stuck at once", &not, "0011", (&[drawn(1, down(0))], 2), (0, 0), ["0011", "4477"]);
    l.both_stuck("a NOT over a coded AND, Stuck at the second entry", &not, "0011", (&[drawn(2, down(0))], 2), (1, 2), ["1111", "5557"]);
}

/// 0 input, 1 NOT(0), both coded 0, and `n` pairs of an input and its NOT, coded 1.
fn stuck_and_pairs(n: u16) -> Vec<u8> {
    let mut gates = vec![(INPUT, vec![]), (NOT, vec![0])];
    let mut codes = vec![(0, 0), (1, 0)];
    for k in 1..=n {
        gates.push((INPUT, vec![]));
        gates.push((NOT, vec![2 * k]));
        codes.push((2 * k + 1, 1));
    }
    build(&gates, &codes)
}

/// Draw 1 takes a pair as long as there is one: a front of 13 shrinks to the Stuck gate.
fn many_moves(l: &mut List) {
    let pairs = stuck_and_pairs(12);
    let (start, after) = (format!("00{}", "11".repeat(12)), format!("00{}", "01".repeat(12)));
    let bytes = format!("57{}", "11".repeat(12));
    l.both_stuck("twelve pairs, then Stuck", &pairs, &start, (&[drawn(1, greedy(1))], 100), (12, 12), [&after, &bytes]);
    l.spent("twelve pairs, twelve entries", &pairs, &start, (&[drawn(1, greedy(1))], 12), (12, 12, 1), [&after, &bytes]);
    // 65,535 modulo 13 is 2, modulo 12 is 3, modulo 11 is 8, modulo 10 is 5, modulo 9 is 6, modulo 8 is 7, modulo 7 is 1
    // and modulo 6 is 3: pairs 2, 4, 10, 7, 9, 12, 1 and 6. Modulo 5 it is 0, the Stuck gate.
    let after = "00 01 01 11 01 11 01 01 11 01 01 11 01";
    let bytes = "57 11 11 47 11 47 11 11 47 11 11 47 11";
    l.both_stuck("twelve pairs, draw 65,535", &pairs, &start, (&[drawn(65_535, down(0))], 100), (8, 8), [after, bytes]);
}

/// "If none is left and the drawn gate is uncoded, the gate itself is turned":
/// such a run goes on to the tape's end, as no state shows the codes.
fn turned_for_want(l: &mut List) {
    // 1 NOT(0) with 0 coded, 2 NOT(1) coded.
    let nots = map(&[(INPUT, &[]), (NOT, &[0]), (NOT, &[1])], &[(0, 0), (2, 1)]);
    let (odd, even) = (["011", "547"], ["001", "571"]);
    for (kind, entry) in [("greedy", greedy(4)), ("down", down(4)), ("up", up(4))] {
        for (count, after) in [(1, odd), (2, even), (1000, even), (1001, odd)] {
            let name = format!("a NOT turned for want of options, {count} entries of {kind}");
            l.spent(&name, &nots, "001", (&[entry], count), (count, count, 1), after);
        }
    }
    l.program("a NOT turned for want of options, 999 entries", &nots, &digits("001"), (&up(0), 999), "SPENT 999 999 1");
    let shown = map(&[(INPUT, &[]), (NOT, &[0]), (NOT, &[1])], &[(0, 0), (2, 0)]);
    l.both_found("a NOT turned by the NOT above it", &shown, "000", (&[up(0)], 3), (1, 1), ["010", "111", "010", "0"]);
    // Gate 2 is turned for want of options, then gate 3 turns it back.
    let and = map(&[(INPUT, &[]), (INPUT, &[]), (AND, &[0, 1]), (NOT, &[2])], &[(0, 0), (3, 0)]);
    l.both_spent("an AND turned for want of options, 1 entry", &and, "0010", (&[down(0)], 1), (1, 1, 1), ["0000", "5447"]);
    l.both_spent("an AND turned for want of options, 2 entries", &and, "0010", (&[greedy(0)], 2), (2, 2, 1), ["0010", "5471"]);
    let both = map(&ADDER, &[(0, 0), (1, 0), (7, 1)]);
    l.both_spent("A with two inputs coded, 1 entry", &both, A, (&[greedy(0)], 1), (1, 1, 1), ["00100101", "55440701"]);
    l.both_spent("A with two inputs coded, 2 entries", &both, A, (&[greedy(0)], 2), (2, 2, 1), [A, "55170101"]);
    l.both_spent("A with two inputs coded, 2,001 entries", &both, A, (&[down(1)], 2001), (2001, 2001, 1), ["00100101", "55440701"]);
}

/// A chain of 40 NOTs whose input is coded too, against the last gate's code:
/// the wrong gate goes down to gate 1, which is turned for want of options, and
/// then gates 2 and 1 are wrong by turn.
fn chains(l: &mut List) {
    let mut gates = vec![(INPUT, vec![])];
    gates.extend((1..40).map(|gate| (NOT, vec![gate - 1])));
    let chain = build(&gates, &[(0, 1), (39, 1)]);
    let middle = format!("{}{}", "10".repeat(10), "01".repeat(10));
    let lowest = [format!("11{}", "01".repeat(19)), format!("57{}", "1".repeat(38))];
    let next = [format!("10{}", "01".repeat(19)), format!("547{}", "1".repeat(37))];
    for (count, [after, bytes]) in [(19, &lowest), (20, &next), (1001, &lowest), (1002, &next)] {
        l.spent(&format!("chain of 40 gates with its input coded, {count} downs"), &chain, &middle, (&[down(0)], count), (count, count, 1), [after, bytes]);
    }
    // Gate 1 is coded too: there the run is Stuck.
    let chain = build(&gates, &[(0, 1), (1, 1), (39, 1)]);
    let middle = format!("11{}{}", "10".repeat(9), "01".repeat(10));
    let bytes = format!("57{}7{}", "4".repeat(18), "1".repeat(19));
    l.stuck("chain of 40 gates with two coded below, Stuck at once", &chain, &middle, (&[down(0)], 30), (0, 0), [&middle, &bytes]);
    // 65,535 modulo 2 is 1: the upper of two, until gate 1 stands alone in the front.
    let after = format!("11{}", "01".repeat(19));
    let bytes = format!("57{}", "1".repeat(38));
    l.both_stuck("chain of 40 gates with two coded below, the upper first", &chain, &middle, (&[drawn(65_535, down(0))], 30), (18, 18), [&after, &bytes]);
}

/// Codes on children that some state shows.
fn found_with_inner_codes(l: &mut List) {
    let five = map(&ADDER, &[(5, 1)]);
    l.both_found("A with its code on a child", &five, A, (&[down(0)], 1), (1, 1), ["10110101", "11110100", "10110101", "101"]);
    let one = map(&ADDER, &[(0, 0), (7, 1)]);
    l.both_found("A with input 0 coded", &one, A, (&[down(0)], 3), (1, 1), ["01110101", "11110101", "01110101", "011"]);
    let xor = map(&ADDER, &[(3, 0), (7, 1)]);
    let after = ["11101001", "11011001", "11001001", "110"];
    l.both_found("C with the XOR coded, greedy twice", &xor, C, (&[greedy(0)], 5), (2, 3), after);
    l.both_found("C with the XOR coded, gate 5 turned and back", &xor, C, (&[down(1), down(1), down(0), down(0)], 1), (4, 5), after);
    // Every gate coded as row 011 gives it.
    let every: Vec<(u16, u8)> = digits("01110101").iter().enumerate().map(|(gate, value)| (gate as u16, *value)).collect();
    l.both_found("adder with every gate coded", &map(&ADDER, &every), "01110101", (&[up(0)], 1), (0, 0), ["01110101", "11111111", "01110101", "011"]);
    // A coded input keeps its value, though nothing needs it.
    let beside = map(&[(INPUT, &[]), (INPUT, &[]), (OR, &[0, 1])], &[(0, 1)]);
    l.both_found("a coded input below an uncoded OR that is wrong", &beside, "110", (&[down(0)], 1), (0, 0), ["110", "100", "101", "10"]);
    let (or, last) = (over_coded(OR, 0), ["00000001 1", "11111111 1", "00000001 1", "00000001"]);
    l.both_found("OR of 8 at 1, all children coded but the last", &or, "00000000 1", (&[down(3)], 2), (1, 1), last);
    let (and, last) = (over_coded(AND, 1), ["11111110 0", "11111111 1", "11111110 0", "11111110"]);
    l.both_found("AND of 8 at 0, all children coded but the last", &and, "11111111 0", (&[greedy(200)], 2), (1, 1), last);
}

/// Eight inputs, coded `value` but the last, and a gate over them, coded the other way.
fn over_coded(kind: u8, value: u8) -> Vec<u8> {
    let mut codes: Vec<(u16, u8)> = (0..7).map(|gate| (gate, value)).collect();
    codes.push((8, 1 - value));
    build(&[vec![(INPUT, vec![]); 8], vec![(kind, EIGHT.to_vec())]].concat(), &codes)
}
