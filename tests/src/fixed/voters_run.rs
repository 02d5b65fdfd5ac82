//! Run and the program on maps with voters (F-3).

use super::*;

pub(super) fn voters_run(l: &mut List) {
    at_both_values(l);
    third_pair(l);
    voters_of_voters(l);
    carry(l);
    stuck(l);
    turned_for_want(l);
    chain_of_forty(l);
    long_chain(l);
    as_bytes(l);
}

/// A coded voter over inputs: inputs outside the cone are 0 in the answer.
fn at_both_values(l: &mut List) {
    for (start, option, flips, after, bytes, answer) in [
        ("0001", 0, 2, "1101", "1101", "1101"),
        ("0001", 1, 2, "1011", "1011", "1011"),
        ("0001", 2, 2, "0111", "0111", "0111"),
        ("1001", 2, 2, "1111", "1111", "1111"),
        ("1001", 3, 1, "1101", "1101", "1101"),
        ("1110", 0, 2, "0010", "1101", "0000"),
        ("1100", 0, 2, "0000", "1111", "0000"),
        ("1010", 2, 1, "1000", "0111", "0000"),
    ] {
        let voter = shown(3, VOTER, digits(start)[3]);
        let name = format!("voter, {start}, down {option}");
        l.both_found(&name, &voter, start, (&[down(option)], 1), (1, flips), [after, bytes, answer, &answer[..3]]);
    }
    l.both_found("voter at 1, two children at 1", &shown(3, VOTER, 1), "0111", (&[down(0)], 1), (0, 0), ["0111", "0111", "0111", "011"]);
    l.both_found("voter at 0, its child at 1 left out", &shown(3, VOTER, 0), "0010", (&[up(0)], 1), (0, 0), ["0010", "1101", "0000", "000"]);
    l.both_spent("voter at 1, empty tape", &shown(3, VOTER, 1), "1001", (&[], 1), (0, 0, 1), ["1001", "4447"]);
}

/// The first child of 3 VOTER(0,1,2) is right, and 4 XOR(1,2) is to stay at 0: one
/// entry finds by the third pair alone, which turns both wrong children.
fn third_pair(l: &mut List) {
    let xor = beside_a_voter(XOR, &[1, 2], &[(3, 1), (4, 0)]);
    let all = ["11110", "11111", "11110", "111"];
    l.both_spent("both wrong children needed, down 0", &xor, "10010", (&[down(0)], 1), (1, 1, 1), ["11010", "15417"]);
    l.both_spent("both wrong children needed, down 1", &xor, "10010", (&[down(1)], 1), (1, 1, 1), ["10110", "14517"]);
    l.both_found("both wrong children needed, down 2", &xor, "10010", (&[down(2)], 1), (1, 2), all);
    l.both_found("both wrong children needed, greedy", &xor, "10010", (&[greedy(1), down(0)], 1), (1, 2), all);
    l.both_found("both wrong children needed, one after the other", &xor, "10010", (&[down(0), down(1)], 1), (2, 2), all);
    l.both_spent("both wrong children needed, one turned and back", &xor, "10010", (&[down(0), down(0)], 1), (2, 2, 1), ["10010", "45571"]);
}

/// 5 VOTER(0,1,2), 6 VOTER(2,3,4), 7 VOTER(0,5,6), coded 1, from all others at 0.
fn voters_of_voters(l: &mut List) {
    let map = voter_of_voters(1);
    let start = "00000001";
    let way = [down(2), down(2), down(0)];
    l.both_spent("voter of voters, one entry", &map, start, (&way[..1], 1), (1, 2, 2), ["00000111", "44444771"]);
    l.both_spent("voter of voters, two entries", &map, start, (&way[..2], 1), (2, 4, 1), ["01100111", "01544171"]);
    l.both_found("voter of voters, three entries", &map, start, (&way, 1), (3, 5), ["01110111", "01110111", "01110111", "01110"]);
    // The pairs with input 0 leave 4 gates of interest, the third pair 7.
    for (name, tape, counts, after) in [
        ("greedy 0, greedy 2", [greedy(0), greedy(2)], (2, 4), ["11100101", "11100101", "11100101", "11100"]),
        ("greedy 0, greedy 3", [greedy(0), greedy(3)], (2, 3), ["11000101", "11000101", "11000101", "11000"]),
        ("greedy 1, greedy 0", [greedy(1), greedy(0)], (2, 4), ["10110011", "10110011", "10110111", "10110"]),
    ] {
        l.both_found(&format!("voter of voters, {name}"), &map, start, (&tape, 1), counts, after);
    }
}

fn carry(l: &mut List) {
    let adder = voting_adder();
    l.both_found("adder with a voting carry, greedy", &adder, "000001", (&[greedy(7)], 2), (1, 2), ["110001", "111111", "110001", "110"]);
    l.both_spent("adder with a voting carry, down 1", &adder, "000001", (&[down(1)], 1), (1, 2, 1), ["101001", "545471"]);
}

fn stuck(l: &mut List) {
    let two = alone(VOTER, 3, &[(0, 0), (1, 0), (3, 1)]);
    l.both_stuck("voter with two children coded, greedy", &two, "0001", (&[greedy(3)], 2), (0, 0), ["0001", "5547"]);
    l.stuck("voter with two children coded, down", &two, "0011", (&[down(2)], 2), (0, 0), ["0011", "5547"]);
    l.stuck("voter with two children coded, up", &two, "0001", (&[up(0)], 2), (0, 0), ["0001", "5547"]);
    l.both_spent("voter with two children coded, empty tape", &two, "0001", (&[], 1), (0, 0, 1), ["0001", "5547"]);
    let one = alone(VOTER, 3, &[(0, 0), (3, 1)]);
    l.both_found("voter with one child coded", &one, "0001", (&[down(1)], 2), (1, 2), ["0111", "1111", "0111", "011"]);
    // 5 NOT(4), coded 1, goes on before that.
    let gates = [(INPUT, &[][..]), (INPUT, &[]), (INPUT, &[]), (VOTER, &[0, 1, 2]), (INPUT, &[]), (NOT, &[4])];
    let not = map(&gates, &[(0, 0), (1, 0), (3, 1), (5, 1)]);
    l.both_stuck("voter that is Stuck and a NOT, Stuck at the second entry", &not, "000111", (&[drawn(1, down(0))], 3), (1, 1), ["000101", "554711"]);
}

/// Below a coded NOT: the voter turns itself, and then the NOT turns it back.
fn turned_for_want(l: &mut List) {
    let not = below_a_not(VOTER, 3, &[(0, 0), (1, 0), (4, 0)]);
    let (odd, even) = (["00000", "55447"], ["00010", "55471"]);
    for (count, after) in [(1, odd), (2, even), (1000, even), (1001, odd)] {
        l.both_spent(&format!("a voter turned for want of options, {count} entries"), &not, "00010", (&[greedy(2)], count), (count, count, 1), after);
    }
}

/// Each voter over the three gates before it. From all at 0 but the last, down 2 at
/// the lowest wrong voter turns the two gates next below it, which are then wrong.
fn chain_of_forty(l: &mut List) {
    let chain = chain_of_voters(40);
    let start = format!("{}1", "0".repeat(39));
    let all = format!("0{}", "1".repeat(39));
    let found = [&all[..], &all, &all, "011"];
    for (count, moves) in [(19, 19), (25, 19)] {
        l.both_found(&format!("chain of voters of 40 gates, down 2, {count} entries"), &chain, &start, (&[down(2)], count), (moves, 38), found);
    }
    for count in [1, 10, 18] {
        let lowest = 39 - 2 * count;
        let after = format!("{}{}", "0".repeat(lowest), "1".repeat(40 - lowest));
        let bytes = format!("{}77{}", "4".repeat(lowest), "1".repeat(38 - lowest));
        l.spent(&format!("chain of voters of 40 gates, down 2, {count} entries"), &chain, &start, (&[down(2)], count), (count, 2 * count, 2), [&after, &bytes]);
    }
    // The upper of two wrong voters has its third child right: one gate turns at each entry but the first.
    l.both_found("chain of voters of 40 gates, draw 65,535", &chain, &start, (&[drawn(65_535, down(2))], 40), (37, 38), found);
    // Gates 37 and 38, then 37 to and fro.
    let (odd, even) = (format!("{}111", "0".repeat(37)), format!("{}011", "0".repeat(37)));
    let (odd_bytes, even_bytes) = (format!("{}771", "4".repeat(37)), format!("{}7", "4".repeat(39)));
    l.spent("chain of voters of 40 gates, up 2, 1,001 entries", &chain, &start, (&[up(2)], 1001), (1001, 1002, 2), [&odd, &odd_bytes]);
    l.both_spent("chain of voters of 40 gates, up 2, 1,002 entries", &chain, &start, (&[up(2)], 1002), (1002, 1003, 1), [&even, &even_bytes]);
}

/// 510 entries bring the lowest wrong voter from gate 1,023 down to gate 3, and one
/// more makes that right.
fn long_chain(l: &mut List) {
    let chain = chain_of_voters(1024);
    let start = format!("{}1", "0".repeat(1023));
    let all = format!("0{}", "1".repeat(1023));
    l.both_found("chain of voters of 1,024 gates, down 2", &chain, &start, (&[down(2)], 600), (511, 1022), [&all, &all, &all, "011"]);
}

/// Three inputs and a voter, coded 1; down 2.
fn as_bytes(l: &mut List) {
    let lengths = [38, 0, 4, 0, 4, 0];
    let contents = [12, 0, 4, 0, 28, 0, 3, 0, 34, 0, 1, 0];
    let gates = [0, 0, 0, 0, 0, 0, 0, 0, 0, 0, 0, 0, 5, 3, 0, 0];
    let (children, code) = ([0, 0, 1, 0, 2, 0], [3, 0, 1, 0]);
    let bytes = [&lengths[..], &contents, &gates, &children, &code, &[0, 0, 0, 1], &[0, 0, 1, 2]].concat();
    l.input("voter as 52 bytes", &bytes, "FOUND 1 2 011");
}
