//! Two-out-of-three voters (F-3) in every call but Run: which maps are accepted,
//! values, surveys, and the three pairs.

use super::*;

pub(super) fn voters(l: &mut List) {
    accepted(l);
    refused(l);
    kinds_above(l);
    precedence(l);
    children(l);
    values(l);
    marks(l);
    surveys(l);
    surveys_of_voters(l);
    every_pair(l);
    uncoded(l);
    draws(l);
    pairs_of_two_win(l);
    pairs_of_two_lose(l);
    costly(l);
    carry(l);
    refused_calls(l);
}

fn accepted(l: &mut List) {
    l.check("voter over three inputs", &over(3, VOTER), "OK 4 3 3 0");
    l.check("voter, coded", &shown(3, VOTER, 1), "OK 4 3 3 1");
    l.check("voter and its children, all coded", &alone(VOTER, 3, &[(0, 0), (1, 1), (2, 1), (3, 1)]), "OK 4 3 3 4");
    l.check("voters among gates of every kind", &every_kind(&[(3, 1), (8, 0)]), "OK 9 3 14 2");
    l.check("voters over inputs after other gates", &mixed_voters(), "OK 6 3 7 0");
    l.check("voter of voters", &voter_of_voters(0), "OK 8 5 9 1");
    l.check("chain of voters of 40 gates", &chain_of_voters(40), "OK 40 3 111 1");
}

/// "Number 4 now allows kind 5, with fan-in 3 only."
fn refused(l: &mut List) {
    for n in [0, 1, 2, 4, 5, 6, 7, 8, 9] {
        l.check(&format!("gives 4, fan-in {n} for a voter"), &over(n, VOTER), "REFUSED 4");
    }
    // The voter's record stands at 24.
    let voter = over(3, VOTER);
    for fan_in in [0, 2, 4, 131, 255] {
        l.check(&format!("gives 4, fan-in {fan_in} in the record of a voter"), &with(&voter, 25, fan_in), "REFUSED 4");
    }
    l.check("gives 4, the adder's OR as a voter of two", &with(&adder(), 40, 5), "REFUSED 4");
    l.check("gives 4, an input as a voter", &with(&adder(), 12, 5), "REFUSED 4");
    l.check("gives 5, a voter's position one low", &raw(&[(0, 0, 0), (1, 1, 0), (0, 0, 1), (5, 3, 0)], &[0, 0, 1, 2], &[]), "REFUSED 5");
    l.check("gives 5, a NOT behind a voter, its position one low", &raw(&[(0, 0, 0), (0, 0, 0), (0, 0, 0), (5, 3, 0), (1, 1, 2)], &[0, 1, 2, 3], &[]), "REFUSED 5");
    l.check("gives 5, a voter with two children", &raw(&[(0, 0, 0), (0, 0, 0), (0, 0, 0), (5, 3, 0)], &[0, 1], &[]), "REFUSED 5");
    l.check("gives 5, a voter with four children", &raw(&[(0, 0, 0), (0, 0, 0), (0, 0, 0), (5, 3, 0)], &[0, 1, 2, 2], &[]), "REFUSED 5");
    for (name, children) in [
        ("equal first and second children", [0, 0, 2]),
        ("equal second and third children", [0, 2, 2]),
        ("equal first and third children", [1, 2, 1]),
        ("descending first and second children", [1, 0, 2]),
        ("descending second and third children", [0, 2, 1]),
        ("the third child its own gate", [0, 1, 3]),
        ("the third child past the last gate", [0, 1, 4]),
    ] {
        let map = map(&[(INPUT, &[]), (INPUT, &[]), (INPUT, &[]), (VOTER, &children)], &[]);
        l.check(&format!("gives 6, {name} of a voter"), &map, "REFUSED 6");
    }
    l.check("gives 6, gate 0 is a voter", &map(&[(VOTER, &[0, 1, 2])], &[]), "REFUSED 6");
    l.check("gives 7, voter coded twice", &alone(VOTER, 3, &[(3, 1), (3, 1)]), "REFUSED 7");
    l.check("gives 7, voter coded 2", &alone(VOTER, 3, &[(3, 2)]), "REFUSED 7");
}

/// "A kind is above 4" is now a kind above 5.
fn kinds_above(l: &mut List) {
    for n in 0..10 {
        l.check(&format!("gives 4, kind 6 over {n} inputs"), &over(n, 6), "REFUSED 4");
    }
    for kind in [7, 8, 13, 133, 254, 255] {
        l.check(&format!("gives 4, kind {kind} over three inputs"), &over(3, kind), "REFUSED 4");
    }
    for kind in [INPUT, NOT, XOR] {
        l.check(&format!("gives 4, kind {kind} in the record of a voter"), &with(&over(3, VOTER), 24, kind), "REFUSED 4");
    }
    l.check("the record of a voter as that of an AND of 3", &with(&over(3, VOTER), 24, AND), "OK 4 3 3 0");
    l.check("the record of an OR of 3 as that of a voter", &with(&over(3, OR), 24, VOTER), "OK 4 3 3 0");
}

/// "Each test runs over all it concerns before the next."
fn precedence(l: &mut List) {
    let voter = over(3, VOTER);
    l.check("gives 3, before 4: voter of two and a byte too many", &[&with(&voter, 25, 2)[..], &[0]].concat(), "REFUSED 3");
    l.check("gives 4, before 5: fan-in 2 of the last gate, a voter, makes the count wrong", &with(&voter, 25, 2), "REFUSED 4");
    l.check("gives 4, before 5: kind 6 with fan-in 3 at the last gate, position wrong at gate 0", &with(&with(&voter, 24, 6), 14, 1), "REFUSED 4");
    l.check("gives 4, before 6: voter of four with equal children", &map(&[(INPUT, &[]), (INPUT, &[]), (VOTER, &[0, 0, 1, 1])], &[]), "REFUSED 4");
    l.check("gives 5, before 6: voter at a wrong position with equal children", &raw(&[(0, 0, 0), (0, 0, 0), (0, 0, 0), (5, 3, 1)], &[0, 1, 1], &[]), "REFUSED 5");
    let equal = map(&[(INPUT, &[]), (INPUT, &[]), (INPUT, &[]), (VOTER, &[0, 1, 1])], &[(3, 2)]);
    l.check("gives 6, before 7: equal children of a voter, coded 2", &equal, "REFUSED 6");
}

fn children(l: &mut List) {
    l.children("of a voter", &over(3, VOTER), 3, "CHILDREN 0 1 2");
    let gaps = map(&[(INPUT, &[]), (NOT, &[0]), (INPUT, &[]), (NOT, &[2]), (INPUT, &[]), (VOTER, &[0, 3, 4]), (NOT, &[5])], &[]);
    l.children("of a voter over gates apart", &gaps, 5, "CHILDREN 0 3 4");
    l.children("of a NOT behind a voter", &gaps, 6, "CHILDREN 5");
    l.children("of the last of 40 gates, a voter", &chain_of_voters(40), 39, "CHILDREN 36 37 38");
    l.children("of a voter of two, refused with 4", &over(2, VOTER), 2, "CHILDREN");
    l.children("of a gate of kind 6, refused with 4", &over(3, 6), 3, "CHILDREN");
}

/// What two of the three say: for each row of three inputs.
const MAJORITIES: [(&str, char); 8] =
    [("000", '0'), ("001", '0'), ("010", '0'), ("011", '1'), ("100", '0'), ("101", '1'), ("110", '1'), ("111", '1')];

/// "is 1 when at least two are 1"
fn values(l: &mut List) {
    let voter = over(3, VOTER);
    for (row, value) in MAJORITIES {
        l.evaluate(&format!("voter of {row}"), &voter, &digits(row), 4, &done(&format!("{row}{value}"), 0));
    }
    l.evaluate("voter of 011, coded 0 and not shown", &shown(3, VOTER, 0), &digits("011"), 6, &done("0111", 2));
    let every = every_kind(&[]);
    for (row, rest) in [
        ("000", "010000"),
        ("001", "010000"),
        ("010", "010000"),
        ("011", "100101"),
        ("100", "011111"),
        ("101", "101000"),
        ("110", "101000"),
        ("111", "101000"),
    ] {
        l.evaluate(&format!("voters among gates of every kind, row {row}"), &every, &digits(row), 9, &done(&format!("{row}{rest}"), 0));
    }
    let mixed = mixed_voters();
    for (row, values) in [("010", "011101"), ("001", "010011"), ("100", "100000"), ("111", "101111"), ("101", "100010")] {
        l.evaluate(&format!("voters over inputs after other gates, row {row}"), &mixed, &digits(row), 6, &done(values, 0));
    }
    for (row, value) in [("110", "1"), ("101", "1"), ("100", "0"), ("010", "0")] {
        let name = format!("chain of voters of 40 gates, row {row}");
        l.evaluate(&name, &chain_of_voters(40), &digits(row), 40, &done(&format!("{row}{}", value.repeat(37)), 0));
    }
    let name = "chain of voters of 1,024 gates, row 011";
    l.evaluate(name, &chain_of_voters(1024), &digits("011"), 1024, &done(&format!("0{}", "1".repeat(1023)), 0));
}

fn marks(l: &mut List) {
    let voter = over(3, VOTER);
    for (row, value) in MAJORITIES {
        for at in ['0', '1'] {
            let answer = if at == value { "YES" } else { "NO" };
            l.mark(&format!("voter of {row} at {at}"), &voter, &digits(&format!("{row}{at}")), answer);
        }
    }
    l.mark("voter at 1, its code kept", &shown(3, VOTER, 1), &digits("1011"), "YES");
    l.mark("voter at 0, its code broken", &shown(3, VOTER, 1), &digits("1000"), "NO");
    let every = every_kind(&[(8, 1)]);
    l.mark("voters among gates of every kind, all right", &every, &digits("100011111"), "YES");
    l.mark("voters among gates of every kind, the first wrong", &every, &digits("100111111"), "NO");
    l.mark("voters among gates of every kind, the second wrong", &every, &digits("100010111"), "NO");
    l.mark("chain of voters of 40 gates, row 011", &chain_of_voters(40), &digits(&format!("0{}", "1".repeat(39))), "YES");
    l.mark("chain of voters of 40 gates, gate 20 wrong", &chain_of_voters(40), &digits(&format!("0{}0{}", "1".repeat(19), "1".repeat(19))), "NO");
}

/// "The children relevant to a justified voter are all those with its value."
fn surveys(l: &mut List) {
    for (value, lines) in [
        (1, ["4447", "4447", "4447", "0111", "4447", "1011", "1101", "1111"]),
        (0, ["1111", "1101", "1011", "4447", "0111", "4447", "4447", "4447"]),
    ] {
        for ((row, _), bytes) in MAJORITIES.into_iter().zip(lines) {
            let (front, interest) = if bytes == "4447" { (1, 4) } else { (0, 0) };
            l.surveyed(&format!("voter of {row} at {value}"), &shown(3, VOTER, value), &format!("{row}{value}"), front, interest, bytes);
        }
    }
    let not = below_a_not(VOTER, 3, &[(4, 0)]);
    l.surveyed("uncoded voter at 1, two children at 1", &not, "11010", 0, 0, "11011");
    l.surveyed("uncoded voter at 1, one child at 1", &not, "10010", 1, 4, "44471");
    l.surveyed("voter below a NOT in the front", &not, "11100", 1, 4, "44447");
    let not = below_a_not(VOTER, 3, &[(4, 1)]);
    l.surveyed("uncoded voter at 0, two children at 0", &not, "01001", 0, 0, "10111");
    l.surveyed("uncoded voter at 0, no child at 0", &not, "11101", 1, 4, "44471");
    l.surveyed("voter without codes, wrong", &over(3, VOTER), "1110", 0, 0, "0000");
    l.surveyed("voter at 1, its child at 0 coded", &alone(VOTER, 3, &[(1, 0), (3, 1)]), "1011", 0, 0, "1111");
}

/// 5 VOTER(0,1,2), 6 VOTER(2,3,4), 7 VOTER(0,5,6), and the chain.
fn surveys_of_voters(l: &mut List) {
    let (one, zero) = (voter_of_voters(1), voter_of_voters(0));
    l.surveyed("voter of voters at 1, a wrong one at 0 that it doesn't need", &one, "11011101", 0, 0, "11000101");
    l.surveyed("voter of voters at 1, one that it needs wrong", &one, "10011101", 1, 4, "54400701");
    l.surveyed("voter of voters at 1, all three at 1", &one, "11111111", 0, 0, "11111111");
    l.surveyed("voter of voters at 1, its input at 0", &one, "01101111", 0, 0, "01101111");
    l.surveyed("voter of voters at 1, two wrong that share a child", &one, "00100111", 2, 7, "44444771");
    l.surveyed("voter of voters at 1, wrong itself", &one, "10000001", 1, 8, "44444447");
    l.surveyed("voter of voters at 0, one at 1 that it doesn't need", &zero, "00101010", 0, 0, "11000101");
    l.surveyed("voter of voters at 0, wrong itself", &zero, "11100100", 1, 8, "44444447");
    let (start, bytes) = (format!("{}{}", "0".repeat(513), "1".repeat(511)), format!("{}77{}", "4".repeat(513), "1".repeat(509)));
    l.surveyed("chain of voters of 1,024 gates, wrong in the middle", &chain_of_voters(1024), &start, 2, 515, &bytes);
}

/// A start, and for each pair configuration and survey after it, and how many values it turns.
type Pairs<'a> = (&'a str, [(&'a str, &'a str, usize); 3]);

/// "first-second, first-third, second-third, each setting both to the voter's value;
/// so an option may turn one or two children". None of them leaves a front, so that
/// greedy has three ties.
fn every_pair(l: &mut List) {
    let list: [Pairs; 8] = [
        ("0001", [("1101", "1101", 2), ("1011", "1011", 2), ("0111", "0111", 2)]),
        ("1001", [("1101", "1101", 1), ("1011", "1011", 1), ("1111", "1111", 2)]),
        ("0101", [("1101", "1101", 1), ("1111", "1111", 2), ("0111", "0111", 1)]),
        ("0011", [("1111", "1111", 2), ("1011", "1011", 1), ("0111", "0111", 1)]),
        ("1110", [("0010", "1101", 2), ("0100", "1011", 2), ("1000", "0111", 2)]),
        ("0110", [("0010", "1101", 1), ("0100", "1011", 1), ("0000", "1111", 2)]),
        ("1010", [("0010", "1101", 1), ("0000", "1111", 2), ("1000", "0111", 1)]),
        ("1100", [("0000", "1111", 2), ("0100", "1011", 1), ("1000", "0111", 1)]),
    ];
    for (start, pairs) in list {
        let voter = shown(3, VOTER, digits(start)[3]);
        // 254 is 84 times 3 and 2, 128 is 42 times 3 and 2.
        for (name, entry, pair) in [
            ("down 0", down(0), 0),
            ("down 1", down(1), 1),
            ("down 2", down(2), 2),
            ("down 3", down(3), 0),
            ("down 4", down(4), 1),
            ("down 254", down(254), 2),
            ("down 255", down(255), 0),
            ("up 1", up(1), 1),
            ("up 128", up(128), 2),
            ("greedy 3", greedy(3), 0),
            ("greedy 1", greedy(1), 1),
            ("greedy 2", greedy(2), 2),
        ] {
            let (after, bytes, turned) = pairs[pair];
            l.moved(&format!("coded voter, {start}, {name}"), &voter, start, entry, (3, turned), after, bytes);
        }
    }
}

/// A voter below a coded NOT: up turns the voter itself.
fn uncoded(l: &mut List) {
    let not = below_a_not(VOTER, 3, &[(4, 0)]);
    for (name, entry, turned, after, bytes) in [
        ("down 0", down(0), 1, "11010", "11011"),
        ("down 1", down(1), 1, "10110", "10111"),
        ("down 2", down(2), 2, "11110", "11111"),
        ("down 3", down(3), 1, "11010", "11011"),
        ("greedy 2", greedy(2), 2, "11110", "11111"),
        ("up 0", up(0), 1, "10000", "44447"),
        ("up 2", up(2), 1, "10000", "44447"),
    ] {
        l.moved(&format!("uncoded voter at 1, the first child right, {name}"), &not, "10010", entry, (3, turned), after, bytes);
    }
    let not = below_a_not(VOTER, 3, &[(4, 1)]);
    for (name, entry, turned, after, bytes) in [
        ("down 0", down(0), 1, "00101", "11011"),
        ("down 1", down(1), 1, "01001", "10111"),
        ("down 2", down(2), 2, "00001", "11111"),
        ("greedy 5", greedy(5), 2, "00001", "11111"),
        ("up 1", up(1), 1, "01111", "44447"),
    ] {
        l.moved(&format!("uncoded voter at 0, the first child right, {name}"), &not, "01101", entry, (3, turned), after, bytes);
    }
}

/// 5 VOTER(0,1,2) and 6 VOTER(2,3,4), both in the front, below 7 VOTER(0,5,6).
fn draws(l: &mut List) {
    let one = voter_of_voters(1);
    for (name, entry, outcome, after, bytes) in [
        ("draw 0, down 0", down(0), (5, 2), "11100111", "11544171"),
        ("draw 0, down 1", down(1), (5, 1), "10100111", "10544171"),
        ("draw 2, down 2", drawn(2, down(2)), (5, 1), "01100111", "01544171"),
        ("draw 0, greedy 4", greedy(4), (5, 1), "10100111", "10544171"),
        ("draw 0, up 1", up(1), (5, 1), "00100011", "44444447"),
        ("draw 1, down 0", drawn(1, down(0)), (6, 1), "00110111", "44510711"),
        ("draw 3, down 1", drawn(3, down(1)), (6, 1), "00101111", "44501711"),
        ("draw 65,535, down 2", drawn(65_535, down(2)), (6, 2), "00111111", "44511711"),
        ("draw 1, greedy 2", drawn(1, greedy(2)), (6, 2), "00111111", "44511711"),
    ] {
        l.moved(&format!("two voters that share a child, {name}"), &one, "00100111", entry, outcome, after, bytes);
    }
}

/// One pair alone leaves no front: where a XOR of two children is to stay at 0, the
/// one that turns both; where a NOT of one child is to stay at 1, the one without it.
fn pairs_of_two_win(l: &mut List) {
    for (name, kind, children, start, after) in [
        ("second-third", XOR, &[1, 2][..], "10010", "11110"),
        ("first-third", XOR, &[0, 2], "01010", "11110"),
        ("first-second", XOR, &[0, 1], "00110", "11110"),
        ("second-third, without the first", NOT, &[0], "00011", "01111"),
        ("first-third, without the second", NOT, &[1], "00011", "10111"),
        ("first-second, without the third", NOT, &[2], "00011", "11011"),
    ] {
        let map = beside_a_voter(kind, children, &[(3, 1), (4, digits(start)[4])]);
        for option in [0, 1, 2, 255] {
            l.moved(&format!("a pair that turns two is best, {name}, greedy {option}"), &map, start, greedy(option), (3, 2), after, "11111");
        }
    }
    let xor = beside_a_voter(XOR, &[1, 2], &[(3, 1), (4, 0)]);
    l.moved("a pair that turns two is best, down 0", &xor, "10010", down(0), (3, 1), "11010", "15417");
    l.moved("a pair that turns two is best, down 1", &xor, "10010", down(1), (3, 1), "10110", "14517");
    l.moved("a pair that turns two is best, down 2", &xor, "10010", down(2), (3, 2), "11110", "11111");
    let not = beside_a_voter(NOT, &[1], &[(3, 1), (4, 1)]);
    l.moved("a pair without the second child is best, down 0", &not, "00011", down(0), (3, 2), "11011", "15017");
    l.moved("a pair without the second child is best, down 2", &not, "00011", down(2), (3, 2), "01111", "05117");
    let zero = beside_a_voter(XOR, &[1, 2], &[(3, 0), (4, 0)]);
    for option in [0, 1] {
        l.moved(&format!("a pair that turns two is best, voter at 0, greedy {option}"), &zero, "01100", greedy(option), (3, 2), "00000", "11111");
    }
}

/// Two pairs tie and the third leaves a front: where an AND of two children is to
/// stay at 0, or an OR at 1, the pair that turns both.
fn pairs_of_two_lose(l: &mut List) {
    for (name, kind, children, start, turned, even, odd) in [
        ("first-second and first-third", AND, &[1, 2][..], "10010", 1, "11010", "10110"),
        ("first-second and second-third", AND, &[0, 2], "01010", 1, "11010", "01110"),
        ("first-third and second-third", AND, &[0, 1], "00110", 1, "10110", "01110"),
        ("first-second and second-third, two each", AND, &[0, 2], "00010", 2, "11010", "01110"),
        ("first-second and first-third, voter at 0", OR, &[1, 2], "01101", 1, "00101", "01001"),
    ] {
        let codes = [(3, digits(start)[3]), (4, digits(start)[4])];
        let map = beside_a_voter(kind, children, &codes);
        for (option, after) in [(0, even), (1, odd), (2, even), (255, odd)] {
            l.moved(&format!("two pairs tie, {name}, greedy {option}"), &map, start, greedy(option), (3, turned), after, "11111");
        }
    }
    let and = beside_a_voter(AND, &[1, 2], &[(3, 1), (4, 0)]);
    l.moved("two pairs tie, the third by down 2", &and, "10010", down(2), (3, 2), "11110", "15517");
    l.moved("two pairs tie, the third by up 2 on the coded voter", &and, "10010", up(2), (3, 2), "11110", "15517");
}

/// Every pair leaves a front, with interest sets of size 4, 5 and 3 where each turns
/// two, of size 1, 3 and 3 where the first child is right.
fn costly(l: &mut List) {
    let costly = costly_voter();
    for option in [0, 1, 255] {
        l.moved(&format!("pairs of 4, 5 and 3, greedy {option}"), &costly, "1100001", greedy(option), (6, 2), "1100111", "4400771");
        l.moved(&format!("pairs of 1, 3 and 3, greedy {option}"), &costly, "1111001", greedy(option), (6, 1), "1111101", "5111701");
    }
    l.moved("pairs of 4, 5 and 3, down 0", &costly, "1100001", down(0), (6, 2), "1101101", "4447701");
    l.moved("pairs of 4, 5 and 3, down 1", &costly, "1100001", down(1), (6, 2), "1101011", "4447071");
    l.moved("pairs of 1, 3 and 3, down 1", &costly, "1111001", down(1), (6, 1), "1111011", "5511071");
    l.moved("pairs of 1, 3 and 3, down 2", &costly, "1111001", down(2), (6, 2), "1111111", "5511771");
}

/// The full adder's carry as a voter, with sum 0 and carry 1.
fn carry(l: &mut List) {
    let adder = voting_adder();
    l.surveyed("adder with a voting carry, no input at 1", &adder, "000001", 1, 4, "555117");
    for option in [0, 1, 2, 255] {
        l.moved(&format!("adder with a voting carry, greedy {option}"), &adder, "000001", greedy(option), (5, 2), "110001", "111111");
    }
    l.moved("adder with a voting carry, down 1", &adder, "000001", down(1), (5, 2), "101001", "545471");
}

/// A voter of two and a gate of kind 6 over three in every other call.
fn refused_calls(l: &mut List) {
    let go = down(0);
    for (name, map, n) in [("voter of two", over(2, VOTER), 2), ("kind 6 over three", over(3, 6), 3), ("voter of four", over(4, VOTER), 4)] {
        let (row, start) = (vec![1; n], vec![1; n + 1]);
        l.evaluate(&format!("gives 4, {name}"), &map, &row, n + 1, &declined(4, n + 1));
        l.mark(&format!("gives 4, {name}"), &map, &start, "REFUSED 4");
        l.survey(&format!("gives 4, {name}"), &map, &start, n + 1, &declined(4, n + 1));
        l.unmoved(&format!("gives 4, {name}"), 4, &map, &start, &go, n + 1);
        l.not_run(&format!("gives 4, {name}"), 4, &map, &start, (&go, 1), (n + 1, n + 1));
        l.not_printed(&format!("gives 4, {name}"), 4, &map, &start, (&go, 1));
    }
    let voter = shown(3, VOTER, 1);
    l.survey("gives 11, voter's code broken", &voter, &digits("0000"), 4, &declined(11, 4));
    l.unmoved("gives 15, voter with two children right", 15, &voter, &digits("0111"), &go, 4);
    l.unmoved("gives 14, voter, memory of 3 bytes", 14, &voter, &digits("0001"), &go, 3);
}
