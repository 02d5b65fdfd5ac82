//! Move where children of a voter are coded (F-1 with F-3): a pair is out where it
//! would turn a coded child, and left where its coded child is right.

use super::*;

pub(super) fn voters_coded(l: &mut List) {
    one_pair_left(l);
    right_children_coded(l);
    coded_voters_stuck(l);
    uncoded_voters_turned(l);
    greedy_among_those_left(l);
}

/// One wrong child is coded: of the three pairs the one without it is left, and every
/// kind and option takes it.
fn one_pair_left(l: &mut List) {
    let list: [(&str, &[(u16, u8)], [&str; 2], usize); 12] = [
        ("first child coded, none right", &[(0, 0), (3, 1)], ["0001", "0111"], 2),
        ("second child coded, none right", &[(1, 0), (3, 1)], ["0001", "1011"], 2),
        ("third child coded, none right", &[(2, 0), (3, 1)], ["0001", "1101"], 2),
        ("first child coded, the second right", &[(0, 0), (3, 1)], ["0101", "0111"], 1),
        ("first child coded, the third right", &[(0, 0), (3, 1)], ["0011", "0111"], 1),
        ("second child coded, the first right", &[(1, 0), (3, 1)], ["1001", "1011"], 1),
        ("second child coded, the third right", &[(1, 0), (3, 1)], ["0011", "1011"], 1),
        ("third child coded, the first right", &[(2, 0), (3, 1)], ["1001", "1101"], 1),
        ("third child coded, the second right", &[(2, 0), (3, 1)], ["0101", "1101"], 1),
        ("second child coded, the first right and coded", &[(0, 1), (1, 0), (3, 1)], ["1001", "1011"], 1),
        ("first child coded, none right, at 0", &[(0, 1), (3, 0)], ["1110", "1000"], 2),
        ("third child coded, the first right, at 0", &[(2, 1), (3, 0)], ["0110", "0010"], 1),
    ];
    for (name, codes, [before, after], turned) in list {
        let map = alone(VOTER, 3, codes);
        for (way, entry) in [("greedy 1", greedy(1)), ("down 2", down(2)), ("up 254", up(254))] {
            l.moved(&format!("coded voter, its {name}, {way}"), &map, before, entry, (3, turned), after, "1111");
        }
    }
}

/// The child that is right is coded: all three pairs are left, those through it turn
/// the other child alone.
fn right_children_coded(l: &mut List) {
    let list: [(&str, &[(u16, u8)], &str, [(&str, &str, usize); 3]); 4] = [
        ("first child right", &[(0, 1), (3, 1)], "1001", [("1101", "1101", 1), ("1011", "1011", 1), ("1111", "1111", 2)]),
        ("second child right", &[(1, 1), (3, 1)], "0101", [("1101", "1101", 1), ("1111", "1111", 2), ("0111", "0111", 1)]),
        ("third child right", &[(2, 1), (3, 1)], "0011", [("1111", "1111", 2), ("1011", "1011", 1), ("0111", "0111", 1)]),
        ("first child right, at 0", &[(0, 0), (3, 0)], "0110", [("0010", "1101", 1), ("0100", "1011", 1), ("0000", "1111", 2)]),
    ];
    for (name, codes, before, pairs) in list {
        let map = alone(VOTER, 3, codes);
        for (way, entry, pair) in
            [("down 0", down(0), 0), ("down 1", down(1), 1), ("down 2", down(2), 2), ("up 255", up(255), 0), ("greedy 4", greedy(4), 1), ("greedy 254", greedy(254), 2)]
        {
            let (after, bytes, turned) = pairs[pair];
            l.moved(&format!("coded voter, its {name} and coded, {way}"), &map, before, entry, (3, turned), after, bytes);
        }
    }
}

/// Two wrong children are coded: every pair has one of them.
fn coded_voters_stuck(l: &mut List) {
    let list: [(&str, &[(u16, u8)], &str, &str); 9] = [
        ("first and second child coded, none right", &[(0, 0), (1, 0), (3, 1)], "0001", "5547"),
        ("first and second child coded, the third right", &[(0, 0), (1, 0), (3, 1)], "0011", "5547"),
        ("first and third child coded, none right", &[(0, 0), (2, 0), (3, 1)], "0001", "5457"),
        ("first and third child coded, the second right", &[(0, 0), (2, 0), (3, 1)], "0101", "5457"),
        ("second and third child coded, none right", &[(1, 0), (2, 0), (3, 1)], "0001", "4557"),
        ("second and third child coded, the first right", &[(1, 0), (2, 0), (3, 1)], "1001", "4557"),
        ("children all coded, none right", &[(0, 0), (1, 0), (2, 0), (3, 1)], "0001", "5557"),
        ("children all coded, the first right", &[(0, 1), (1, 0), (2, 0), (3, 1)], "1001", "5557"),
        ("first and second child coded, none right, at 0", &[(0, 1), (1, 1), (3, 0)], "1110", "5547"),
    ];
    for (name, codes, start, bytes) in list {
        let map = alone(VOTER, 3, codes);
        for (way, entry) in [("greedy", greedy(9)), ("down", drawn(7, down(1))), ("up", up(2))] {
            l.unturned(&format!("coded voter, its {name}, {way}"), &map, start, entry, 3, bytes);
        }
    }
}

/// A voter below a coded NOT, two of its wrong children coded: the voter itself is
/// turned, and then the NOT is wrong. With one coded, up alone does so.
fn uncoded_voters_turned(l: &mut List) {
    let list: [(&str, &[(u16, u8)], [&str; 3]); 3] = [
        ("first and second child coded", &[(0, 0), (1, 0), (4, 0)], ["00010", "00000", "55447"]),
        ("second and third child coded, the first right", &[(1, 0), (2, 0), (4, 0)], ["10010", "10000", "45547"]),
        ("first and third child coded, at 0", &[(0, 1), (2, 1), (4, 1)], ["11101", "11111", "54547"]),
    ];
    for (name, codes, [before, after, bytes]) in list {
        let map = below_a_not(VOTER, 3, codes);
        for (way, entry) in [("greedy 1", greedy(1)), ("down 1", down(1)), ("up 3", up(3))] {
            l.moved(&format!("uncoded voter, its {name}, {way}"), &map, before, entry, (3, 1), after, bytes);
        }
    }
    let one = below_a_not(VOTER, 3, &[(0, 0), (4, 0)]);
    for (way, entry, turned, after, bytes) in [
        ("greedy 1", greedy(1), 2, "01110", "11111"),
        ("down 1", down(1), 2, "01110", "11111"),
        ("up 1", up(1), 1, "00000", "54447"),
    ] {
        l.moved(&format!("uncoded voter, its first child coded, {way}"), &one, "00010", entry, (3, turned), after, bytes);
    }
}

/// The smallest interest set is sought among the pairs that are left.
fn greedy_among_those_left(l: &mut List) {
    let xor = beside_a_voter(XOR, &[1, 2], &[(0, 1), (3, 1), (4, 0)]);
    // Without the code on 2 the pair first-third would be the best.
    let not = beside_a_voter(NOT, &[1], &[(2, 0), (3, 1), (4, 1)]);
    for option in [0, 1, 255] {
        let name = format!("a pair that turns two is best, the first child coded, greedy {option}");
        l.moved(&name, &xor, "10010", greedy(option), (3, 2), "11110", "11111");
        l.moved(&format!("the best pair is out, greedy {option}"), &not, "00011", greedy(option), (3, 2), "11011", "15117");
    }
}
