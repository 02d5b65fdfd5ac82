//! Move: draws, fronts below the coded gates, and large maps.

use super::*;

/// The front by rising gate number and the draw modulo its size.
pub(super) fn draws(l: &mut List) {
    front_of_one(l);
    front_of_three(l);
    front_with_gaps(l);
    not_and_or(l);
}

/// Fronts below the coded gates.
pub(super) fn below(l: &mut List) {
    and_and_or(l);
    below_zero(l);
    below_another(l);
    six_levels(l);
}

/// Large maps.
pub(super) fn large(l: &mut List) {
    chain_of_1024(l);
    chain_of_40(l);
    wide_fronts(l);
}

fn front_of_one(l: &mut List) {
    let adder = adder();
    let a = "00110101";
    for draw in [1, 2, 255, 256, 32_768, 65_534, 65_535] {
        l.moved(&format!("front of one, draw {draw}"), &adder, a, drawn(draw, down(0)), (3, 1), "10110101", "11110101");
    }
    l.moved("front of one, draw 65535, down 255", &adder, a, drawn(65_535, down(255)), (3, 1), "01110101", "11110101");
    l.moved("front of one, draw 65535, up", &adder, a, drawn(65_535, up(255)), (3, 1), "00100101", "44440701");
    l.moved("front of one, draw 65535, greedy", &adder, a, drawn(65_535, greedy(255)), (3, 1), "01110101", "11110101");
}

/// Three coded NOTs of three inputs, all in the front.
fn front_of_three(l: &mut List) {
    let nots = map(
        &[(INPUT, &[]), (INPUT, &[]), (INPUT, &[]), (NOT, &[0]), (NOT, &[1]), (NOT, &[2])],
        &[(3, 1), (4, 1), (5, 1)],
    );
    for (draw, gate) in [
        (0, 3),
        (1, 4),
        (2, 5),
        (3, 3),
        (4, 4),
        (5, 5),
        (255, 3),
        (256, 4),
        (257, 5),
        (512, 5),
        (32_768, 5),
        (65_280, 3),
        (65_533, 4),
        (65_534, 5),
        (65_535, 3),
    ] {
        let (after, bytes) = match gate {
            3 => ("011111", "144177"),
            4 => ("101111", "414717"),
            _ => ("110111", "441771"),
        };
        l.moved(&format!("front of three, draw {draw}"), &nots, "111111", drawn(draw, down(0)), (gate, 1), after, bytes);
    }
}

/// Of five coded NOTs the second, fourth and fifth are in the front.
fn front_with_gaps(l: &mut List) {
    let mut gates = vec![(INPUT, vec![]); 5];
    gates.extend((0..5).map(|child| (NOT, vec![child])));
    let five = build(&gates, &[(5, 1), (6, 1), (7, 1), (8, 1), (9, 1)]);
    for (draw, gate, after, bytes) in [
        (0, 6, "0001111111", "1114411177"),
        (1, 8, "0100111111", "1411417117"),
        (2, 9, "0101011111", "1414117171"),
        (3, 6, "0001111111", "1114411177"),
        (65_533, 8, "0100111111", "1411417117"),
        (65_534, 9, "0101011111", "1414117171"),
        (65_535, 6, "0001111111", "1114411177"),
    ] {
        l.moved(&format!("front of three with gaps, draw {draw}"), &five, "0101111111", drawn(draw, greedy(1)), (gate, 1), after, bytes);
    }
}

/// An uncoded NOT and a coded OR at 0 in the front.
fn not_and_or(l: &mut List) {
    let mixed: [(u8, &[u16]); 6] = [
        (INPUT, &[]),
        (NOT, &[0]),
        (INPUT, &[]),
        (XOR, &[1, 2]),
        (INPUT, &[]),
        (OR, &[0, 4]),
    ];
    let mixed = map(&mixed, &[(3, 1), (5, 0)]);
    for draw in [0, 2, 256, 65_534] {
        l.moved(&format!("front of two, draw {draw}, down"), &mixed, "110100", drawn(draw, down(0)), (1, 1), "010100", "111111");
        l.moved(&format!("front of two, draw {draw}, up"), &mixed, "110100", drawn(draw, up(1)), (1, 1), "100100", "444747");
    }
    for draw in [1, 3, 257, 65_535] {
        l.moved(&format!("front of two, draw {draw}, down"), &mixed, "110100", drawn(draw, down(1)), (5, 1), "010100", "111111");
        l.moved(&format!("front of two, draw {draw}, up"), &mixed, "110100", drawn(draw, up(3)), (5, 1), "010100", "111111");
        l.moved(&format!("front of two, draw {draw}, greedy"), &mixed, "110100", drawn(draw, greedy(9)), (5, 1), "010100", "111111");
    }
}

/// 3 AND(0,1) and 4 OR(1,2), both uncoded and both in the front.
fn and_and_or(l: &mut List) {
    let shared = map(
        &[(INPUT, &[]), (INPUT, &[]), (INPUT, &[]), (AND, &[0, 1]), (OR, &[1, 2]), (AND, &[3, 4])],
        &[(5, 1)],
    );
    for (name, entry, outcome, after, bytes) in [
        ("AND at 1, down 0", down(0), (3, 2), "110111", "110111"),
        ("AND at 1, down 255", down(255), (3, 2), "110111", "110111"),
        ("AND at 1, greedy 1", greedy(1), (3, 2), "110111", "110111"),
        ("AND at 1, up", up(77), (3, 1), "000011", "444447"),
        ("OR at 1, down 0", drawn(1, down(0)), (4, 1), "010111", "450711"),
        ("OR at 1, down 1", drawn(1, down(1)), (4, 1), "001111", "441711"),
        ("OR at 1, down 255", drawn(1, down(255)), (4, 1), "001111", "441711"),
        ("OR at 1, greedy 0", drawn(3, greedy(0)), (4, 1), "010111", "450711"),
        ("OR at 1, greedy 3", drawn(65_535, greedy(3)), (4, 1), "001111", "441711"),
        ("OR at 1, up 0", drawn(1, up(0)), (4, 1), "000101", "444447"),
        ("OR at 1, up 1", drawn(1, up(1)), (4, 1), "000101", "444447"),
    ] {
        l.moved(&format!("uncoded {name}"), &shared, "000111", entry, outcome, after, bytes);
    }
    l.moved("uncoded AND at 1 with one child right", &shared, "010111", down(1), (3, 1), "110111", "110111");
    l.moved("coded OR at 0 with one child wrong, up", &map(&ADDER, &[(7, 0)]), "11001000", up(0), (7, 1), "11000000", "55117101");
}

/// AND at 0 and XOR at 0 below an OR at 0.
fn below_zero(l: &mut List) {
    let zero = map(&ADDER, &[(7, 0)]);
    for (name, entry, after, bytes) in [
        ("down 0", down(0), "01000000", "54171101"),
        ("down 1", down(1), "10000000", "45171101"),
        ("down 255", down(255), "10000000", "45171101"),
        ("greedy 2", greedy(2), "01000000", "54171101"),
        ("greedy 255", greedy(255), "10000000", "45171101"),
        ("up", up(1), "11001000", "44444407"),
    ] {
        l.moved(&format!("uncoded AND at 0, {name}"), &zero, "11000000", entry, (4, 1), after, bytes);
    }
    for (name, entry, after, bytes) in [
        ("down 0", down(0), "11100000", "55017101"),
        ("down 1", down(1), "00100000", "11011101"),
        ("up 0", up(0), "01110000", "54441701"),
        ("up 1", up(1), "01110000", "54441701"),
    ] {
        l.moved(&format!("uncoded XOR at 0, {name}"), &zero, "01100000", entry, (3, 1), after, bytes);
    }
}

/// A front gate that is a front gate's child.
fn below_another(l: &mut List) {
    let nested = map(
        &[(INPUT, &[]), (INPUT, &[]), (AND, &[0, 1]), (NOT, &[2]), (AND, &[2, 3])],
        &[(4, 1)],
    );
    for (name, entry, outcome, after, bytes) in [
        ("the lower, down", drawn(65_534, down(0)), (2, 1), "11111", "55571"),
        ("the lower, up", up(9), (2, 1), "01011", "44447"),
        ("the upper, down", drawn(1, down(9)), (3, 1), "01011", "44447"),
        ("the upper, greedy", drawn(65_535, greedy(9)), (3, 1), "01011", "44447"),
        ("the upper, up", drawn(1, up(0)), (3, 1), "01101", "44447"),
    ] {
        l.moved(&format!("one front gate below another, {name}"), &nested, "01111", entry, outcome, after, bytes);
    }
}

fn six_levels(l: &mut List) {
    let deep = deep();
    for (name, entry, outcome, after, bytes) in [
        ("draw 0, down 0", down(0), (5, 1), "01001011111", "10014111171"),
        ("draw 0, down 1", down(1), (5, 1), "10001011111", "01014111171"),
        ("draw 2, greedy 3", drawn(2, greedy(3)), (5, 1), "10001011111", "01014111171"),
        ("draw 0, up", up(1), (5, 1), "11001111111", "44014471171"),
        ("draw 1, down", drawn(1, down(0)), (9, 1), "11000011111", "44011711111"),
        ("draw 65535, greedy", drawn(65_535, greedy(0)), (9, 1), "11000011111", "44011711111"),
        ("draw 1, up", drawn(1, up(0)), (9, 1), "11001011101", "44444444447"),
    ] {
        l.moved(&format!("six levels, front of two, {name}"), &deep, "11001011111", entry, outcome, after, bytes);
    }
    for (name, entry, after, bytes) in [
        ("down 0", down(0), "10000011111", "01011111111"),
        ("down 1", down(1), "10010010111", "44411447111"),
        ("greedy 0", greedy(0), "10000011111", "01011111111"),
        ("greedy 1", greedy(1), "10000011111", "01011111111"),
        ("up", up(0), "10010011011", "44444444447"),
    ] {
        l.moved(&format!("six levels, XOR near the top, {name}"), &deep, "10010011111", entry, (8, 1), after, bytes);
    }
    for (name, entry) in [("down", down(3)), ("up", up(4)), ("greedy", greedy(5))] {
        l.moved(&format!("six levels, the coded gate, {name}"), &deep, "10000011101", entry, (10, 1), "10000011111", "01011111111");
    }
}

/// A chain of 1,024 gates of which gate 512 alone is wrong.
fn chain_of_1024(l: &mut List) {
    let chain_of_1024 = chain(1024);
    let broken = format!("{}{}", "10".repeat(256), "01".repeat(256));
    let after = format!("{}11{}", "10".repeat(255), "01".repeat(256));
    let bytes = format!("{}7{}", "4".repeat(511), "1".repeat(512));
    l.moved("chain of 1,024 gates, gate 512 wrong, down", &chain_of_1024, &broken, drawn(65_535, down(255)), (512, 1), &after, &bytes);
    let after = format!("{}11{}", "10".repeat(256), "01".repeat(255));
    let bytes = format!("{}7{}", "4".repeat(513), "1".repeat(510));
    l.moved("chain of 1,024 gates, gate 512 wrong, up", &chain_of_1024, &broken, drawn(7, up(1)), (512, 1), &after, &bytes);
}

fn chain_of_40(l: &mut List) {
    let chain = chain(40);
    let lowest = format!("11{}", "01".repeat(19));
    let all = "1".repeat(40);
    l.moved("chain of 40 gates, the lowest NOT wrong, down", &chain, &lowest, down(0), (1, 1), &"01".repeat(20), &all);
    let after = format!("10{}", "01".repeat(19));
    l.moved("chain of 40 gates, the lowest NOT wrong, up", &chain, &lowest, up(0), (1, 1), &after, &format!("447{}", "1".repeat(37)));
    let middle = format!("{}{}", "10".repeat(10), "01".repeat(10));
    let after = format!("{}11{}", "10".repeat(9), "01".repeat(10));
    let bytes = format!("{}7{}", "4".repeat(19), "1".repeat(20));
    l.moved("chain of 40 gates, gate 20 wrong, greedy", &chain, &middle, drawn(513, greedy(2)), (20, 1), &after, &bytes);
    let highest = format!("{}11", "01".repeat(19));
    l.moved("chain of 40 gates, the coded NOT wrong, up", &chain, &highest, up(0), (39, 1), &"01".repeat(20), &all);
}

fn wide_fronts(l: &mut List) {
    // Gates 404 and 405 are in the front, ORs at 0 with gate 402 at 1.
    let layers = layers();
    let start = format!("{}1{}1{}", "0".repeat(402), "0".repeat(195), "0".repeat(425));
    let after = format!("{}1{}", "0".repeat(598), "0".repeat(425));
    let bytes = format!("{}0{}", "1".repeat(598), "1".repeat(425));
    l.moved("512 layers of two gates, greedy", &layers, &start, drawn(65_534, greedy(255)), (404, 1), &after, &bytes);

    // A front of 269: gates 1 to 269. One input turned makes all of them right
    // and gate 270 wrong.
    let ones = format!("1{}0", "1".repeat(269));
    let after = format!("0{}0", "1".repeat(269));
    let bytes = format!("5{}7", "1".repeat(269));
    for (draw, gate) in [(65_535, 169), (256, 257)] {
        l.moved(&format!("front of 269, draw {draw}"), &fan_of_nots(), &ones, drawn(draw, down(0)), (gate, 1), &after, &bytes);
    }
}
