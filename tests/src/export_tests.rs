//! Export (F-4): texts written by hand, and what the clauses say, against Mark and Evaluate.

use crate::dimacs::{read, Cnf};
use crate::engine::*;
use crate::fixed::adder;
use crate::maps::{build, configurations, small_maps, Gates};

/// The text that Export writes into memory with some bytes to spare, and what it returns: the text's length.
fn exported(map: &[u8]) -> Vec<u8> {
    let mut memory = vec![170; LONGEST + 3];
    let length = export(map, &mut memory).unwrap() as usize;
    assert!(memory[length..].iter().all(|byte| *byte == 170));
    memory.truncate(length);
    memory
}

fn clauses(map: &[u8]) -> Cnf {
    read(&exported(map)).unwrap()
}

/// A gate of this kind over as many inputs, and codes.
fn over(inputs: u16, kind: u8, codes: &[(u16, u8)]) -> Vec<u8> {
    build(&[vec![(INPUT, vec![]); inputs as usize], vec![(kind, (0..inputs).collect())]].concat(), codes)
}

#[test]
fn texts_by_hand() {
    for (map, text) in [
        (build(&[(INPUT, vec![])], &[]), "p cnf 1 0\n"),
        (build(&[(INPUT, vec![])], &[(0, 1)]), "p cnf 1 1\n1 0\n"),
        (build(&[(INPUT, vec![])], &[(0, 0)]), "p cnf 1 1\n-1 0\n"),
        (over(1, NOT, &[]), "p cnf 2 2\n-2 -1 0\n2 1 0\n"),
        (over(2, AND, &[]), "p cnf 3 3\n-3 1 0\n-3 2 0\n3 -1 -2 0\n"),
        (over(2, OR, &[]), "p cnf 3 3\n-3 1 2 0\n3 -1 0\n3 -2 0\n"),
        (over(2, XOR, &[]), "p cnf 3 4\n-3 1 2 0\n-3 -1 -2 0\n3 1 -2 0\n3 -1 2 0\n"),
        (over(3, VOTER, &[(3, 1)]), "p cnf 4 7\n-4 1 2 0\n-4 1 3 0\n-4 2 3 0\n4 -1 -2 0\n4 -1 -3 0\n4 -2 -3 0\n4 0\n"),
        (over(3, AND, &[(1, 0), (3, 1)]), "p cnf 4 6\n-4 1 0\n-4 2 0\n-4 3 0\n4 -1 -2 -3 0\n-2 0\n4 0\n"),
        (over(8, OR, &[]), "p cnf 9 9\n-9 1 2 3 4 5 6 7 8 0\n9 -1 0\n9 -2 0\n9 -3 0\n9 -4 0\n9 -5 0\n9 -6 0\n9 -7 0\n9 -8 0\n"),
        (
            adder(),
            "p cnf 8 18\n\
             -4 1 2 0\n-4 -1 -2 0\n4 1 -2 0\n4 -1 2 0\n\
             -5 1 0\n-5 2 0\n5 -1 -2 0\n\
             -6 3 0\n-6 4 0\n6 -3 -4 0\n\
             -7 3 4 0\n-7 -3 -4 0\n7 3 -4 0\n7 -3 4 0\n\
             -8 5 6 0\n8 -5 0\n8 -6 0\n\
             8 0\n",
        ),
    ] {
        assert_eq!(String::from_utf8(exported(&map)).unwrap(), text);
    }
}

/// 16 comes behind the map's tests, and a declined call leaves the memory.
#[test]
fn short_memories_give_16() {
    let map = over(1, NOT, &[(0, 1)]);
    let text = b"p cnf 2 3\n-2 -1 0\n2 1 0\n1 0\n";
    for room in 0..text.len() + 3 {
        let mut memory = vec![170; room];
        if room < text.len() {
            assert_eq!(export(&map, &mut memory), Err(16));
            assert_eq!(memory, vec![170; room]);
            assert_eq!(export(&map[..map.len() - 1], &mut memory), Err(3));
        } else {
            assert_eq!(export(&map, &mut memory), Ok(text.len() as u64));
            assert_eq!(memory[..text.len()], text[..]);
            assert_eq!(memory[text.len()..], vec![170; room - text.len()]);
        }
    }
}

/// "An assignment satisfies the clauses if and only if Mark says yes to it." All configurations of all small maps.
#[test]
fn the_clauses_hold_exactly_where_mark_says_yes() {
    for (n, maps) in small_maps() {
        let all = configurations(n);
        for map in maps {
            let cnf = clauses(&map);
            assert_eq!(cnf.variables, n as usize);
            for configuration in &all {
                assert_eq!(cnf.satisfied(configuration), mark(&map, configuration).unwrap());
            }
        }
    }
}

/// The same of AND and OR of every fan-in.
#[test]
fn the_clauses_of_every_fan_in() {
    for kind in [AND, OR] {
        for inputs in 2..=8 {
            for codes in [vec![], vec![(inputs, 0)], vec![(0, 1), (inputs, 1)]] {
                let map = over(inputs, kind, &codes);
                let cnf = clauses(&map);
                for configuration in configurations(inputs + 1) {
                    assert_eq!(cnf.satisfied(&configuration), mark(&map, &configuration).unwrap());
                }
            }
        }
    }
}

/// Whether the values that some row gives have every code.
fn some_row_shows_the_codes(map: &[u8], n: usize) -> bool {
    configurations(check(map).unwrap().inputs as u16).iter().any(|row| {
        let mut values = vec![0; n];
        evaluate(map, row, &mut values).unwrap();
        mark(map, &values).unwrap()
    })
}

#[test]
fn satisfiable_exactly_where_some_row_shows_the_codes() {
    for (n, maps) in small_maps() {
        let all = configurations(n);
        let (mut yes, mut no) = (0, 0);
        for map in maps {
            let cnf = clauses(&map);
            let satisfiable = all.iter().any(|configuration| cnf.satisfied(configuration));
            assert_eq!(satisfiable, some_row_shows_the_codes(&map, n as usize));
            yes += satisfiable as u32;
            no += !satisfiable as u32;
        }
        println!("{n} gates: {yes} maps that are satisfiable, {no} that aren't");
        assert!(n < 3 || 8 * yes.min(no) > yes + no);
    }
}

/// The length of the longest text.
const LONGEST: usize = 141_716;

/// The kinds and numbers of children that a gate with so many gates below it may have.
fn allowed(below: usize) -> Vec<(u8, usize)> {
    let several = (2..=8).flat_map(|fan_in| [(AND, fan_in), (OR, fan_in)]);
    let all = [(INPUT, 0), (NOT, 1), (XOR, 2), (VOTER, 3)].into_iter().chain(several);
    all.filter(|(_, fan_in)| *fan_in <= below).collect()
}

/// The most bytes that the lines of a gate's clauses take, how many lines these are, and the gate. Over so many children they are longest where the children
/// are the gates next below, whose variables have the most digits.
fn longest_lines(gate: usize) -> (usize, usize, (u8, Vec<u16>)) {
    let lines_of = |(kind, fan_in): (u8, usize)| {
        let children: Vec<u16> = (gate as u16 - fan_in as u16..gate as u16).collect();
        let last = (kind, children);
        let map = build(&[vec![(INPUT, vec![]); gate], vec![last.clone()]].concat(), &[]);
        let text = text(&map).unwrap();
        let head = text.find('\n').unwrap() + 1;
        (text.len() - head, text.lines().count() - 1, last)
    };
    allowed(gate).into_iter().map(lines_of).max().unwrap()
}

/// The lines of a gate's clauses depend on its own kind, number and children alone, whatever the other gates are, and any gate may be coded. So no text is
/// longer than that of 1,024 gates which each have their longest lines and are coded 0, if no head is longer: with at most nine clauses for a gate and one for
/// its code a head says at most 10,240.
#[test]
fn the_longest_text() {
    let mut gates: Gates = Vec::new();
    let (mut bytes, mut count) = (0, 0);
    for gate in 0..1024 {
        let (lines, clauses, chosen) = longest_lines(gate);
        let unit = format!("-{} 0\n", gate + 1);
        bytes += lines + unit.len();
        count += clauses + 1;
        gates.push(chosen);
    }
    let head = format!("p cnf 1024 {count}\n");
    assert_eq!((head.len(), head.len() + bytes), ("p cnf 1024 10240\n".len(), LONGEST));
    let codes: Vec<(u16, u8)> = (0..1024).map(|gate| (gate, 0)).collect();
    assert_eq!(exported(&build(&gates, &codes)).len(), LONGEST);
}

/// What the reader of this folder must not take.
#[test]
fn the_reader_is_strict() {
    let good = "p cnf 3 2\n-3 1 0\n2 0\n";
    assert_eq!(read(good.as_bytes()), Ok(Cnf { variables: 3, clauses: vec![vec![-3, 1], vec![2]] }));
    for bad in [
        "",
        "\n",
        "-3 1 0\n2 0\n",
        "p cnf 3 2\n-3 1 0\n2 0",
        "p cnf 3 2\n-3 1 0\n2 0\n\n",
        "p cnf 3 2\n\n-3 1 0\n2 0\n",
        "p cnf 3 2\n-3 1 0\n",
        "p cnf 3 1\n-3 1 0\n2 0\n",
        "p cnf 2 2\n-3 1 0\n2 0\n",
        "p  cnf 3 2\n-3 1 0\n2 0\n",
        "p cnf 3 2 \n-3 1 0\n2 0\n",
        " p cnf 3 2\n-3 1 0\n2 0\n",
        "p cnf 3 2\n-3  1 0\n2 0\n",
        "p cnf 3 2\n-3 1 0 \n2 0\n",
        "p cnf 3 2\n -3 1 0\n2 0\n",
        "p cnf 3 2\n-3 1\n2 0\n",
        "p cnf 3 2\n-3 0 1 0\n2 0\n",
        "p cnf 3 2\n-3 +1 0\n2 0\n",
        "p cnf 3 2\n-03 1 0\n2 0\n",
        "p cnf 3 2\n-3 1 -0\n2 0\n",
        "p cnf 3 2\r\n-3 1 0\r\n2 0\r\n",
        "p cnf 3 2\n-3 1 0 2 0\n",
        "p cnf -3 2\n-3 1 0\n2 0\n",
        "c text\np cnf 3 2\n-3 1 0\n2 0\n",
    ] {
        assert!(read(bad.as_bytes()).is_err(), "{bad:?}");
    }
    let cnf = read(good.as_bytes()).unwrap();
    let yes: Vec<Vec<u8>> = configurations(3).into_iter().filter(|values| cnf.satisfied(values)).collect();
    assert_eq!(yes, [[0, 1, 0], [1, 1, 0], [1, 1, 1]]);
}
