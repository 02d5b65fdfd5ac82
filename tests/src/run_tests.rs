//! What the documents say of runs, tried on all small maps and on random ones.

use crate::call_tests::without_8;
use crate::engine::*;
use crate::fixed::adder;
use crate::frame::*;
use crate::inputs::{inputs, pieces};
use crate::maps::{build, configurations, has_coded_child, maps_of, small_maps, voters_below_a_not};
use crate::random::{program_inputs, random};
use std::collections::BTreeSet;

/// A run's record and the memories after it.
#[derive(Debug, PartialEq, Eq)]
struct Ran {
    record: Answer,
    configuration: Vec<u8>,
    work: Vec<u8>,
    answer: Vec<u8>,
}

fn ran_with(map: &[u8], start: &[u8], tape: &[u8], work: Vec<u8>, answer: Vec<u8>) -> Ran {
    let (mut configuration, mut work, mut answer) = (start.to_vec(), work, answer);
    let record = run(map, &mut configuration, tape, &mut work, &mut answer);
    Ran { record, configuration, work, answer }
}

/// With memories of exactly the gate count, each byte 170.
fn ran(map: &[u8], start: &[u8], tape: &[u8]) -> Ran {
    ran_with(map, start, tape, vec![170; start.len()], vec![170; start.len()])
}

fn record(ending: Ending, moves: u64, flips: u64) -> Answer {
    Answer { ending, moves, flips }
}

fn digits(text: &str) -> Vec<u8> {
    text.bytes().map(|b| b - b'0').collect()
}

// ------------------------------------------------------------ bench examples

fn p9() -> Vec<u8> {
    build(&[(INPUT, vec![]), (NOT, vec![0]), (AND, vec![0, 1])], &[(2, 1)])
}

fn p11() -> Vec<u8> {
    let gates = [(INPUT, vec![]), (INPUT, vec![]), (NOT, vec![0]), (AND, vec![0, 2]), (OR, vec![1, 3])];
    build(&gates, &[(4, 1)])
}

/// P3 to P11 as runs: start, tape, record, then configuration, survey and, where
/// it is Found, answer.
#[test]
fn p3_to_p11() {
    let (adder, one) = (adder(), build(&[(INPUT, vec![])], &[]));
    let (found, spent) = (Ending::Found, Ending::Spent(1));
    let (a, b, c) = ("00110101", "11111001", "00100001");
    let (d, u, g) = ([0, 0, DOWN, 0], [0, 0, UP, 0], [0, 0, GREEDY, 0]);
    let (d3, u1) = ([0, 0, DOWN, 3], [0, 0, UP, 1]);
    let list: [(&[u8], &str, Vec<[u8; 4]>, Answer, [&str; 3]); 9] = [
        (&adder, a, vec![d], record(found, 1, 1), ["10110101", "11110101", "10110101"]),
        (&adder, a, vec![d3], record(found, 1, 1), ["01110101", "11110101", "01110101"]),
        (&adder, a, vec![u], record(spent, 1, 1), ["00100101", "44440701", ""]),
        (&adder, c, vec![g], record(spent, 1, 1), ["00101001", "44007001", ""]),
        (&adder, c, vec![u1], record(spent, 1, 1), ["00100101", "44440701", ""]),
        (&adder, b, vec![], record(found, 0, 0), [b, "11001001", "11001001"]),
        (&p9(), "001", vec![d, d], record(spent, 2, 3), ["011", "447", ""]),
        (&one, "1", vec![], record(found, 0, 0), ["1", "0", "0"]),
        (&p11(), "00111", vec![u, d], record(found, 2, 2), ["01101", "01001", "01101"]),
    ];
    for (map, start, tape, record, [configuration, work, answer]) in list {
        let outcome = ran(map, &digits(start), &tape.concat());
        assert_eq!(outcome.record, record);
        assert_eq!(outcome.configuration, digits(configuration));
        assert_eq!(outcome.work, digits(work));
        let untouched = vec![170; start.len()];
        assert_eq!(outcome.answer, if answer.is_empty() { untouched } else { digits(answer) });
    }
}

/// "Case P3 gives it 86 bytes and prints `FOUND 1 1 101` and a line end."
#[test]
fn p3_for_the_program() {
    let lengths = [68, 0, 8, 0, 4, 0];
    let input = [&lengths[..], &adder(), &digits("00110101"), &[0, 0, DOWN, 0]].concat();
    assert_eq!(input.len(), 86);
    assert_eq!(program(&input), "FOUND 1 1 101");
    assert_eq!(program(&input[..85]), "REFUSED 0");
    assert_eq!(program(&[]), "REFUSED 0");
}

#[test]
fn declined_runs_leave_all_memories() {
    let (map, a) = (adder(), digits("00110101"));
    let go: &[u8] = &[0, 0, DOWN, 0];
    let late: &[u8] = &[0, 0, DOWN, 0, 0, 0, 3, 0];
    let long = vec![0; 65_536];
    let list: [(&[u8], &[u8], &[u8], usize, usize, u8); 11] = [
        (&map[..11], &a, go, 8, 8, 1),
        (&map[..67], &a, go, 8, 8, 3),
        (&map, &a[..7], go, 8, 8, 9),
        (&map, &[2, 0, 1, 1, 0, 1, 0, 0], go, 8, 8, 10),
        (&map, &[0; 8], go, 8, 8, 11),
        (&map, &a, &[0, 0, 3, 0, 0], 8, 8, 12),
        (&map, &a, &long, 8, 8, 12),
        (&map, &a, late, 7, 8, 13),
        (&map, &a, go, 7, 8, 14),
        (&map, &a, go, 8, 7, 14),
        (&map, &a, &[], 0, 0, 14),
    ];
    for (map, start, tape, work, answer, number) in list {
        let outcome = ran_with(map, start, tape, vec![170; work], vec![170; answer]);
        assert_eq!(outcome.record, record(Ending::Refused(number), 0, 0));
        assert_eq!(outcome.configuration, start);
        assert_eq!((outcome.work, outcome.answer), (vec![170; work], vec![170; answer]));
    }
}

/// 65,532 bytes are a tape; eight flips for each of its 16,383 entries.
#[test]
fn the_most_flips() {
    let mut gates = vec![(INPUT, vec![]); 8];
    gates.push((AND, (0..8).collect()));
    gates.push((OR, (0..8).collect()));
    let map = build(&gates, &[(8, 1), (9, 0)]);
    let outcome = ran(&map, &digits("0000000010"), &[0, 0, DOWN, 0].repeat(16_383));
    assert_eq!(outcome.record, record(Ending::Spent(1), 16_383, 131_064));
    assert_eq!(outcome.configuration, digits("1111111110"));
    assert_eq!(outcome.work, digits("5555555517"));
}

// ------------------------------------------------------------- all small maps

/// The configurations that keep the map's codes.
fn starts(map: &[u8], n: u16) -> Vec<Vec<u8>> {
    let keeps = |start: &Vec<u8>| survey(map, start, &mut vec![0; start.len()]) != Err(11);
    configurations(n).into_iter().filter(keeps).collect()
}

fn satisfying(map: &[u8], n: u16) -> Vec<Vec<u8>> {
    configurations(n).into_iter().filter(|values| mark(map, values) == Ok(true)).collect()
}

/// "count the gates where the two differ."
fn differing(one: &[u8], other: &[u8]) -> usize {
    one.iter().zip(other).filter(|(a, b)| a != b).count()
}

/// Inputs and gates outside the cone count too: A and B of the bench examples differ at gates 0, 1, 4 and 5.
#[test]
fn a_and_b_differ_at_four_gates() {
    assert_eq!(differing(&digits("00110101"), &digits("11111001")), 4);
}

/// Every entry that can matter in a map of four gates: no front has more than
/// three gates, none of them more than three options. (With a NOT above them there
/// may be four; the three lowest will do.)
fn small_entries() -> Vec<[u8; 4]> {
    let mut list = Vec::new();
    for draw in 0..3 {
        list.push([draw, 0, UP, 0]);
        for option in 0..3 {
            list.push([draw, 0, DOWN, option]);
            list.push([draw, 0, GREEDY, option]);
        }
    }
    list
}

/// "From every start that keeps an accepted map's codes, some tape ends Found
/// exactly when some state satisfies the map." Whether a start leads on to Found
/// is asked of all starts at once, until nothing changes.
#[test]
fn some_tape_finds_where_some_state_satisfies() {
    let (mut maps, mut hopeless) = (0, 0);
    for (n, of_n) in small_maps() {
        for map in of_n {
            let starts = starts(&map, n);
            let ends = |start: &Vec<u8>| ran(&map, start, &[]).record.ending == Ending::Found;
            let mut finds: BTreeSet<Vec<u8>> = starts.iter().filter(|start| ends(start)).cloned().collect();
            let mut steps = Vec::new();
            for start in starts.iter().filter(|start| !finds.contains(*start)) {
                for entry in small_entries() {
                    let Ran { record, configuration, .. } = ran(&map, start, &entry);
                    let done = (record.ending != Ending::Stuck) as u64;
                    assert_eq!((record.moves, record.flips), (done, differing(start, &configuration) as u64));
                    steps.push((start.clone(), configuration));
                }
            }
            let mut before = starts.len() + 1;
            while finds.len() != before {
                before = finds.len();
                for (from, to) in &steps {
                    if finds.contains(to) {
                        finds.insert(from.clone());
                    }
                }
            }
            let some = !satisfying(&map, n).is_empty();
            assert_eq!(finds.len(), if some { starts.len() } else { 0 }, "{map:?}");
            maps += 1;
            hopeless += !some as u32;
        }
    }
    println!("{maps} small maps, {hopeless} that no state satisfies");
    assert!(maps > 1000 && hopeless > 100);
}

/// "Of the entries done, the first works on the start, each later one on the
/// configuration that the entry before left." All tapes of two entries on all
/// maps of three gates.
#[test]
fn a_run_of_two_entries_is_two_runs() {
    for map in maps_of(3) {
        for start in starts(&map, 3) {
            for one in small_entries() {
                let first = ran(&map, &start, &one);
                for two in small_entries() {
                    let both = ran(&map, &start, &[one, two].concat());
                    if first.record.ending == Ending::Stuck {
                        assert_eq!(both, first);
                        continue;
                    }
                    let second = ran(&map, &first.configuration, &two);
                    let moves = first.record.moves + second.record.moves;
                    let flips = first.record.flips + second.record.flips;
                    let record = record(second.record.ending, moves, flips);
                    assert_eq!(both, Ran { record, ..second });
                }
            }
        }
    }
}

/// "the state it then gives obeys every gate and shows every code": Mark says
/// yes to it. Inputs in the cone keep their values, the others are 0.
fn expect_key(map: &[u8], outcome: &Ran) {
    assert_eq!(mark(map, &outcome.answer), Ok(true));
    let mut again = vec![0; outcome.configuration.len()];
    assert_eq!(survey(map, &outcome.configuration, &mut again), Ok((0, 0)));
    assert_eq!(again, outcome.work);
    for gate in 0..again.len() {
        let kept = if again[gate] == 1 { outcome.configuration[gate] } else { 0 };
        let input = map[12 + 4 * gate] == INPUT;
        assert!(!input || outcome.answer[gate] == kept);
    }
}

#[test]
fn found_gives_a_key_on_all_small_maps() {
    let mut keys = 0;
    for (n, maps) in small_maps() {
        for map in maps {
            for start in starts(&map, n) {
                let outcome = ran(&map, &start, &[]);
                if outcome.record.ending == Ending::Found {
                    expect_key(&map, &outcome);
                    keys += 1;
                }
            }
        }
    }
    println!("{keys} keys");
    assert!(keys > 1000);
}

/// Whether kinds and options exist, no kind greedy, with which the run on exactly
/// these draws ends Found within `bound` moves and flips. Tried one after the
/// other; no gate of these maps has more than three options.
fn some_choice_finds(map: &[u8], start: &[u8], draws: &[u16], bound: usize) -> bool {
    let choices = [[UP, 0], [DOWN, 0], [DOWN, 1], [DOWN, 2]];
    (0..1u32 << (2 * draws.len())).any(|number| {
        let mut tape = Vec::new();
        for (place, draw) in draws.iter().enumerate() {
            let choice = choices[(number >> (2 * place) & 3) as usize];
            tape.extend_from_slice(&[(draw % 256) as u8, (draw / 256) as u8, choice[0], choice[1]]);
        }
        let Answer { ending, moves, flips } = ran(map, start, &tape).record;
        ending == Ending::Found && moves <= bound as u64 && flips <= bound as u64
    })
}

/// "For every such start and every satisfying assignment of all gates": each
/// with the number of gates where they differ.
fn for_every_pair(n: u16, maps: Vec<Vec<u8>>, mut each: impl FnMut(&[u8], &[u8], usize)) {
    for map in maps {
        let assignments = satisfying(&map, n);
        for start in starts(&map, n) {
            let counts: BTreeSet<usize> = assignments.iter().map(|values| differing(&start, values)).collect();
            for count in counts {
                each(&map, &start, count);
            }
        }
    }
}

/// Demand 3 on all maps of up to three gates and every list of draws: no front
/// has more than two gates there, so draws of 0 and 1 stand for all.
#[test]
fn every_list_of_draws_can_find_in_time() {
    let mut lists = 0;
    for n in 1..=3 {
        for_every_pair(n, maps_of(n), |map, start, count| {
            for bits in 0..1u32 << count {
                let draws: Vec<u16> = (0..count).map(|place| (bits >> place & 1) as u16).collect();
                assert!(some_choice_finds(map, start, &draws, count), "{map:?} {start:?} {draws:?}");
                lists += 1;
            }
        });
    }
    println!("{lists} lists of draws");
    assert!(lists > 500);
}

/// Demand 3 on all maps of four gates, and on all of three with a voter over them and a
/// NOT of it, with one list of draws for each pair.
#[test]
fn a_list_of_draws_can_find_in_time_on_four_gates() {
    let mut lists: u32 = 0;
    for (n, maps) in [(4, maps_of(4)), (5, voters_below_a_not())] {
        for_every_pair(n, maps, |map, start, count| {
            let draws: Vec<u16> = (0..count as u32).map(|place| (lists * 7919 + place * 40_503) as u16).collect();
            assert!(some_choice_finds(map, start, &draws, count), "{map:?} {start:?} {draws:?}");
            lists += 1;
        });
    }
    println!("{lists} lists of draws on four gates, and on five");
    assert!(lists > 5000);
}

// ---------------------------------------------------------------- random runs

fn random_runs(seeds: std::ops::Range<u64>) -> Vec<Case> {
    seeds.flat_map(|seed| random(seed, 1000)).filter(|case| case.op == b'r').collect()
}

fn ran_case(case: &Case) -> Ran {
    ran_with(&case.map, &case.body, &case.lent_tape(), vec![170; case.room], vec![170; case.answer])
}

/// The same run by single moves: "survey; if the front is empty, end Found; if
/// the tape is used up, end Spent; else do the next entry." A move that turns
/// nothing is Stuck.
fn by_moves(case: &Case) -> (Answer, Vec<u8>, Vec<u8>) {
    let (mut configuration, mut work) = (case.body.clone(), vec![170; case.room]);
    let (mut moves, mut flips) = (0, 0);
    let tape = case.lent_tape();
    let mut entries = tape.chunks(4);
    loop {
        let (front, _) = survey(&case.map, &configuration, &mut work).unwrap();
        if front == 0 {
            return (record(Ending::Found, moves, flips), configuration, work);
        }
        let entry = match entries.next() {
            Some(entry) => entry,
            None => return (record(Ending::Spent(front), moves, flips), configuration, work),
        };
        let before = configuration.clone();
        let (_, turned) = make_move(&case.map, &mut configuration, entry, &mut work).unwrap();
        assert_eq!(turned as usize, differing(&before, &configuration));
        if turned == 0 {
            return (record(Ending::Stuck, moves, flips), configuration, work);
        }
        moves += 1;
        flips += turned;
    }
}

#[test]
fn random_runs_are_their_moves() {
    for case in random_runs(0..6) {
        let outcome = ran_case(&case);
        let gates = case.body.len();
        match outcome.record.ending {
            Ending::Refused(_) => {
                assert_eq!((outcome.record.moves, outcome.record.flips), (0, 0));
                assert_eq!(outcome.configuration, case.body);
                assert_eq!((outcome.work, outcome.answer), (vec![170; case.room], vec![170; case.answer]));
                continue;
            }
            Ending::Spent(_) | Ending::Stuck => assert_eq!(outcome.answer, vec![170; case.answer]),
            Ending::Found => {
                assert!(outcome.work[gates..].iter().chain(&outcome.answer[gates..]).all(|byte| *byte == 170));
                let exact = ran(&case.map, &case.body, &case.lent_tape());
                expect_key(&case.map, &exact);
                assert_eq!(outcome.answer[..gates], exact.answer);
            }
        }
        assert_eq!((outcome.record, outcome.configuration, outcome.work), by_moves(&case));
    }
}

/// "Work and answer memory may hold any bytes and have any length that number 14
/// lets through: ending, moves and flips are the same for all of them."
#[test]
fn memories_change_no_run() {
    for (number, case) in random_runs(6..8).iter().enumerate() {
        let tape = case.lent_tape();
        let one = ran(&case.map, &case.body, &tape);
        let (byte, more) = (number as u8, number % 5);
        let length = case.body.len() + more;
        let other = ran_with(&case.map, &case.body, &tape, vec![byte; length], vec![!byte; length]);
        assert_eq!((one.record, &one.configuration), (other.record, &other.configuration));
        if !matches!(one.record.ending, Ending::Refused(_)) {
            assert_eq!(one.work, other.work[..case.body.len()]);
        }
        if one.record.ending == Ending::Found {
            assert_eq!(one.answer, other.answer[..case.body.len()]);
        }
    }
}

/// The program prints what the run on the same bodies gives.
#[test]
fn the_program_prints_the_run() {
    for case in random_runs(8..10) {
        let tape = case.lent_tape();
        let whole = 6 + case.map.len() + case.body.len() + tape.len();
        if whole > 65_536 {
            continue;
        }
        let outcome = ran_with(&case.map, &case.body, &tape, vec![0; 1024], vec![0; 1024]);
        let Answer { ending, moves, flips } = outcome.record;
        let inputs = (0..case.body.len()).filter(|gate| case.map.get(12 + 4 * gate) == Some(&INPUT));
        let line = match ending {
            Ending::Found => {
                let row: String = inputs.map(|gate| outcome.answer[gate].to_string()).collect();
                format!("FOUND {moves} {flips} {row}")
            }
            Ending::Spent(front) => format!("SPENT {moves} {flips} {front}"),
            Ending::Stuck => format!("STUCK {moves} {flips}"),
            Ending::Refused(number) => format!("REFUSED {number}"),
        };
        let input = Case::program(&case.map, &case.body, (&tape, 1)).whole_input();
        assert_eq!(input.len(), whole);
        assert_eq!(program(&input), line);
        assert_eq!(program(&input[..whole - 1]), "REFUSED 0");
        assert_eq!(program(&[&input[..], &[0]].concat()), "REFUSED 0");
    }
}

/// Demand 3 on maps of any size: whatever the draws, some entry that isn't greedy
/// turns only gates where start and assignment differ, so the run ends in time.
#[test]
fn random_draws_can_find_in_time() {
    let (mut tried, mut inner) = (0, 0);
    for (number, case) in random_runs(10..16).iter().enumerate() {
        let known = ran(&case.map, &case.body, &case.lent_tape());
        if known.record.ending != Ending::Found || case.body.len() > 300 {
            continue;
        }
        let count = differing(&case.body, &known.answer);
        let mut tape = Vec::new();
        for place in 0..count {
            let draw = (number * 7919 + place * 40_503) % 65_536;
            let entry = |kind, option| [(draw % 256) as u8, (draw / 256) as u8, kind, option];
            let choices = (0..9).map(|k| if k == 0 { entry(UP, 0) } else { entry(DOWN, k - 1) });
            let now = ran(&case.map, &case.body, &tape).configuration;
            let left = differing(&now, &known.answer);
            let nearer = |choice: &[u8; 4]| {
                let next = ran(&case.map, &now, choice);
                differing(&next.configuration, &known.answer) as u64 + next.record.flips == left as u64
            };
            let choice = choices.into_iter().find(nearer).expect("some entry leads nearer");
            tape.extend_from_slice(&choice);
        }
        let record = ran(&case.map, &case.body, &tape).record;
        assert_eq!(record.ending, Ending::Found);
        assert!(record.moves <= count as u64 && record.flips <= count as u64);
        tried += (record.moves > 1) as u32;
        inner += (record.moves > 1 && has_coded_child(&case.map)) as u32;
    }
    println!("{tried} random runs of more than one move found in time, {inner} with a coded child");
    assert!(tried > 100 && inner > 30);
}

/// The runs among random cases meet every number and end in all sorts of places.
#[test]
fn random_runs_are_not_bare() {
    let cases = random_runs(0..20);
    let (mut at_once, mut midway, mut at_the_end, mut spent, mut long, mut refused) = (0, 0, 0, 0, 0, BTreeSet::new());
    let (mut fronts, mut most, mut stuck, mut stuck_later) = (0, 0, 0, 0);
    for case in &cases {
        let Answer { ending, moves, flips } = ran_case(case).record;
        let entries = (case.tape.len() * case.times / 4) as u64;
        match ending {
            Ending::Found if moves == 0 => at_once += 1,
            Ending::Found if moves < entries => midway += (moves > 1) as u32,
            Ending::Found => at_the_end += 1,
            Ending::Spent(front) => {
                assert_eq!(moves, entries);
                spent += 1;
                long += (moves > 1000) as u32;
                fronts += (front > 1) as u32;
            }
            Ending::Stuck => {
                assert!(moves < entries);
                stuck += 1;
                stuck_later += (moves > 1) as u32;
            }
            Ending::Refused(number) => {
                refused.insert(number);
            }
        }
        most = most.max(flips);
    }
    println!(
        "{} runs; Found: {at_once} at once, {midway} midway after several moves, {at_the_end} at the end; \
         Spent: {spent}, {long} after 1,000 moves, {fronts} with larger fronts; \
         Stuck: {stuck}, {stuck_later} after several moves; most flips {most}",
        cases.len()
    );
    assert_eq!(refused, without_8(1..=14));
    assert!(stuck >= 200 && stuck_later >= 50);
    assert!(at_once >= 100 && midway >= 200 && at_the_end >= 20 && spent >= 300 && long >= 30 && fronts >= 100);
}

#[test]
fn random_inputs_are_not_bare() {
    let lines: Vec<String> = (1..=3).flat_map(|seed| program_inputs(seed, 60)).map(|input| program(&input)).collect();
    let count = |word: &str| lines.iter().filter(|line| line.starts_with(word)).count();
    println!("{} Found, {} Spent, {} Stuck, {} Refused", count("FOUND"), count("SPENT"), count("STUCK"), count("REFUSED"));
    assert!(count("FOUND") >= 40 && count("SPENT") >= 30 && count("STUCK") >= 10 && count("REFUSED") >= 20 && count("REFUSED 0") >= 5);
    let first = program_inputs(1, 3);
    assert_eq!(first.iter().map(|input| input.len()).collect::<Vec<usize>>(), [0, 65_536, 65_537]);
    assert_eq!(lines[..3], ["REFUSED 0", "SPENT 16357 130856 1", "REFUSED 0"]);
    assert_eq!(program_inputs(2, 9), program_inputs(2, 60)[..9]);
}

/// "the number is 0 if the input passes 65,536 bytes", also where its first 65,536 bytes are a whole input.
#[test]
fn inputs_that_show_how_the_program_reads() {
    let list = inputs();
    let of = |name: &str| &list.iter().find(|(other, _)| other == name).expect(name).1[..];
    assert_eq!((of("p3").len(), program(of("p3"))), (86, String::from("FOUND 1 1 101")));
    assert_eq!(program(of("p3-and-1")), "REFUSED 0");
    for (name, line) in [
        ("found-011", "FOUND 16361 16361 01100"),
        ("found-101", "FOUND 16361 16361 10100"),
        ("spent", "SPENT 16357 130856 1"),
        ("stuck", "STUCK 16351 130808"),
        ("refused", "REFUSED 13"),
    ] {
        assert_eq!((of(name).len(), program(of(name)).as_str()), (65_536, line));
        for more in [1, 1_048_576] {
            let longer = of(&format!("{name}-and-{more}"));
            assert_eq!(longer.len(), 65_536 + more);
            assert_eq!(longer[..65_536], *of(name));
            assert_eq!(program(longer), "REFUSED 0");
        }
    }
    let random = list.iter().filter(|(name, _)| name.starts_with("random-")).count();
    assert_eq!(list.len(), 17 + random);
    assert!(random >= 3);
}

#[test]
fn pieces_are_the_input() {
    for (name, input) in inputs() {
        let list = pieces(&input);
        assert_eq!(list.concat(), input, "{name}");
        assert!(list.iter().all(|piece| !piece.is_empty()), "{name}");
        assert!((1..6).contains(&list[0].len()) && list[list.len() - 1].len() == 1, "{name}");
        assert!(list.len() >= 40 && list.len() < 100, "{name}: {}", list.len());
    }
    assert!(pieces(&[]).is_empty());
    assert_eq!(pieces(&[7]), [&[7][..]]);
    assert_eq!(pieces(&[7, 8]), [&[7][..], &[8]]);
}

// ------------------------------------------------------------------ the frame

/// A run's head is eight bytes longer than a check's, and the tape is last.
#[test]
fn a_run_that_is_cut_off_ends_the_file() {
    let case = Case::run(&adder(), &[1, 2, 3], (&[4, 5, 6, 7, 8], 513), (9, 770));
    let bytes = case.framed();
    assert_eq!(bytes[..15], [b'r', 68, 0, 3, 0, 9, 0, 5, 0, 0, 0, 1, 2, 2, 3]);
    assert_eq!(bytes[83..], [1, 2, 3, 4, 5, 6, 7, 8]);
    assert_eq!(bytes.len(), case.size());
    for length in 0..bytes.len() {
        assert_eq!(parse(&bytes[..length]), Ok(vec![]));
    }
    assert_eq!(parse(&bytes), Ok(vec![case.clone()]));
    assert_eq!(case.lent_tape().len(), 5 * 513);
}

#[test]
fn what_the_format_rules_out_is_an_error() {
    let right = |case: Case| parse(&case.framed()).is_ok();
    assert!(right(Case::run(&[], &[], (&[0; 4], 16_500), (2048, 2048))));
    assert!(!right(Case::run(&[], &[], (&[0; 4], 16_501), (0, 0))));
    assert!(!right(Case::run(&[], &[], (&[], 0), (2049, 0))));
    assert!(!right(Case::run(&[], &[], (&[], 0), (0, 2049))));
    assert!(right(Case::input(&[0; 500], &[0; 500], (&[0; 5], 13_000))));
    assert!(!right(Case::input(&[0; 500], &[0; 501], (&[0; 5], 13_000))));
    assert!(!right(Case { room: 1, ..Case::input(&[], &[], (&[], 0)) }));
    assert!(!right(Case { answer: 1, ..Case::input(&[], &[], (&[], 0)) }));
}

/// The memories of a run's line: `-` for one that is empty.
#[test]
fn lines_of_runs() {
    assert_eq!(answer(&Case::run(&[], &[], (&[], 0), (0, 0))), "REFUSED 1 - - -");
    assert_eq!(answer(&Case::run(&[], &[7], (&[], 0), (2, 1))), "REFUSED 1 07 aaaa aa");
    let one = build(&[(INPUT, vec![])], &[]);
    assert_eq!(answer(&Case::run(&one, &[1], (&[], 0), (2, 1))), "FOUND 0 0 01 00aa 00");
    let case = Case::run(&p9(), &[0, 0, 1], (&[0, 0, DOWN, 0], 2), (3, 4));
    assert_eq!(answer(&case), "SPENT 2 3 1 000101 040407 aaaaaaaa");
    let stuck = build(&[(INPUT, vec![]), (NOT, vec![0])], &[(0, 0), (1, 0)]);
    let case = Case::run(&stuck, &[0, 0], (&[0, 0, DOWN, 0], 2), (3, 4));
    assert_eq!(answer(&case), "STUCK 0 0 0000 0507aa aaaaaaaa");
    assert_eq!(answer(&Case::program(&stuck, &[0, 0], (&[0, 0, DOWN, 0], 2))), "STUCK 0 0");
}
