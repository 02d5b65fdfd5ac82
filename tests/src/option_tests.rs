//! What the documents say of options and of the children that a justified gate needs, F-1 of gates without an option and of Stuck, and F-5 of the size that
//! greedy compares, tried on all small maps and on random ones. Options and children are found here by trial, from the subset-minimal justifications of a gate,
//! and not by kinds of gates.

use crate::choices::{marks, shows_f5};
use crate::engine::*;
use crate::frame::Case;
use crate::maps::{build, coded_gates, configurations, has_coded_child, many_nots, small_maps};
use crate::random::random;
use std::cell::RefCell;
use std::collections::BTreeMap;

/// A gate's children, by Children.
fn children_of(map: &[u8], gate: usize) -> Vec<usize> {
    children(map, gate).chunks(2).map(|pair| pair[0] as usize + 256 * pair[1] as usize).collect()
}

/// The value that a gate of this kind is given by children with these values. F-3: kind 5 "is 1 when at least two are 1."
fn given(kind: u8, values: &[u8]) -> u8 {
    let ones = values.iter().filter(|value| **value == 1).count();
    let yes = match kind {
        NOT => ones == 0,
        AND => ones == values.len(),
        OR => ones > 0,
        XOR => ones == 1,
        VOTER => ones >= 2,
        _ => panic!("no such kind"),
    };
    yes as u8
}

/// "A gate is justified if it is an input or its children give its value."
fn justified(map: &[u8], values: &[u8], gate: usize) -> bool {
    let list: Vec<u8> = children_of(map, gate).iter().map(|child| values[*child]).collect();
    map[12 + 4 * gate] == INPUT || given(map[12 + 4 * gate], &list) == values[gate]
}

// ------------------------------------------------------------- justifications

/// A value or none for each child of a gate.
type Partial = Vec<Option<u8>>;

/// All 3^n of `n` children, those first that give a value to the first children.
fn partials(n: usize) -> Vec<Partial> {
    let mut list = vec![vec![]];
    for _ in 0..n {
        let longer = |partial: &Partial| [Some(0), Some(1), None].map(|value| [&partial[..], &[value]].concat());
        list = list.iter().flat_map(longer).collect();
    }
    list
}

/// Whether the gate has the value, whatever the children have that are given none.
fn forces(kind: u8, partial: &Partial, value: u8) -> bool {
    let agrees = |values: &Vec<u8>| partial.iter().zip(values).all(|(said, value)| said.map_or(true, |said| said == *value));
    configurations(partial.len() as u16).iter().filter(|values| agrees(values)).all(|values| given(kind, values) == value)
}

/// The subset-minimal justifications of a gate at this value: those that force it, while none that says less does.
fn justifications_by_trial(kind: u8, n: usize, value: u8) -> Vec<Partial> {
    let mut list = partials(n);
    list.retain(|partial| forces(kind, partial, value));
    let less = |partial: &Partial, child: usize| {
        let mut other = partial.clone();
        other[child] = None;
        other != *partial && forces(kind, &other, value)
    };
    list.retain(|partial| !(0..n).any(|child| less(partial, child)));
    list
}

thread_local! {
    static KNOWN: RefCell<BTreeMap<(u8, usize, u8), Vec<Partial>>> = RefCell::new(BTreeMap::new());
}

/// The same, each found once.
fn justifications(kind: u8, n: usize, value: u8) -> Vec<Partial> {
    let known = KNOWN.with(|known| known.borrow().get(&(kind, n, value)).cloned());
    known.unwrap_or_else(|| {
        let found = justifications_by_trial(kind, n, value);
        KNOWN.with(|known| known.borrow_mut().insert((kind, n, value), found.clone()));
        found
    })
}

/// The justifications of a gate that isn't an input, at its value.
fn justifications_of(map: &[u8], values: &[u8], gate: usize) -> Vec<Partial> {
    justifications(map[12 + 4 * gate], children_of(map, gate).len(), values[gate])
}

/// The places of the children that are given a value.
fn named(partial: &Partial) -> Vec<usize> {
    (0..partial.len()).filter(|place| partial[*place].is_some()).collect()
}

/// A voter's are the three pairs at its value, of 27 partial assignments of three children; seven of these force it, and thirteen force nothing.
#[test]
fn a_voter_is_justified_by_pairs() {
    assert_eq!(partials(3).len(), 27);
    let mut free = partials(3);
    for value in [0, 1] {
        let some = Some(value);
        let mut list = justifications(VOTER, 3, value);
        list.sort_by_key(named);
        assert_eq!(list, [[some, some, None], [some, None, some], [None, some, some]]);
        assert_eq!(partials(3).iter().filter(|partial| forces(VOTER, partial, value)).count(), 7);
        free.retain(|partial| !forces(VOTER, partial, value));
    }
    assert_eq!(free.len(), 13);
}

/// As document 01 counts them, of each other kind and fan-in.
#[test]
fn other_gates_are_justified_as_document_01_says() {
    let count = |kind, n, value| justifications(kind, n, value).len();
    assert_eq!([count(NOT, 1, 0), count(NOT, 1, 1), count(XOR, 2, 0), count(XOR, 2, 1)], [1, 1, 2, 2]);
    for n in 2..=8 {
        assert_eq!([count(AND, n, 1), count(OR, n, 0), count(AND, n, 0), count(OR, n, 1)], [1, 1, n, n]);
    }
}

fn with_turned(values: &[u8], gates: &[usize]) -> Vec<u8> {
    (0..values.len()).map(|gate| values[gate] ^ gates.contains(&gate) as u8).collect()
}

/// "Only these minimal justifications are used.", and "A gate belongs to an option only if the option turns it.": for each minimal justification of a gate
/// of the front the children that it turns. They are numbered by the children that they name, and those of a XOR, which name the same, by those they turn.
fn options_by_trial(map: &[u8], values: &[u8], gate: usize) -> Vec<Vec<usize>> {
    let list = children_of(map, gate);
    let turned = |partial: &Partial| -> Vec<usize> {
        named(partial).into_iter().filter(|place| partial[*place] != Some(values[list[*place]])).map(|place| list[place]).collect()
    };
    let mut options: Vec<(Vec<usize>, Vec<usize>)> =
        justifications_of(map, values, gate).iter().map(|partial| (named(partial), turned(partial))).collect();
    options.sort();
    options.into_iter().map(|(_, turned)| turned).collect()
}

/// "The parts of a subset-minimal justification that agree with the configuration": the children that are named by a justification of the gate whose every
/// value they have.
fn relevant_by_trial(map: &[u8], values: &[u8], gate: usize) -> Vec<usize> {
    let list = children_of(map, gate);
    let agrees = |partial: &Partial| named(partial).into_iter().all(|place| partial[place] == Some(values[list[place]]));
    let agreeing: Vec<Partial> = justifications_of(map, values, gate).into_iter().filter(agrees).collect();
    let places = (0..list.len()).filter(|place| agreeing.iter().any(|partial| partial[*place].is_some()));
    places.map(|place| list[place]).collect()
}

/// Survey's bytes: "The cone is the smallest set that has every coded gate and, for each justified gate in it, these children. The front is the cone's
/// unjustified gates. Interesting gates are the front and all descendants of its gates". A child stands below its parents.
fn survey_by_trial(map: &[u8], values: &[u8]) -> Vec<u8> {
    let mut bytes: Vec<u8> = vec![0; values.len()];
    for gate in coded_gates(map) {
        bytes[gate] = 1;
    }
    for gate in (0..values.len()).rev().filter(|gate| map[12 + 4 * gate] != INPUT) {
        match (bytes[gate] & 1 == 1, justified(map, values, gate)) {
            (true, true) => relevant_by_trial(map, values, gate).into_iter().for_each(|child| bytes[child] |= 1),
            (true, false) => bytes[gate] |= 6,
            _ => {}
        }
        if bytes[gate] & 4 == 4 {
            children_of(map, gate).into_iter().for_each(|child| bytes[child] |= 4);
        }
    }
    bytes
}

/// The sizes that go with these bytes: of the front all gates, and of those with the mark 4 what is left of their count when the NOT gates are taken off (F-5).
/// NOT gates are told by their single child, which no other gate has.
fn sizes_by_trial(map: &[u8], bytes: &[u8]) -> (u64, u64) {
    let marked = |part: u8| (0..bytes.len()).filter(move |gate| has(bytes, *gate, part));
    let (interesting, nots) = (marked(4).count(), marked(4).filter(|gate| children_of(map, *gate).len() == 1).count());
    (marked(2).count() as u64, (interesting - nots) as u64)
}

/// Survey leaves the bytes and returns the sizes that are found by trial, NOT gates marked like others; one size is 0 where the other is; and where no NOT is
/// interesting the interest set's is the count of marks. Gives the bytes, or none where Survey refuses.
fn expect_surveyed(map: &[u8], values: &[u8]) -> Option<Vec<u8>> {
    let mut bytes = vec![0; values.len()];
    let (front, interest) = survey(map, values, &mut bytes).ok()?;
    assert_eq!(bytes, survey_by_trial(map, values), "{map:?} {values:?}");
    assert_eq!((front, interest), sizes_by_trial(map, &bytes), "{map:?} {values:?}");
    assert_eq!(front == 0, interest == 0, "{map:?} {values:?}");
    assert!(interest == marks(map, values) || interesting_nots(map, &bytes) > 0, "{map:?} {values:?}");
    Some(bytes)
}

/// How many NOT gates have the mark 4.
fn interesting_nots(map: &[u8], bytes: &[u8]) -> usize {
    (0..bytes.len()).filter(|gate| map[12 + 4 * gate] == NOT && has(bytes, *gate, 4)).count()
}

/// How a gate stands in a survey: at which value, justified or not, with how many children at its value.
fn stands(map: &[u8], values: &[u8], gate: usize) -> (u8, bool, usize) {
    let right = children_of(map, gate).iter().filter(|child| values[**child] == values[gate]).count();
    (values[gate], justified(map, values, gate), right)
}

fn has(bytes: &[u8], gate: usize, part: u8) -> bool {
    bytes[gate] & part == part
}

/// Every small map with every configuration that keeps its codes; and voters of the cone in every way that they can stand: at 0 and at 1,
/// justified by two children or by three, and in the front with none right or with one.
#[test]
fn small_maps_are_surveyed_by_their_justifications() {
    let (mut surveys, mut voters, mut nots) = (0, BTreeMap::new(), BTreeMap::new());
    for (n, maps) in small_maps().into_iter().chain([(5, many_nots())]) {
        for map in maps {
            for values in configurations(n) {
                let bytes = match expect_surveyed(&map, &values) {
                    Some(bytes) => bytes,
                    None => continue,
                };
                surveys += 1;
                *nots.entry(interesting_nots(&map, &bytes)).or_insert(0) += 1;
                for gate in (0..n as usize).filter(|gate| map[12 + 4 * gate] == VOTER && has(&bytes, *gate, 1)) {
                    *voters.entry(stands(&map, &values, gate)).or_insert(0) += 1;
                }
            }
        }
    }
    println!("{surveys} surveys, voters of the cone {voters:?}, surveys by interesting NOT gates {nots:?}");
    assert!(nots.len() == 4 && nots.values().all(|count| *count >= 1000));
    let expected = [(0, false, 0), (0, false, 1), (0, true, 2), (0, true, 3), (1, false, 0), (1, false, 1), (1, true, 2), (1, true, 3)];
    assert_eq!(voters.keys().copied().collect::<Vec<_>>(), expected);
}

/// The same on random cases.
#[test]
fn random_maps_are_surveyed_by_their_justifications() {
    let (mut surveys, mut voters, mut nots) = (0, BTreeMap::new(), 0);
    for case in (0..6).flat_map(|seed| random(seed, 900)).filter(|case| case.op == b's' || case.op == b'r') {
        let bytes = match expect_surveyed(&case.map, &case.body) {
            Some(bytes) => bytes,
            None => continue,
        };
        surveys += 1;
        nots += (interesting_nots(&case.map, &bytes) > 1) as u32;
        for gate in (0..bytes.len()).filter(|gate| case.map[12 + 4 * gate] == VOTER && has(&bytes, *gate, 1)) {
            *voters.entry(stands(&case.map, &case.body, gate)).or_insert(0) += 1;
        }
    }
    println!("{surveys} random surveys, {nots} with more than one interesting NOT gate, voters of the cone {voters:?}");
    assert!(nots >= 200);
    assert!(voters.len() == 8 && voters.values().all(|count| *count >= 10));
}

/// A voter's options over inputs: a pair through a child that is right turns the other one, a pair of wrong ones turns both.
#[test]
fn a_voter_has_its_three_pairs() {
    let mut turned = [0; 3];
    for value in [0, 1] {
        let gates = [(INPUT, vec![]), (INPUT, vec![]), (INPUT, vec![]), (VOTER, vec![0, 1, 2])];
        let map = build(&gates, &[(3, value)]);
        for row in configurations(3) {
            let start = [&row[..], &[value]].concat();
            let right: Vec<usize> = (0..3).filter(|child| row[*child] == value).collect();
            if right.len() >= 2 {
                assert!(justified(&map, &start, 3));
                assert_eq!(relevant_by_trial(&map, &start, 3), right);
                continue;
            }
            for (option, pair) in [[0, 1], [0, 2], [1, 2]].into_iter().enumerate() {
                let mut after = start.clone();
                pair.into_iter().for_each(|child: usize| after[child] = value);
                for kind in [DOWN, UP] {
                    let (mut configuration, mut work) = (start.clone(), vec![0; 4]);
                    let count = pair.into_iter().filter(|child| !right.contains(child)).count();
                    assert_eq!(make_move(&map, &mut configuration, &[0, 0, kind, option as u8], &mut work), Ok((3, count as u64)));
                    assert_eq!(configuration, after);
                    turned[count] += 1;
                }
            }
        }
    }
    // At each value one row with none right, three pairs of two, and three rows with one right: two pairs of one and one of two; each by both kinds.
    assert_eq!(turned, [0, 24, 24]);
}

// -------------------------------------------------------------------- entries

/// "of the options with the smallest interest set after the move, in rising order". F-5: "Greedy choices compare the new size."
fn smallest(map: &[u8], values: &[u8], options: &[Vec<usize>]) -> Vec<Vec<usize>> {
    let size = |option: &Vec<usize>| sizes_by_trial(map, &survey_by_trial(map, &with_turned(values, option))).1;
    let least = options.iter().map(size).min();
    options.iter().filter(|option| Some(size(option)) == least).cloned().collect()
}

/// What F-1 says an entry turns from here: nothing where it is Stuck. With the drawn gate, and whether it had an option left.
fn said(map: &[u8], values: &[u8], entry: [u8; 4]) -> (usize, Vec<usize>, bool) {
    let mut bytes = vec![0; values.len()];
    survey(map, values, &mut bytes).unwrap();
    let front: Vec<usize> = (0..bytes.len()).filter(|gate| bytes[*gate] & 2 == 2).collect();
    let drawn = front[(entry[0] as usize + 256 * entry[1] as usize) % front.len()];
    let coded = coded_gates(map);
    let mut left = options_by_trial(map, values, drawn);
    left.retain(|option| !option.iter().any(|gate| coded.contains(gate)));
    let (is_coded, any) = (coded.contains(&drawn), !left.is_empty());
    let at = |list: &[Vec<usize>]| list[entry[3] as usize % list.len()].clone();
    let turned = match entry[2] {
        _ if !any && is_coded => vec![],
        _ if !any => vec![drawn],
        UP if !is_coded => vec![drawn],
        GREEDY => at(&smallest(map, values, &left)),
        _ => at(&left),
    };
    (drawn, turned, any)
}

/// Move and Run do what is said; where it is nothing they are Stuck, with the configuration as it was and its survey in the work memory.
fn expect_said(map: &[u8], values: &[u8], entry: [u8; 4]) -> (usize, Vec<usize>, bool) {
    let (drawn, turned, any) = said(map, values, entry);
    let (mut configuration, mut work, mut bytes) = (values.to_vec(), vec![170; values.len()], vec![0; values.len()]);
    let moved = make_move(map, &mut configuration, &entry, &mut work);
    assert_eq!(moved, Ok((drawn as u64, turned.len() as u64)), "{map:?} {values:?} {entry:?}");
    assert_eq!(configuration, with_turned(values, &turned), "{map:?} {values:?} {entry:?}");
    let (front, _) = survey(map, &configuration, &mut bytes).unwrap();
    assert_eq!(work, bytes);

    let (mut after, mut work, mut answer) = (values.to_vec(), vec![170; values.len()], vec![170; values.len()]);
    let Answer { ending, moves, flips } = run(map, &mut after, &entry, &mut work, &mut answer);
    let expected = match (turned.len(), front) {
        (0, _) => Ending::Stuck,
        (_, 0) => Ending::Found,
        _ => Ending::Spent(front),
    };
    assert_eq!((ending, moves, flips), (expected, !turned.is_empty() as u64, turned.len() as u64));
    assert_eq!((after, work), (configuration, bytes));
    assert_eq!(answer == vec![170; values.len()], expected != Ending::Found);
    (drawn, turned, any)
}

/// What an entry turns: nothing, the drawn gate itself, one child or more.
fn turning(drawn: usize, turned: &[usize]) -> &'static str {
    match turned {
        [] => "nothing",
        [gate] if *gate == drawn => "itself",
        [_] => "one child",
        _ => "two children",
    }
}

/// Entries of every kind, draw and option that can differ on maps of up to four gates.
fn entries() -> Vec<[u8; 4]> {
    let mut list = Vec::new();
    for draw in 0..3 {
        for kind in [GREEDY, DOWN, UP] {
            list.extend((0..3).map(|option| [draw, 0, kind, option]));
        }
    }
    list
}

/// Every small map with every start: what an entry turns, and "Stuck must never occur on a map that some state satisfies." On four and five gates each start
/// takes one entry in three, by turn.
#[test]
fn small_maps_turn_what_is_left() {
    let (mut number, mut stuck, mut for_want, mut voters) = (0, 0, 0, BTreeMap::new());
    for (n, maps) in small_maps() {
        for map in maps {
            let satisfied = configurations(n).iter().any(|values| mark(&map, values) == Ok(true));
            for start in configurations(n) {
                if !matches!(survey(&map, &start, &mut vec![0; n as usize]), Ok((front, _)) if front > 0) {
                    continue;
                }
                number += 1;
                let (first, step) = if n >= 4 { (number % 3, 3) } else { (0, 1) };
                for entry in entries().into_iter().skip(first).step_by(step) {
                    let (drawn, turned, any) = expect_said(&map, &start, entry);
                    assert!(!turned.is_empty() || !satisfied, "Stuck where some state satisfies: {map:?} {start:?}");
                    stuck += turned.is_empty() as u32;
                    for_want += (turned == [drawn] && !any) as u32;
                    if map[12 + 4 * drawn] == VOTER {
                        *voters.entry(turning(drawn, &turned)).or_insert(0) += 1;
                    }
                }
            }
        }
    }
    println!("{number} starts with a front; {stuck} entries Stuck, {for_want} that turn the drawn gate for want of options");
    println!("moves of voters: {voters:?}");
    assert!(stuck > 1000 && for_want > 1000);
    assert!(voters.len() == 4 && voters.values().all(|count| *count >= 100));
}

/// The same on the moves among random cases.
#[test]
fn random_maps_turn_what_is_left() {
    let (mut stuck, mut for_want, mut fewer, mut voters) = (0, 0, 0, BTreeMap::new());
    for case in (20..32).flat_map(|seed| random(seed, 800)).filter(|case| case.op == b'v' && case.tape.len() == 4) {
        let mut work = vec![0; case.room];
        if make_move(&case.map, &mut case.body.clone(), &case.tape, &mut work).is_err() {
            continue;
        }
        for kind in [GREEDY, DOWN, UP] {
            let entry = [case.tape[0], case.tape[1], kind, case.tape[3]];
            let (drawn, turned, any) = expect_said(&case.map, &case.body, entry);
            stuck += turned.is_empty() as u32;
            for_want += (turned == [drawn] && !any) as u32;
            if case.map[12 + 4 * drawn] == VOTER {
                *voters.entry(turning(drawn, &turned)).or_insert(0) += 1;
            }
            fewer += (any && options_by_trial(&case.map, &case.body, drawn).iter().flatten().any(|gate| coded_gates(&case.map).contains(gate))) as u32;
        }
    }
    println!("random moves: {stuck} Stuck, {for_want} that turn the drawn gate for want of options, {fewer} with some options out");
    println!("random moves of voters: {voters:?}");
    assert!(stuck > 100 && for_want > 100 && fewer > 50);
    assert!(voters.len() == 4 && voters.values().all(|count| *count >= 10));
}

/// Whether some row shows the codes, for maps of up to 10 inputs.
fn some_row_shows(map: &[u8], gates: usize) -> Option<bool> {
    let inputs = check(map).ok()?.inputs as u16;
    if inputs > 10 {
        return None;
    }
    let mut values = vec![0; gates];
    let shows = |row: &Vec<u8>| evaluate(map, row, &mut values).is_ok() && mark(map, &values) == Ok(true);
    Some(configurations(inputs).iter().any(shows))
}

/// "Stuck must never occur on a map that some state satisfies", on random runs; and Found comes only where some does.
#[test]
fn random_runs_are_stuck_only_where_no_state_satisfies() {
    let (mut stuck, mut found) = (0, 0);
    for case in (32..40).flat_map(|seed| random(seed, 800)).filter(|case: &Case| case.op == b'r') {
        let (mut work, mut answer) = (vec![0; case.room], vec![0; case.answer]);
        let ending = run(&case.map, &mut case.body.clone(), &case.lent_tape(), &mut work, &mut answer).ending;
        match (ending, some_row_shows(&case.map, case.body.len())) {
            (Ending::Stuck, Some(shown)) => {
                assert!(!shown, "Stuck where some state satisfies: {case:?}");
                stuck += 1;
            }
            (Ending::Found, Some(shown)) => {
                assert!(shown);
                found += has_coded_child(&case.map) as u32;
            }
            _ => {}
        }
    }
    println!("random runs: {stuck} Stuck on maps that no state satisfies, {found} Found with a coded child");
    assert!(stuck > 100 && found > 50);
}

// ------------------------------------------------------------- what F-5 changes

/// The drawn gates and options of greedy entries that matter on maps of up to five gates.
fn greedy_entries(front: u64) -> Vec<[u8; 4]> {
    (0..front as u8).flat_map(|draw| (0..4).map(move |option| [draw, 0, GREEDY, option])).collect()
}

/// The starts that Survey accepts, and their fronts' sizes.
fn surveyed_starts(map: &[u8], n: u16) -> Vec<(Vec<u8>, u64)> {
    let front = |start: &Vec<u8>| survey(map, start, &mut vec![0; n as usize]).map(|(front, _)| front);
    configurations(n).into_iter().filter_map(|start| front(&start).ok().map(|front| (start, front))).collect()
}

/// One greedy entry in three on every map of `many_nots`: what it turns, and how often NOT gates' weight would have led elsewhere, with option 0 too.
#[test]
fn greedy_compares_the_new_size() {
    let (mut greedy, mut other, mut with_0) = (0, 0, 0);
    for map in many_nots() {
        for (start, front) in surveyed_starts(&map, 5) {
            for entry in greedy_entries(front).into_iter().skip(greedy % 3).step_by(3) {
                let (_, turned, _) = expect_said(&map, &start, entry);
                let changed = shows_f5(&map, &start, &entry, &with_turned(&start, &turned));
                greedy += 1;
                other += changed as u32;
                with_0 += (changed && entry[3] == 0) as u32;
            }
        }
    }
    println!("{greedy} greedy moves on maps of many NOTs, {other} otherwise by the old size, {with_0} of them with option 0");
    assert!(other >= 600 && with_0 >= 100);
}

fn has_not(map: &[u8], gates: usize) -> bool {
    (0..gates).any(|gate| map[12 + 4 * gate] == NOT)
}

/// Where no gate is a NOT, a greedy move leads where it did by the old size, and the interest set's size after it is the old one.
fn expect_as_before(map: &[u8], values: &[u8], entry: &[u8]) {
    let (mut after, mut work) = (values.to_vec(), vec![0; values.len()]);
    make_move(map, &mut after, entry, &mut work).unwrap();
    assert!(!shows_f5(map, values, entry, &after), "{map:?} {values:?} {entry:?}");
    assert_eq!(survey(map, &after, &mut work).map(|(_, interest)| interest), Ok(marks(map, &after)));
}

/// On all small maps without NOT gates, and on random ones.
#[test]
fn maps_without_nots_are_as_before() {
    let (mut small, mut random_ones) = (0, 0);
    for (n, maps) in small_maps() {
        for map in maps.into_iter().filter(|map| !has_not(map, n as usize)) {
            for (start, front) in surveyed_starts(&map, n) {
                for entry in greedy_entries(front) {
                    expect_as_before(&map, &start, &entry);
                    small += 1;
                }
            }
        }
    }
    for case in (40..60).flat_map(|seed| random(seed, 800)).filter(|case| case.op == b'v' && case.tape.len() == 4) {
        let entry = [case.tape[0], case.tape[1], GREEDY, case.tape[3]];
        let accepted = make_move(&case.map, &mut case.body.clone(), &entry, &mut vec![0; case.room]).is_ok();
        if accepted && !has_not(&case.map, case.body.len()) {
            expect_as_before(&case.map, &case.body, &entry);
            random_ones += 1;
        }
    }
    println!("greedy moves without NOT gates: {small} on small maps, {random_ones} on random ones");
    assert!(small >= 10_000 && random_ones >= 40);
}
