//! Long tapes, large maps, and lengths past 32 bits.

use crate::call::{Call, Kind};
use crate::dress::{dressed, enough, needed};
use crate::engines::{FOUND, SPENT, STUCK};
use crate::harness::Harness;
use crate::lend::{Pages, Way};
use peeriewick::{raw, LONGEST_TEXT};
use peeriewick_tests::dice::Dice;
use peeriewick_tests::engine::{self, AND, DOWN, GREEDY, INPUT, NOT, OR, UP, VOTER, XOR};
use peeriewick_tests::fixed::adder;
use peeriewick_tests::maps::{build, push16};
use peeriewick_tests::random::random_entries;

type Tried = Result<(), String>;

/// An AND of eight that is to be 1 and an OR of the same eight that is to be 0: each entry turns all eight.
fn torn() -> (Vec<u8>, Vec<u8>) {
    let mut gates = vec![(INPUT, vec![]); 8];
    gates.push((AND, (0..8).collect()));
    gates.push((OR, (0..8).collect()));
    (build(&gates, &[(8, 1), (9, 0)]), vec![0, 0, 0, 0, 0, 0, 0, 0, 1, 0])
}

/// 256 inputs, each under a NOT that is to be 1 and stands so; the inputs are at 1, so that all NOTs are the front.
fn nots() -> (Vec<u8>, Vec<u8>) {
    let mut gates = vec![(INPUT, vec![]); 256];
    gates.extend((0..256).map(|input| (NOT, vec![input])));
    let codes: Vec<(u16, u8)> = (256..512).map(|gate| (gate, 1)).collect();
    (build(&gates, &codes), vec![1; 512])
}

/// The map with the most children, 8,156: each gate over the eight before it, and the last one coded.
fn fullest() -> (Vec<u8>, Vec<u8>) {
    let gate = |number: u16| match number {
        0 => (INPUT, vec![]),
        1 => (NOT, vec![0]),
        _ => ([AND, OR][number as usize % 2], (number.saturating_sub(8)..number).collect()),
    };
    let gates: Vec<(u8, Vec<u16>)> = (0..1024).map(gate).collect();
    (build(&gates, &[(1023, 1)]), (0..1024).map(|number| (number % 3 == 0) as u8).collect())
}

/// The same with every gate coded, as row 1 gives it: the longest map, 24,516 bytes. Gate 0 is 1, gate 1 is 0, so gate 2 is 0, gate 3 is 1 and so on.
fn longest() -> (Vec<u8>, Vec<u8>) {
    let (map, _) = fullest();
    let kept: Vec<u8> = (0..1024).map(|number| if number < 2 { 1 - number } else { number % 2 }).map(|bit| bit as u8).collect();
    let mut contents = map[..10].to_vec();
    push16(&mut contents, 1024);
    let mut longest = [&contents, &map[12..map.len() - 4]].concat();
    for (gate, value) in kept.iter().enumerate() {
        push16(&mut longest, gate);
        longest.extend([*value, 0]);
    }
    (longest, kept)
}

/// The map with the longest text, 141,716 bytes: each gate has the kind whose clauses take most bytes, over the gates next below, and is coded 0.
fn longest_text() -> Vec<u8> {
    let gate = |number: u16| match number {
        0 => (INPUT, vec![]),
        1 => (NOT, vec![0]),
        2 => (XOR, vec![0, 1]),
        3..=5 => (VOTER, (number - 3..number).collect()),
        _ => (AND, (number.saturating_sub(8)..number).collect()),
    };
    let gates: Vec<(u8, Vec<u16>)> = (0..1024).map(gate).collect();
    build(&gates, &(0..1024).map(|gate| (gate, 0)).collect::<Vec<_>>())
}

/// The torn map behind an input and its NOT, both coded 0: gate 1 is Stuck, and draw 1 takes one of the others.
fn torn_and_stuck() -> (Vec<u8>, Vec<u8>) {
    let mut gates = vec![(INPUT, vec![]), (NOT, vec![0])];
    gates.extend(vec![(INPUT, vec![]); 8]);
    gates.extend([(AND, (2..10).collect()), (OR, (2..10).collect())]);
    (build(&gates, &[(0, 0), (1, 0), (10, 1), (11, 0)]), vec![0, 0, 0, 0, 0, 0, 0, 0, 0, 0, 1, 0])
}

/// AND and OR of eight all over 1,024 gates, and two ANDs of the same gates at the end that are to differ: no run ends before its tape.
fn widest(dice: &mut Dice) -> (Vec<u8>, Vec<u8>) {
    let mut gates = vec![(INPUT, vec![]); 8];
    for number in 8..1022u16 {
        let mut below: Vec<u16> = (number.saturating_sub(12)..number).collect();
        while below.len() > 8 {
            below.remove(dice.below(below.len()));
        }
        gates.push(([AND, OR][dice.below(2)], below));
    }
    gates.extend(vec![(AND, (1014..1022).collect()); 2]);
    let mut start: Vec<u8> = (0..1024).map(|_| dice.bit()).collect();
    start.splice(1022.., [0, 1]);
    (build(&gates, &[(1022, 0), (1023, 1)]), start)
}

/// Three inputs and voters, each over the three gates before it, 1,024 gates; the last is coded 1 and stands so, all others at 0.
fn chain_of_voters() -> (Vec<u8>, Vec<u8>) {
    let mut gates = vec![(INPUT, vec![]); 3];
    gates.extend((3..1024).map(|gate| (VOTER, vec![gate - 3, gate - 2, gate - 1])));
    (build(&gates, &[(1023, 1)]), [vec![0; 1023], vec![1]].concat())
}

/// Voters over three of the ten gates next below, all over 1,024 gates, and two over the same gates at the end that are to differ: no run ends before its
/// tape.
fn widest_voters(dice: &mut Dice) -> (Vec<u8>, Vec<u8>) {
    let mut gates = vec![(INPUT, vec![]); 10];
    for number in 10..1022u16 {
        let mut below: Vec<u16> = (number - 10..number).collect();
        while below.len() > 3 {
            below.remove(dice.below(below.len()));
        }
        gates.push((VOTER, below));
    }
    gates.extend(vec![(VOTER, vec![1019, 1020, 1021]); 2]);
    let mut start: Vec<u8> = (0..1024).map(|_| dice.bit()).collect();
    start.splice(1022.., [0, 1]);
    (build(&gates, &[(1022, 0), (1023, 1)]), start)
}

/// An input and 1,023 NOTs, each of the gate before; the last is coded 1. All stand at 1: the last is wrong.
fn chain_of_nots() -> (Vec<u8>, Vec<u8>) {
    let gates = [vec![(INPUT, vec![])], (1..1024).map(|gate| (NOT, vec![gate - 1])).collect()].concat();
    (build(&gates, &[(1023, 1)]), vec![1; 1024])
}

/// Two inputs, then a gate over the two before and a NOT of it by turn, 1,024 gates; the last, a NOT, is coded 1. All stand at 1: the last is wrong.
fn nots_by_turn() -> (Vec<u8>, Vec<u8>) {
    let gate = |number: u16| match number {
        0 | 1 => (INPUT, vec![]),
        _ if number % 2 == 1 => (NOT, vec![number - 1]),
        _ => ([AND, OR, XOR][number as usize / 2 % 3], vec![number - 2, number - 1]),
    };
    let gates: Vec<(u8, Vec<u16>)> = (0..1024).map(gate).collect();
    (build(&gates, &[(1023, 1)]), vec![1; 1024])
}

/// An input and 700 NOTs, each of the gate before; two inputs and 320 XORs, each over the two gates before; and an OR over the last NOT and the last XOR, coded
/// 1. All are right but the OR, as both inputs of its parts are at 0.
fn nots_or_xors() -> (Vec<u8>, Vec<u8>) {
    let gate = |number: u16| match number {
        0 | 701 | 702 => (INPUT, vec![]),
        1..=700 => (NOT, vec![number - 1]),
        703..=1022 => (XOR, vec![number - 2, number - 1]),
        _ => (OR, vec![700, 1022]),
    };
    let gates: Vec<(u8, Vec<u16>)> = (0..1024).map(gate).collect();
    let nots = (0..701).map(|number| (number % 2) as u8);
    (build(&gates, &[(1023, 1)]), nots.chain(vec![0; 322]).chain([1]).collect())
}

struct Long<'a> {
    harness: &'a mut Harness,
    dice: Dice,
}

pub fn long(harness: &mut Harness) -> Result<String, String> {
    let mut all = Long { harness, dice: Dice(1) };
    all.most_flips()?;
    all.tape_lengths()?;
    all.entry_lengths()?;
    all.last_entries()?;
    all.stuck_at_the_end()?;
    all.draws()?;
    all.random_tapes()?;
    all.large_maps()?;
    all.longest_map()?;
    all.large_runs()?;
    all.voters()?;
    all.weightless()?;
    all.texts()?;
    huge_lengths()
}

impl Long<'_> {
    fn run(&mut self, map: &[u8], start: &[u8], tape: &[u8]) -> Result<(u8, Vec<usize>), String> {
        let rooms = (enough(&mut self.dice, start.len()), enough(&mut self.dice, start.len()));
        let call = dressed(&mut self.dice, Call::new(Kind::Run, map).with_body(start).with_tape(tape), rooms);
        self.harness.compare(&call).map(|told| (told.number, told.numbers))
    }

    /// As `run`, with what it is to tell, worked out by hand.
    fn expect(&mut self, map: &[u8], start: &[u8], tape: &[u8], number: u8, numbers: &[usize]) -> Tried {
        let told = self.run(map, start, tape)?;
        match told == (number, numbers.to_vec()) {
            true => Ok(()),
            false => Err(format!("both engines tell {told:?} for a tape of {} bytes, not {number} {numbers:?}", tape.len())),
        }
    }

    /// 65,532 bytes are 16,383 entries; each turns eight values, whatever it says, as both gates are coded.
    fn most_flips(&mut self) -> Tried {
        let (map, start) = torn();
        for entry in [[0, 0, DOWN, 0], [255, 255, DOWN, 255], [0, 0, UP, 7], [255, 255, GREEDY, 255]] {
            self.expect(&map, &start, &entry.repeat(16_383), 0, &[SPENT, 16_383, 131_064, 1])?;
        }
        Ok(())
    }

    fn tape_lengths(&mut self) -> Tried {
        let (map, start) = torn();
        for length in [1, 2, 3, 5, 65_529, 65_530, 65_531, 65_533, 65_534, 65_535, 65_536, 65_540, 131_068, 131_072] {
            self.expect(&map, &start, &[0, 0, DOWN, 0].repeat(32_768)[..length], 12, &[])?;
        }
        for entries in [0, 1, 255, 256, 16_381, 16_382] {
            let numbers = [SPENT, entries, 8 * entries, 1];
            self.expect(&map, &start, &[0, 0, DOWN, 0].repeat(entries), 0, &numbers)?;
        }
        Ok(())
    }

    /// Entries of other lengths than four, also such that are four modulo 256 or 65,536.
    fn entry_lengths(&mut self) -> Tried {
        let adder = adder();
        for length in [0, 1, 2, 3, 5, 8, 260, 65_532, 65_535, 65_536, 65_540, 131_076] {
            let call = Call::new(Kind::Move, &adder).with_body(&[0, 0, 1, 1, 0, 1, 0, 1]).with_tape(&vec![0; length]);
            let call = dressed(&mut self.dice, call, (8, 0));
            let told = self.harness.compare(&call)?;
            if told.number != 12 {
                return Err(format!("both engines tell {told:?} for an entry of {length} bytes"));
            }
        }
        Ok(())
    }

    /// A kind above 2 in the last of 16,383 entries, reached or never reached; Found by the last entry, and before the first.
    fn last_entries(&mut self) -> Tried {
        let (map, start) = torn();
        let mut tape = [0, 0, DOWN, 0].repeat(16_383);
        tape[65_530] = 3;
        self.expect(&map, &start, &tape, 13, &[])?;
        let adder = adder();
        self.expect(&adder, &[1, 1, 1, 1, 1, 0, 0, 1], &tape, 13, &[])?;
        tape[65_530] = 0;
        self.expect(&adder, &[1, 1, 1, 1, 1, 0, 0, 1], &tape, 0, &[FOUND, 0, 0, 0])?;
        self.expect(&adder, &[0, 0, 1, 1, 0, 1, 0, 1], &tape, 0, &[FOUND, 1, 1, 0])?;
        let p11 = build(&[(INPUT, vec![]), (INPUT, vec![]), (NOT, vec![0]), (AND, vec![0, 2]), (OR, vec![1, 3])], &[(4, 1)]);
        // Down turns gate 0 to and fro, for gate 2 and for gate 3; up on gate 3 then leaves the OR with both children at 0.
        let there = [&[0, 0, DOWN, 0].repeat(16_381)[..], &[0, 0, UP, 0, 0, 0, DOWN, 0]].concat();
        self.expect(&p11, &[1, 0, 1, 1, 1], &there[..65_528], 0, &[SPENT, 16_382, 16_382, 1])?;
        self.expect(&p11, &[1, 0, 1, 1, 1], &there, 0, &[FOUND, 16_383, 16_383, 0])
    }

    /// Stuck at the last of 16,383 entries, which is undone; a kind above 2 behind the entry that is Stuck.
    fn stuck_at_the_end(&mut self) -> Tried {
        let (map, start) = torn_and_stuck();
        let mut tape = [1, 0, DOWN, 0].repeat(16_383);
        self.expect(&map, &start, &tape, 0, &[SPENT, 16_383, 131_064, 2])?;
        for kind in [GREEDY, DOWN, UP] {
            tape.splice(65_528.., [0, 0, kind, 255]);
            self.expect(&map, &start, &tape, 0, &[STUCK, 16_382, 131_056, 0])?;
        }
        tape.splice(..4, [254, 255, UP, 0]);
        self.expect(&map, &start, &tape, 0, &[STUCK, 0, 0, 0])?;
        tape[65_530] = 3;
        self.expect(&map, &start, &tape, 13, &[])
    }

    /// Draws at the ends of u16, over fronts of 256 down to 1.
    fn draws(&mut self) -> Tried {
        let (map, start) = nots();
        for draw in [0u16, 1, 254, 255, 256, 257, 32_767, 32_768, 65_279, 65_280, 65_534, 65_535] {
            let entry = [draw.to_le_bytes()[0], draw.to_le_bytes()[1], DOWN, 0];
            self.expect(&map, &start, &entry.repeat(256), 0, &[FOUND, 256, 256, 0])?;
            self.expect(&map, &start, &entry.repeat(255), 0, &[SPENT, 255, 255, 1])?;
            let call = Call::new(Kind::Move, &map).with_body(&start).with_tape(&entry);
            let call = dressed(&mut self.dice, call, (512, 0));
            let told = self.harness.compare(&call)?;
            if told.numbers != [256 + draw as usize % 256, 1] {
                return Err(format!("both engines draw {:?} for {draw}", told.numbers));
            }
        }
        Ok(())
    }

    /// Whole tapes of random entries where no state shows the codes.
    fn random_tapes(&mut self) -> Tried {
        let (map, start) = torn();
        let mut gates = vec![(INPUT, vec![]); 3];
        gates.extend([(AND, vec![0, 1, 2]), (NOT, vec![3]), (OR, vec![0, 4]), (OR, vec![0, 1, 2])]);
        let hopeless = build(&gates, &[(5, 0), (6, 1)]);
        let p9 = build(&[(INPUT, vec![]), (NOT, vec![0]), (AND, vec![0, 1])], &[(2, 1)]);
        // Gate 1 is turned for want of options, and gate 2 turns it back.
        let for_want = build(&[(INPUT, vec![]), (NOT, vec![0]), (NOT, vec![1])], &[(0, 0), (2, 1)]);
        for (map, start) in [(&map, &start[..]), (&hopeless, &[0, 0, 1, 1, 0, 0, 1]), (&p9, &[0, 0, 1]), (&for_want, &[0, 0, 1])] {
            for _ in 0..8 {
                let tape = random_entries(&mut self.dice, 16_383);
                self.run(map, start, &tape)?;
            }
        }
        Ok(())
    }

    /// A thousand entries of each kind on 1,024 gates, of eight children and of three.
    fn large_runs(&mut self) -> Tried {
        for made in [widest, widest_voters] {
            for kind in [GREEDY, DOWN, UP] {
                let (map, start) = made(&mut self.dice);
                let mut tape = random_entries(&mut self.dice, 1000);
                tape.iter_mut().skip(2).step_by(4).for_each(|byte| *byte = kind);
                let told = self.run(&map, &start, &tape)?;
                if told.1[..2] != [SPENT, 1000] {
                    return Err(format!("both engines tell {told:?} where no state shows the codes"));
                }
            }
        }
        Ok(())
    }

    /// The chain of voters. Down 2 at the lower of two wrong voters turns the two gates next below it, which are then wrong; at the upper, whose third
    /// child is right, one. Up 2 on the coded gate is down 2, and then turns gate 1,021 to and fro.
    fn voters(&mut self) -> Tried {
        let (map, start) = chain_of_voters();
        self.every_call(&map, &start, 3)?;
        self.expect(&map, &start, &[0, 0, DOWN, 2].repeat(510), 0, &[SPENT, 510, 1020, 2])?;
        self.expect(&map, &start, &[0, 0, DOWN, 2].repeat(511), 0, &[FOUND, 511, 1022, 0])?;
        self.expect(&map, &start, &[255, 255, DOWN, 2].repeat(1020), 0, &[SPENT, 1020, 1021, 1])?;
        self.expect(&map, &start, &[255, 255, DOWN, 2].repeat(1021), 0, &[FOUND, 1021, 1022, 0])?;
        self.expect(&map, &start, &[0, 0, UP, 2].repeat(1000), 0, &[SPENT, 1000, 1001, 1])?;
        self.expect(&map, &start, &[0, 0, UP, 2].repeat(1001), 0, &[SPENT, 1001, 1002, 2])?;
        for kind in [GREEDY, DOWN, UP] {
            let mut tape = random_entries(&mut self.dice, 300);
            tape.iter_mut().skip(2).step_by(4).for_each(|byte| *byte = kind);
            self.run(&map, &start, &tape)?;
        }
        let row = dressed(&mut self.dice, Call::new(Kind::Evaluate, &map).with_body(&[0, 1, 1]), (1024, 0));
        let (_, left) = self.harness.compared(&row)?;
        let middle = [vec![0; 513], vec![1; 511]].concat();
        let call = dressed(&mut self.dice, Call::new(Kind::Survey, &map).with_body(&middle), (1024, 0));
        let (told, surveyed) = self.harness.compared(&call)?;
        let bytes = [vec![4; 513], vec![7; 2], vec![1; 509]].concat();
        match left.memory == [vec![0], vec![1; 1023]].concat() && surveyed.memory == bytes && told.numbers == [2, 515] {
            true => Ok(()),
            false => Err(format!("both engines leave {left} and {surveyed} of the chain of voters")),
        }
    }

    /// Survey's numbers and bytes, worked out by hand.
    fn survey(&mut self, map: &[u8], configuration: &[u8], sizes: [usize; 2], bytes: &[Vec<u8>]) -> Tried {
        let call = dressed(&mut self.dice, Call::new(Kind::Survey, map).with_body(configuration), (configuration.len(), 0));
        let (told, left) = self.harness.compared(&call)?;
        match told.numbers == sizes && left.memory == bytes.concat() {
            true => Ok(()),
            false => Err(format!("both engines survey {told:?}, not {sizes:?}, or leave other bytes, in the call\n{call}")),
        }
    }

    /// F-5: NOT gates all along, by turn with others, and in the front alone; and greedy between 700 of them and 320 XORs, which leave sizes 1 and 322.
    fn weightless(&mut self) -> Tried {
        let (map, start) = chain_of_nots();
        self.every_call(&map, &start, 1)?;
        self.survey(&map, &start, [1, 1], &[vec![4; 1023], vec![7]])?;
        for kind in [GREEDY, DOWN] {
            self.expect(&map, &start, &[0, 0, kind, 1].repeat(511), 0, &[SPENT, 511, 511, 1])?;
            self.expect(&map, &start, &[0, 0, kind, 1].repeat(512), 0, &[FOUND, 512, 512, 0])?;
        }
        let (map, start) = nots_by_turn();
        self.every_call(&map, &start, 2)?;
        self.survey(&map, &start, [1, 513], &[vec![4; 1023], vec![7]])?;
        let (map, start) = nots();
        self.survey(&map, &start, [256, 256], &[vec![4; 256], vec![7; 256]])?;

        let (map, start) = nots_or_xors();
        self.every_call(&map, &start, 3)?;
        self.survey(&map, &start, [1, 324], &[vec![4; 1023], vec![7]])?;
        let turned = |gate: usize| -> Vec<u8> { start.iter().enumerate().map(|(at, value)| value ^ (at == gate) as u8).collect() };
        self.survey(&map, &turned(700), [1, 1], &[vec![4; 700], vec![7], vec![0; 322], vec![1]])?;
        self.survey(&map, &turned(1022), [1, 322], &[vec![0; 701], vec![4; 321], vec![7, 1]])?;
        for option in [0, 1] {
            self.expect(&map, &start, &[0, 0, GREEDY, option].repeat(700), 0, &[SPENT, 700, 700, 1])?;
            self.expect(&map, &start, &[0, 0, GREEDY, option].repeat(701), 0, &[FOUND, 701, 701, 0])?;
        }
        Ok(())
    }

    /// The longest map through every call, as it is and with its last code turned: gate 1,023 is then Stuck, as all its children are coded.
    fn longest_map(&mut self) -> Tried {
        let (map, kept) = longest();
        let (mut wrong, mut start) = (map.clone(), kept.clone());
        wrong[24_514] ^= 1;
        start[1023] ^= 1;
        let told = self.harness.compare(&dressed(&mut self.dice, Call::new(Kind::Check, &map), (0, 0)))?;
        if map.len() != 24_516 || told.numbers != [1024, 1, 8156, 1024] {
            return Err(format!("both engines tell {told:?} of the longest map, which has {} bytes", map.len()));
        }
        self.expect(&map, &kept, &[0, 0, DOWN, 0], 0, &[FOUND, 0, 0, 0])?;
        self.expect(&wrong, &start, &[0, 0, DOWN, 0], 0, &[STUCK, 0, 0, 0])?;
        self.every_call(&map, &kept, 1)?;
        self.every_call(&wrong, &start, 1)
    }

    /// The map with the most children, 1,024 coded inputs, and every call on them.
    fn large_maps(&mut self) -> Tried {
        let coded = build(&vec![(INPUT, vec![]); 1024], &(0..1024).map(|gate| (gate, (gate % 2) as u8)).collect::<Vec<_>>());
        let kept: Vec<u8> = (0..1024).map(|gate| gate % 2).map(|bit| bit as u8).collect();
        let (full, start) = fullest();
        let keeping = [&start[..1023], &[1]].concat();
        self.every_call(&coded, &kept, 1024)?;
        self.every_call(&full, &keeping, 1)
    }

    /// Every call on a map of 1,024 gates, the first of them inputs, with a configuration.
    fn every_call(&mut self, map: &[u8], configuration: &[u8], inputs: usize) -> Tried {
        for kind in crate::call::KINDS {
            let mut call = Call { gate: 1023, ..Call::new(kind, map) };
            if kind.has_body() {
                call.body = if kind == Kind::Evaluate { configuration[..inputs].to_vec() } else { configuration.to_vec() };
            }
            if kind.has_tape() {
                let count = if kind == Kind::Move { 1 } else { 60 };
                call.tape = random_entries(&mut self.dice, count);
            }
            let call = dressed(&mut self.dice, call, (needed(kind, map, 1024), 1024));
            self.harness.compare(&call)?;
        }
        Ok(())
    }

    /// The longest text, into memories that are long enough and into such that aren't, some of them only modulo 65,536; and the texts of other maps of 1,024
    /// gates, which end a byte before their memory ends, with it, and a byte behind.
    fn texts(&mut self) -> Tried {
        let map = longest_text();
        for room in [LONGEST_TEXT, 141_716, 141_717, 141_800, 196_608, 207_252, 300_000] {
            self.text(&map, room, 0, &[141_716])?;
        }
        for room in [0, 1, 10, 1024, 10_643, 10_644, 10_645, 65_535, 65_536, 76_180, 131_072, 141_714, 141_715] {
            self.text(&map, room, 16, &[])?;
        }
        self.text(&map[..map.len() - 1], 0, 3, &[])?;
        self.text(&map[..map.len() - 1], 141_716, 3, &[])?;
        self.every_call(&map, &[0; 1024], 1)?;
        for (map, _) in [longest(), fullest(), widest(&mut self.dice), chain_of_voters(), widest_voters(&mut self.dice)] {
            let length = engine::text(&map).map_err(|number| format!("a large map is refused with {number}"))?.len();
            self.text(&map, length - 1, 16, &[])?;
            self.text(&map, length, 0, &[length])?;
            self.text(&map, length + 1, 0, &[length])?;
        }
        Ok(())
    }

    fn text(&mut self, map: &[u8], room: usize, number: u8, numbers: &[usize]) -> Tried {
        for way in [Way::High, Way::Low, Way::Guarded(3)] {
            let call = Call { way, ..dressed(&mut self.dice, Call::new(Kind::Export, map), (room, 0)) };
            let (told, left) = self.harness.compared(&call)?;
            self.harness.compare_wrapper(&call, &told, &left)?;
            if (told.number, &told.numbers[..]) != (number, numbers) {
                return Err(format!("both engines tell {told:?} for text memory of {room} bytes, not {number} {numbers:?}"));
            }
        }
        Ok(())
    }
}

// ---------------------------------------------------------------- past 32 bits

/// Lengths that a number of 32 bits would cut down to right ones. The memory is never filled: nothing but its beginning is touched.
struct Huge {
    lent: *mut u8,
    numbers: *mut usize,
    map: Vec<u8>,
    start: [u8; 8],
    work: [u8; 8],
    answer: [u8; 8],
}

const SIZE: usize = 1 << 32;
const TAPE: [u8; 4] = [0, 0, DOWN, 0];

impl Huge {
    fn put(&mut self, bytes: &[u8]) {
        unsafe { std::ptr::copy_nonoverlapping(bytes.as_ptr(), self.lent, bytes.len()) };
    }

    /// Inputs that are too long, each with the number it is to give.
    fn declined(&mut self) -> Vec<(u8, u8)> {
        let (p, lent, none, mut got) = (self.map.as_ptr(), self.lent, std::ptr::null_mut(), Vec::new());
        let (c, w, a) = (self.start.as_mut_ptr(), self.work.as_mut_ptr(), self.answer.as_mut_ptr());
        unsafe {
            self.put(&adder());
            got.push((raw::peeriewick_check(lent, SIZE + 68, none, 0), 3));
            got.push((raw::peeriewick_export(lent, SIZE + 68, w, 8, none, 0), 3));
            self.put(&[1, 0, 1]);
            got.push((raw::peeriewick_evaluate(p, 68, lent, SIZE + 3, w, 8), 9));
            self.put(&[0, 0, 1, 1, 0, 1, 0, 1]);
            got.push((raw::peeriewick_mark(p, 68, lent, SIZE + 8, none, 0), 9));
            got.push((raw::peeriewick_survey(p, 68, lent, SIZE + 8, w, 8, none, 0), 9));
            self.put(&TAPE);
            got.push((raw::peeriewick_move(p, 68, c, 8, lent, SIZE + 4, w, 8, none, 0), 12));
            got.push((raw::peeriewick_run(p, 68, c, 8, lent, SIZE + 4, w, 8, a, 8, none, 0), 12));
            got.push((raw::peeriewick_run(p, 68, c, 8, lent, SIZE, w, 8, a, 8, none, 0), 12));
        }
        got
    }

    /// Memories that are longer than they need be.
    fn accepted(&mut self) -> Vec<(u8, u8)> {
        let (p, lent, none, mut got) = (self.map.as_ptr(), self.lent, std::ptr::null_mut(), Vec::new());
        let (c, w, a) = (self.start.as_mut_ptr(), self.work.as_mut_ptr(), self.answer.as_mut_ptr());
        self.put(&[7; 200]);
        unsafe {
            got.push((raw::peeriewick_evaluate(p, 68, [1, 0, 1].as_ptr(), 3, lent, SIZE + 2), 0));
            got.push((raw::peeriewick_survey(p, 68, c, 8, w, 8, self.numbers, SIZE + 1), 0));
            got.push((raw::peeriewick_run(p, 68, c, 8, TAPE.as_ptr(), 4, lent.add(16), SIZE, a, 8, none, 0), 0));
            got.push((raw::peeriewick_export(p, 68, lent.add(32), SIZE + 161, self.numbers.add(2), SIZE), 0));
        }
        got
    }

    fn left_right(&self) -> bool {
        let left = unsafe { std::slice::from_raw_parts(self.lent, 200) };
        let numbers = unsafe { std::slice::from_raw_parts(self.numbers, 4) };
        let text = engine::text(&self.map).unwrap_or_default();
        left[..16] == [1, 0, 1, 1, 0, 1, 0, 1, 7, 7, 7, 7, 7, 7, 7, 7]
            && left[16..32] == [1, 1, 1, 1, 0, 1, 0, 1, 7, 7, 7, 7, 7, 7, 7, 7]
            && left[32..] == [text.as_bytes(), &[7; 6]].concat()
            && numbers == [1, 3, 162, 0]
            && self.answer == [1, 0, 1, 1, 0, 1, 0, 1]
            && self.work == [4, 4, 1, 7, 0, 1, 0, 1]
    }
}

fn huge_lengths() -> Result<String, String> {
    let (lent, numbers) = match (Pages::new(SIZE + 65_536), Pages::new(8 * SIZE + 65_536)) {
        (Some(lent), Some(numbers)) => (lent.base(), numbers.base() as *mut usize),
        _ => return Ok(String::from("lengths past 32 bits not tried, there is no such memory")),
    };
    let start = [0, 0, 1, 1, 0, 1, 0, 1];
    let mut huge = Huge { lent, numbers, map: adder(), start, work: [170; 8], answer: [170; 8] };
    let declined = huge.declined();
    let untouched = (huge.start, huge.work, huge.answer) == (start, [170; 8], [170; 8]);
    let accepted = huge.accepted();
    let all = declined.iter().chain(&accepted);
    match untouched && huge.left_right() && all.clone().all(|(number, expected)| number == expected) {
        true => Ok(format!("{} calls with lengths past 32 bits", all.count())),
        false => Err(format!("lengths past 32 bits: gives {declined:?} and {accepted:?}, or memory is not what it is to be")),
    }
}
