//! A host in Rust: the README's full adder through every call, and the smallest map on which a run is stuck. Prints what the calls give.

use peeriewick::kind::{AND, INPUT, NOT, OR, XOR};
use peeriewick::{check, children, entry, evaluate, export, make_move, mark, run, survey, Ending, Outcome, Refused, LONGEST_TEXT};

const MAP: [u8; 68] = [
    12, 0, 8, 0, 44, 0, 10, 0, 64, 0, 1, 0, // contents
    INPUT, 0, 0, 0, INPUT, 0, 0, 0, INPUT, 0, 0, 0, // gates: kind, fan-in, first child position
    XOR, 2, 0, 0, AND, 2, 2, 0, AND, 2, 4, 0, XOR, 2, 6, 0, OR, 2, 8, 0, // the other five
    0, 0, 1, 0, 0, 0, 1, 0, 2, 0, 3, 0, 2, 0, 3, 0, 4, 0, 5, 0, // children
    7, 0, 1, 0, // gate 7 is to be 1
];
const START: [u8; 8] = [0, 0, 1, 1, 0, 1, 0, 1];
const TAPE: [u8; 4] = [0, 0, entry::DOWN, 0]; // draw 0, down, option 0

/// An input and its NOT, both coded 0: no state shows that.
const STUCK_MAP: [u8; 30] = [
    12, 0, 2, 0, 20, 0, 1, 0, 22, 0, 2, 0, // contents
    INPUT, 0, 0, 0, NOT, 1, 0, 0, // gates 0 and 1
    0, 0, // the child of gate 1
    0, 0, 0, 0, 1, 0, 0, 0, // both are to be 0
];

/// Each ending has its own line: only after Found is there an answer.
fn show(outcome: Outcome, answer: &[u8]) {
    match outcome.ending {
        Ending::Found => println!("found, moves {}, flips {}: {answer:?}", outcome.moves, outcome.flips),
        Ending::Spent(front) => println!("spent, moves {}, flips {}, front {front}", outcome.moves, outcome.flips),
        Ending::Stuck => println!("stuck, moves {}, flips {}", outcome.moves, outcome.flips),
    }
}

/// The map that is stuck: by a move, by a run, and by a run without an entry, which is spent.
fn show_stuck() -> Result<(), Refused> {
    let (mut configuration, mut work, mut answer) = ([0, 0], [0; 2], [0; 2]);
    let turn = make_move(&STUCK_MAP, &mut configuration, &TAPE, &mut work)?;
    println!("stuck move: gate {}, {} turned: {configuration:?}", turn.gate, turn.turned);
    print!("stuck run: ");
    show(run(&STUCK_MAP, &mut configuration, &TAPE, &mut work, &mut answer)?, &answer);
    println!("its survey: {work:?}");
    print!("the same without an entry: ");
    show(run(&STUCK_MAP, &mut configuration, &[], &mut work, &mut answer)?, &answer);
    Ok(())
}

/// Export of the adder, and a call that is refused as its memory is a byte too short.
fn show_export() -> Result<(), Refused> {
    let mut text = vec![0; LONGEST_TEXT];
    let length = export(&MAP, &mut text)?;
    println!("export: {length} bytes");
    print!("{}", String::from_utf8_lossy(&text[..length]));
    if let Err(refused) = export(&MAP, &mut text[..length - 1]) {
        println!("export to a byte less: {refused}");
    }
    Ok(())
}

fn main() -> Result<(), Refused> {
    let counts = check(&MAP)?;
    println!(
        "check: {} gates, {} inputs, {} children, {} code",
        counts.gates, counts.inputs, counts.children, counts.codes
    );
    println!("children of gate 5: {:?}", children(&MAP, 5));

    let mut values = vec![0; counts.gates];
    evaluate(&MAP, &[1, 0, 1], &mut values)?;
    println!("evaluate: {values:?}");
    println!("mark: {}, of the start: {}", mark(&MAP, &values)?, mark(&MAP, &START)?);

    let mut work = vec![0; counts.gates];
    let sizes = survey(&MAP, &START, &mut work)?;
    println!("survey: front {}, interest {}: {work:?}", sizes.front, sizes.interest);

    let mut configuration = START;
    let turn = make_move(&MAP, &mut configuration, &TAPE, &mut work)?;
    println!("move: gate {}, {} turned: {configuration:?}", turn.gate, turn.turned);

    let (mut configuration, mut answer) = (START, vec![0; counts.gates]);
    let outcome = run(&MAP, &mut configuration, &TAPE, &mut work, &mut answer)?;
    print!("run: ");
    show(outcome, &answer);

    if let Err(refused) = check(&MAP[..67]) {
        println!("a map that is cut off: {refused}");
    }
    show_stuck()?;
    show_export()
}
