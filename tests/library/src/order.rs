//! Two of the tests 4 to 7 failing at every two places, and positions by totals that are kept wrongly, through every call. The number is the rule's:
//! "Each test runs over all it concerns before the next."

use crate::call::{Call, Kind, KINDS};
use crate::damaged::call_on;
use crate::engines::Told;
use crate::harness::Harness;
use peeriewick_tests::dice::Dice;
use peeriewick_tests::maps::{keep_codes, Draft};
use peeriewick_tests::order::{bases, cases, expected, map_with, places};

/// Gives how many faults and pairs were tried.
pub fn order(harness: &mut Harness) -> Result<String, String> {
    let mut dice = Dice(1);
    let (mut alone, mut pairs, mut two_places) = (0, 0, 0);
    for base in bases() {
        let cases = cases(&base);
        for case in &cases {
            let map = map_with(&base, case);
            for kind in KINDS {
                let call = call_for(&mut dice, kind, &base, &map);
                let told = harness.compare(&call)?;
                if !as_expected(kind, &told, expected(case)) {
                    return Err(format!("both engines tell {told:?}, with {} by the rule for {case:?}, in the call\n{call}", expected(case)));
                }
            }
        }
        alone += cases.iter().filter(|case| case.len() == 1).count();
        pairs += cases.iter().filter(|case| case.len() == 2).count();
        two_places += places(&cases).len();
    }
    Ok(format!("{pairs} pairs of faults at {two_places} pairs of places, and {alone} faults alone"))
}

/// A call on the map, in which nothing is wrong but what is wrong with the map.
fn call_for(dice: &mut Dice, kind: Kind, base: &Draft, map: &[u8]) -> Call {
    let gates = base.gates.len();
    let mut start = vec![0; gates];
    keep_codes(base, &mut start);
    let call = Call { gate: dice.below(gates), ..call_on(dice, kind, map) };
    match kind {
        Kind::Check | Kind::Children | Kind::Export => call,
        Kind::Evaluate => call.with_body(&vec![0; base.inputs()]),
        _ => call.with_body(&start),
    }
}

/// Children gives no number: where the map is refused its stretch is empty and at the map's start, and else at a later place, as the gate is in the map.
/// An accepted map may leave Move no gate to draw.
fn as_expected(kind: Kind, told: &Told, number: u8) -> bool {
    match kind {
        Kind::Children => (told.numbers == [0, 0]) == (number != 0),
        Kind::Move => told.number == number || number == 0 && told.number == 15,
        _ => told.number == number,
    }
}
