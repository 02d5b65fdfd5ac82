//! Before anything is measured: both engines must agree on every input, and each run must do its whole tape.

use crate::engine::SPENT;
use crate::families::FAMILIES;
use crate::inputs::{self, Input, RUN_MAPS, SIZES, TAPES};
use crate::lent::{compare, Call};

pub fn verify(seed: u64) -> Result<(), String> {
    for family in FAMILIES {
        for gates in SIZES {
            for (place, input) in inputs::group(seed, family, gates).iter().enumerate() {
                let at = |report: String| format!("seed {}, {} map {} of {} gates: {}", seed, family.name(), place, gates, report);
                verify_calls(input).map_err(at)?;
                if place < RUN_MAPS {
                    verify_runs(input).map_err(at)?;
                }
            }
        }
    }
    Ok(())
}

fn verify_calls(input: &Input) -> Result<(), String> {
    for call in [Call::Check, Call::Evaluate, Call::Survey, Call::Export] {
        accepted(input, TAPES[0], call)?;
    }
    Ok(())
}

fn verify_runs(input: &Input) -> Result<(), String> {
    for tape in TAPES {
        let numbers = accepted(input, tape, Call::Run)?;
        if numbers[..2] != [SPENT, input.entries(tape)] {
            return Err(format!("the {:?} tape is not done to its end", tape));
        }
    }
    Ok(())
}

/// The numbers of a call's answer.
fn accepted(input: &Input, tape: inputs::Tape, call: Call) -> Result<Vec<usize>, String> {
    let (number, after) = compare(&input.lent(call, tape), call)?;
    if number != 0 {
        return Err(format!("{:?} refuses it with {}", call, number));
    }
    Ok(after.numbers.get().to_vec())
}
