//! Compares both engines on random cases.

use crate::cases::random_case;
use crate::engine::{FOUND, SPENT, STUCK};
use crate::lent::{compare, Call, CALLS};
use crate::random::Random;

/// How often each number was returned, and how often a run that was lent a place for its ending ended Spent, Found and Stuck.
struct Tally {
    answers: [usize; 17],
    endings: [usize; 3],
}

/// Says how many answers of each number there were, or reports the first difference.
pub fn agree(seed: u64, cases: usize) -> Result<(), String> {
    let mut tally = Tally { answers: [0; 17], endings: [0; 3] };
    for number in 0..cases {
        let mut random = Random::new(seed.wrapping_mul(1_000_003).wrapping_add(number as u64));
        let case = random_case(&mut random);
        for call in CALLS {
            let (answer, after) = compare(&case, call).map_err(|report| format!("seed {}, case {}: {}", seed, number, report))?;
            tally.answers[answer as usize] += 1;
            if let (Call::Run, 0, Some(&ending)) = (call, answer, after.numbers.get().first()) {
                tally.endings[ending] += 1;
            }
        }
    }
    let [spent, found, stuck] = [SPENT, FOUND, STUCK].map(|ending| tally.endings[ending]);
    println!("seed {}: the engines agree on {} cases, {} calls", seed, cases, cases * CALLS.len());
    println!("calls by number returned, from 0: {:?}; runs: {} found, {} spent, {} stuck", tally.answers, found, spent, stuck);
    Ok(())
}
