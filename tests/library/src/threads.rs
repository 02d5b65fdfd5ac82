//! The same calls from several threads at once: nothing is kept between calls, so none may disturb another.

use crate::engines::{independent, proved};
use crate::lend::Lender;
use crate::random::random_call;
use peeriewick_tests::dice::Dice;
use std::thread;

const THREADS: usize = 4;

/// Each thread makes `n` calls out of 256, beginning at another one. Gives how many were made.
pub fn threads(seed: u64, n: usize) -> Result<u64, String> {
    let mut dice = Dice(seed);
    let calls: Vec<_> = (0..256)
        .map(|number| random_call(&mut dice, 1 + number % 64))
        .map(|call| (independent(&call).1, call))
        .collect();
    let one_thread = |first: usize| {
        let lender = Lender::new();
        for number in 0..n {
            let (expected, call) = &calls[(first + number) % calls.len()];
            let outcome = proved(call, &lender);
            if outcome != *expected {
                return Err(format!("with other threads at work, in the call\n{call}\nstatic library: {outcome}\nindependent: {expected}"));
            }
        }
        Ok(())
    };
    let outcomes: Vec<Result<(), String>> = thread::scope(|scope| {
        let all: Vec<_> = (0..THREADS).map(|number| scope.spawn(move || one_thread(64 * number))).collect();
        all.into_iter().map(|one| one.join().unwrap_or(Err(String::from("a thread failed")))).collect()
    });
    outcomes.into_iter().collect::<Result<(), String>>()?;
    Ok((THREADS * n) as u64)
}
