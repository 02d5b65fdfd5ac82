//! Holds the proved engine's static library against the independent engine: every call, every lent byte afterwards, and the bytes around them.
//!
//!     peeriewick-library fixed             the fixed cases, and the numbers a host gets of the bench examples
//!     peeriewick-library exhaustive        every map of up to three gates with every start through every call, voters, many NOTs, and small maps that are refused
//!     peeriewick-library order             every two of the tests 4 to 7 failing at every two places, and positions by wrong totals
//!     peeriewick-library random SEED N     N random calls on maps of every size and shape
//!     peeriewick-library damaged SEED N    every number and every pair of failing tests, then N calls with random damage
//!     peeriewick-library long              long tapes, large maps, and lengths past 32 bits
//!     peeriewick-library threads SEED N    N calls from each of four threads at once
//!     peeriewick-library solvers SEED N    two clause solvers on the texts of small maps, of N random ones and of N / 4 large ones
//!     peeriewick-library sample SEED N     N calls with every buffer in an allocation of its own, for valgrind
//!     peeriewick-library replay [CALL]     makes a call again and prints what both engines leave; without CALL, each call on standard input
//!
//! One line says how many calls were made. Where the engines differ, the call is printed as one line, which `replay` takes, with both outcomes, and
//! the exit status is 1.

mod call;
mod damaged;
mod dress;
mod engines;
mod exhaustive;
mod failing;
mod fixed;
mod harness;
mod lend;
mod levels;
mod long;
mod order;
mod random;
mod shapes;
mod solvers;
mod threads;

use call::{Call, KINDS};
use harness::Harness;
use lend::Way;
use peeriewick_tests::dice::Dice;
use std::io::Read;
use std::process::exit;

/// What a command ends with: a line, or what differs.
type Said = Result<String, String>;

fn fixed() -> Said {
    let mut harness = Harness::new();
    fixed::fixed(&mut harness)?;
    Ok(format!("fixed: {} calls", harness.calls))
}

fn exhaustive() -> Said {
    let mut harness = Harness::new();
    exhaustive::exhaustive(&mut harness)?;
    Ok(format!("exhaustive: {} calls", harness.calls))
}

fn order() -> Said {
    let mut harness = Harness::new();
    let account = order::order(&mut harness)?;
    Ok(format!("order: {} calls; {account}", harness.calls))
}

fn random(seed: u64, n: usize) -> Said {
    let mut harness = Harness::new();
    let counts = random::random(&mut harness, seed, n)?;
    Ok(format!("random: {} calls, seed {seed}; {counts}", harness.calls))
}

fn damaged(seed: u64, n: usize) -> Said {
    let mut harness = Harness::new();
    let account = damaged::damaged(&mut harness, seed, n)?;
    Ok(format!("damaged: {} calls, seed {seed}; {account}", harness.calls))
}

fn long() -> Said {
    let mut harness = Harness::new();
    let more = long::long(&mut harness)?;
    Ok(format!("long: {} calls, and {more}", harness.calls))
}

fn threads(seed: u64, n: usize) -> Said {
    let calls = threads::threads(seed, n)?;
    Ok(format!("threads: {calls} calls, seed {seed}"))
}

fn sample(seed: u64, n: usize) -> Said {
    let (mut harness, mut dice) = (Harness::new(), Dice(seed));
    for number in 0..n {
        let size = if number % 40 == 0 { 1024 } else { 1 + number % 24 };
        let call = match number % 3 {
            0 => damaged::with_some_faults(&mut dice),
            _ => random::random_call(&mut dice, size),
        };
        harness.compare(&Call { way: Way::Exact, ..call })?;
    }
    Ok(format!("sample: {} calls, seed {seed}", harness.calls))
}

fn solvers(seed: u64, n: usize) -> Said {
    let account = solvers::solvers(seed, n)?;
    Ok(format!("solvers: seed {seed}; {account}"))
}

/// The calls among these lines: a whole message of a failure will do.
fn calls_in(text: &str) -> Result<Vec<Call>, String> {
    let named = |line: &&str| KINDS.iter().any(|kind| line.split(' ').next() == Some(kind.name()));
    text.lines().filter(named).map(call::parse).collect()
}

fn replay(words: &[String]) -> Said {
    let mut text = words.join(" ");
    if words.is_empty() {
        std::io::stdin().read_to_string(&mut text).map_err(|e| format!("standard input: {e}"))?;
    }
    let calls = match calls_in(&text) {
        Ok(calls) if !calls.is_empty() => calls,
        Ok(_) => usage("no call to replay"),
        Err(message) => usage(&message),
    };
    let mut harness = Harness::new();
    for call in &calls {
        println!("{call}\nstatic library: {}", harness.proved(call));
        harness.compare(call)?;
        let (told, expected) = engines::independent(call);
        println!("independent: {expected}");
        harness.compare_wrapper(call, &told, &expected)?;
    }
    Ok(format!("replay: {} calls, no difference", harness.calls))
}

fn number<T: std::str::FromStr>(word: &str) -> T {
    word.parse().unwrap_or_else(|_| usage(&format!("not a number: {word}")))
}

fn usage(message: &str) -> ! {
    eprintln!("peeriewick-library: {message}");
    eprintln!("use: fixed | exhaustive | order | random SEED N | damaged SEED N | long | threads SEED N | solvers SEED N | sample SEED N | replay [CALL]");
    exit(2)
}

fn main() {
    harness::watch();
    let arguments: Vec<String> = std::env::args().skip(1).collect();
    let words: Vec<&str> = arguments.iter().map(|word| word.as_str()).collect();
    let said = match words[..] {
        ["fixed"] => fixed(),
        ["exhaustive"] => exhaustive(),
        ["order"] => order(),
        ["random", seed, n] => random(number(seed), number(n)),
        ["damaged", seed, n] => damaged(number(seed), number(n)),
        ["long"] => long(),
        ["threads", seed, n] => threads(number(seed), number(n)),
        ["solvers", seed, n] => solvers(number(seed), number(n)),
        ["sample", seed, n] => sample(number(seed), number(n)),
        ["replay", ..] => replay(&arguments[1..]),
        _ => usage("no such command"),
    };
    match said {
        Ok(line) => println!("{line}"),
        Err(message) => {
            eprintln!("peeriewick-library: {message}");
            exit(1)
        }
    }
}
