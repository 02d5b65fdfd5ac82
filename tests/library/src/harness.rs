//! Makes a call through both engines and compares all that it leaves.

use crate::call::Call;
use crate::engines::{independent, proved, wrapped, Outcome, Told};
use crate::lend::Lender;
use std::os::raw::{c_int, c_uint};
use std::panic::catch_unwind;
use std::ptr;
use std::sync::atomic::{AtomicPtr, Ordering};

extern "C" {
    fn signal(number: c_int, handler: extern "C" fn(c_int)) -> usize;
    fn alarm(seconds: c_uint) -> c_uint;
    fn _exit(status: c_int) -> !;
}

/// The call that is being made, for the message of one that never comes back.
static CURRENT: AtomicPtr<Call> = AtomicPtr::new(ptr::null_mut());

/// Longer than the slowest call takes, under valgrind too.
const SECONDS: c_uint = 100;

/// Names the call that was stopped by a fault or by the clock. The engine holds no lock and allocates nothing, so printing is safe here.
extern "C" fn stopped(number: c_int) {
    let call = unsafe { CURRENT.load(Ordering::SeqCst).as_ref() };
    eprintln!("the proved engine was stopped by signal {number} (11: a byte outside its memory, 14: no end) in the call");
    match call {
        Some(call) => eprintln!("{call}"),
        None => eprintln!("(none)"),
    }
    unsafe { _exit(1) }
}

/// SIGILL, SIGABRT, SIGBUS, SIGFPE, SIGSEGV and SIGALRM of Linux.
pub fn watch() {
    for number in [4, 6, 7, 8, 11, 14] {
        unsafe { signal(number, stopped) };
    }
}

pub struct Harness {
    pub calls: u64,
    lender: Lender,
}

/// Both outcomes and the line that `replay` takes.
fn report(call: &Call, what: &str, other: &dyn std::fmt::Display, expected: &Outcome) -> String {
    format!("the engines differ in the call\n{call}\n{what}: {other}\nindependent: {expected}")
}

impl Harness {
    pub fn new() -> Harness {
        Harness { calls: 0, lender: Lender::new() }
    }

    /// The outcome of the static library, watched.
    pub fn proved(&self, call: &Call) -> Outcome {
        CURRENT.store(call as *const Call as *mut Call, Ordering::SeqCst);
        unsafe { alarm(SECONDS) };
        let outcome = proved(call, &self.lender);
        unsafe { alarm(0) };
        CURRENT.store(ptr::null_mut(), Ordering::SeqCst);
        outcome
    }

    /// Makes the call; each eighth one through the wrapper too. Gives what it told.
    pub fn compare(&mut self, call: &Call) -> Result<Told, String> {
        self.compared(call).map(|(told, _)| told)
    }

    /// The same, and what it left.
    pub fn compared(&mut self, call: &Call) -> Result<(Told, Outcome), String> {
        let made = catch_unwind(|| independent(call));
        let (told, expected) = made.map_err(|_| format!("the independent engine fails in the call\n{call}"))?;
        let outcome = self.proved(call);
        self.calls += 1;
        if outcome != expected {
            return Err(report(call, "static library", &outcome, &expected));
        }
        if self.calls % 8 == 0 {
            self.compare_wrapper(call, &told, &expected)?;
        }
        Ok((told, outcome))
    }

    pub fn compare_wrapper(&mut self, call: &Call, told: &Told, expected: &Outcome) -> Result<(), String> {
        let made = catch_unwind(|| wrapped(call));
        let (wrapper_told, outcome) = made.map_err(|_| format!("the wrapper fails in the call\n{call}"))?;
        self.calls += 1;
        if wrapper_told != *told || outcome != *expected {
            return Err(report(call, "wrapper", &format!("{outcome} tells {:?}", wrapper_told.numbers), expected));
        }
        Ok(())
    }
}
