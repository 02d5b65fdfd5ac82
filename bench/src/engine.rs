//! Both engines behind one set of safe calls.

type Check = unsafe extern "C" fn(*const u8, usize, *mut usize, usize) -> u8;
type Evaluate = unsafe extern "C" fn(*const u8, usize, *const u8, usize, *mut u8, usize) -> u8;
type Survey = unsafe extern "C" fn(*const u8, usize, *const u8, usize, *mut u8, usize, *mut usize, usize) -> u8;
type Run = unsafe extern "C" fn(*const u8, usize, *mut u8, usize, *const u8, usize, *mut u8, usize, *mut u8, usize, *mut usize, usize) -> u8;
type Export = unsafe extern "C" fn(*const u8, usize, *mut u8, usize, *mut usize, usize) -> u8;

/// Declares one engine's functions and gathers them.
macro_rules! engine {
    ($engine:ident, $name:literal, $check:ident, $evaluate:ident, $survey:ident, $run:ident, $export:ident) => {
        extern "C" {
            fn $check(map: *const u8, map_len: usize, numbers: *mut usize, numbers_len: usize) -> u8;
            fn $evaluate(map: *const u8, map_len: usize, row: *const u8, row_len: usize, out: *mut u8, out_len: usize) -> u8;
            fn $survey(
                map: *const u8,
                map_len: usize,
                configuration: *const u8,
                configuration_len: usize,
                out: *mut u8,
                out_len: usize,
                numbers: *mut usize,
                numbers_len: usize,
            ) -> u8;
            fn $run(
                map: *const u8,
                map_len: usize,
                configuration: *mut u8,
                configuration_len: usize,
                tape: *const u8,
                tape_len: usize,
                work: *mut u8,
                work_len: usize,
                answer: *mut u8,
                answer_len: usize,
                numbers: *mut usize,
                numbers_len: usize,
            ) -> u8;
            fn $export(map: *const u8, map_len: usize, text: *mut u8, text_len: usize, numbers: *mut usize, numbers_len: usize) -> u8;
        }
        pub const $engine: Engine = Engine { name: $name, check: $check, evaluate: $evaluate, survey: $survey, run: $run, export: $export };
    };
}

engine!(PLAIN, "plain C", plain_check, plain_evaluate, plain_survey, plain_run, plain_export);
engine!(PROVED, "Peeriewick", peeriewick_check, peeriewick_evaluate, peeriewick_survey, peeriewick_run, peeriewick_export);

/// How a run ends, as the first of its numbers tells.
pub const SPENT: usize = 0;
pub const FOUND: usize = 1;
pub const STUCK: usize = 2;

/// The plain engine comes first everywhere.
pub const ENGINES: [Engine; 2] = [PLAIN, PROVED];

pub struct Engine {
    pub name: &'static str,
    check: Check,
    evaluate: Evaluate,
    survey: Survey,
    run: Run,
    export: Export,
}

/// Each buffer is lent by its ends, and no two that a call is lent overlap: Rust's references see to that.
impl Engine {
    pub fn check(&self, map: &[u8], numbers: &mut [usize]) -> u8 {
        unsafe { (self.check)(map.as_ptr(), map.len(), numbers.as_mut_ptr(), numbers.len()) }
    }

    pub fn evaluate(&self, map: &[u8], row: &[u8], out: &mut [u8]) -> u8 {
        unsafe { (self.evaluate)(map.as_ptr(), map.len(), row.as_ptr(), row.len(), out.as_mut_ptr(), out.len()) }
    }

    pub fn survey(&self, map: &[u8], configuration: &[u8], out: &mut [u8], numbers: &mut [usize]) -> u8 {
        unsafe {
            (self.survey)(
                map.as_ptr(),
                map.len(),
                configuration.as_ptr(),
                configuration.len(),
                out.as_mut_ptr(),
                out.len(),
                numbers.as_mut_ptr(),
                numbers.len(),
            )
        }
    }

    pub fn run(&self, map: &[u8], configuration: &mut [u8], tape: &[u8], work: &mut [u8], answer: &mut [u8], numbers: &mut [usize]) -> u8 {
        unsafe {
            (self.run)(
                map.as_ptr(),
                map.len(),
                configuration.as_mut_ptr(),
                configuration.len(),
                tape.as_ptr(),
                tape.len(),
                work.as_mut_ptr(),
                work.len(),
                answer.as_mut_ptr(),
                answer.len(),
                numbers.as_mut_ptr(),
                numbers.len(),
            )
        }
    }

    pub fn export(&self, map: &[u8], text: &mut [u8], numbers: &mut [usize]) -> u8 {
        unsafe { (self.export)(map.as_ptr(), map.len(), text.as_mut_ptr(), text.len(), numbers.as_mut_ptr(), numbers.len()) }
    }
}
