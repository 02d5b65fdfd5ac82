//! The functions of `include/peeriewick.h`, as they are declared there. Nothing compares these declarations with the archive: the tests call each of them.

extern "C" {
    pub fn peeriewick_check(map: *const u8, map_len: usize, numbers: *mut usize, numbers_len: usize) -> u8;

    pub fn peeriewick_children(map: *const u8, map_len: usize, gate: usize, numbers: *mut usize, numbers_len: usize);

    pub fn peeriewick_evaluate(
        map: *const u8,
        map_len: usize,
        row: *const u8,
        row_len: usize,
        out: *mut u8,
        out_len: usize,
    ) -> u8;

    pub fn peeriewick_mark(
        map: *const u8,
        map_len: usize,
        configuration: *const u8,
        configuration_len: usize,
        numbers: *mut usize,
        numbers_len: usize,
    ) -> u8;

    pub fn peeriewick_export(
        map: *const u8,
        map_len: usize,
        text: *mut u8,
        text_len: usize,
        numbers: *mut usize,
        numbers_len: usize,
    ) -> u8;

    #[cfg(feature = "survey")]
    pub fn peeriewick_survey(
        map: *const u8,
        map_len: usize,
        configuration: *const u8,
        configuration_len: usize,
        out: *mut u8,
        out_len: usize,
        numbers: *mut usize,
        numbers_len: usize,
    ) -> u8;

    #[cfg(feature = "search")]
    pub fn peeriewick_move(
        map: *const u8,
        map_len: usize,
        configuration: *mut u8,
        configuration_len: usize,
        entry: *const u8,
        entry_len: usize,
        work: *mut u8,
        work_len: usize,
        numbers: *mut usize,
        numbers_len: usize,
    ) -> u8;

    #[cfg(feature = "search")]
    pub fn peeriewick_run(
        map: *const u8,
        map_len: usize,
        configuration: *mut u8,
        configuration_len: usize,
        tape: *const u8,
        tape_len: usize,
        work: *mut u8,
        work_len: usize,
        answer: *mut u8,
        answer_len: usize,
        numbers: *mut usize,
        numbers_len: usize,
    ) -> u8;
}
