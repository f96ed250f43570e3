//! The exported functions of libgemtweed.a, as include/gemtweed.h has them: a slice is a pointer and a length.

#[repr(C)]
pub struct Answer {
    pub number: u64,
    pub section: u64,
    pub position: u64,
    pub words: u64,
}

#[rustfmt::skip]
extern "C" {
    pub fn gemtweed_optimize_model_impl(
        mode: u64,
        words: *const u64, words_len: usize,
        names: *const u8, names_len: usize,
        result: *mut u64, result_len: usize,
        scratch: *mut u64, scratch_len: usize,
    ) -> Answer;

    pub fn gemtweed_optimize_model_with_solver(
        mode: u64,
        words: *const u64, words_len: usize,
        names: *const u8, names_len: usize,
        result: *mut u64, result_len: usize,
        scratch: *mut u64, scratch_len: usize,
    ) -> Answer;

    pub fn gemtweed_optimize_model_with_input(
        words: *const u64, words_len: usize,
        names: *const u8, names_len: usize,
        result: *mut u64, result_len: usize,
        scratch: *mut u64, scratch_len: usize,
    ) -> Answer;

    pub fn gemtweed_label(
        words: *const u64, words_len: usize,
        names: *const u8, names_len: usize,
        substitute: *const u8, substitute_len: usize,
        node: u64,
        out: *mut u8, out_len: usize,
    ) -> u64;
}
