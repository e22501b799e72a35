//! The C functions as they are, for callers that bring their own buffers.
//!
//! Each returns 0 if it has written its results (start: the checkpoint), and 1 if the results are not 6 numbers, the checkpoint is
//! not 50 bytes or the assumptions are an odd number of bytes: then no byte of any buffer has changed. A refusal is an answer: the
//! function returns 0. The results are the answer (0 model, yes, accepted, counted, measured, full or written; 1 spent or no; 2 ended; 3
//! refused), a model, the refusal's number and place, and two counts; include/norwythai.h has them all. Assumptions are two bytes each:
//! the variable, and 0 for false or any other byte for true.
//!
//! # Safety
//!
//! The caller of any function here sees to this:
//!
//! - Each pointer is valid for the length that goes with it: so many elements can be read and, behind a `*mut`, written. During the
//!   call nobody else writes a buffer, nor reads one that is written.
//! - Each length is the true one, counted in elements: bytes for `u8`, numbers for `u64`.
//! - A buffer that is written (behind a `*mut`) overlaps no other buffer of the call.
//! - A `u64` pointer is aligned for `u64`.
//! - No pointer is null, also where the length is 0.

extern "C" {
    /// [`check`](crate::check): reads the input; writes the results.
    #[must_use = "1 says that nothing was written"]
    pub fn norwythai_check(
        input: *const u8,
        input_length: usize,
        assignment: u64,
        results: *mut u64,
        results_length: usize,
    ) -> u32;

    /// [`judge_into`](crate::judge_into): reads the input and the assumptions; writes the buffer and the results.
    #[must_use = "1 says that nothing was written"]
    pub fn norwythai_judge(
        input: *const u8,
        input_length: usize,
        assumptions: *const u8,
        assumptions_length: usize,
        buffer: *mut u8,
        buffer_length: usize,
        results: *mut u64,
        results_length: usize,
    ) -> u32;

    /// [`weigh`](crate::weigh): reads the input, the assumptions and the buffer; writes the results.
    #[must_use = "1 says that nothing was written"]
    pub fn norwythai_weigh(
        input: *const u8,
        input_length: usize,
        assumptions: *const u8,
        assumptions_length: usize,
        buffer: *const u8,
        buffer_length: usize,
        results: *mut u64,
        results_length: usize,
    ) -> u32;

    /// [`deficiency`](crate::deficiency): reads the input; writes the results.
    #[must_use = "1 says that nothing was written"]
    pub fn norwythai_deficiency(
        input: *const u8,
        input_length: usize,
        results: *mut u64,
        results_length: usize,
    ) -> u32;

    /// [`Checkpoint::start`](crate::Checkpoint::start): writes the checkpoint.
    #[must_use = "1 says that nothing was written"]
    pub fn norwythai_start(checkpoint: *mut u8, checkpoint_length: usize) -> u32;

    /// [`walk`](crate::walk): reads the input, the assumptions and the checkpoint; writes the checkpoint and the results.
    #[must_use = "1 says that nothing was written"]
    pub fn norwythai_walk(
        input: *const u8,
        input_length: usize,
        assumptions: *const u8,
        assumptions_length: usize,
        checkpoint: *mut u8,
        checkpoint_length: usize,
        budget: u32,
        results: *mut u64,
        results_length: usize,
    ) -> u32;

    /// [`list`](crate::list): reads the input, the assumptions and the checkpoint; writes the checkpoint, the models and the results.
    #[must_use = "1 says that nothing was written"]
    pub fn norwythai_list(
        input: *const u8,
        input_length: usize,
        assumptions: *const u8,
        assumptions_length: usize,
        checkpoint: *mut u8,
        checkpoint_length: usize,
        models: *mut u64,
        models_length: usize,
        results: *mut u64,
        results_length: usize,
    ) -> u32;

    /// [`page`](crate::page): reads the input, the assumptions, the checkpoint and the first serial; writes the checkpoint, the page and
    /// the results.
    #[must_use = "1 says that nothing was written"]
    pub fn norwythai_page(
        input: *const u8,
        input_length: usize,
        assumptions: *const u8,
        assumptions_length: usize,
        checkpoint: *mut u8,
        checkpoint_length: usize,
        serial: u32,
        page: *mut u8,
        page_length: usize,
        results: *mut u64,
        results_length: usize,
    ) -> u32;

    /// [`from_dimacs_into`](crate::from_dimacs_into): reads the text; writes the buffer and the results.
    #[must_use = "1 says that nothing was written"]
    pub fn norwythai_from_dimacs(
        text: *const u8,
        text_length: usize,
        buffer: *mut u8,
        buffer_length: usize,
        results: *mut u64,
        results_length: usize,
    ) -> u32;

    /// [`to_dimacs_into`](crate::to_dimacs_into): reads the input; writes the buffer and the results.
    #[must_use = "1 says that nothing was written"]
    pub fn norwythai_to_dimacs(
        input: *const u8,
        input_length: usize,
        buffer: *mut u8,
        buffer_length: usize,
        results: *mut u64,
        results_length: usize,
    ) -> u32;
}
