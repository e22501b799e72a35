//! The calls of the C functions, and the only unsafe code of this crate.
//!
//! Each function here lends the library only whole slices, with their own lengths, for the time of the call; the library reads
//! and writes nothing else and keeps no pointer.

use crate::assumption::Assumption;
use crate::limits::CHECKPOINT_LENGTH;
use crate::raw::{
    norwythai_check, norwythai_deficiency, norwythai_from_dimacs, norwythai_judge, norwythai_list,
    norwythai_page, norwythai_start, norwythai_to_dimacs, norwythai_walk, norwythai_weigh,
};

/// What every act but start writes, by its index: the answer, a model, a refusal's number and place, and two counts.
pub(crate) type Results = [u64; RESULTS_LENGTH];

const RESULTS_LENGTH: usize = 6;

/// The library returns 1 only for arrays of other lengths than it asks for.
fn require(returned: u32) {
    assert_eq!(returned, 0, "the library refuses the lengths of its arrays");
}

/// The bytes of an assumption: its variable and its value, which is 0 or 1.
const ASSUMPTION_LENGTH: usize = size_of::<Assumption>();

const _: () = assert!(ASSUMPTION_LENGTH == 2);

/// The pointer to assumptions as bytes, and the number of these. An assumption is two bytes, one behind the other and without any
/// between, so that all of them may be read.
fn bytes_of(assumptions: &[Assumption]) -> (*const u8, usize) {
    let length = ASSUMPTION_LENGTH * assumptions.len();
    (assumptions.as_ptr().cast(), length)
}

pub(crate) fn check(input: &[u8], assignment: u64) -> Results {
    let mut results = [0; RESULTS_LENGTH];
    // SAFETY: `input` may be read and `results` written for the lengths given, and they do not overlap.
    let returned = unsafe {
        norwythai_check(
            input.as_ptr(),
            input.len(),
            assignment,
            results.as_mut_ptr(),
            results.len(),
        )
    };
    require(returned);
    results
}

/// A C function that reads an input or a text, and writes a buffer and the results.
type Writer = unsafe extern "C" fn(*const u8, usize, *mut u8, usize, *mut u64, usize) -> u32;

/// Calls one of these functions of [`raw`](crate::raw).
fn write(function: Writer, input: &[u8], buffer: &mut [u8]) -> Results {
    let mut results = [0; RESULTS_LENGTH];
    // SAFETY: `input` may be read, `buffer` and `results` written for the lengths given, and no two of them overlap.
    let returned = unsafe {
        function(
            input.as_ptr(),
            input.len(),
            buffer.as_mut_ptr(),
            buffer.len(),
            results.as_mut_ptr(),
            results.len(),
        )
    };
    require(returned);
    results
}

pub(crate) fn from_dimacs(text: &[u8], buffer: &mut [u8]) -> Results {
    write(norwythai_from_dimacs, text, buffer)
}

pub(crate) fn to_dimacs(input: &[u8], buffer: &mut [u8]) -> Results {
    write(norwythai_to_dimacs, input, buffer)
}

pub(crate) fn judge(input: &[u8], assumptions: &[Assumption], buffer: &mut [u8]) -> Results {
    let mut results = [0; RESULTS_LENGTH];
    let (assumptions, assumptions_length) = bytes_of(assumptions);
    // SAFETY: `input` and `assumptions` may be read, `buffer` and `results` written for the lengths given, and no two of them overlap.
    let returned = unsafe {
        norwythai_judge(
            input.as_ptr(),
            input.len(),
            assumptions,
            assumptions_length,
            buffer.as_mut_ptr(),
            buffer.len(),
            results.as_mut_ptr(),
            results.len(),
        )
    };
    require(returned);
    results
}

pub(crate) fn weigh(input: &[u8], assumptions: &[Assumption], buffer: &[u8]) -> Results {
    let mut results = [0; RESULTS_LENGTH];
    let (assumptions, assumptions_length) = bytes_of(assumptions);
    // SAFETY: `input`, `assumptions` and `buffer` may be read, `results` written for the lengths given, and it overlaps none of them.
    let returned = unsafe {
        norwythai_weigh(
            input.as_ptr(),
            input.len(),
            assumptions,
            assumptions_length,
            buffer.as_ptr(),
            buffer.len(),
            results.as_mut_ptr(),
            results.len(),
        )
    };
    require(returned);
    results
}

pub(crate) fn deficiency(input: &[u8]) -> Results {
    let mut results = [0; RESULTS_LENGTH];
    // SAFETY: `input` may be read and `results` written for the lengths given, and they do not overlap.
    let returned = unsafe {
        norwythai_deficiency(
            input.as_ptr(),
            input.len(),
            results.as_mut_ptr(),
            results.len(),
        )
    };
    require(returned);
    results
}

pub(crate) fn start() -> [u8; CHECKPOINT_LENGTH] {
    let mut checkpoint = [0; CHECKPOINT_LENGTH];
    // SAFETY: `checkpoint` may be written for the length given.
    let returned = unsafe { norwythai_start(checkpoint.as_mut_ptr(), checkpoint.len()) };
    require(returned);
    checkpoint
}

pub(crate) fn walk(
    input: &[u8],
    assumptions: &[Assumption],
    checkpoint: &mut [u8; CHECKPOINT_LENGTH],
    budget: u32,
) -> Results {
    let mut results = [0; RESULTS_LENGTH];
    let (assumptions, assumptions_length) = bytes_of(assumptions);
    // SAFETY: `input` and `assumptions` may be read, `checkpoint` and `results` read and written for the lengths given, and no two of
    // them overlap.
    let returned = unsafe {
        norwythai_walk(
            input.as_ptr(),
            input.len(),
            assumptions,
            assumptions_length,
            checkpoint.as_mut_ptr(),
            checkpoint.len(),
            budget,
            results.as_mut_ptr(),
            results.len(),
        )
    };
    require(returned);
    results
}

pub(crate) fn list(
    input: &[u8],
    assumptions: &[Assumption],
    checkpoint: &mut [u8; CHECKPOINT_LENGTH],
    models: &mut [u64],
) -> Results {
    let mut results = [0; RESULTS_LENGTH];
    let (assumptions, assumptions_length) = bytes_of(assumptions);
    // SAFETY: `input` and `assumptions` may be read, `checkpoint`, `models` and `results` read and written for the lengths given, and
    // no two of them overlap.
    let returned = unsafe {
        norwythai_list(
            input.as_ptr(),
            input.len(),
            assumptions,
            assumptions_length,
            checkpoint.as_mut_ptr(),
            checkpoint.len(),
            models.as_mut_ptr(),
            models.len(),
            results.as_mut_ptr(),
            results.len(),
        )
    };
    require(returned);
    results
}

pub(crate) fn page(
    input: &[u8],
    assumptions: &[Assumption],
    checkpoint: &mut [u8; CHECKPOINT_LENGTH],
    serial: u32,
    page: &mut [u8],
) -> Results {
    let mut results = [0; RESULTS_LENGTH];
    let (assumptions, assumptions_length) = bytes_of(assumptions);
    // SAFETY: `input` and `assumptions` may be read, `checkpoint`, `page` and `results` read and written for the lengths given, and
    // no two of them overlap.
    let returned = unsafe {
        norwythai_page(
            input.as_ptr(),
            input.len(),
            assumptions,
            assumptions_length,
            checkpoint.as_mut_ptr(),
            checkpoint.len(),
            serial,
            page.as_mut_ptr(),
            page.len(),
            results.as_mut_ptr(),
            results.len(),
        )
    };
    require(returned);
    results
}
