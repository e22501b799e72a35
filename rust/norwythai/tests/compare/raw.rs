//! The C functions themselves, called with arrays of any length. Each array stands between guards, which no call may change.

use norwythai::raw::{
    norwythai_check, norwythai_deficiency, norwythai_from_dimacs, norwythai_judge, norwythai_list,
    norwythai_page, norwythai_start, norwythai_to_dimacs, norwythai_walk, norwythai_weigh,
};
use std::fmt::Debug;

/// Items of a guard.
const GUARD: usize = 8;

/// An array between guards.
struct Guarded<T> {
    memory: Vec<T>,
    guard: T,
}

impl<T: Copy + PartialEq + Debug> Guarded<T> {
    fn new(items: &[T], guard: T) -> Self {
        let mut memory = vec![guard; GUARD];
        memory.extend(items);
        memory.extend([guard; GUARD]);
        Guarded { memory, guard }
    }

    fn length(&self) -> usize {
        self.memory.len() - 2 * GUARD
    }

    fn pointer(&mut self) -> *mut T {
        self.memory[GUARD..].as_mut_ptr()
    }

    /// Writes the array back, once its guards are tested.
    fn take(self, items: &mut [T]) {
        let end = GUARD + self.length();
        assert_eq!(self.memory[..GUARD], [self.guard; GUARD], "a guard");
        assert_eq!(self.memory[end..], [self.guard; GUARD], "a guard");
        items.copy_from_slice(&self.memory[GUARD..end]);
    }
}

fn bytes(items: &[u8]) -> Guarded<u8> {
    Guarded::new(items, 0x5a)
}

fn numbers(items: &[u64]) -> Guarded<u64> {
    Guarded::new(items, 0x5a5a_5a5a_5a5a_5a5a)
}

pub fn check(input: &[u8], assignment: u64, results: &mut [u64]) -> u32 {
    let mut written = numbers(results);
    // SAFETY: the pointers are good for the lengths, and the arrays do not overlap.
    let returned = unsafe {
        norwythai_check(
            input.as_ptr(),
            input.len(),
            assignment,
            written.pointer(),
            written.length(),
        )
    };
    written.take(results);
    returned
}

/// A function that reads an input or a text, and writes a buffer and the results.
type Writer = unsafe extern "C" fn(*const u8, usize, *mut u8, usize, *mut u64, usize) -> u32;

fn write(function: Writer, input: &[u8], buffer: &mut [u8], results: &mut [u64]) -> u32 {
    let (mut lent, mut written) = (bytes(buffer), numbers(results));
    // SAFETY: the pointers are good for the lengths, and the arrays do not overlap.
    let returned = unsafe {
        function(
            input.as_ptr(),
            input.len(),
            lent.pointer(),
            lent.length(),
            written.pointer(),
            written.length(),
        )
    };
    lent.take(buffer);
    written.take(results);
    returned
}

pub fn from_dimacs(text: &[u8], buffer: &mut [u8], results: &mut [u64]) -> u32 {
    write(norwythai_from_dimacs, text, buffer, results)
}

pub fn to_dimacs(input: &[u8], buffer: &mut [u8], results: &mut [u64]) -> u32 {
    write(norwythai_to_dimacs, input, buffer, results)
}

pub fn judge(input: &[u8], assumptions: &[u8], buffer: &mut [u8], results: &mut [u64]) -> u32 {
    let (mut lent, mut written) = (bytes(buffer), numbers(results));
    // SAFETY: the pointers are good for the lengths, and the arrays do not overlap.
    let returned = unsafe {
        norwythai_judge(
            input.as_ptr(),
            input.len(),
            assumptions.as_ptr(),
            assumptions.len(),
            lent.pointer(),
            lent.length(),
            written.pointer(),
            written.length(),
        )
    };
    lent.take(buffer);
    written.take(results);
    returned
}

/// The buffer is only read: it stays as it is.
pub fn weigh(input: &[u8], assumptions: &[u8], buffer: &[u8], results: &mut [u64]) -> u32 {
    let (mut lent, mut written) = (bytes(buffer), numbers(results));
    // SAFETY: the pointers are good for the lengths, and the arrays do not overlap.
    let returned = unsafe {
        norwythai_weigh(
            input.as_ptr(),
            input.len(),
            assumptions.as_ptr(),
            assumptions.len(),
            lent.pointer(),
            lent.length(),
            written.pointer(),
            written.length(),
        )
    };
    let mut after = vec![0; buffer.len()];
    lent.take(&mut after);
    assert_eq!(after, buffer);
    written.take(results);
    returned
}

pub fn deficiency(input: &[u8], results: &mut [u64]) -> u32 {
    let mut written = numbers(results);
    // SAFETY: the pointers are good for the lengths, and the arrays do not overlap.
    let returned = unsafe {
        norwythai_deficiency(
            input.as_ptr(),
            input.len(),
            written.pointer(),
            written.length(),
        )
    };
    written.take(results);
    returned
}

pub fn start(checkpoint: &mut [u8]) -> u32 {
    let mut lent = bytes(checkpoint);
    // SAFETY: the pointer is good for the length.
    let returned = unsafe { norwythai_start(lent.pointer(), lent.length()) };
    lent.take(checkpoint);
    returned
}

pub fn walk(
    input: &[u8],
    assumptions: &[u8],
    checkpoint: &mut [u8],
    budget: u32,
    results: &mut [u64],
) -> u32 {
    let (mut lent, mut written) = (bytes(checkpoint), numbers(results));
    // SAFETY: the pointers are good for the lengths, and the arrays do not overlap.
    let returned = unsafe {
        norwythai_walk(
            input.as_ptr(),
            input.len(),
            assumptions.as_ptr(),
            assumptions.len(),
            lent.pointer(),
            lent.length(),
            budget,
            written.pointer(),
            written.length(),
        )
    };
    lent.take(checkpoint);
    written.take(results);
    returned
}

pub fn list(
    input: &[u8],
    assumptions: &[u8],
    checkpoint: &mut [u8],
    models: &mut [u64],
    results: &mut [u64],
) -> u32 {
    let (mut lent, mut slice, mut written) = (bytes(checkpoint), numbers(models), numbers(results));
    // SAFETY: the pointers are good for the lengths, and the arrays do not overlap.
    let returned = unsafe {
        norwythai_list(
            input.as_ptr(),
            input.len(),
            assumptions.as_ptr(),
            assumptions.len(),
            lent.pointer(),
            lent.length(),
            slice.pointer(),
            slice.length(),
            written.pointer(),
            written.length(),
        )
    };
    lent.take(checkpoint);
    slice.take(models);
    written.take(results);
    returned
}

pub fn page(
    input: &[u8],
    assumptions: &[u8],
    checkpoint: &mut [u8],
    serial: u32,
    page: &mut [u8],
    results: &mut [u64],
) -> u32 {
    let (mut lent, mut lines, mut written) = (bytes(checkpoint), bytes(page), numbers(results));
    // SAFETY: the pointers are good for the lengths, and the arrays do not overlap.
    let returned = unsafe {
        norwythai_page(
            input.as_ptr(),
            input.len(),
            assumptions.as_ptr(),
            assumptions.len(),
            lent.pointer(),
            lent.length(),
            serial,
            lines.pointer(),
            lines.length(),
            written.pointer(),
            written.length(),
        )
    };
    lent.take(checkpoint);
    lines.take(page);
    written.take(results);
    returned
}
