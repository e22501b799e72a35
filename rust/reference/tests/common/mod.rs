//! What the tests under assumptions, those of unnamed variables and those of the order of trials need.

use norwythai_reference::{judge, start_checkpoint, Assumption, Checkpoint};

/// Assumptions as literals: a negative number assumes that the variable is false.
pub fn assuming(literals: &[i8]) -> Vec<Assumption> {
    let assumption = |literal: &i8| (literal.unsigned_abs(), *literal > 0).into();
    literals.iter().map(assumption).collect()
}

/// A checkpoint by its mode, length and the first bytes of its trail.
pub fn checkpoint(bytes: &[u8]) -> Checkpoint {
    let mut checkpoint = start_checkpoint();
    checkpoint[..bytes.len()].copy_from_slice(bytes);
    checkpoint
}

pub fn is_accepted(input: &[u8]) -> bool {
    judge(input, &[], &mut [0; 96]).is_ok()
}
