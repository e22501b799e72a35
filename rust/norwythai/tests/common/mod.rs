//! What the tests of stripping and those of the order of trials both need.

use norwythai::{walk, Answer, Assumption, Checkpoint};

/// The answers of walk calls with an ample budget, and their steps and expansions, up to the end.
pub fn walked(input: &[u8], assumptions: &[Assumption]) -> Vec<(Answer, u32, u64)> {
    let mut checkpoint = Checkpoint::start();
    let mut calls = Vec::new();
    loop {
        let walked = walk(input, assumptions, &mut checkpoint, 96).unwrap();
        calls.push((walked.answer, walked.steps, walked.expansions));
        if walked.answer == Answer::Ended {
            return calls;
        }
    }
}
