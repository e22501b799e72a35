//! What the tests and the benchmark make inputs with: random numbers that are the same in every run, encoded formulas and DIMACS
//! texts, whole and damaged, and what else calls get; by what the waits of a list of calls are measured; what a clause more or fewer
//! does to the deficiency; and which models a walk lists.

#![forbid(unsafe_code)]
#![deny(missing_docs)]

mod assumptions;
mod calls;
mod edits;
mod formulas;
mod inputs;
mod random;
mod texts;
mod trials;
mod waits;

pub use assumptions::some_assumptions;
pub use calls::{
    some_assignment, some_budget, some_checkpoint, some_length, some_marks, some_serial,
    with_unnamed,
};
pub use edits::{clauses_to_add, each_added, each_struck, encoded_clauses, Changes};
pub use formulas::{crowds, encode, longest_path, stairs, stripped, Clauses, Stripping};
pub use inputs::{some_accepted_formula, some_crowded_input, some_input, some_input_or_crowded};
pub use random::Random;
pub use texts::some_text;
pub use trials::{listed_models, named_variables};
pub use waits::{shared, trail_in, Stop, Wait, Waits};
