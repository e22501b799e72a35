//! The models of CNF formulas that are matched or strip down to matched ones, one after the other, by a library that is proved.
//!
//! A formula has up to 48 variables and 96 clauses. It is *matched* if each clause can have a variable of its own among those
//! that it names. *Stripping* (pure literal elimination) drops the clauses that name the lowest variable that stands in one way only, as
//! positive or as negative literals, and goes on with those that are left until there is no such variable. A formula is *accepted* if it is
//! matched, or if what stripping leaves of it is: so it may have more clauses than variables.
//!
//! The library reads an encoded formula, says whether an assignment is a model ([`check`]) and whether the formula is accepted ([`judge`]),
//! and lists the models of an accepted formula ([`walk`], [`list`], [`Models`]), each exactly once and after a wait that is known to the
//! step ([`walk`](walk#waits)); or it writes them as pages of text, to be pinned up ([`page`]). A variable that no clause names is no part
//! of what is listed ([`walk`](walk#models)). The listing can be stopped after any number of steps and goes on from a [`Checkpoint`], which
//! is a line of text if need be. Where the values of some variables are known, matching, stripping and listing are of what remains under
//! these [`Assumption`]s. DIMACS CNF text is read into an encoded formula and written from one ([`from_dimacs`], [`to_dimacs`]). Whatever
//! the bytes are, an act answers: with a [`Refusal`], if it has to.
//!
//! Where a formula is not accepted, judge says which clauses stand in the way. Such a [`Violator`] names exactly one variable fewer than it
//! has clauses, assumed ones not counted, and without any single one of these the others can be matched. [`weigh`] counts any marked
//! clauses and the variables that they name. [`deficiency`] says by how many clauses any formula is too full to be matched as a whole.
//!
//! Clubs call these things sheets (formulas), rules (clauses), switches (variables), set-ups (assignments), fixed settings
//! (assumptions) and markers (checkpoints); the sentences of refusals do, too. A deficiency is their shortfall.
//!
//! Variables are given by their numbers, which count from 1 as in the encoded formula.
//!
//! The C functions that these acts call are in [`raw`].
//!
//! ```
//! use norwythai::{Assumption, FormulaBuilder, Literal};
//!
//! # fn main() -> Result<(), Box<dyn std::error::Error>> {
//! // Some switch of three is on, and switch 2 is on only if switch 1 is.
//! let formula = FormulaBuilder::new(3)?
//!     .clause(&[Literal::positive(1), Literal::positive(2), Literal::positive(3)])?
//!     .clause(&[Literal::positive(1), Literal::negative(2)])?
//!     .build();
//! assert_eq!(formula.judge(&[])?.matched(), [1, 2]);
//!
//! let mut lines = Vec::new();
//! for model in formula.models() {
//!     lines.push(model?.columns(&formula, &[]).to_string());
//! }
//! lines.sort();
//! assert_eq!(lines, ["001", "100", "101", "110", "111"]);
//!
//! // Switch 1 is known to be off.
//! let known = [Assumption::negative(1)];
//! let models: Result<Vec<_>, _> = formula.models_under(&known).collect();
//! let models = models?.into_iter();
//! let lines: Vec<String> = models.map(|model| model.columns(&formula, &known).to_string()).collect();
//! assert_eq!(lines, ["001"]);
//! # Ok(())
//! # }
//! ```

#![deny(missing_docs)]
#![deny(unsafe_code)]

mod acts;
mod assignment;
mod assumption;
mod builder;
mod checkpoint;
#[allow(unsafe_code)]
mod ffi;
mod formula;
mod limits;
mod models;
pub mod raw;
mod refusal;
mod violator;

pub use acts::{
    check, deficiency, from_dimacs, from_dimacs_into, judge, judge_into, list, page, to_dimacs,
    to_dimacs_into, walk, weigh, Answer, Listed, Matching, Paged, Size, Walked, Weight,
};
pub use assignment::{Assignment, Columns};
pub use assumption::Assumption;
pub use builder::{BuildError, FormulaBuilder, Literal};
pub use checkpoint::{Checkpoint, ParseCheckpointError};
pub use formula::Formula;
pub use limits::{
    DROPPED, FORMULA_BUFFER, LINE_SIZE, MAX_CLAUSES, MAX_SERIAL, MAX_VARIABLES, PAGE_LINES,
    PAGE_SIZE, TEXT_BUFFER,
};
pub use models::Models;
pub use refusal::Refusal;
pub use violator::{JudgeError, Violator};
