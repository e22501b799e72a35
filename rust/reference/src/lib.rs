//! A plain implementation of docs/SPECIFICATION.md, which shares nothing with the proved one: the oracle that its answers are compared
//! with, and the baseline of its speed.
//!
//! It does what the specification says, step by step, over masks and arrays, and nothing more: no tables are kept beside the formula and
//! nothing is carried from one choice to the next, so that each function can be read beside its section (S-numbers).
//!
//! The acts are [`check`], [`judge`], [`start_checkpoint`], [`walk`], [`list`] and [`page()`], and between DIMACS CNF text and encoded
//! formulas [`from_dimacs`] and [`to_dimacs`]; [`print()`] writes the printed walk, [`weigh`] counts what the marks in judge's buffer come
//! to, and [`deficiency()`] says how far a formula is from being matched. Judge, weigh, walk, list and page also take assumptions.
//! Variables count from 0 in the code, so that variable v is bit v of a mask; in bytes, texts and assumptions they count from 1 (switch s
//! is variable s - 1).

#![forbid(unsafe_code)]
#![deny(missing_docs)]

mod acceptance;
mod assumptions;
pub mod bits;
mod choice;
mod columns;
mod deficiency;
mod dimacs;
mod formula;
mod matching;
mod page;
mod printing;
mod stripping;
mod walking;
mod weighing;

pub use acceptance::{accept, judge, judge_with, Size};
pub use assumptions::{Assumed, Assumption};
pub use columns::Columns;
pub use deficiency::{deficiency, largest_excess};
pub use dimacs::{from_dimacs, read_text, to_dimacs, write_text, FORMULA_BUFFER, TEXT_BUFFER};
pub use formula::{check, decode, Clause, Formula, Refusal, MAX_CLAUSES, MAX_VARIABLES};
pub use matching::{is_matched, Matcher};
pub use page::{page, LentPage, Paged, LINE_SIZE, MAX_SERIAL, PAGE_LINES, PAGE_SIZE};
pub use printing::print;
pub use walking::{
    list, start_checkpoint, walk, Answer, Checkpoint, Listed, Progress, Walked, Walker,
    CHECKPOINT_LENGTH, LIST_BUDGET,
};
pub use weighing::{weigh, Weight};
