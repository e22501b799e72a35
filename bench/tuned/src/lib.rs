//! A second baseline of the benchmark: what a faster algorithm would gain. It gives the same answers as the plain reference and
//! the proved library, and does less for them:
//!
//! - for each variable it keeps the clauses that have it, as masks, so that dropping clauses touches only what they name, and those
//!   that name a variable are counted at once;
//! - it keeps a node for each depth of the trail and makes each from the one above, so that no choice gathers clauses anew;
//! - a matching first looks for a free variable of the new clause, and of each clause that it takes off the queue, by one mask
//!   operation, and goes through the variables one by one only where there is none.
//!
//! All else is the plain reference's: reading a formula, check, refusals, which variables are to be assigned, the lines of a page and
//! what the acts give. Nothing is tested against this crate; the benchmark compares it with the reference. Variables count from 0 in the
//! code, so that variable v is bit v of a mask; in bytes they count from 1.

#![forbid(unsafe_code)]
#![deny(missing_docs)]

mod clauses;
mod matching;
mod node;
mod walking;

pub use matching::{deficiency, judge};
pub use walking::{list, page, walk};
