//! Assignments.

use crate::assumption::Assumption;
use crate::formula::Formula;
use std::fmt;

/// The mask of the variable of this number, counted from 1; of a number that no variable has it is empty.
pub(crate) fn mask_of(variable: u8) -> u64 {
    match variable {
        1..=64 => 1 << (variable - 1),
        _ => 0,
    }
}

/// A value for each variable: variable v, counted from 1, is true if bit v - 1 is set.
///
/// ```
/// use norwythai::Assignment;
///
/// let assignment = Assignment::from_bits(0b110);
/// assert!(!assignment.is_true(1) && assignment.is_true(2));
/// ```
#[derive(Clone, Copy, Debug, Default, PartialEq, Eq, PartialOrd, Ord, Hash)]
pub struct Assignment(u64);

impl Assignment {
    /// The assignment with these bits.
    pub fn from_bits(bits: u64) -> Self {
        Assignment(bits)
    }

    /// Its bits.
    pub fn bits(self) -> u64 {
        self.0
    }

    /// Whether the variable of this number, counted from 1, is true. A number that no assignment has is not.
    pub fn is_true(self, variable: u8) -> bool {
        self.0 & mask_of(variable) != 0
    }

    /// The assignment as pages have it ([`page`](crate::page())): a column for each variable of the formula, the first variable first. The
    /// column of a variable that some clause names or that is assumed is a digit, 1 for true and 0 for false. That of any other variable is
    /// a dash. With bytes that are no formula the columns mean nothing.
    ///
    /// ```
    /// use norwythai::{Assumption, Formula};
    ///
    /// // Four switches; if 3 is on, 1 is. No rule names 2 and 4.
    /// let formula = Formula::from_dimacs(b"p cnf 4 1\n1 -3 0\n")?;
    /// let models: Result<Vec<_>, _> = formula.models().collect();
    /// let models = models?.into_iter();
    /// let lines: Vec<String> = models.map(|model| model.columns(&formula, &[]).to_string()).collect();
    /// assert_eq!(lines, ["0-0-", "1-0-", "1-1-"]);
    ///
    /// let known = [Assumption::positive(4), Assumption::positive(3)];
    /// let model = formula.models_under(&known).next().unwrap()?;
    /// assert_eq!(model.columns(&formula, &known).to_string(), "1-11");
    /// # Ok::<(), norwythai::Refusal>(())
    /// ```
    pub fn columns(self, formula: &Formula, assumptions: &[Assumption]) -> Columns {
        let assumed = assumptions
            .iter()
            .fold(0, |mask, assumption| mask | mask_of(assumption.variable));
        Columns {
            assignment: self,
            variables: formula.variables(),
            visible: formula.named() | assumed,
        }
    }
}

impl From<u64> for Assignment {
    fn from(bits: u64) -> Self {
        Assignment(bits)
    }
}

impl From<Assignment> for u64 {
    fn from(assignment: Assignment) -> Self {
        assignment.0
    }
}

/// Displays an assignment column by column: see [`Assignment::columns`].
#[must_use = "it does nothing until it is displayed"]
#[derive(Clone, Copy, Debug)]
pub struct Columns {
    assignment: Assignment,
    variables: u8,
    /// The variables that have a digit.
    visible: u64,
}

impl fmt::Display for Columns {
    fn fmt(&self, f: &mut fmt::Formatter) -> fmt::Result {
        for variable in 1..=self.variables {
            f.write_str(if self.visible & mask_of(variable) == 0 {
                "-"
            } else if self.assignment.is_true(variable) {
                "1"
            } else {
                "0"
            })?;
        }
        Ok(())
    }
}
