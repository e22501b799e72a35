//! Pure literal elimination (S6.2; request: stripping).

use crate::bits::{bit, lowest};
use crate::formula::{Clause, Formula, MAX_CLAUSES};

/// The variables that are named as positive literals, and those that are named as negative ones.
pub(crate) fn survey(clauses: &[Clause]) -> (u64, u64) {
    clauses.iter().fold((0, 0), |(positive, negative), clause| {
        (positive | clause.positive, negative | clause.negative)
    })
}

/// Clauses in the formula's order.
#[derive(Clone)]
pub(crate) struct Clauses {
    count: usize,
    clauses: [Clause; MAX_CLAUSES],
}

impl Clauses {
    /// Room for the clauses of a formula, with none in it.
    pub fn new() -> Self {
        Clauses {
            count: 0,
            clauses: [Clause::default(); MAX_CLAUSES],
        }
    }

    /// Becomes these clauses.
    pub fn set(&mut self, clauses: &[Clause]) {
        self.clauses[..clauses.len()].copy_from_slice(clauses);
        self.count = clauses.len();
    }

    /// Becomes the clauses that remain where these variables are unassigned, and those of the assignment are true: satisfied ones are
    /// gone, and assigned variables are gone from the others.
    pub fn set_remaining(&mut self, formula: &Formula, unassigned: u64, assignment: u64) {
        self.count = 0;
        let are_false = !(unassigned | assignment);
        for clause in formula.clauses() {
            if clause.positive & assignment | clause.negative & are_false == 0 {
                self.clauses[self.count] = Clause {
                    positive: clause.positive & unassigned,
                    negative: clause.negative & unassigned,
                };
                self.count += 1;
            }
        }
    }

    pub fn as_slice(&self) -> &[Clause] {
        &self.clauses[..self.count]
    }

    /// Strips the clauses: as long as some variable is named in only one way, notes the lowest such and drops the clauses that name
    /// it. What is left has no such variable.
    pub fn strip(&mut self, mut note: impl FnMut(usize)) {
        loop {
            let (positive, negative) = survey(self.as_slice());
            let pure = positive ^ negative;
            if pure == 0 {
                return;
            }
            let variable = lowest(pure);
            note(variable);
            self.drop_naming(variable);
        }
    }

    /// Drops the clauses that name the variable.
    fn drop_naming(&mut self, variable: usize) {
        let mut kept = 0;
        for i in 0..self.count {
            let clause = self.clauses[i];
            if clause.named() & bit(variable) == 0 {
                self.clauses[kept] = clause;
                kept += 1;
            }
        }
        self.count = kept;
    }
}
