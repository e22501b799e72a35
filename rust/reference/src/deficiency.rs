//! How far a formula is from being matched (S22).

use crate::bits::{bit, numbers};
use crate::formula::{decode, Clause, Refusal, MAX_CLAUSES, MAX_VARIABLES};

/// A matching that grows variable by variable, and so from the other side than that of S5: a search starts from a variable, goes through
/// the clauses that name it, and goes deeper by the variable that a clause has.
struct FromVariables {
    /// By variable: the clauses that name it.
    naming: [u128; MAX_VARIABLES],
    matched_clauses: u128,
    /// By matched clause: its variable.
    variable_of: [u8; MAX_CLAUSES],
    /// The clauses that the last search has not tried.
    untried: u128,
}

impl FromVariables {
    fn new(clauses: &[Clause]) -> Self {
        let mut naming = [0; MAX_VARIABLES];
        for (i, clause) in clauses.iter().enumerate() {
            for variable in numbers(clause.named()) {
                naming[variable] |= 1 << i;
            }
        }
        FromVariables {
            naming,
            matched_clauses: 0,
            variable_of: [0; MAX_CLAUSES],
            untried: 0,
        }
    }

    /// Matches as many clauses as can be, and gives how many.
    fn match_most(&mut self) -> usize {
        for variable in 0..MAX_VARIABLES {
            self.untried = !0;
            self.add(variable);
        }
        self.matched_clauses.count_ones() as usize
    }

    /// Gives the variable a clause that the search has not tried, one that is not matched or whose variable gets another clause; false if
    /// there is none.
    fn add(&mut self, variable: usize) -> bool {
        loop {
            let untried = self.naming[variable] & self.untried;
            if untried == 0 {
                return false;
            }
            let clause = untried.trailing_zeros() as usize;
            self.untried &= !(1 << clause);
            let other = usize::from(self.variable_of[clause]);
            if self.matched_clauses & 1 << clause == 0 || self.add(other) {
                self.matched_clauses |= 1 << clause;
                self.variable_of[clause] = variable as u8;
                return true;
            }
        }
    }
}

/// S22.1, the act deficiency (request: shortfall): the clauses, less the most that can be matched together. They are those of the formula
/// as it is read, with no assumptions and before stripping.
pub fn deficiency(input: &[u8]) -> Result<usize, Refusal> {
    let formula = decode(input)?;
    let clauses = formula.clauses();
    Ok(clauses.len() - FromVariables::new(clauses).match_most())
}

/// S22.2: the largest number by which some of the clauses are more than the variables that they name, and 0 if none are. Each is given by
/// the set of variables that it names. All sets of clauses are tried, so that there can be few only.
pub fn largest_excess(named: &[u64]) -> usize {
    let excess = |set: u64| {
        let union = numbers(set).fold(0, |union, clause| union | named[clause]);
        set.count_ones().saturating_sub(union.count_ones())
    };
    let largest = (0..bit(named.len())).map(excess).max();
    largest.map_or(0, |excess| excess as usize)
}
