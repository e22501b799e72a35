//! Matching clauses with variables (S5; request: pairing).

use crate::bits::{bit, numbers};
use crate::formula::{MAX_CLAUSES, MAX_VARIABLES};

/// A way of matching clauses with variables. A clause is given by the set of variables that it names.
pub trait Matcher {
    /// Matches the clauses, in their order (S5.2): by clause its variable, both counted from 0, or, if that cannot be, the violator: the
    /// clauses that the failed search took off its queue (S5.5; request: the marked rules).
    fn match_clauses(&mut self, named: &[u64]) -> Result<&[u8], &[u8]>;
}

/// Whether clauses, each given by the set of variables that it names, are matched (S5.1; request: paired).
pub fn is_matched(named: &[u64]) -> bool {
    Matching::new().match_all(named)
}

/// A matching that grows clause by clause.
pub(crate) struct Matching {
    /// The matched variables.
    matched: u64,
    /// By matched variable: its clause.
    clause_of: [u8; MAX_VARIABLES],
    /// By matched clause: its variable.
    variable_of: [u8; MAX_CLAUSES],
    /// By variable that the last search has seen: the clause that it remembers.
    seen_from: [u8; MAX_VARIABLES],
    /// The queue of the last search: its first clause, and one more for each variable seen at most.
    queue: [u8; MAX_VARIABLES + 1],
    /// How many clauses the last search took off its queue.
    taken: usize,
    /// The clauses taken off in all searches (S5.3, expansions; request: reaches).
    expansions: u64,
}

impl Matching {
    pub fn new() -> Self {
        Matching {
            matched: 0,
            clause_of: [0; MAX_VARIABLES],
            variable_of: [0; MAX_CLAUSES],
            seen_from: [0; MAX_VARIABLES],
            queue: [0; MAX_VARIABLES + 1],
            taken: 0,
            expansions: 0,
        }
    }

    /// Matches the clauses anew, in their order; false if that cannot be.
    pub fn match_all(&mut self, named: &[u64]) -> bool {
        self.matched = 0;
        (0..named.len()).all(|clause| self.add(named, clause))
    }

    /// The expansions of all searches so far.
    pub fn expansions(&self) -> u64 {
        self.expansions
    }

    /// Matches one clause more; false if that cannot be.
    fn add(&mut self, named: &[u64], clause: usize) -> bool {
        match self.search(named, clause) {
            Some(variable) => {
                self.rematch(variable, clause);
                true
            }
            None => false,
        }
    }

    /// The search for an unmatched variable, from a new clause.
    fn search(&mut self, named: &[u64], root: usize) -> Option<usize> {
        let mut seen = 0;
        self.queue[0] = root as u8;
        let mut queued = 1;
        self.taken = 0;
        while self.taken < queued {
            let clause = self.queue[self.taken];
            self.taken += 1;
            self.expansions += 1;
            for variable in numbers(named[usize::from(clause)] & !seen) {
                seen |= bit(variable);
                self.seen_from[variable] = clause;
                if self.matched & bit(variable) == 0 {
                    return Some(variable);
                }
                self.queue[queued] = self.clause_of[variable];
                queued += 1;
            }
        }
        None
    }

    /// Re-matches the path that ends with an unmatched variable, link by link, back to the root.
    fn rematch(&mut self, end: usize, root: usize) {
        self.matched |= bit(end);
        let mut variable = end;
        loop {
            let clause = usize::from(self.seen_from[variable]);
            let before = usize::from(self.variable_of[clause]);
            self.clause_of[variable] = clause as u8;
            self.variable_of[clause] = variable as u8;
            if clause == root {
                return;
            }
            variable = before;
        }
    }
}

impl Matcher for Matching {
    fn match_clauses(&mut self, named: &[u64]) -> Result<&[u8], &[u8]> {
        if self.match_all(named) {
            Ok(&self.variable_of[..named.len()])
        } else {
            Err(&self.queue[..self.taken])
        }
    }
}
