//! Matching clauses with variables (S5; request: pairing), and the acts judge and deficiency.

use norwythai_reference::bits::{bit, lowest, numbers};
use norwythai_reference::{
    decode, judge_with, Assumption, Matcher, Refusal, Size, MAX_CLAUSES, MAX_VARIABLES,
};

/// A matching that grows clause by clause. What its arrays hold means something only for matched clauses and variables, so
/// that a new matching costs no clearing.
#[derive(Clone)]
pub(crate) struct Matching {
    /// The matched variables.
    matched: u64,
    /// The clause of a matched variable.
    clause_of: [u8; MAX_VARIABLES],
    /// The variable of a matched clause.
    variable_of: [u8; MAX_CLAUSES],
    /// The clause from which a search has first seen a variable.
    seen_from: [u8; MAX_VARIABLES],
    /// The queue of a search: its root, and a clause for each seen variable.
    queue: [u8; MAX_VARIABLES + 1],
    /// Clauses taken off the queue in all searches (S5.3, expansions; request: reaches).
    expansions: u64,
    /// How many of them belong to the last search that failed.
    last_taken: usize,
}

impl Matching {
    pub fn new() -> Self {
        Matching {
            matched: 0,
            clause_of: [0; MAX_VARIABLES],
            variable_of: [0; MAX_CLAUSES],
            seen_from: [0; MAX_VARIABLES],
            queue: [0; MAX_VARIABLES + 1],
            expansions: 0,
            last_taken: 0,
        }
    }

    /// Forgets the matching; the expansions go on counting.
    #[inline]
    pub fn clear(&mut self) {
        self.matched = 0;
    }

    /// The expansions of all searches so far.
    #[inline]
    pub fn expansions(&self) -> u64 {
        self.expansions
    }

    /// Gives the clause a variable, re-matching others if need be; false if that cannot be. `named[c] & live` is what clause c
    /// names.
    #[inline]
    pub fn add(&mut self, named: &[u64], live: u64, clause: usize) -> bool {
        let free = named[clause] & live & !self.matched;
        if free == 0 {
            return self.search(named, live, clause);
        }
        // The search would end with its first clause.
        self.expansions += 1;
        self.pair(lowest(free), clause);
        true
    }

    #[inline]
    fn pair(&mut self, variable: usize, clause: usize) {
        self.matched |= bit(variable);
        self.clause_of[variable] = clause as u8;
        self.variable_of[clause] = variable as u8;
    }

    /// The search of S5.2, in its order: clause by clause from the front of the queue, the variables of each upward. Most clauses
    /// need none, so that only [`Matching::add`] is inlined.
    #[inline(never)]
    fn search(&mut self, named: &[u64], live: u64, root: usize) -> bool {
        self.queue[0] = root as u8;
        let (mut taken, mut queued) = (0, 1);
        let mut seen = 0;
        while taken < queued {
            let clause = usize::from(self.queue[taken]);
            taken += 1;
            self.expansions += 1;
            let unseen = named[clause] & live & !seen;
            let free = unseen & !self.matched;
            if free != 0 {
                // What is seen before it in this clause changes nothing any more.
                self.rematch(lowest(free), clause, root);
                return true;
            }
            seen |= unseen;
            for variable in numbers(unseen) {
                self.seen_from[variable] = clause as u8;
                self.queue[queued] = self.clause_of[variable];
                queued += 1;
            }
        }
        self.last_taken = taken;
        false
    }

    /// Re-matches the path that ends with a free variable, seen from the clause, back to the root.
    fn rematch(&mut self, free: usize, seen_from: usize, root: usize) {
        let (mut variable, mut clause) = (free, seen_from);
        while clause != root {
            let given_up = usize::from(self.variable_of[clause]);
            self.pair(variable, clause);
            variable = given_up;
            clause = usize::from(self.seen_from[variable]);
        }
        self.pair(variable, root);
    }
}

impl Matcher for Matching {
    fn match_clauses(&mut self, named: &[u64]) -> Result<&[u8], &[u8]> {
        self.clear();
        if (0..named.len()).all(|clause| self.add(named, !0, clause)) {
            Ok(&self.variable_of[..named.len()])
        } else {
            Err(&self.queue[..self.last_taken])
        }
    }
}

/// The act judge.
pub fn judge(input: &[u8], assumptions: &[Assumption], buffer: &mut [u8]) -> Result<Size, Refusal> {
    judge_with(input, assumptions, buffer, &mut Matching::new())
}

/// The act deficiency (S22.1): clause after clause is added, and those that can't be are counted. Any other order leaves as many.
pub fn deficiency(input: &[u8]) -> Result<usize, Refusal> {
    let formula = decode(input)?;
    let mut named = [0; MAX_CLAUSES];
    let mut matching = Matching::new();
    let mut unmatched = 0;
    for (i, clause) in formula.clauses().iter().enumerate() {
        named[i] = clause.named();
        unmatched += usize::from(!matching.add(&named, !0, i));
    }
    Ok(unmatched)
}
