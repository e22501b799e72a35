//! Which variable is assigned next (S6; request: which switch is settled next).

use crate::bits::{bit, highest, lowest, numbers};
use crate::formula::{Clause, Formula, MAX_VARIABLES};
use crate::matching::Matching;
use crate::stripping::{survey, Clauses};
use std::cmp::Reverse;

/// The variable to assign next, and its open values: those that some model has, beside what is assigned.
#[derive(Clone, Copy, Default)]
pub(crate) struct Choice {
    pub variable: usize,
    pub false_open: bool,
    pub true_open: bool,
    /// The expansions of all trials that were made in choosing it.
    pub expansions: u64,
}

impl Choice {
    fn both_open(variable: usize, expansions: u64) -> Self {
        Choice {
            variable,
            false_open: true,
            true_open: true,
            expansions,
        }
    }

    pub fn open(&self, value: bool) -> bool {
        if value {
            self.true_open
        } else {
            self.false_open
        }
    }
}

/// The noted variables of pure literal elimination (S6.2; request: stripping).
#[derive(Default)]
struct Noted {
    all: u64,
    /// Means something if some variable is noted.
    last: usize,
}

impl Noted {
    fn note(&mut self, variable: usize) {
        self.all |= bit(variable);
        self.last = variable;
    }
}

/// Chooses the variables to assign in the walk of a formula. From one choice to the next it keeps nothing but room for clauses.
#[derive(Clone)]
pub(crate) struct Chooser<'a> {
    formula: &'a Formula,
    remaining: Clauses,
    left: Clauses,
}

impl<'a> Chooser<'a> {
    pub fn new(formula: &'a Formula) -> Self {
        Chooser {
            formula,
            remaining: Clauses::new(),
            left: Clauses::new(),
        }
    }

    /// The next variable to assign, where these are still to be assigned, of which there are some.
    pub fn choose(&mut self, unassigned: u64, assignment: u64) -> Choice {
        self.remaining
            .set_remaining(self.formula, unassigned, assignment);
        let remaining = self.remaining.as_slice();
        if remaining.is_empty() {
            return Choice::both_open(lowest(unassigned), 0);
        }
        self.left.set(remaining);
        let mut noted = Noted::default();
        self.left.strip(|variable| noted.note(variable));
        let left = self.left.as_slice();
        if left.is_empty() {
            choose_last(remaining, &noted)
        } else {
            try_busiest_first(left)
        }
    }
}

/// Something is left: the first of its variables for which the clauses can be matched with it false and with it true. They are tried by
/// how many of the clauses name them, most first, and of those that as many name the lower one first (request: busiest first).
fn try_busiest_first(left: &[Clause]) -> Choice {
    let (positive, negative) = survey(left);
    let mut order = [(Reverse(0), 0); MAX_VARIABLES];
    let mut count = 0;
    for variable in numbers(positive | negative) {
        order[count] = (Reverse(naming(left, variable)), variable);
        count += 1;
    }
    order[..count].sort_unstable();
    let mut matching = Matching::new();
    for (_, variable) in order[..count].iter().copied() {
        if try_value(left, variable, false, &mut matching)
            && try_value(left, variable, true, &mut matching)
        {
            return Choice::both_open(variable, matching.expansions());
        }
    }
    unreachable!("the source's theorem 5.9: some variable passes its trial")
}

/// How many clauses name the variable.
fn naming(clauses: &[Clause], variable: usize) -> usize {
    let names = |clause: &&Clause| clause.named() & bit(variable) != 0;
    clauses.iter().filter(names).count()
}

/// One half of a trial: whether the clauses can be matched once the variable has the value. What stripping leaves at a node of a walk is
/// matched, so that there are no more of these clauses than variables.
fn try_value(left: &[Clause], variable: usize, value: bool, matching: &mut Matching) -> bool {
    let mut named = [0; MAX_VARIABLES];
    let mut count = 0;
    for clause in left {
        if !satisfied(clause, variable, value) {
            named[count] = clause.named() & !bit(variable);
            count += 1;
        }
    }
    matching.match_all(&named[..count])
}

/// Nothing is left, but clauses remained: the last of the noted variables and then the others that are named here, upward. A
/// value is open if it empties no clause.
fn choose_last(remaining: &[Clause], noted: &Noted) -> Choice {
    let (positive, negative) = survey(remaining);
    let others = (positive | negative) & !noted.all;
    let variable = if others == 0 {
        noted.last
    } else {
        highest(others)
    };
    let empties = |value| {
        remaining.iter().any(|clause| {
            !satisfied(clause, variable, value) && clause.named() & !bit(variable) == 0
        })
    };
    Choice {
        variable,
        false_open: !empties(false),
        true_open: !empties(true),
        expansions: 0,
    }
}

/// Whether the clause has the variable as a literal that this value makes true.
fn satisfied(clause: &Clause, variable: usize, value: bool) -> bool {
    let literals = if value {
        clause.positive
    } else {
        clause.negative
    };
    literals & bit(variable) != 0
}
