//! Nodes of the walk (request: places), and which variable is assigned next there.

use crate::clauses::ClauseSet;
use crate::matching::Matching;
use norwythai_reference::bits::{bit, highest, lowest, numbers};
use norwythai_reference::{Formula, MAX_CLAUSES, MAX_VARIABLES};

/// An accepted formula, with what the walk asks of it at hand.
#[derive(Clone)]
pub(crate) struct Occurrences<S> {
    /// By clause: the variables that it names.
    named: [u64; MAX_CLAUSES],
    /// By variable: the clauses in which it is a positive literal.
    positive_in: [S; MAX_VARIABLES],
    /// By variable: the clauses in which it is a negative literal.
    negative_in: [S; MAX_VARIABLES],
}

impl<S: ClauseSet> Occurrences<S> {
    pub fn new(formula: &Formula) -> Self {
        let mut found = Occurrences {
            named: [0; MAX_CLAUSES],
            positive_in: [S::default(); MAX_VARIABLES],
            negative_in: [S::default(); MAX_VARIABLES],
        };
        for (index, clause) in formula.clauses().iter().enumerate() {
            found.named[index] = clause.named();
            for variable in numbers(clause.positive) {
                found.positive_in[variable] |= S::one(index);
            }
            for variable in numbers(clause.negative) {
                found.negative_in[variable] |= S::one(index);
            }
        }
        found
    }

    /// The clauses in which the variable, with this value, is a true literal.
    #[inline]
    fn satisfied_by(&self, variable: usize, value: bool) -> S {
        if value {
            self.positive_in[variable]
        } else {
            self.negative_in[variable]
        }
    }

    /// The clauses that name the variable.
    #[inline]
    fn naming(&self, variable: usize) -> S {
        self.positive_in[variable] | self.negative_in[variable]
    }
}

/// What remains of the formula when some variables are assigned.
#[derive(Clone, Copy, Default)]
pub(crate) struct Node<S> {
    /// The variables to assign that have no value.
    unassigned: u64,
    /// The clauses without a true literal. False literals are gone from them.
    clauses: S,
    /// The unassigned variables that are positive literals of these clauses.
    positive: u64,
    /// The unassigned variables that are negative literals of these clauses.
    negative: u64,
}

/// Which variable is assigned next at a node, and its open values: those that some model has there.
#[derive(Clone, Copy, Default)]
pub(crate) struct Choice {
    pub variable: usize,
    pub false_open: bool,
    pub true_open: bool,
}

impl Choice {
    #[inline]
    fn both_open(variable: usize) -> Self {
        Choice {
            variable,
            false_open: true,
            true_open: true,
        }
    }

    #[inline]
    pub fn open(&self, value: bool) -> bool {
        if value {
            self.true_open
        } else {
            self.false_open
        }
    }
}

impl<S: ClauseSet> Node<S> {
    /// The node with none of the variables to assign assigned, of what remains of the formula.
    pub fn root(formula: &Formula, to_assign: u64) -> Self {
        let mut node = Node {
            unassigned: to_assign,
            clauses: S::first(formula.clauses().len()),
            positive: 0,
            negative: 0,
        };
        for clause in formula.clauses() {
            node.positive |= clause.positive;
            node.negative |= clause.negative;
        }
        node
    }

    /// The node after assigning a variable.
    #[inline]
    pub fn assign(mut self, formula: &Occurrences<S>, variable: usize, value: bool) -> Self {
        self.unassigned &= !bit(variable);
        self.positive &= self.unassigned;
        self.negative &= self.unassigned;
        self.drop_clauses(formula, formula.satisfied_by(variable, value));
        self
    }

    /// Takes clauses away, and the literals that stood only in them.
    #[inline]
    fn drop_clauses(&mut self, formula: &Occurrences<S>, dropped: S) {
        let mut touched = 0;
        for clause in (dropped & self.clauses).clauses() {
            touched |= formula.named[clause];
        }
        self.clauses &= !dropped;
        for variable in numbers(touched & self.unassigned) {
            if (formula.positive_in[variable] & self.clauses).is_empty() {
                self.positive &= !bit(variable);
            }
            if (formula.negative_in[variable] & self.clauses).is_empty() {
                self.negative &= !bit(variable);
            }
        }
    }

    /// The next variable to assign; the expansions of all trials add to those of `matching`, which they use.
    #[inline]
    pub fn choose(&self, formula: &Occurrences<S>, matching: &mut Matching) -> Choice {
        if self.clauses.is_empty() {
            return Choice::both_open(lowest(self.unassigned));
        }
        let stripped = self.strip(formula);
        if !stripped.left.clauses.is_empty() {
            return stripped.left.try_busiest_first(formula, matching);
        }
        // The noted variables in order, then the others that are named here, upward: the last one.
        let others = (self.positive | self.negative) & !stripped.noted;
        let variable = if others == 0 {
            stripped.last_noted
        } else {
            highest(others)
        };
        Choice {
            variable,
            false_open: !self.has_unit(formula, variable, true),
            true_open: !self.has_unit(formula, variable, false),
        }
    }

    /// S6.2, eliminates pure literals (request: stripping): always the lowest variable that is named in only one way.
    #[inline]
    fn strip(&self, formula: &Occurrences<S>) -> Stripped<S> {
        let mut left = *self;
        let mut noted = 0;
        let mut last_noted = 0;
        loop {
            let pure = left.positive ^ left.negative;
            if pure == 0 {
                return Stripped {
                    left,
                    noted,
                    last_noted,
                };
            }
            last_noted = lowest(pure);
            noted |= bit(last_noted);
            left.drop_clauses(formula, formula.naming(last_noted));
        }
    }

    /// The first variable for which the clauses can be matched with it false and with it true: by how many of them name it, most
    /// first, and of those that as many name the lower one first. They are not sorted, since often the first one tried is it.
    fn try_busiest_first(&self, formula: &Occurrences<S>, matching: &mut Matching) -> Choice {
        let mut untried = self.positive | self.negative;
        let mut naming = [0; MAX_VARIABLES];
        for variable in numbers(untried) {
            naming[variable] = (formula.naming(variable) & self.clauses).count();
        }
        while untried != 0 {
            let variable = busiest(untried, &naming);
            if self.try_value(formula, matching, variable, false)
                && self.try_value(formula, matching, variable, true)
            {
                return Choice::both_open(variable);
            }
            untried &= !bit(variable);
        }
        unreachable!("the source's theorem 5.9: some variable passes its trial")
    }

    /// One half of a trial: whether the clauses can be matched once the variable has the value.
    fn try_value(
        &self,
        formula: &Occurrences<S>,
        matching: &mut Matching,
        variable: usize,
        value: bool,
    ) -> bool {
        let live = self.unassigned & !bit(variable);
        matching.clear();
        (self.clauses & !formula.satisfied_by(variable, value))
            .clauses()
            .all(|clause| matching.add(&formula.named, live, clause))
    }

    /// Whether some clause has only this literal left, so that the other value would empty it.
    fn has_unit(&self, formula: &Occurrences<S>, variable: usize, value: bool) -> bool {
        (self.clauses & formula.satisfied_by(variable, value))
            .clauses()
            .any(|clause| formula.named[clause] & self.unassigned == bit(variable))
    }
}

/// The variable of the set, which is not empty, that most clauses name, the lowest such; `naming` says by variable how many do.
#[inline]
fn busiest(variables: u64, naming: &[u32; MAX_VARIABLES]) -> usize {
    let mut busiest = lowest(variables);
    for variable in numbers(variables) {
        if naming[variable] > naming[busiest] {
            busiest = variable;
        }
    }
    busiest
}

/// What pure literal elimination leaves, and the noted variables.
struct Stripped<S> {
    left: Node<S>,
    noted: u64,
    /// Means something if some variable is noted.
    last_noted: usize,
}
