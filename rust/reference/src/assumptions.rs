//! Assumptions (request: fixed settings): values that some variables have before judge, weigh, walk, list or page begins.

use crate::bits::bit;
use crate::formula::{Clause, Formula, Refusal};

/// An assumption (request: fixing): a variable, by its number from 1, and its value.
#[derive(Clone, Copy, Debug, PartialEq, Eq)]
pub struct Assumption {
    /// The variable's number, be it one that the formula doesn't have.
    pub variable: u8,
    /// Its value.
    pub value: bool,
}

impl From<(u8, bool)> for Assumption {
    fn from((variable, value): (u8, bool)) -> Self {
        Assumption { variable, value }
    }
}

/// What is assumed of a formula.
#[derive(Clone, Copy, Debug, Default)]
pub struct Assumed {
    /// The assumed variables.
    pub variables: u64,
    /// Those of them that are true.
    pub assignment: u64,
    /// The clauses that an assumption satisfies: bit i is that of clause i, from 0, of the whole formula.
    satisfied: u128,
}

impl Assumed {
    /// The variables that a walk assigns (S23.1): those that some clause of the formula names, as it was read, and that are not assumed.
    pub fn to_assign(&self, formula: &Formula) -> u64 {
        formula.named() & !self.variables
    }

    /// The variables whose columns have a digit (S23.3): those that some clause names and those that are assumed.
    pub fn visible(&self, formula: &Formula) -> u64 {
        formula.named() | self.variables
    }

    /// Writes a byte for each clause of the whole formula: these for the clauses that remain, in their order, and 0 for the others.
    pub(crate) fn write_row(&self, row: &mut [u8], mut bytes: impl Iterator<Item = u8>) {
        let mut satisfied = self.satisfied;
        for byte in row {
            *byte = if satisfied & 1 == 0 {
                bytes.next().expect("a byte for each clause that remains")
            } else {
                0
            };
            satisfied >>= 1;
        }
    }

    /// What remains of a clause, unless an assumption satisfies it.
    fn reduce(&self, clause: &Clause) -> Option<Clause> {
        let are_false = self.variables & !self.assignment;
        let satisfied = clause.positive & self.assignment | clause.negative & are_false != 0;
        (!satisfied).then_some(Clause {
            positive: clause.positive & !self.variables,
            negative: clause.negative & !self.variables,
        })
    }
}

impl Formula {
    /// Takes the assumptions, and becomes what remains under them: satisfied clauses are gone, and assumed variables are gone from the
    /// others. Refuses a bad assumption by 16, at its index.
    pub fn assume(&mut self, assumptions: &[Assumption]) -> Result<Assumed, Refusal> {
        let mut assumed = self.assumed(assumptions)?;
        if assumed.variables != 0 {
            self.reduce(&mut assumed);
        }
        Ok(assumed)
    }

    /// The variables and the values of the assumptions, with no clause noted as satisfied. Refuses by 16, at its index, the first
    /// assumption whose variable the formula doesn't have or an earlier one has assumed, be it with the same value.
    pub fn assumed(&self, assumptions: &[Assumption]) -> Result<Assumed, Refusal> {
        let mut assumed = Assumed::default();
        for (index, assumption) in assumptions.iter().enumerate() {
            let number = usize::from(assumption.variable);
            if number == 0 || number > self.variables {
                return Err(Refusal::new(16, index));
            }
            let variable = bit(number - 1);
            if assumed.variables & variable != 0 {
                return Err(Refusal::new(16, index));
            }
            assumed.variables |= variable;
            if assumption.value {
                assumed.assignment |= variable;
            }
        }
        Ok(assumed)
    }

    /// Keeps what remains of the clauses, and notes the others as satisfied.
    fn reduce(&mut self, assumed: &mut Assumed) {
        let mut kept = 0;
        for index in 0..self.count {
            match assumed.reduce(&self.clauses[index]) {
                Some(remaining) => {
                    self.clauses[kept] = remaining;
                    kept += 1;
                }
                None => assumed.satisfied |= 1 << index,
            }
        }
        self.count = kept;
    }
}
