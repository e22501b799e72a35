//! How much marks weigh (S20.2): how many clauses they mark, and how many variables these name.

use crate::assumptions::{Assumed, Assumption};
use crate::formula::{decode, Formula, Refusal, MAX_CLAUSES};

impl Formula {
    /// Of each marked clause the variables that it names and that are not assumed. Clause i (from 0) is marked if byte i is not 0.
    pub fn marked<'a>(
        &'a self,
        assumed: &Assumed,
        marks: &'a [u8],
    ) -> impl Iterator<Item = u64> + 'a {
        let counted = !assumed.variables;
        let marked = self.clauses().iter().zip(marks);
        marked
            .filter(|(_, mark)| **mark != 0)
            .map(move |(clause, _)| clause.named() & counted)
    }
}

/// What marks weigh.
#[derive(Clone, Copy, Debug, PartialEq, Eq)]
pub struct Weight {
    /// How many clauses are marked.
    pub clauses: usize,
    /// How many variables these name, assumed ones not counted.
    pub variables: usize,
}

/// Weighs the marks in a buffer (request: slate). The formula, which has all its clauses here, also those that an assumption satisfies,
/// need not be accepted.
pub fn weigh(input: &[u8], assumptions: &[Assumption], buffer: &[u8]) -> Result<Weight, Refusal> {
    if buffer.len() < MAX_CLAUSES {
        return Err(Refusal::new(1, 0));
    }
    let formula = decode(input)?;
    let assumed = formula.assumed(assumptions)?;
    let (mut clauses, mut named) = (0, 0_u64);
    for set in formula.marked(&assumed, buffer) {
        clauses += 1;
        named |= set;
    }
    Ok(Weight {
        clauses,
        variables: named.count_ones() as usize,
    })
}
