//! Clauses as literals, and what stripping leaves of them: what the tests of stripping and those of the order of trials both need.

use norwythai_reference::bits::numbers;
use norwythai_reference::Formula;
use norwythai_samples::Clauses;

/// The clauses of a formula as literals.
pub fn clauses_of(formula: &Formula) -> Clauses {
    let literals = |mask, sign: i8| numbers(mask).map(move |v| sign * (v as i8 + 1));
    formula
        .clauses()
        .iter()
        .map(|c| {
            literals(c.positive, 1)
                .chain(literals(c.negative, -1))
                .collect()
        })
        .collect()
}

pub fn names(clause: &[i8], variable: i8) -> bool {
    clause.contains(&variable) || clause.contains(&-variable)
}

/// What stripping leaves of the clauses, by their indices, and the noted variables in order.
pub fn strip(clauses: &Clauses) -> (Vec<usize>, Vec<i8>) {
    let mut left: Vec<usize> = (0..clauses.len()).collect();
    let mut noted = Vec::new();
    loop {
        let has = |literal: i8| left.iter().any(|i| clauses[*i].contains(&literal));
        let Some(variable) = (1..=48).find(|v| has(*v) != has(-v)) else {
            return (left, noted);
        };
        noted.push(variable);
        left.retain(|i| !names(&clauses[*i], variable));
    }
}
