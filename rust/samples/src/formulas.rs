//! Formulas as lists of clauses, and their encoding.

use crate::random::Random;

/// Clauses of signed variable numbers, which count from 1: negative for a negative literal.
pub type Clauses = Vec<Vec<i8>>;

/// The encoded formula. Nothing is tested: it is one only if the variables and the clauses allow it.
pub fn encode(variables: usize, clauses: &[Vec<i8>]) -> Vec<u8> {
    let mut bytes = vec![1, variables as u8];
    for clause in clauses {
        bytes.extend(encode_clause(clause));
    }
    bytes.push(5);
    bytes
}

/// The encoded clause, with the record that ends it.
pub(crate) fn encode_clause(clause: &[i8]) -> Vec<u8> {
    let mut bytes = Vec::new();
    for literal in clause {
        bytes.extend([if *literal > 0 { 2 } else { 3 }, literal.unsigned_abs()]);
    }
    bytes.push(4);
    bytes
}

/// Stairs: clauses (1, .., i - 1, not i) for the steps, and for each pair of variables at the top one clause of the pair and all
/// steps, and one of all their negations. Most trials fail.
pub fn stairs(variables: usize, pairs: usize) -> Clauses {
    let steps = (variables - 2 * pairs) as i8;
    let mut clauses = Vec::new();
    for pair in 0..pairs as i8 {
        let top = [steps + 2 * pair + 1, steps + 2 * pair + 2];
        clauses.push((1..=steps).chain(top).collect());
        clauses.push((1..=steps).chain(top).map(|v| -v).collect());
    }
    for step in 1..=steps {
        clauses.push((1..step).chain([-step]).collect());
    }
    clauses
}

/// Clauses (1, 2), (2, 3), .., up to the last variable, and (1). The others being matched with their first variables, the augmenting
/// path of the last goes through all of them, so that re-matching gives each its second.
pub fn longest_path(variables: usize) -> Clauses {
    let mut clauses: Clauses = (1..variables as i8).map(|v| vec![v, v + 1]).collect();
    clauses.push(vec![1]);
    clauses
}

/// A ring of clauses, over all variables: i, not i + 1, i + 3, not i + 7, as many of these as the length. Each variable has both
/// signs.
pub(crate) fn ring(variables: usize, length: usize) -> Clauses {
    let at = |i: usize| (i % variables) as i8 + 1;
    (0..variables)
        .map(|i| [at(i), -at(i + 1), at(i + 3), -at(i + 7)][..length].to_vec())
        .collect()
}

/// A clause of the literal and up to three others, of random signs.
fn clause_from(random: &mut Random, literal: i8, others: &[i8]) -> Vec<i8> {
    let mut clause = vec![literal];
    for _ in 0..random.below(4).min(others.len()) {
        let variable = random.pick(others);
        let other = random.signed(variable);
        if !clause.contains(&other) && !clause.contains(&-other) {
            clause.push(other);
        }
    }
    clause
}

/// A ring over these variables, of which there are two at least, each given by a literal.
fn ring_over(random: &mut Random, literals: &[i8]) -> Clauses {
    let length = if literals.len() < 8 {
        2
    } else {
        random.between(2, 4)
    };
    let mut clauses = ring(literals.len(), length);
    for literal in clauses.iter_mut().flatten() {
        *literal = literal.signum() * literals[literal.unsigned_abs() as usize - 1];
    }
    clauses
}

/// What stripping makes of the clauses of [`stripped`].
#[derive(Clone, Copy, Debug)]
pub struct Stripping {
    /// How many clauses it drops.
    pub dropped: usize,
    /// How many it leaves in rings, over as many variables, so that they are matched: none, or 2 or more, but not over all variables.
    pub in_rings: usize,
    /// How many more it leaves, over the same variables, so that what is left is unmatched. Each has one of a few literals, and
    /// assumptions of these satisfy all.
    pub more: usize,
}

/// Clauses of which stripping drops some or all, in random order. Each dropped one belongs to a variable outside the rings: it has its
/// literal, of the same sign in all clauses that belong to the variable, and up to three others, of variables that come behind it in a
/// random order. So a variable is pure once the clauses of those before it are dropped.
pub fn stripped(random: &mut Random, variables: usize, stripping: Stripping) -> Clauses {
    let mut literals = random.some_of(variables, variables);
    for literal in &mut literals {
        *literal = random.signed(*literal);
    }
    let (outside, mut rest) = literals.split_at(variables - stripping.in_rings);
    let mut clauses: Clauses = Vec::new();
    for _ in 0..stripping.dropped {
        let own = random.below(outside.len());
        clauses.push(clause_from(random, outside[own], &literals[own + 1..]));
    }
    for _ in 0..stripping.more {
        let own = random.below(rest.len().min(3));
        clauses.push(clause_from(random, rest[own], rest));
    }
    let size = random.between(2, rest.len().max(2));
    while !rest.is_empty() {
        // No ring has one variable alone.
        let at = if rest.len() < size + 2 {
            rest.len()
        } else {
            size
        };
        let (first, others) = rest.split_at(at);
        clauses.extend(ring_over(random, first));
        rest = others;
    }
    random.shuffled(clauses)
}

/// So many clauses in crowds, in random order. The clauses of a crowd name a few variables together, or none, and often are more than
/// these; equal ones are among them, and some name any other variables, too.
pub fn crowds(random: &mut Random, variables: usize, count: usize) -> Clauses {
    let all = random.some_of(variables, variables);
    let mut clauses: Clauses = Vec::new();
    while clauses.len() < count {
        let size = random.below(variables.min(6) + 1);
        let named = random.some_of(size, variables);
        for _ in 0..random.between(1, size + 3).min(count - clauses.len()) {
            let clause = match (named.is_empty(), random.below(8)) {
                (true, _) => Vec::new(),
                (false, 0) => clauses.last().cloned().unwrap_or_default(),
                (false, chance) => {
                    let variable = random.pick(&named);
                    let own = random.signed(variable);
                    let others = if chance == 1 { &all } else { &named };
                    clause_from(random, own, others)
                }
            };
            clauses.push(clause);
        }
    }
    random.shuffled(clauses)
}

#[cfg(test)]
mod tests {
    use super::*;

    #[test]
    fn a_formula_is_encoded() {
        let clauses = [vec![1, 2], vec![-1, -2]];
        assert_eq!(encode(2, &clauses), [1, 2, 2, 1, 2, 2, 4, 3, 1, 3, 2, 4, 5]);
    }

    #[test]
    fn crowds_have_as_many_clauses_as_wanted() {
        let mut random = Random::new(1);
        for count in 0..=96 {
            let variables = random.between(1, 48);
            let clauses = crowds(&mut random, variables, count);
            assert_eq!(clauses.len(), count);
            for clause in clauses {
                let mut named: Vec<i8> = clause.iter().map(|literal| literal.abs()).collect();
                named.sort();
                named.dedup();
                assert_eq!(named.len(), clause.len(), "{clause:?}");
                assert!(named.iter().all(|v| (1..=variables as i8).contains(v)));
            }
        }
    }

    #[test]
    fn a_path_of_three_links() {
        assert_eq!(longest_path(3), [vec![1, 2], vec![2, 3], vec![1]]);
        assert_eq!(longest_path(1), [vec![1]]);
    }

    #[test]
    fn dropped_clauses_and_left_ones() {
        let stripping = Stripping {
            dropped: 5,
            in_rings: 3,
            more: 2,
        };
        let clauses = stripped(&mut Random::new(1), 4, stripping);
        assert_eq!(clauses.len(), 10);
        // One variable is not in a ring: it stands in the dropped clauses only, and with one sign.
        let dropped = |literal: &i8| {
            let naming = |clause: &&Vec<i8>| clause.contains(literal);
            clauses.iter().filter(naming).count() == 5
                && !clauses.iter().any(|clause| clause.contains(&-literal))
        };
        assert!((-4..=4).any(|literal| dropped(&literal)), "{clauses:?}");
    }

    #[test]
    fn stairs_of_two_steps() {
        let clauses = stairs(4, 1);
        assert_eq!(
            clauses,
            [
                vec![1, 2, 3, 4],
                vec![-1, -2, -3, -4],
                vec![-1],
                vec![1, -2]
            ]
        );
    }
}
