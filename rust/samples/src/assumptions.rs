//! Lists of assumptions: good ones, under which many formulas are accepted, and bad ones.

use crate::random::Random;

/// A variable, by its number from 1, and its value.
type Assumption = (u8, bool);

/// The number of variables of an input, or one that a formula may have.
fn variables_of(input: &[u8]) -> usize {
    input.get(1).copied().unwrap_or(1).clamp(1, 48).into()
}

/// The clauses of an input, as far as it can be read: each literal is the assumption that makes it true.
fn clauses_of(input: &[u8]) -> Vec<Vec<Assumption>> {
    let mut clauses = Vec::new();
    let mut clause = Vec::new();
    let mut at = 2;
    while let Some(kind @ 2..=4) = input.get(at) {
        if *kind < 4 {
            let variable = input.get(at + 1).copied().unwrap_or(0);
            clause.push((variable, *kind == 2));
            at += 2;
        } else {
            clauses.push(std::mem::take(&mut clause));
            at += 1;
        }
    }
    clauses
}

/// Values that make the clauses true, as far as that comes by chance: for each clause in turn that is not true by them, the value of
/// one of its variables that has none.
fn some_satisfying(random: &mut Random, input: &[u8]) -> Vec<Assumption> {
    let mut values: Vec<Assumption> = Vec::new();
    for mut clause in clauses_of(input) {
        if !clause.iter().any(|literal| values.contains(literal)) {
            clause.retain(|(variable, _)| values.iter().all(|(other, _)| other != variable));
            if !clause.is_empty() {
                values.push(random.pick(&clause));
            }
        }
    }
    values
}

/// One to three values, each of which makes as many clauses true as it can, of those that are not true by the ones before.
fn some_frequent(random: &mut Random, input: &[u8]) -> Vec<Assumption> {
    let mut clauses = clauses_of(input);
    let mut values = Vec::new();
    for _ in 0..random.between(1, 3) {
        let made_true = |literal: &Assumption| {
            let has = |clause: &&Vec<Assumption>| clause.contains(literal);
            clauses.iter().filter(has).count()
        };
        let literals = (1..=variables_of(input) as u8).flat_map(|v| [(v, false), (v, true)]);
        let Some(best) = literals.filter(|l| made_true(l) > 0).max_by_key(made_true) else {
            break;
        };
        clauses.retain(|clause| !clause.contains(&best));
        // Its variable stands in no later value.
        for clause in &mut clauses {
            clause.retain(|(variable, _)| *variable != best.0);
        }
        values.push(best);
    }
    values
}

/// Assumptions of so many different variables of the input. Most lists make clauses true.
fn some_good(random: &mut Random, input: &[u8], count: usize) -> Vec<Assumption> {
    let values = if random.percent(75) {
        some_satisfying(random, input)
    } else {
        Vec::new()
    };
    let numbers = random.some_of(count, variables_of(input));
    numbers
        .into_iter()
        .map(|number| {
            let by_chance = (number as u8, random.percent(50));
            let found = values.iter().find(|(variable, _)| *variable == by_chance.0);
            *found.unwrap_or(&by_chance)
        })
        .collect()
}

/// Puts a bad assumption at a random index: of no variable, or of one that stands before.
fn put_bad(random: &mut Random, list: &mut Vec<Assumption>, variables: usize) {
    let at = random.below(list.len() + 1);
    let variable = match random.below(6) {
        0 => 0,
        1 => variables as u8 + 1,
        2 => random.between(variables + 1, 255) as u8,
        _ if at > 0 => list[random.below(at)].0,
        _ => 0,
    };
    list.insert(at, (variable, random.percent(50)));
}

/// Values that make clauses true, as many as it takes for all or nearly so.
fn some_covering(random: &mut Random, input: &[u8]) -> Vec<Assumption> {
    let mut values = some_satisfying(random, input);
    let without = random.below(values.len().min(3) + 1);
    values.truncate(values.len() - without);
    values
}

/// Assumptions of some, most or all variables, at times with bad ones among them.
pub fn some_assumptions(random: &mut Random, input: &[u8]) -> Vec<Assumption> {
    let variables = variables_of(input);
    let mut list = match random.below(18) {
        0..=6 => {
            let count = random.between(1, variables.min(4));
            some_good(random, input, count)
        }
        7 | 8 => {
            let count = random.between(1, variables);
            some_good(random, input, count)
        }
        9 => some_good(random, input, variables - 1),
        10 | 11 => some_good(random, input, variables),
        12..=14 => some_covering(random, input),
        15 | 16 => some_frequent(random, input),
        _ => Vec::new(),
    };
    if random.percent(20) {
        for _ in 0..random.between(1, 2) {
            put_bad(random, &mut list, variables);
        }
        if random.percent(20) {
            // More than there are variables, also just as many as a byte has no room for.
            let length = random.pick(&[variables + 1, 128, 129, 256, 257]);
            while list.len() < length {
                let again = random.pick(&list);
                list.push(again);
            }
        }
    }
    list
}

#[cfg(test)]
mod tests {
    use super::*;
    use crate::formulas::encode;

    #[test]
    fn values_that_make_clauses_true() {
        let input = encode(3, &[vec![1], vec![-1, 2], vec![-2, -3], vec![-1]]);
        let values = some_satisfying(&mut Random::new(1), &input);
        assert_eq!(values, [(1, true), (2, true), (3, false)]);
    }

    #[test]
    fn values_that_make_most_clauses_true() {
        let clauses = [vec![1], vec![-2, 3], vec![-2, -1], vec![-2, 1]];
        let input = encode(3, &clauses);
        let lists: Vec<_> = (0..20)
            .map(|seed| some_frequent(&mut Random::new(seed), &input))
            .collect();
        for list in &lists {
            assert!([(2, false), (1, true)].starts_with(list), "{list:?}");
        }
        assert!(lists.iter().any(|list| list.len() == 1));
        assert!(lists.iter().any(|list| list.len() == 2));
    }

    #[test]
    fn lists_of_all_kinds() {
        let mut random = Random::new(1);
        let input = encode(5, &[vec![1, 2], vec![-3, 4, 5]]);
        let (mut whole, mut zero, mut above, mut again, mut turned, mut long) = (0, 0, 0, 0, 0, 0);
        for _ in 0..1_000 {
            let list = some_assumptions(&mut random, &input);
            let bad = (0..list.len()).find(|i| {
                let (variable, _) = list[*i];
                let before = list[..*i].iter().any(|(other, _)| *other == variable);
                !(1..=5).contains(&variable) || before
            });
            let Some(index) = bad else {
                whole += usize::from(list.len() == 5);
                continue;
            };
            let (variable, value) = list[index];
            zero += usize::from(variable == 0);
            above += usize::from(variable > 5);
            again += usize::from(list[..index].contains(&(variable, value)));
            turned += usize::from(list[..index].contains(&(variable, !value)));
            long += usize::from(list.len() > 255);
        }
        for seen in [whole, zero, above, again, turned, long] {
            assert!(seen >= 5, "{whole} {zero} {above} {again} {turned} {long}");
        }
    }
}
