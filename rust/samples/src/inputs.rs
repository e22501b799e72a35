//! Inputs: encoded formulas of many kinds, and damaged ones.

use crate::formulas::{crowds, encode, longest_path, ring, stairs, stripped, Clauses, Stripping};
use crate::random::Random;

/// Small, middle and large numbers of variables.
fn some_variables(random: &mut Random) -> usize {
    match random.below(10) {
        0..=3 => random.between(1, 8),
        4..=6 => random.between(9, 24),
        7 | 8 => random.between(25, 48),
        _ => 48,
    }
}

/// A clause of different variables in random order; negative literals in so many of a hundred cases.
fn some_clause(random: &mut Random, variables: usize, length: usize, negative: usize) -> Vec<i8> {
    let mut left: Vec<i8> = (1..=variables as i8).collect();
    let mut clause = Vec::new();
    for _ in 0..length.min(variables) {
        let variable = left.swap_remove(random.below(left.len()));
        clause.push(if random.percent(negative) {
            -variable
        } else {
            variable
        });
    }
    clause
}

fn some_clauses(
    random: &mut Random,
    variables: usize,
    count: usize,
    lengths: (usize, usize),
    negative: usize,
) -> Clauses {
    (0..count)
        .map(|_| {
            let length = random.between(lengths.0, lengths.1);
            some_clause(random, variables, length, negative)
        })
        .collect()
}

/// Clauses in which each variable stands as often as all others, with both signs and in random places. A clause that would name
/// one both ways is shorter.
fn balanced(random: &mut Random, variables: usize, length: usize) -> Clauses {
    let mut literals: Vec<i8> = Vec::new();
    for i in 0..length as i8 {
        let sign = if i % 2 == 0 { 1 } else { -1 };
        literals.extend((1..=variables as i8).map(|v| sign * v));
    }
    let mut clauses = vec![Vec::new(); variables];
    for at in 0..literals.len() {
        let literal = literals.swap_remove(random.below(literals.len()));
        let clause: &mut Vec<i8> = &mut clauses[at / length];
        if !clause.contains(&-literal) {
            clause.push(literal);
        }
    }
    clauses
}

/// A longest path over some of the variables, with random signs and the clauses before the last in random order; at times a few other
/// clauses stand among them, and what they name shortens the path or makes the formula unmatched.
fn some_path(random: &mut Random, variables: usize) -> Clauses {
    let count = random.between(1, variables);
    let mut named = random.some_of(count, variables);
    named.sort();
    let mut left = longest_path(count);
    for literal in left.iter_mut().flatten() {
        *literal = random.signed(named[*literal as usize - 1]);
    }
    let last = left.pop();
    let others = random.pick(&[0, 0, 1, 3]);
    left.extend(some_clauses(random, variables, others, (1, 3), 50));
    let mut clauses = random.shuffled(left);
    clauses.extend(last);
    clauses
}

/// Clauses of which stripping drops some or all, so that the others are matched. Most are unmatched as a whole.
fn left_matched(random: &mut Random, variables: usize) -> Clauses {
    let in_rings = if variables > 2 && random.percent(60) {
        random.between(2, variables - 1)
    } else {
        0
    };
    let stripping = Stripping {
        dropped: random.between(1, 96 - in_rings),
        in_rings,
        more: 0,
    };
    stripped(random, variables, stripping)
}

/// Clauses of which stripping drops some, while the others are unmatched; assumptions of a few variables often change that. There are
/// three variables at least.
fn left_unmatched(random: &mut Random, variables: usize) -> Clauses {
    let stripping = Stripping {
        dropped: random.between(1, 12),
        in_rings: random.between(2, variables - 1),
        more: random.between(1, 24),
    };
    stripped(random, variables, stripping)
}

/// Puts one of the clause's literals into it once more, or with the sign -1 its complement, at a random place.
fn put_again(random: &mut Random, clause: &mut Vec<i8>, sign: i8) {
    if !clause.is_empty() {
        let literal = sign * random.pick(clause);
        clause.insert(random.below(clause.len() + 1), literal);
    }
}

/// Repeats literals within their clauses: none in half of the formulas, few or many in the others. In one of a hundred some
/// clause has so many that no input without repeats is as long; half of these inputs are longer than the printing program takes.
fn repeat_literals(random: &mut Random, clauses: &mut Clauses) {
    let most = random.pick(&[0, 0, 0, 1, 3, 20]);
    for clause in clauses.iter_mut() {
        for _ in 0..random.below(most + 1) {
            put_again(random, clause, 1);
        }
    }
    if !clauses.is_empty() && random.percent(1) {
        let long = random.below(clauses.len());
        for _ in 0..random.between(4_700, 12_000) {
            put_again(random, &mut clauses[long], 1);
        }
    }
}

/// The number of variables and the clauses of a readable formula, accepted or not.
pub(crate) fn some_parts(random: &mut Random) -> (usize, Clauses) {
    let n = some_variables(random);
    let mut clauses = match random.below(16) {
        0 => some_clauses(random, n, n, (3, 3), 50),
        1 => {
            let count = random.between(0, n);
            some_clauses(random, n, count, (1, 8), 50)
        }
        2 => some_clauses(random, n, n, (2, 2), 0),
        3 | 4 if n >= 8 => ring(n, random.between(2, 4)),
        5 => some_clauses(random, n, n / 4, (3, 3), 50),
        6 | 7 if n >= 5 => {
            let pairs = random.between(1, (n - 1) / 2);
            stairs(n, pairs)
        }
        8 => some_clauses(random, n, n, (n / 2, n), 40),
        9 | 10 => {
            let length = random.between(2, 4);
            balanced(random, n, length)
        }
        11 => some_path(random, n),
        12 | 13 => left_matched(random, n),
        14 if n > 2 => left_unmatched(random, n),
        _ => {
            let count = random.between(0, 96);
            some_clauses(random, n, count, (0, 4), 50)
        }
    };
    repeat_literals(random, &mut clauses);
    (n, clauses)
}

fn encode_parts((n, clauses): (usize, Clauses)) -> Vec<u8> {
    encode(n, &clauses)
}

/// A readable formula, accepted or not.
fn some_formula(random: &mut Random) -> Vec<u8> {
    encode_parts(some_parts(random))
}

/// A formula that is accepted, as the caller finds out.
pub fn some_accepted_formula(random: &mut Random, is_accepted: fn(&[u8]) -> bool) -> Vec<u8> {
    loop {
        let input = some_formula(random);
        if is_accepted(&input) {
            return input;
        }
    }
}

/// 96 or 97 clauses, or a number of variables at a limit or past it.
pub(crate) fn parts_at_a_limit(random: &mut Random) -> (usize, Clauses) {
    let n = random.pick(&[1, 2, 48]);
    let count = random.pick(&[0, 1, 95, 96, 97, 98]);
    let lengths = random.pick(&[(0, 0), (1, 1), (0, 48), (48, 48)]);
    let mut clauses = some_clauses(random, n, count, lengths, 50);
    repeat_literals(random, &mut clauses);
    if random.percent(50) {
        (random.pick(&[0, 1, 48, 49, 255]), clauses)
    } else {
        (n, clauses)
    }
}

/// A formula but for a clause that names a variable both ways; a clause without literals stays as it is.
pub(crate) fn contradictory_parts(random: &mut Random) -> (usize, Clauses) {
    let (n, mut clauses) = some_parts(random);
    if !clauses.is_empty() {
        let at = random.below(clauses.len());
        put_again(random, &mut clauses[at], -1);
    }
    (n, clauses)
}

/// A formula in crowds, of which most are unmatched.
fn some_crowds(random: &mut Random) -> Vec<u8> {
    let n = some_variables(random);
    let most = random.pick(&[12, 48, 96]);
    let count = random.between(0, most + most / 8).min(most);
    let mut clauses = crowds(random, n, count);
    repeat_literals(random, &mut clauses);
    encode(n, &clauses)
}

/// Formulas in crowds, some of them damaged: for acts that answer for unmatched formulas, too.
pub fn some_crowded_input(random: &mut Random) -> Vec<u8> {
    let input = some_crowds(random);
    if random.percent(15) {
        damaged(random, input)
    } else {
        input
    }
}

/// The formula with some damage; it may still be a formula.
fn damaged(random: &mut Random, mut input: Vec<u8>) -> Vec<u8> {
    for _ in 0..random.between(1, 2) {
        let at = random.below(input.len() + 1);
        match random.below(7) {
            0 => input.truncate(at),
            1 => input.insert(at, random.byte()),
            2 => input.insert(at, random.pick(&[1, 2, 3, 4, 5])),
            3 => input.push(random.byte()),
            4 => {
                // A repeated record.
                let end = (at + 2).min(input.len());
                let copy = input[at..end].to_vec();
                input.splice(at..at, copy);
            }
            5 if at < input.len() => input[at] ^= 1 << random.below(8),
            _ if at < input.len() => input[at] = random.pick(&[0, 1, 2, 3, 4, 5, 6, 48, 49]),
            _ => {}
        }
    }
    input
}

/// Bytes that are hardly ever a formula.
fn noise(random: &mut Random) -> Vec<u8> {
    let length = random.below(40);
    let small = random.percent(70);
    (0..length)
        .map(|_| {
            if small {
                random.below(7) as u8
            } else {
                random.byte()
            }
        })
        .collect()
}

/// Any input: most are accepted formulas, as the caller finds out.
pub fn some_input(random: &mut Random, is_accepted: fn(&[u8]) -> bool) -> Vec<u8> {
    match random.below(22) {
        0..=11 => some_accepted_formula(random, is_accepted),
        12..=14 => some_formula(random),
        15 => encode_parts(contradictory_parts(random)),
        16 | 17 => {
            let input = some_formula(random);
            damaged(random, input)
        }
        18 | 19 => encode_parts(parts_at_a_limit(random)),
        20 => {
            let variables = some_variables(random).max(3);
            encode(variables, &left_unmatched(random, variables))
        }
        _ => noise(random),
    }
}

/// Any input or, in half of the cases, one in crowds.
pub fn some_input_or_crowded(random: &mut Random, is_accepted: fn(&[u8]) -> bool) -> Vec<u8> {
    if random.percent(50) {
        some_crowded_input(random)
    } else {
        some_input(random, is_accepted)
    }
}

#[cfg(test)]
mod tests {
    use super::*;
    use crate::trials::named_variables;
    use std::collections::BTreeSet;

    #[test]
    fn many_formulas_name_all_variables_and_many_do_not() {
        let mut random = Random::new(1);
        let (mut all, mut some, mut none) = (0, 0, 0);
        for _ in 0..4_000 {
            let input = some_formula(&mut random);
            match named_variables(&input).count_ones() {
                0 => none += 1,
                named if named < u32::from(input[1]) => some += 1,
                _ => all += 1,
            }
        }
        assert!(
            all > 2_000 && some > 800 && none > 40,
            "{all} {some} {none}"
        );
    }

    #[test]
    fn many_formulas_repeat_literals_and_some_are_long() {
        let mut random = Random::new(1);
        let (mut repeats, mut long) = (0, 0);
        for _ in 0..4_000 {
            let (n, clauses) = some_parts(&mut random);
            let mut once = clauses.clone();
            for clause in &mut once {
                let literals: BTreeSet<i8> = clause.iter().copied().collect();
                assert!(literals.iter().all(|l| !literals.contains(&-l)));
                *clause = literals.into_iter().collect();
            }
            let length = encode(n, &clauses).len();
            repeats += usize::from(length > encode(n, &once).len());
            long += usize::from(length > 16_384);
        }
        assert!(repeats > 1_200, "{repeats}");
        assert!((8..60).contains(&long), "{long}");
    }
}
