//! The families of formulas: those of data/families.txt, and more that are generated, the same in every run.

use crate::listers::{Assumptions, Lister, Plain};
use norwythai_reference::{decode, write_text};
use norwythai_samples::{encode, stairs, stripped, Clauses, Random, Stripping};

/// The formulas that are kept as data.
const KEPT: &str = include_str!("../data/families.txt");

/// How many formulas are generated beside the kept ones of a family.
const GENERATED: usize = 5;

/// What is added to the names of formulas with half of their variables assumed.
const HALF_ASSUMED: &str = ", half assumed";

/// The largest number of variables.
const LARGEST: usize = 48;

/// A formula, with the assumptions of all calls on it.
#[derive(Clone)]
pub struct Case {
    pub name: String,
    pub input: Vec<u8>,
    pub assumptions: Assumptions,
    /// Its number of variables.
    pub variables: usize,
    /// Its number of clauses.
    pub clauses: usize,
}

impl Case {
    /// A formula without assumptions.
    pub fn new(name: String, input: Vec<u8>) -> Self {
        let formula = decode(&input).expect("a formula");
        Case {
            name,
            input,
            assumptions: Assumptions::default(),
            variables: formula.variables(),
            clauses: formula.clauses().len(),
        }
    }

    fn is_accepted(&self) -> bool {
        let judged = Plain.judge(&self.input, &self.assumptions, &mut [0; 96]);
        judged.is_ok()
    }

    /// The variables to assign: those that some clause names and that are not assumed.
    fn to_assign(&self) -> u64 {
        let formula = decode(&self.input).expect("a formula");
        let assumed = formula.assumed(&self.assumptions.rust);
        assumed.expect("good assumptions").to_assign(&formula)
    }

    /// How many variables are left to assign.
    pub fn left_to_assign(&self) -> usize {
        self.to_assign().count_ones() as usize
    }

    /// The same formula with half of its variables to assign assumed, or as many as can be found: one after the other, in random order,
    /// with a random value or else the other, so that it is accepted under them if it is without, and else is not.
    pub fn half_assumed(&self) -> Self {
        let accepted = self.is_accepted();
        let (to_assign, half) = (self.to_assign(), self.left_to_assign() / 2);
        let mut case = self.clone();
        case.name.push_str(HALF_ASSUMED);
        let mut random = Random::new(self.input.len() as u64);
        let mut variables = random.some_of(self.variables, self.variables);
        variables.retain(|variable| to_assign >> (variable - 1) & 1 == 1);
        for variable in variables {
            let value = random.percent(50);
            for value in [value, !value] {
                let mut more = case.clone();
                more.assumptions.push(variable as u8, value);
                if more.is_accepted() == accepted {
                    case = more;
                    break;
                }
            }
            if case.left_to_assign() <= half {
                break;
            }
        }
        case
    }
}

/// A family of formulas.
#[derive(Clone, Copy)]
pub struct Family {
    /// The letter with which the names of its formulas begin.
    pub letter: char,
    pub title: &'static str,
    /// The clauses of one of its formulas over so many variables, accepted or not.
    generate: fn(&mut Random, usize) -> Clauses,
}

/// All families.
pub const FAMILIES: [Family; 8] = [
    Family {
        letter: 'a',
        title: "random 3-clauses",
        generate: random_threes,
    },
    Family {
        letter: 'b',
        title: "mixed lengths",
        generate: mixed_lengths,
    },
    Family {
        letter: 'c',
        title: "positive 2-clauses",
        generate: positive_twos,
    },
    Family {
        letter: 'd',
        title: "cyclic 3-clauses",
        generate: cyclic_threes,
    },
    Family {
        letter: 'e',
        title: "few clauses",
        generate: few_clauses,
    },
    Family {
        letter: 'f',
        title: "stairs",
        generate: some_stairs,
    },
    Family {
        letter: 'g',
        title: "stripped to nothing",
        generate: stripped_to_nothing,
    },
    Family {
        letter: 'h',
        title: "stripped to rings",
        generate: stripped_to_rings,
    },
];

impl Family {
    /// The kept formulas of the family, and generated ones of 48 variables.
    pub fn cases(&self) -> Vec<Case> {
        let mut cases: Vec<Case> = KEPT.lines().filter_map(|line| self.kept(line)).collect();
        cases.extend(self.generated(LARGEST, GENERATED));
        cases
    }

    /// These formulas with half of their variables assumed, and the title of such.
    pub fn half_assumed(&self) -> (String, Vec<Case>) {
        with_half_assumed(self.title, &self.cases())
    }

    /// So many generated formulas of so many variables.
    pub fn generated(&self, variables: usize, count: usize) -> Vec<Case> {
        let mut random = Random::new(u64::from(self.letter) << 8 | variables as u64);
        let mut cases = Vec::new();
        while cases.len() < count {
            let clauses = (self.generate)(&mut random, variables);
            let name = format!("{}_generated{}", self.letter, cases.len() + 1);
            let case = Case::new(name, encode(variables, &clauses));
            if case.is_accepted() {
                cases.push(case);
            }
        }
        cases
    }

    /// The formula on a line of the kept ones, if it is of this family.
    fn kept(&self, line: &str) -> Option<Case> {
        let (name, digits) = line.split_once(' ')?;
        if !name.starts_with(self.letter) {
            return None;
        }
        let case = Case::new(name.to_string(), from_hex(digits));
        assert!(case.is_accepted(), "{name} is kept, but not accepted");
        Some(case)
    }
}

/// The title of formulas that are not accepted, and such formulas: 96 clauses over 48 variables, of which stripping drops some and leaves
/// rings, and more clauses over the variables of these.
pub fn unmatched() -> (String, Vec<Case>) {
    let mut random = Random::new(u64::from('u') << 8 | LARGEST as u64);
    let stripping = Stripping {
        dropped: 36,
        in_rings: 40,
        more: 20,
    };
    let cases = (1..=GENERATED).map(|number| {
        let clauses = stripped(&mut random, LARGEST, stripping);
        Case::new(format!("u_generated{number}"), encode(LARGEST, &clauses))
    });
    ("unmatched".to_string(), cases.collect())
}

/// These formulas with half of their variables assumed, and the title of such.
pub fn unmatched_half_assumed() -> (String, Vec<Case>) {
    let (title, cases) = unmatched();
    with_half_assumed(&title, &cases)
}

/// Formulas with half of their variables assumed, and the title of such.
fn with_half_assumed(title: &str, cases: &[Case]) -> (String, Vec<Case>) {
    let title = format!("{title}{HALF_ASSUMED}");
    (title, cases.iter().map(Case::half_assumed).collect())
}

/// The fullest input: 96 clauses, each with all 48 variables. Without repeated literals none is longer. Stripping drops
/// them all at once.
pub fn fullest_input() -> Vec<u8> {
    full_input(|variable| {
        if variable % 2 == 0 {
            -variable
        } else {
            variable
        }
    })
}

/// The fullest input as a formula without assumptions.
pub fn fullest_case() -> Case {
    Case::new("fullest input".to_string(), fullest_input())
}

/// The fullest input with all literals negative: no formula is written as a longer text.
pub fn longest_text_input() -> Vec<u8> {
    let input = full_input(|variable| -variable);
    assert!(write_text(&input).is_ok_and(|text| text.len() == 17_772));
    input
}

/// 96 clauses of the literals of all 48 variables.
fn full_input(literal: fn(i8) -> i8) -> Vec<u8> {
    let clause: Vec<i8> = (1..=LARGEST as i8).map(literal).collect();
    let input = encode(LARGEST, &vec![clause; 96]);
    assert!(input.len() == 9315 && decode(&input).is_ok());
    input
}

fn from_hex(digits: &str) -> Vec<u8> {
    (0..digits.len() / 2)
        .map(|i| u8::from_str_radix(&digits[2 * i..2 * i + 2], 16).expect("two digits a byte"))
        .collect()
}

/// A clause that has this variable, so that the formula is matched, and others: so many literals of random signs.
fn clause_with(random: &mut Random, variable: i8, length: usize, variables: usize) -> Vec<i8> {
    let mut named = random.some_of(length, variables);
    if !named.contains(&variable) {
        named[0] = variable;
    }
    named.into_iter().map(|v| random.signed(v)).collect()
}

/// As many clauses of three literals as variables; each variable is in a clause of its own, at least.
fn random_threes(random: &mut Random, variables: usize) -> Clauses {
    random
        .some_of(variables, variables)
        .into_iter()
        .map(|own| clause_with(random, own, 3, variables))
        .collect()
}

/// Clauses of one to eight literals, five for eight variables. A few variables stand in none: up to three of 48.
fn mixed_lengths(random: &mut Random, variables: usize) -> Clauses {
    random
        .some_of(variables * 5 / 8, variables)
        .into_iter()
        .map(|own| {
            let length = random.between(1, 8);
            clause_with(random, own, length, variables)
        })
        .collect()
}

/// As many clauses of two positive literals as variables.
fn positive_twos(random: &mut Random, variables: usize) -> Clauses {
    random
        .some_of(variables, variables)
        .into_iter()
        .map(|own| {
            let clause = clause_with(random, own, 2, variables);
            clause.into_iter().map(i8::abs).collect()
        })
        .collect()
}

/// A ring of clauses i, not i + j, and i + k with a random sign, by random j and k.
fn cyclic_threes(random: &mut Random, variables: usize) -> Clauses {
    let apart = random.some_of(2, variables - 1);
    let sign = random.signed(1);
    let at = |i: usize, apart: i8| ((i + apart as usize) % variables) as i8 + 1;
    (0..variables)
        .map(|i| vec![at(i, 0), -at(i, apart[0]), sign * at(i, apart[1])])
        .collect()
}

/// Five clauses for 24 variables, each of which stands in one of them. Once some literal of each clause is true, no clause is left.
fn few_clauses(random: &mut Random, variables: usize) -> Clauses {
    let mut clauses = vec![Vec::new(); variables * 5 / 24];
    let count = clauses.len();
    let dealt = random.some_of(variables, variables).into_iter();
    for (i, variable) in dealt.enumerate() {
        clauses[i % count].push(random.signed(variable));
    }
    clauses
}

/// Stairs with a random number of pairs.
fn some_stairs(random: &mut Random, variables: usize) -> Clauses {
    let pairs = random.between(1, variables / 3);
    stairs(variables, pairs)
}

/// Twice as many clauses as variables, of which stripping drops all. A few variables stand in none: up to four of 48.
fn stripped_to_nothing(random: &mut Random, variables: usize) -> Clauses {
    let stripping = Stripping {
        dropped: 2 * variables,
        in_rings: 0,
        more: 0,
    };
    stripped(random, variables, stripping)
}

/// Twice as many clauses as variables, of which stripping leaves rings over half of the variables. One of 48 may stand in none.
fn stripped_to_rings(random: &mut Random, variables: usize) -> Clauses {
    let in_rings = variables / 2;
    let stripping = Stripping {
        dropped: 2 * variables - in_rings,
        in_rings,
        more: 0,
    };
    stripped(random, variables, stripping)
}

#[cfg(test)]
mod tests {
    use super::*;

    #[test]
    fn every_family_has_kept_and_generated_formulas() {
        let mut kept = 0;
        for family in FAMILIES {
            let cases = family.cases();
            kept += cases.len() - GENERATED;
            assert!(cases.iter().all(|case| case.variables == LARGEST));
            for variables in [12, 24, 36] {
                assert_eq!(family.generated(variables, 3).len(), 3);
            }
        }
        assert_eq!(kept, 14);
    }

    #[test]
    fn few_variables_are_unnamed() {
        for family in FAMILIES {
            let most = match family.letter {
                'b' => 3,
                'g' => 4,
                'h' => 1,
                _ => 0,
            };
            let unnamed = |case: &Case| LARGEST - case.left_to_assign();
            let seen = family.cases().iter().map(unnamed).max();
            assert_eq!(seen, Some(most), "{}", family.title);
        }
    }

    #[test]
    fn only_stairs_have_few_models() {
        for family in FAMILIES {
            let mut models = [0; 1_000];
            let mut listed = |case: &Case| {
                let mut checkpoint = [0; 50];
                Plain.list(&case.input, &case.assumptions, &mut checkpoint, &mut models)
            };
            let least = family
                .cases()
                .iter()
                .map(|case| listed(case).unwrap())
                .min();
            assert_eq!(
                least < Some(1_000),
                family.letter == 'f',
                "{}",
                family.title
            );
        }
    }

    #[test]
    fn stripping_drops_clauses_of_two_families() {
        for family in &FAMILIES[6..] {
            for case in family.cases() {
                let mut row = [0; 96];
                let judged = Plain.judge(&case.input, &case.assumptions, &mut row);
                assert_eq!(judged, Ok((LARGEST, 96)), "{}", case.name);
                let left = row.iter().filter(|byte| **byte <= 48).count();
                let expected = if family.letter == 'g' { 0 } else { 24 };
                assert_eq!(left, expected, "{}", case.name);
            }
        }
    }

    #[test]
    fn half_of_the_variables_are_assumed() {
        for case in FAMILIES.iter().flat_map(Family::cases) {
            let half = case.half_assumed();
            assert!(
                half.is_accepted() && half.left_to_assign() == case.left_to_assign() / 2,
                "{} {}",
                half.name,
                half.left_to_assign()
            );
        }
    }

    #[test]
    fn unmatched_formulas_stay_so_under_assumptions() {
        let (_, cases) = unmatched();
        let (_, half) = unmatched_half_assumed();
        for (case, half) in cases.iter().zip(&half) {
            assert_eq!(half.left_to_assign(), case.left_to_assign() / 2);
        }
        for case in cases.iter().chain(&half) {
            assert_eq!((case.variables, case.clauses), (LARGEST, 96));
            let judged = Plain.judge(&case.input, &case.assumptions, &mut [0; 96]);
            assert!(matches!(judged, Err((10, _))), "{}: {judged:?}", case.name);
        }
    }
}
