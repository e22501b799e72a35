//! Clauses struck from encoded formulas and added to them, and what that does to the deficiency.

use crate::formulas::encode_clause;
use crate::random::Random;
use std::fmt::Debug;

/// The clauses of a readable formula as they are encoded, each with the record that ends it.
pub fn encoded_clauses(input: &[u8]) -> Vec<&[u8]> {
    let mut clauses = Vec::new();
    let (mut start, mut at) = (2, 2);
    while input[at] != 5 {
        if input[at] == 4 {
            clauses.push(&input[start..=at]);
            start = at + 1;
        }
        at += if input[at] == 4 { 1 } else { 2 };
    }
    clauses
}

/// The readable formula with these clauses in place of its own.
fn with_clauses(input: &[u8], clauses: &[&[u8]]) -> Vec<u8> {
    [&input[..2], &clauses.concat(), &[5]].concat()
}

/// The readable formula without one of its clauses, by clause.
pub fn each_struck(input: &[u8]) -> Vec<Vec<u8>> {
    let clauses = encoded_clauses(input);
    let struck = |i| {
        let mut others = clauses.clone();
        others.remove(i);
        with_clauses(input, &others)
    };
    (0..clauses.len()).map(struck).collect()
}

/// The readable formula with an encoded clause more, by the place that it has among the others.
pub fn each_added(input: &[u8], clause: &[u8]) -> Vec<Vec<u8>> {
    let clauses = encoded_clauses(input);
    let added = |i| {
        let mut more = clauses.clone();
        more.insert(i, clause);
        with_clauses(input, &more)
    };
    (0..=clauses.len()).map(added).collect()
}

/// Encoded clauses to add to a readable formula: an empty one, one of one literal, one of all variables, and, if the formula has clauses,
/// one of these.
pub fn clauses_to_add(random: &mut Random, input: &[u8]) -> Vec<Vec<u8>> {
    let variables = input[1] as i8;
    let wide: Vec<i8> = (1..=variables).map(|v| random.signed(v)).collect();
    let unit = [random.pick(&wide)];
    let mut more = vec![
        encode_clause(&[]),
        encode_clause(&unit),
        encode_clause(&wide),
    ];
    let clauses = encoded_clauses(input);
    if !clauses.is_empty() {
        more.push(random.pick(&clauses).to_vec());
    }
    more
}

/// How often the deficiency stays, and how often it changes by one.
#[derive(Debug, Default)]
pub struct Changes {
    /// When a clause is struck.
    pub struck: [usize; 2],
    /// When one is added.
    pub added: [usize; 2],
}

impl Changes {
    /// Strikes each clause of a readable formula in turn, and adds [`clauses_to_add`], each at each place; false if none is added, since
    /// there are 96 clauses.
    pub fn edit<E: Debug>(
        &mut self,
        random: &mut Random,
        input: &[u8],
        deficiency: impl Fn(&[u8]) -> Result<usize, E>,
    ) -> bool {
        let deficiency = |input: &[u8]| deficiency(input).expect("a readable formula");
        self.strike(input, deficiency);
        if encoded_clauses(input).len() == 96 {
            return false;
        }
        for clause in clauses_to_add(random, input) {
            self.add(input, &clause, deficiency);
        }
        true
    }

    /// Strikes each clause in turn: the deficiency stays, or falls by one.
    fn strike(&mut self, input: &[u8], deficiency: impl Fn(&[u8]) -> usize) {
        let before = deficiency(input);
        for struck in each_struck(input) {
            let after = deficiency(&struck);
            let falls = after + 1 == before;
            assert!(after == before || falls, "struck: {input:02x?}");
            self.struck[usize::from(falls)] += 1;
        }
    }

    /// Adds the encoded clause at each place, which makes no difference: the deficiency stays, or rises by one, as it always does by an
    /// empty clause.
    fn add(&mut self, input: &[u8], clause: &[u8], deficiency: impl Fn(&[u8]) -> usize) {
        let before = deficiency(input);
        let all = each_added(input, clause);
        let after = deficiency(&all[0]);
        let rises = after == before + 1;
        let stays = after == before && clause != [4];
        assert!(stays || rises, "added: {input:02x?} {clause:02x?}");
        let same = all.iter().all(|added| deficiency(added) == after);
        assert!(same, "by place: {input:02x?} {clause:02x?}");
        self.added[usize::from(rises)] += all.len();
    }

    /// How often the rarest of the four came.
    pub fn fewest(&self) -> usize {
        self.struck
            .into_iter()
            .chain(self.added)
            .fold(usize::MAX, usize::min)
    }
}

#[cfg(test)]
mod tests {
    use super::*;
    use crate::formulas::encode;

    #[test]
    fn clauses_are_struck_and_added() {
        let input = encode(5, &[vec![4, -5], vec![], vec![-4]]);
        let clauses: [&[u8]; 3] = [&[2, 4, 3, 5, 4], &[4], &[3, 4, 4]];
        assert_eq!(encoded_clauses(&input), clauses);
        assert_eq!(
            each_struck(&input),
            [
                encode(5, &[vec![], vec![-4]]),
                encode(5, &[vec![4, -5], vec![-4]]),
                encode(5, &[vec![4, -5], vec![]]),
            ]
        );
        assert_eq!(
            each_added(&encode(5, &[vec![4]]), &[3, 5, 4]),
            [
                encode(5, &[vec![-5], vec![4]]),
                encode(5, &[vec![4], vec![-5]]),
            ]
        );
        let none = encode(5, &[]);
        assert!(each_struck(&none).is_empty());
        assert_eq!(each_added(&none, &[4]), [[1, 5, 4, 5]]);
    }

    /// The number of clauses that have no literal.
    fn empty(input: &[u8]) -> usize {
        let clauses = encoded_clauses(input).into_iter();
        clauses.filter(|clause| clause.len() == 1).count()
    }

    #[test]
    fn clauses_of_each_length_are_added() {
        let mut random = Random::new(1);
        let mut lengths = |input: &[u8]| {
            let more = clauses_to_add(&mut random, input);
            more.iter().map(Vec::len).collect::<Vec<usize>>()
        };
        assert_eq!(lengths(&encode(5, &[])), [1, 3, 11]);
        assert_eq!(lengths(&encode(5, &[vec![1, -2]])), [1, 3, 11, 5]);
    }

    #[test]
    fn changes_are_counted() {
        let input = encode(5, &[vec![], vec![4], vec![]]);
        let mut changes = Changes::default();
        changes.strike(&input, empty);
        changes.add(&input, &[4], empty);
        changes.add(&input, &[2, 1, 4], empty);
        assert_eq!((changes.struck, changes.added), ([1, 2], [4, 4]));
        assert_eq!(changes.fewest(), 1);
    }

    #[test]
    fn nothing_is_added_to_96_clauses() {
        let mut random = Random::new(1);
        let mut changes = Changes::default();
        let mut edit = |count| {
            let input = encode(5, &vec![vec![]; count]);
            changes.edit(&mut random, &input, |input| Ok::<_, ()>(empty(input)))
        };
        assert!(!edit(96));
        assert!(edit(95));
        // The empty clause, and one of the formula's own, raise it at each of 96 places.
        assert_eq!(changes.struck, [0, 96 + 95]);
        assert_eq!(changes.added, [2 * 96, 2 * 96]);
    }

    #[test]
    #[should_panic(expected = "struck: ")]
    fn a_number_that_falls_by_two_is_found() {
        Changes::default().strike(&encode(5, &[vec![]]), |input| 2 * empty(input));
    }

    #[test]
    #[should_panic(expected = "struck: ")]
    fn a_number_that_rises_when_a_clause_is_struck_is_found() {
        let fewer = |input: &[u8]| 7 - encoded_clauses(input).len();
        Changes::default().strike(&encode(5, &[vec![]]), fewer);
    }

    #[test]
    #[should_panic(expected = "added: ")]
    fn a_number_that_rises_by_two_is_found() {
        Changes::default().add(&[1, 5, 5], &[4], |input| 2 * empty(input));
    }

    #[test]
    #[should_panic(expected = "added: ")]
    fn a_number_that_falls_when_a_clause_is_added_is_found() {
        let fewer = |input: &[u8]| 7 - encoded_clauses(input).len();
        Changes::default().add(&[1, 5, 5], &[2, 1, 4], fewer);
    }

    #[test]
    #[should_panic(expected = "added: ")]
    fn a_number_that_an_empty_clause_leaves_is_found() {
        Changes::default().add(&[1, 5, 5], &[4], |_| 0);
    }

    #[test]
    #[should_panic(expected = "by place: ")]
    fn a_number_that_depends_on_the_place_is_found() {
        let first_is_unit = |input: &[u8]| usize::from(encoded_clauses(input)[0].len() == 3);
        Changes::default().add(&encode(5, &[vec![]]), &[2, 1, 4], first_is_unit);
    }
}
