//! Deficiency: its calls, compared with the reference, also with a clause struck or added; and what was seen of them.

use crate::acts::{refusal_of, refused_results, UNWRITTEN};
use crate::counts::{Outcomes, Seen};
use crate::is_accepted;
use crate::raw;
use crate::tally::Tally;
use norwythai_reference::{self as reference, Clause, Refusal};
use norwythai_samples::{
    clauses_to_add, each_added, each_struck, encoded_clauses, some_crowded_input, Random,
};
use std::fmt;

/// Compares a call, and gives the deficiency of an input that is not refused.
fn compare_deficiency(tally: &mut Tally, input: &[u8]) -> Option<usize> {
    let expected = reference::deficiency(input);
    let found = norwythai::deficiency(input);
    assert_eq!(found, expected.map_err(refusal_of), "{input:02x?}");

    let mut results = [UNWRITTEN; 6];
    assert_eq!(raw::deficiency(input, &mut results), 0);
    let expected_results = match expected {
        Ok(deficiency) => [0, 0, 0, 0, deficiency as u64, 0],
        Err(refusal) => refused_results(refusal),
    };
    assert_eq!(results, expected_results, "{input:02x?}");

    tally.deficiencies.called(input, expected);
    expected.ok()
}

/// The input as it is, without one of its clauses, and with one more at some place.
fn compare_edited(tally: &mut Tally, random: &mut Random, input: &[u8]) {
    let Some(before) = compare_deficiency(tally, input) else {
        return;
    };
    let clauses = encoded_clauses(input).len();
    if clauses > 0 {
        let struck = &each_struck(input)[random.below(clauses)];
        let after = compare_deficiency(tally, struck).unwrap();
        tally.deficiencies.struck(input, before, after);
    }
    let more = clauses_to_add(random, input);
    let clause = &more[random.below(more.len())];
    let added = &each_added(input, clause)[random.below(clauses + 1)];
    match compare_deficiency(tally, added) {
        Some(after) => tally.deficiencies.added(input, before, after),
        None => assert_eq!(clauses, 96, "{input:02x?}"),
    }
}

/// The deficiency of this input, and of one in crowds with and without a clause.
pub fn compare_deficiencies(tally: &mut Tally, random: &mut Random, input: &[u8]) {
    compare_deficiency(tally, input);
    let crowded = some_crowded_input(random);
    compare_edited(tally, random, &crowded);
}

/// What must be seen of deficiency calls, and of how many once at least.
const DEFICIENCIES: [(&str, usize); 14] = [
    ("no clauses", 200),
    ("0, of a formula with clauses", 10),
    ("0, of as many clauses as variables", 50),
    ("above 0", 4),
    ("above 0, of an accepted formula", 20),
    ("above 0, of fewer clauses than variables", 20),
    ("above 20", 20),
    ("of 96 clauses", 200),
    ("by all sets of few clauses", 10),
    ("refused: a 97th clause", 1_000),
    ("struck: it stays", 50),
    ("struck: it falls by one", 10),
    ("added: it stays", 50),
    ("added: it rises by one", 10),
];

/// So few clauses that all their sets are tried.
const FEW: usize = 10;

/// What was seen of deficiency calls.
#[derive(Default)]
pub struct Deficiencies {
    outcomes: Outcomes,
    /// By the words of [`DEFICIENCIES`].
    seen: Seen,
}

impl Deficiencies {
    fn called(&mut self, input: &[u8], answer: Result<usize, Refusal>) {
        self.outcomes.count(answer);
        match answer {
            Ok(deficiency) => self.measured(input, deficiency),
            Err(refusal) => {
                let full = refusal.number == 8;
                self.seen.see("refused: a 97th clause", full);
            }
        }
    }

    fn measured(&mut self, input: &[u8], deficiency: usize) {
        let formula = reference::decode(input).unwrap();
        let named: Vec<u64> = formula.clauses().iter().map(Clause::named).collect();
        let (variables, clauses) = (formula.variables(), named.len());
        // It is 0 exactly if judge has a variable for each clause before it strips.
        let judged = norwythai::judge(input, &[]);
        let whole = judged.is_ok_and(|matching| matching.matched().iter().all(|byte| *byte <= 48));
        assert_eq!(deficiency == 0, whole, "{input:02x?}");
        if clauses <= FEW {
            let largest = reference::largest_excess(&named);
            assert_eq!(deficiency, largest, "{input:02x?}");
        }

        let seen = &mut self.seen;
        seen.see("no clauses", clauses == 0);
        let none = deficiency == 0 && clauses > 0;
        seen.see("0, of a formula with clauses", none);
        let as_many = none && clauses == variables;
        seen.see("0, of as many clauses as variables", as_many);
        let above = deficiency > 0;
        seen.see("above 0", above);
        let accepted = above && is_accepted(input);
        seen.see("above 0, of an accepted formula", accepted);
        let fewer = above && clauses < variables;
        seen.see("above 0, of fewer clauses than variables", fewer);
        seen.see("above 20", deficiency > 20);
        seen.see("of 96 clauses", clauses == 96);
        seen.see("by all sets of few clauses", clauses <= FEW);
    }

    fn struck(&mut self, input: &[u8], before: usize, after: usize) {
        assert!(after == before || after + 1 == before, "{input:02x?}");
        self.seen.see("struck: it stays", after == before);
        self.seen.see("struck: it falls by one", after < before);
    }

    fn added(&mut self, input: &[u8], before: usize, after: usize) {
        assert!(after == before || after == before + 1, "{input:02x?}");
        self.seen.see("added: it stays", after == before);
        self.seen.see("added: it rises by one", after > before);
    }

    pub fn calls(&self) -> usize {
        self.outcomes.calls()
    }

    /// Fails if something was seen too seldom.
    pub fn require_enough(&self) {
        let given = [2, 3, 4, 5, 6, 7, 8, 9];
        self.outcomes.require_enough("deficiency", &given);
        let calls = self.outcomes.calls();
        self.seen.require_enough(&DEFICIENCIES, calls);
    }
}

impl fmt::Display for Deficiencies {
    fn fmt(&self, f: &mut fmt::Formatter) -> fmt::Result {
        write!(f, "{}{}", self.outcomes, self.seen)
    }
}
