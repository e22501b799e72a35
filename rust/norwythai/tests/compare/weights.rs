//! Weigh: its calls, compared with the reference; the violators that judge marks; and what was seen of both.

use crate::acts::{refusal_of, refused_results, UNWRITTEN};
use crate::assumed::Assumed;
use crate::counts::{Outcomes, Seen};
use crate::is_accepted_under;
use crate::raw;
use crate::tally::Tally;
use norwythai_reference::{self as reference, Refusal, Size, Weight};
use norwythai_samples::{some_length, some_marks, Random};
use std::fmt;

/// Compares a call.
fn compare_weigh(tally: &mut Tally, input: &[u8], assumed: &Assumed, buffer: &[u8]) {
    let context = || format!("{input:02x?} {:?} {buffer:02x?}", assumed.bytes);
    let expected = reference::weigh(input, &assumed.reference, buffer);
    let found = norwythai::weigh(input, &assumed.list, buffer);
    assert_eq!(
        found.map(|weight| (weight.clauses, weight.variables)),
        expected
            .map(|weight| (weight.clauses, weight.variables))
            .map_err(refusal_of),
        "{}",
        context()
    );

    let mut results = [UNWRITTEN; 6];
    let returned = raw::weigh(input, &assumed.bytes, buffer, &mut results);
    assert_eq!(returned, 0);
    let expected_results = match expected {
        Ok(weight) => [0, 0, 0, 0, weight.clauses as u64, weight.variables as u64],
        Err(refusal) => refused_results(refusal),
    };
    assert_eq!(results, expected_results, "{}", context());

    tally.weights.called(input, assumed, buffer, expected);
}

/// Weighs buffers of any bytes and lengths.
pub fn compare_weights(tally: &mut Tally, random: &mut Random, input: &[u8], assumed: &Assumed) {
    for _ in 0..2 {
        let length = some_length(random, 96);
        let buffer = some_marks(random, length);
        compare_weigh(tally, input, assumed, &buffer);
    }
}

/// Weighs what judge has written into a buffer, if anything; at refusal 10 it must be a violator.
pub fn compare_judged(
    tally: &mut Tally,
    input: &[u8],
    assumed: &Assumed,
    judged: Result<Size, Refusal>,
    buffer: &[u8],
) {
    match judged {
        Ok(_) => compare_weigh(tally, input, assumed, buffer),
        Err(Refusal { number: 10, place }) => {
            compare_weigh(tally, input, assumed, buffer);
            require_violator(input, assumed, buffer, place);
            tally.weights.violator(input, assumed, buffer, place);
        }
        Err(_) => {}
    }
}

/// Requires so many clauses to be marked, which name one variable fewer and are not matched. Without any single one of them the
/// others are, by variables that are not assumed, and name as many of these as they are.
fn require_violator(input: &[u8], assumed: &Assumed, buffer: &[u8], place: usize) {
    let formula = reference::decode(input).unwrap();
    let masks = formula.assumed(&assumed.reference).unwrap();
    let require = |marks: &[u8], weight: (usize, usize), matched: bool| {
        let context = || format!("{input:02x?} {:?} {marks:02x?}", assumed.bytes);
        let found = norwythai::weigh(input, &assumed.list, marks).unwrap();
        assert_eq!((found.clauses, found.variables), weight, "{}", context());
        let sets: Vec<u64> = formula.marked(&masks, marks).collect();
        assert_eq!(reference::is_matched(&sets), matched, "{}", context());
    };
    require(buffer, (place, place - 1), false);
    for struck in 0..formula.clauses().len() {
        if buffer[struck] != 0 {
            let mut others = buffer.to_vec();
            others[struck] = 0;
            require(&others, (place - 1, place - 1), true);
        }
    }
}

/// What must be seen of weigh calls, and of how many once at least.
const WEIGHTS: [(&str, usize); 17] = [
    ("no clause is marked", 20),
    ("all clauses are marked", 20),
    ("a mark above 1", 10),
    ("a byte behind the clauses is not 0", 10),
    ("a buffer of more than 96 bytes", 20),
    ("fewer variables than clauses", 10),
    ("as many variables as clauses", 20),
    ("more variables than clauses", 10),
    ("a marked clause names an assumed variable", 10),
    ("a marked clause is satisfied", 10),
    ("of a formula that is not accepted", 10),
    ("refused: short, before what is wrong with the input", 50),
    ("violator: of one clause", 100),
    ("violator: of two", 100),
    ("violator: of three to ten", 100),
    ("violator: of more", 1_000),
    ("violator: a clause names an assumed variable", 200),
];

/// What was seen of weigh calls, and of violators.
#[derive(Default)]
pub struct Weights {
    outcomes: Outcomes,
    /// By the words of [`WEIGHTS`].
    seen: Seen,
}

impl Weights {
    fn called(
        &mut self,
        input: &[u8],
        assumed: &Assumed,
        buffer: &[u8],
        weighed: Result<Weight, Refusal>,
    ) {
        self.outcomes.count(weighed);
        let accepted = is_accepted_under(input, &assumed.reference);
        match weighed {
            Ok(weight) => {
                let refused = "of a formula that is not accepted";
                self.seen.see(refused, !accepted);
                self.weighed(input, assumed, buffer, weight);
            }
            Err(refusal) => self.seen.see(
                "refused: short, before what is wrong with the input",
                refusal.number == 1 && !accepted,
            ),
        }
    }

    fn weighed(&mut self, input: &[u8], assumed: &Assumed, buffer: &[u8], weight: Weight) {
        let seen = &mut self.seen;
        let formula = reference::decode(input).unwrap();
        let (marks, behind) = buffer.split_at(formula.clauses().len());
        let Weight { clauses, variables } = weight;
        seen.see("no clause is marked", clauses == 0 && !marks.is_empty());
        let all = clauses == marks.len() && clauses > 0;
        seen.see("all clauses are marked", all);
        let above = marks.iter().any(|mark| *mark > 1);
        seen.see("a mark above 1", above);
        let others = behind.iter().any(|byte| *byte > 0);
        seen.see("a byte behind the clauses is not 0", others);
        let long = buffer.len() > 96;
        seen.see("a buffer of more than 96 bytes", long);

        seen.see("fewer variables than clauses", variables < clauses);
        let same = variables == clauses && clauses > 0;
        seen.see("as many variables as clauses", same);
        seen.see("more variables than clauses", variables > clauses);

        let masks = formula.assumed(&assumed.reference).unwrap();
        let are_false = masks.variables & !masks.assignment;
        let satisfied = |clause: &reference::Clause| {
            clause.positive & masks.assignment | clause.negative & are_false != 0
        };
        let mut marked = formula.clauses().iter().zip(marks);
        let satisfied = marked.any(|(clause, mark)| *mark != 0 && satisfied(clause));
        seen.see("a marked clause is satisfied", satisfied);
        let names = names_assumed(input, assumed, marks);
        seen.see("a marked clause names an assumed variable", names);
    }

    fn violator(&mut self, input: &[u8], assumed: &Assumed, buffer: &[u8], place: usize) {
        let seen = &mut self.seen;
        seen.see("violator: of one clause", place == 1);
        seen.see("violator: of two", place == 2);
        seen.see("violator: of three to ten", (3..=10).contains(&place));
        seen.see("violator: of more", place > 10);
        let names = names_assumed(input, assumed, buffer);
        seen.see("violator: a clause names an assumed variable", names);
    }

    pub fn calls(&self) -> usize {
        self.outcomes.calls()
    }

    /// Fails if something was seen too seldom.
    pub fn require_enough(&self) {
        let given = [1, 2, 3, 4, 5, 6, 7, 8, 9, 16];
        self.outcomes.require_enough("weigh", &given);
        self.seen.require_enough(&WEIGHTS, self.outcomes.calls());
    }
}

/// Whether a marked clause names an assumed variable.
fn names_assumed(input: &[u8], assumed: &Assumed, marks: &[u8]) -> bool {
    let formula = reference::decode(input).unwrap();
    let masks = formula.assumed(&assumed.reference).unwrap();
    let mut whole = formula.marked(&reference::Assumed::default(), marks);
    whole.any(|set| set & masks.variables != 0)
}

impl fmt::Display for Weights {
    fn fmt(&self, f: &mut fmt::Formatter) -> fmt::Result {
        write!(f, "{}{}", self.outcomes, self.seen)
    }
}
