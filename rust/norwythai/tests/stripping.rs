//! Formulas with more clauses than variables, of which stripping drops some.

mod common;

use common::walked;
use norwythai::{
    check, judge, judge_into, list, walk, Answer, Assignment, Assumption, Checkpoint, Formula,
    JudgeError, Models, Refusal, Violator, DROPPED,
};

/// (1) (1)
const TWICE: &[u8] = &[1, 1, 2, 1, 4, 2, 1, 4, 5];

/// (1) (1) (1, 2) (not 2)
const ONE_AFTER_THE_OTHER: &[u8] = &[1, 2, 2, 1, 4, 2, 1, 4, 2, 1, 2, 2, 4, 3, 2, 4, 5];

/// (1) (1) (2, 3) (not 2, not 3)
const IN_PART: &[u8] = &[1, 3, 2, 1, 4, 2, 1, 4, 2, 2, 2, 3, 4, 3, 2, 3, 3, 4, 5];

/// (2) (2) (1) (not 1)
const LEFT_UNMATCHED: &[u8] = &[1, 3, 2, 2, 4, 2, 2, 4, 2, 1, 4, 3, 1, 4, 5];

/// The example of README.md, in which stripping drops the first five of seven clauses, as DIMACS text and encoded.
const ATHLETICS_TEXT: &[u8] = include_bytes!("../../../examples/athletics.cnf");
const ATHLETICS: &[u8] = include_bytes!("../../../examples/athletics.bin");

/// 96 times (1)
fn most_clauses() -> Vec<u8> {
    [&[1, 1][..], &[2, 1, 4].repeat(96), &[5]].concat()
}

#[test]
fn judge_says_what_is_dropped() {
    let cases: [(&[u8], &[Assumption], &[u8]); 5] = [
        (TWICE, &[], &[129, 129]),
        (ONE_AFTER_THE_OTHER, &[], &[129, 129, 129, 130]),
        (IN_PART, &[], &[129, 129, 2, 3]),
        (
            IN_PART,
            &[Assumption::positive(2)],
            &[129, 129, 0, DROPPED + 3],
        ),
        (&most_clauses(), &[], &[129; 96]),
    ];
    for (input, assumptions, row) in cases {
        let matching = judge(input, assumptions).unwrap();
        assert_eq!(matching.variables(), input[1]);
        assert_eq!(matching.clauses(), row.len());
        assert_eq!(matching.matched(), row);
    }
}

#[test]
fn marks_are_those_of_the_left_clauses() {
    let mut buffer = [7; 96];
    let refusal = Refusal::Unmatched { clauses: 2 };
    assert_eq!(judge_into(LEFT_UNMATCHED, &[], &mut buffer), Err(refusal));
    assert_eq!(buffer[..5], [0, 0, 1, 1, 7]);
    let error = judge(LEFT_UNMATCHED, &[]).unwrap_err();
    let violator = Violator {
        clauses: vec![2, 3],
        variables: 1,
    };
    assert_eq!(error, JudgeError::Unmatched { violator });
    assert_eq!(
        error.to_string(),
        "the rules that stripping leaves can't be paired with switches: 2 of them name only 1 altogether, fixed ones not counted (rules 3, 4)"
    );

    // The other acts refuse it likewise, but check does not.
    let mut checkpoint = Checkpoint::start();
    assert_eq!(walk(LEFT_UNMATCHED, &[], &mut checkpoint, 96), Err(refusal));
    let mut models = [7; 2];
    let listed = list(LEFT_UNMATCHED, &[], &mut checkpoint, &mut models);
    assert_eq!(listed, Err(refusal));
    assert_eq!((checkpoint, models), (Checkpoint::start(), [7; 2]));
    assert!(Models::new(LEFT_UNMATCHED).eq([Err(refusal)]));
    assert_eq!(check(LEFT_UNMATCHED, Assignment::from_bits(2)), Ok(false));
}

#[test]
fn a_stripped_formula_is_walked_and_listed() {
    let model = |bits| Answer::Model(Assignment::from_bits(bits));
    let one_model = [(model(1), 1, 0), (Answer::Ended, 1, 0)];
    assert_eq!(walked(TWICE, &[]), one_model);
    assert_eq!(walked(&most_clauses(), &[]), one_model);
    assert_eq!(
        walked(ONE_AFTER_THE_OTHER, &[]),
        [(model(0b01), 2, 0), (Answer::Ended, 2, 0)]
    );
    assert_eq!(
        walked(IN_PART, &[]),
        [
            (model(0b101), 3, 2),
            (model(0b011), 6, 0),
            (Answer::Ended, 3, 0)
        ]
    );
    assert_eq!(
        walked(IN_PART, &[Assumption::positive(2)]),
        [(model(0b011), 2, 0), (Answer::Ended, 2, 0)]
    );

    let mut models = [7; 3];
    let mut checkpoint = Checkpoint::start();
    let listed = list(IN_PART, &[], &mut checkpoint, &mut models).unwrap();
    assert_eq!((listed.answer, listed.written), (Answer::Ended, 2));
    assert_eq!(models, [0b101, 0b011, 7]);

    let formula = Formula::from(IN_PART);
    let mut all = formula.models();
    assert_eq!(all.next(), Some(Ok(Assignment::from_bits(0b101))));
    let rest = formula.models_from(all.checkpoint());
    assert!(rest.eq([Ok(Assignment::from_bits(0b011))]));
}

/// All models under the assumptions, as they are printed, in the order of the walk.
fn lines(formula: &Formula, assumptions: &[Assumption]) -> Vec<String> {
    let models = formula.models_under(assumptions).map(Result::unwrap);
    let columns = |model: Assignment| model.columns(formula, assumptions).to_string();
    models.map(columns).collect()
}

#[test]
fn the_athletics_example_is_what_its_readme_says() {
    let formula = Formula::from_dimacs(ATHLETICS_TEXT).unwrap();
    assert_eq!(formula.as_bytes(), ATHLETICS);
    let judged = formula.judge(&[]).unwrap();
    assert_eq!((judged.variables(), judged.clauses()), (5, 7));
    assert_eq!(judged.matched(), [130, 130, 130, 129, 129, 3, 4]);
    assert_eq!(
        lines(&formula, &[]),
        ["01010", "11010", "11011", "11100", "11101"]
    );
    let counts = walked(ATHLETICS, &[]).into_iter();
    let counts: Vec<(u32, u64)> = counts
        .map(|(_, steps, expansions)| (steps, expansions))
        .collect();
    assert_eq!(counts, [(5, 2), (2, 0), (8, 0), (10, 0), (8, 0), (5, 0)]);

    let third = [Assumption::positive(3)];
    let judged = formula.judge(&third).unwrap();
    assert_eq!(judged.matched(), [130, 130, 130, 129, 129, 0, 132]);
    assert_eq!(lines(&formula, &third), ["11100", "11101"]);

    let not_first = [Assumption::negative(1)];
    let mut buffer = [7; 96];
    let refusal = judge_into(ATHLETICS, &not_first, &mut buffer).unwrap_err();
    assert_eq!((refusal.number(), refusal.place()), (10, 3));
    assert_eq!(buffer[..8], [0, 0, 0, 1, 0, 1, 1, 7]);
    assert!(formula.models_under(&not_first).eq([Err(refusal)]));
}
