//! Variables that no clause names: the walk does not assign them, they are false in listed models unless they are assumed to be true, and
//! a dash stands in their columns unless they are assumed.

use norwythai::{
    Answer, Assignment, Assumption, Checkpoint, Formula, Refusal, LINE_SIZE, PAGE_SIZE,
};
use norwythai_samples::encode;

/// (1, not 3), of four variables: the example, as DIMACS text and encoded.
const PARTLY_TEXT: &[u8] = include_bytes!("../../../examples/unnamed.cnf");
const PARTLY: &[u8] = include_bytes!("../../../examples/unnamed.bin");

/// (1, 2), of three variables
const FIRST_TWO: &[u8] = &[1, 3, 2, 1, 2, 2, 4, 5];

/// Two variables, and no clause
const NO_CLAUSE: &[u8] = &[1, 2, 5];

/// More models or lines are not asked for: a library that assigned unnamed variables would have too many of them.
const MOST: usize = 20;

/// A checkpoint by its mode, length and the first bytes of its trail.
fn checkpoint(first: &[u8]) -> Checkpoint {
    let mut bytes = [0; Checkpoint::LENGTH];
    bytes[..first.len()].copy_from_slice(first);
    Checkpoint::from_bytes(bytes)
}

/// The columns of each model and its steps, by walk calls of an ample budget, and `end` with its own.
fn walked(input: &[u8], assumptions: &[Assumption]) -> Vec<(String, u32)> {
    let formula = Formula::from(input);
    let mut checkpoint = Checkpoint::start();
    let mut lines = Vec::new();
    while lines.len() < MOST {
        let walked = formula.walk(assumptions, &mut checkpoint, 96).unwrap();
        match walked.answer {
            Answer::Model(model) => {
                let columns = model.columns(&formula, assumptions);
                lines.push((columns.to_string(), walked.steps));
            }
            Answer::Ended => {
                lines.push(("end".to_string(), walked.steps));
                break;
            }
            Answer::Spent => panic!("an ample budget is spent"),
        }
    }
    lines
}

/// The columns and the steps on the lines of the first page.
fn paged(input: &[u8], assumptions: &[Assumption]) -> Vec<(String, u32)> {
    let mut text = [0; PAGE_SIZE];
    let paged = Formula::from(input).page(assumptions, &mut Checkpoint::start(), 1, &mut text);
    text.chunks(LINE_SIZE)
        .take(paged.unwrap().lines)
        .map(|line| {
            let line = std::str::from_utf8(line).unwrap();
            let columns = line[7..55].trim_end().to_string();
            (columns, line[56..59].trim().parse().unwrap())
        })
        .collect()
}

/// The input, the assumptions, and what the walk calls give: columns and steps.
type Case<'a> = (&'a [u8], &'a [Assumption], &'a [(&'a str, u32)]);

#[test]
fn listed_models_and_pages_have_dashes() {
    assert_eq!(Formula::from_dimacs(PARTLY_TEXT), Ok(PARTLY.into()));
    let on = Assumption::positive;
    let off = Assumption::negative;
    let last = encode(48, &[vec![48]]);
    let dashes = "-".repeat(47);
    let only_last = format!("{dashes}1");
    let cases: [Case; 9] = [
        (NO_CLAUSE, &[], &[("--", 0), ("end", 0)]),
        (NO_CLAUSE, &[on(2)], &[("-1", 0), ("end", 0)]),
        (NO_CLAUSE, &[off(1), on(2)], &[("01", 0), ("end", 0)]),
        (
            PARTLY,
            &[],
            &[("0-0-", 2), ("1-0-", 2), ("1-1-", 4), ("end", 2)],
        ),
        (
            PARTLY,
            &[on(4)],
            &[("0-01", 2), ("1-01", 2), ("1-11", 4), ("end", 2)],
        ),
        (PARTLY, &[on(3), off(2)], &[("101-", 1), ("end", 1)]),
        (PARTLY, &[on(3), on(1)], &[("1-1-", 0), ("end", 0)]),
        // The satisfied clause names variable 2.
        (FIRST_TWO, &[on(1)], &[("10-", 1), ("11-", 2), ("end", 1)]),
        (&last, &[], &[(&only_last, 1), ("end", 1)]),
    ];
    for (input, assumptions, expected) in cases {
        let mut expected: Vec<(String, u32)> = expected
            .iter()
            .map(|(columns, steps)| (columns.to_string(), *steps))
            .collect();
        assert_eq!(walked(input, assumptions), expected, "{assumptions:?}");
        expected.pop();
        assert_eq!(paged(input, assumptions), expected, "{assumptions:?}");
    }
}

#[test]
fn they_are_false_in_what_is_listed() {
    let bits = |input: &[u8], assumptions: &[Assumption]| -> Vec<u64> {
        let formula = Formula::from(input);
        let models = formula.models_under(assumptions).take(MOST);
        models.map(|model| model.unwrap().bits()).collect()
    };
    assert_eq!(bits(NO_CLAUSE, &[]), [0]);
    assert_eq!(bits(NO_CLAUSE, &[Assumption::positive(2)]), [0b10]);
    assert_eq!(bits(PARTLY, &[]), [0b0000, 0b0001, 0b0101]);
    let first = [Assumption::positive(1)];
    assert_eq!(bits(FIRST_TWO, &first), [0b001, 0b011]);

    // Check says yes to the others, too.
    let formula = Formula::from(PARTLY);
    for unlisted in [0b1000, 0b0010, 0b1011, 0b1111] {
        assert_eq!(formula.check(Assignment::from_bits(unlisted)), Ok(true));
        assert!(!bits(PARTLY, &[]).contains(&unlisted));
    }
}

#[test]
fn a_trail_with_one_is_foreign() {
    // (1), of two variables. With variable 2 assigned behind it, as walks once did.
    let only_first = encode(2, &[vec![1]]);
    let once: [(&[u8], &[u8]); 8] = [
        (&only_first, &[1, 2, 129, 2]),
        (&only_first, &[1, 2, 129, 130]),
        (&only_first, &[2, 1, 129]),
        (&only_first, &[3, 1, 129]),
        (&only_first, &[1, 1, 2]),
        (&only_first, &[1, 2, 2, 129]),
        (NO_CLAUSE, &[1, 1, 1]),
        (NO_CLAUSE, &[2, 0]),
    ];
    for (input, bytes) in once {
        let formula = Formula::from(input);
        let given = checkpoint(bytes);
        for budget in [0, 1, 96] {
            let mut checkpoint = given;
            let walked = formula.walk(&[], &mut checkpoint, budget);
            assert_eq!(walked, Err(Refusal::ForeignCheckpoint), "{bytes:?}");
            assert_eq!(checkpoint, given);
        }
        let refused = formula.models_from(given).next();
        assert_eq!(refused, Some(Err(Refusal::ForeignCheckpoint)), "{bytes:?}");
    }
}

#[test]
fn mode_1_at_length_0_is_behind_a_model_without_steps() {
    let given = checkpoint(&[1, 0]);
    let ended = checkpoint(&[4, 0]);
    let on = Assumption::positive;
    let nothing: [(&[u8], &[Assumption]); 4] = [
        (NO_CLAUSE, &[]),
        (NO_CLAUSE, &[on(2)]),
        (PARTLY, &[on(3), on(1)]),
        (FIRST_TWO, &[on(2), on(1)]),
    ];
    let something: [(&[u8], &[Assumption]); 4] = [
        (PARTLY, &[]),
        (PARTLY, &[on(2), on(4)]),
        (FIRST_TWO, &[on(1)]),
        (FIRST_TWO, &[on(2), on(3)]),
    ];
    for budget in [0, 1, 96, u32::MAX] {
        for (input, assumptions) in nothing {
            let formula = Formula::from(input);
            let mut checkpoint = Checkpoint::start();
            let walked = formula.walk(assumptions, &mut checkpoint, budget).unwrap();
            assert!(matches!(walked.answer, Answer::Model(_)));
            assert_eq!((walked.steps, walked.expansions), (0, 0));
            assert_eq!(checkpoint, given);
            let walked = formula.walk(assumptions, &mut checkpoint, budget).unwrap();
            assert_eq!((walked.answer, walked.steps), (Answer::Ended, 0));
            assert_eq!(checkpoint, ended);
        }
        for (input, assumptions) in something {
            let walked = Formula::from(input).walk(assumptions, &mut given.clone(), budget);
            assert_eq!(walked, Err(Refusal::ForeignCheckpoint), "{assumptions:?}");
        }
    }
}

#[test]
fn columns_are_those_of_the_formula() {
    let all = Assignment::from_bits(u64::MAX);
    let columns = |input: &[u8], assumptions: &[Assumption]| {
        let formula = Formula::from(input);
        all.columns(&formula, assumptions).to_string()
    };
    // A literal that comes again, and an empty clause.
    assert_eq!(columns(&[1, 5, 4, 3, 2, 3, 2, 2, 4, 4, 5], &[]), "-1-1-");
    assert_eq!(columns(&encode(48, &[(1..=48).collect()]), &[]).len(), 48);
    // Variables that the formula doesn't have.
    let bad = [0, 4, 49, 64, 65, 255].map(Assumption::positive);
    assert_eq!(columns(FIRST_TWO, &bad), "11-");
}

#[test]
fn columns_of_bytes_that_are_no_formula_do_no_harm() {
    let inputs: [&[u8]; 9] = [
        &[],
        &[1],
        &[1, 0],
        &[1, 255],
        &[1, 3, 2],
        &[1, 3, 2, 0, 3, 255, 2, 64, 4, 5],
        &[1, 49, 9, 9, 2, 2, 2],
        &[2; 100],
        &[255; 100],
    ];
    for input in inputs {
        let formula = Formula::from(input);
        let columns = Assignment::default().columns(&formula, &[]).to_string();
        let variables = input.get(1).copied().unwrap_or(0);
        assert_eq!(columns.len(), usize::from(variables), "{input:?}");
    }
}
