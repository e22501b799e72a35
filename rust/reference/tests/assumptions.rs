//! Judge, walk and list under assumptions.

mod common;

use common::{assuming, checkpoint, is_accepted};
use norwythai_reference::bits::{bit, numbers};
use norwythai_reference::{
    check, decode, judge, list, start_checkpoint, walk, Answer, Assumption, Checkpoint, Formula,
    Listed, Refusal, Size, Walker, LIST_BUDGET,
};
use norwythai_samples::{
    encode, listed_models, named_variables, some_assumptions, some_input, Random,
};

/// The specification's example, S12.3: clauses (1, 2) and (not 1, not 2).
const EXAMPLE: &[u8] = &[1, 2, 2, 1, 2, 2, 4, 3, 1, 3, 2, 4, 5];

fn refusal(number: u8, place: usize) -> Refusal {
    Refusal { number, place }
}

fn some_list(random: &mut Random, input: &[u8]) -> Vec<Assumption> {
    let list = some_assumptions(random, input);
    list.into_iter().map(Into::into).collect()
}

#[test]
fn bad_assumptions_have_their_index() {
    // By literals of the list; the number of variables is 2.
    let cases: [(&[i8], usize); 9] = [
        (&[0], 0),
        (&[3], 0),
        (&[-49], 0),
        (&[1, 1], 1),
        (&[1, -1], 1),
        (&[2, -1, 0], 2),
        (&[2, -1, -2], 2),
        (&[-2, 3, 0, 0], 1),
        (&[1; 127], 1),
    ];
    for (literals, place) in cases {
        let list = assuming(literals);
        let expected = refusal(16, place);
        let mut buffer = [170; 97];
        assert_eq!(
            judge(EXAMPLE, &list, &mut buffer),
            Err(expected),
            "{literals:?}"
        );
        assert_eq!(buffer, [170; 97]);
        // It is judged before the checkpoint, and before the matching.
        assert_eq!(walk(EXAMPLE, &list, &[9; 50], 5), Err(expected));
        assert_eq!(
            list_of(EXAMPLE, &list, &[9; 50], 3),
            (Err(expected), vec![7; 3])
        );
        let unmatched = encode(2, &[vec![], vec![1]]);
        assert_eq!(judge(&unmatched, &list, &mut buffer), Err(expected));
        assert_eq!(buffer, [170; 97]);
        // It is judged after the buffer's length, and after reading.
        assert_eq!(judge(EXAMPLE, &list, &mut [0; 95]), Err(refusal(1, 0)));
        assert_eq!(judge(&[1, 2], &list, &mut [0; 96]), Err(refusal(2, 2)));
        assert_eq!(
            walk(&[1, 2, 5, 5], &list, &[9; 50], 5),
            Err(refusal(9, 3)),
            "{literals:?}"
        );
    }
    let above = [Assumption::from((255, true))];
    assert_eq!(
        walk(&[1, 48, 5], &above, &start_checkpoint(), 1),
        Err(refusal(16, 0))
    );
}

/// A list call with room for so many models, and what is in the slice.
fn list_of(
    input: &[u8],
    assumptions: &[Assumption],
    from: &Checkpoint,
    room: usize,
) -> (Result<Listed, Refusal>, Vec<u64>) {
    let mut models = vec![7; room];
    let listed = list(input, assumptions, from, &mut models);
    (listed, models)
}

#[test]
fn what_remains_is_matched() {
    let input = encode(3, &[vec![1, 2], vec![-1, 3], vec![-2, -3], vec![1, 2, 3]]);
    // More clauses than variables, and nothing to strip: only assumptions make it matched.
    let size = Size {
        variables: 3,
        clauses: 4,
    };
    let unmatched = |clauses| Err(refusal(10, clauses));
    let cases = [
        (&[][..], unmatched(4), [1, 1, 1, 1]),
        (&[1], Ok(size), [0, 3, 2, 0]),
        (&[2, -1], Ok(size), [0, 0, 3, 0]),
        // (2) (not 2, not 3) (2, 3)
        (&[-1], unmatched(3), [1, 0, 1, 1]),
        // The second clause is empty.
        (&[-3, 1], unmatched(1), [0, 1, 0, 0]),
        // (1) (not 1) (1), of which the second can't be matched.
        (&[-3, -2], unmatched(2), [1, 1, 0, 0]),
    ];
    for (literals, expected, row) in cases {
        let mut buffer = [170; 96];
        let found = judge(&input, &assuming(literals), &mut buffer);
        assert_eq!(found, expected, "{literals:?}");
        assert_eq!(buffer[..4], row, "{literals:?}");
        assert!(buffer[4..].iter().all(|byte| *byte == 170));
        let walked = walk(&input, &assuming(literals), &start_checkpoint(), 0);
        assert_eq!(walked.err(), expected.err(), "{literals:?}");
    }
}

#[test]
fn an_assumption_satisfies_any_number_of_clauses() {
    // 96 clauses over 48 variables, all but the last true with variable 1. No variable is pure.
    let sign = |i| if i < 47 { 1 } else { -1 };
    let mut clauses: Vec<Vec<i8>> = (0..95).map(|i| vec![1, sign(i) * (i % 47 + 2)]).collect();
    clauses.push(vec![-1, 2]);
    let input = encode(48, &clauses);
    let mut buffer = [170; 96];
    assert_eq!(judge(&input, &[], &mut buffer), Err(refusal(10, 4)));
    let first = assuming(&[1]);
    assert!(judge(&input, &first, &mut buffer).is_ok());
    assert_eq!(buffer[..95], [0; 95]);
    assert_eq!(buffer[95], 2);
    let walked = walk(&input, &first, &start_checkpoint(), LIST_BUDGET).unwrap();
    assert_eq!(walked.progress.answer, Answer::Model(3));
    assert_eq!((walked.progress.steps, walked.progress.expansions), (47, 0));
    // Behind variable 2, which the last clause names, the lowest that is not assumed.
    assert_eq!(walked.checkpoint[..4], [1, 47, 130, 3]);
}

#[test]
fn assumed_variables_are_in_no_trail() {
    let first = assuming(&[-1]);
    // What remains is (2).
    let walked = walk(EXAMPLE, &first, &start_checkpoint(), LIST_BUDGET).unwrap();
    assert_eq!(walked.progress.answer, Answer::Model(2));
    assert_eq!(walked.checkpoint, checkpoint(&[1, 1, 130]));
    let walked = walk(EXAMPLE, &first, &walked.checkpoint, LIST_BUDGET).unwrap();
    assert_eq!(walked.progress.answer, Answer::Ended);
    assert_eq!(walked.progress.steps, 1);
    let foreign: [&[u8]; 6] = [
        &[1, 1, 1],
        &[1, 2, 1, 130],
        &[1, 2, 130, 1],
        &[1, 1, 2],
        &[2, 0],
        // Something is to be assigned.
        &[1, 0],
    ];
    for bytes in foreign {
        let walked = walk(EXAMPLE, &first, &checkpoint(bytes), 5);
        assert_eq!(walked, Err(refusal(11, 0)), "{bytes:?}");
    }
    // One that was made without the assumption is taken where it fits.
    let fits = checkpoint(&[1, 1, 130]);
    let inputs = [encode(1, &[vec![-1]]), encode(3, &[vec![-1, 2, 3]])];
    let models = inputs
        .map(|input| walk(&input, &first, &fits, LIST_BUDGET).map(|walked| walked.progress.answer));
    assert_eq!(models, [Err(refusal(11, 0)), Ok(Answer::Model(2))]);
}

#[test]
fn the_order_of_the_list_plays_no_part() {
    let input = encode(4, &[vec![1, 2, 3], vec![-1, -2, 4], vec![3, -4]]);
    let [one, other] = [[1, -3], [-3, 1]].map(|literals| assuming(&literals));
    let mut from = start_checkpoint();
    for budget in [1, 2, 96, 0, 96, 96] {
        let walked = walk(&input, &one, &from, budget);
        assert_eq!(walked, walk(&input, &other, &from, budget));
        from = walked.unwrap().checkpoint;
    }
}

#[test]
fn nothing_is_left_to_assign() {
    let inputs: [(&[u8], &[i8], u64); 8] = [
        (EXAMPLE, &[1, -2], 1),
        (EXAMPLE, &[2, -1], 2),
        (&[1, 1, 5], &[-1], 0),
        (&[1, 2, 5], &[1, 2], 3),
        // No clause names the variables that are not assumed.
        (&[1, 2, 5], &[], 0),
        (&[1, 2, 5], &[2], 2),
        (&encode(3, &[vec![-2], vec![-2, 3]]), &[3, -2], 4),
        (&encode(3, &[vec![2]]), &[2, 1], 3),
    ];
    let [start, given, ended] = [&[0, 0], &[1, 0], &[4, 0]].map(|bytes| checkpoint(bytes));
    for (input, literals, model) in inputs {
        let assumed = assuming(literals);
        for budget in [0, 1, 95, 96, u32::MAX] {
            for (from, answer, next) in [
                (start, Answer::Model(model), given),
                (given, Answer::Ended, ended),
                (ended, Answer::Ended, ended),
            ] {
                let walked = walk(input, &assumed, &from, budget).unwrap();
                assert_eq!((walked.progress.answer, walked.checkpoint), (answer, next));
                assert_eq!((walked.progress.steps, walked.progress.expansions), (0, 0));
            }
            let foreign: [&[u8]; 6] = [&[2, 0], &[3, 0], &[5, 0], &[1, 1, 1], &[1, 1], &[0, 0, 1]];
            for bytes in foreign {
                let walked = walk(input, &assumed, &checkpoint(bytes), budget);
                assert_eq!(walked, Err(refusal(11, 0)), "{bytes:?}");
            }
        }
        // A list has the model only if there is room for it.
        let lists = [
            (start, 0, (Answer::Spent, 0, start)),
            (start, 1, (Answer::Model(model), 1, given)),
            (start, 2, (Answer::Ended, 1, ended)),
            (given, 0, (Answer::Ended, 0, ended)),
            (given, 2, (Answer::Ended, 0, ended)),
            (ended, 0, (Answer::Ended, 0, ended)),
            (ended, 2, (Answer::Ended, 0, ended)),
        ];
        for (from, room, (answer, written, checkpoint)) in lists {
            let (found, models) = list_of(input, &assumed, &from, room);
            let expected = Listed {
                answer,
                written,
                checkpoint,
            };
            assert_eq!(found, Ok(expected));
            let mut expected_models = vec![7; room];
            expected_models[..written].fill(model);
            assert_eq!(models, expected_models);
        }
    }
    // No model has these values.
    let walked = walk(EXAMPLE, &assuming(&[1, 2]), &start, 0);
    assert_eq!(walked, Err(refusal(10, 1)));
}

#[test]
fn list_gives_the_models_that_keep_the_assumptions() {
    let mut random = Random::new(1);
    let (mut walks, mut models) = (0, 0);
    while walks < 1_000 {
        let input = some_input(&mut random, is_accepted);
        let assumptions = some_list(&mut random, &input);
        let Ok(formula) = decode(&input) else {
            continue;
        };
        if formula.variables() > 10 || judge(&input, &assumptions, &mut [0; 96]).is_err() {
            continue;
        }
        let pairs: Vec<(u8, bool)> = assumptions.iter().map(|a| (a.variable, a.value)).collect();
        let is_model = |assignment| check(&input, assignment) == Ok(true);
        let all = listed_models(&input, &pairs, is_model);
        let (listed, mut found) = list_of(&input, &assumptions, &start_checkpoint(), 1 << 11);
        let listed = listed.unwrap();
        assert_eq!(listed.answer, Answer::Ended);
        found.truncate(listed.written);
        found.sort();
        assert_eq!(found, all, "{input:?} {assumptions:?}");
        walks += 1;
        models += all.len();
    }
    assert!(models > 5_000, "{models}");
}

/// What remains of a formula, of which some variable is assumed, and its variables: those to assign, renumbered in their order.
struct Remaining {
    input: Vec<u8>,
    /// What is assumed of it: nothing, unless no clause that remains names some variable to assign. Then there is a clause more, that
    /// names them all, and one variable more, that satisfies it.
    assumptions: Vec<Assumption>,
    variables: Vec<u8>,
}

fn renumbered(input: &[u8], formula: &Formula, assumptions: &[Assumption]) -> Remaining {
    let value_of = |variable: u8| {
        let assumption = assumptions.iter().find(|a| a.variable == variable);
        assumption.map(|a| a.value)
    };
    let named = named_variables(input);
    let left: Vec<u8> = (1..=formula.variables() as u8)
        .filter(|v| named >> (v - 1) & 1 == 1 && value_of(*v).is_none())
        .collect();
    let mut clauses = Vec::new();
    for clause in formula.clauses() {
        let positive = numbers(clause.positive).map(|v| (v as u8 + 1, true));
        let negative = numbers(clause.negative).map(|v| (v as u8 + 1, false));
        let literals: Vec<(u8, bool)> = positive.chain(negative).collect();
        if !literals
            .iter()
            .any(|(v, value)| value_of(*v) == Some(*value))
        {
            let number = |(v, value): &(u8, bool)| {
                let number = left.iter().position(|other| other == v)? as i8 + 1;
                Some(if *value { number } else { -number })
            };
            clauses.push(literals.iter().filter_map(number).collect());
        }
    }
    let all: Vec<i8> = (1..=left.len() as i8).collect();
    let remain_named = |v: &i8| {
        let names = |clause: &Vec<i8>| clause.contains(v) || clause.contains(&-v);
        clauses.iter().any(names)
    };
    if all.iter().all(remain_named) {
        return Remaining {
            input: encode(left.len(), &clauses),
            assumptions: Vec::new(),
            variables: left,
        };
    }
    let more = left.len() as i8 + 1;
    clauses.push(all.into_iter().chain([more]).collect());
    Remaining {
        input: encode(left.len() + 1, &clauses),
        assumptions: assuming(&[more]),
        variables: left,
    }
}

#[test]
fn a_walk_under_assumptions_is_that_of_what_remains() {
    let mut random = Random::new(2);
    let (mut walks, mut refused, mut with_trials, mut with_more) = (0, 0, 0, 0);
    while walks < 1_500 {
        let input = some_input(&mut random, is_accepted);
        let assumptions = some_list(&mut random, &input);
        let Ok(mut formula) = decode(&input) else {
            continue;
        };
        let remaining = renumbered(&input, &formula, &assumptions);
        let left = &remaining.variables;
        if assumptions.is_empty() || left.is_empty() {
            continue;
        }
        let Ok(assumed) = formula.assume(&assumptions) else {
            continue;
        };
        // A 97th clause can't be read.
        let Ok(mut smaller) = decode(&remaining.input) else {
            continue;
        };
        let smaller_assumed = smaller.assume(&remaining.assumptions).unwrap();
        let smaller_walker = Walker::start(&smaller, smaller_assumed);
        let mut walker = match Walker::start(&formula, assumed) {
            Ok(walker) => walker,
            Err(refusal) => {
                assert_eq!(smaller_walker.err(), Some(refusal));
                refused += 1;
                continue;
            }
        };
        let mut smaller_walker = smaller_walker.unwrap();
        for _ in 0..20 {
            let budget = random.pick(&[1, 5, 30, LIST_BUDGET]);
            let (found, expected) = (walker.advance(budget), smaller_walker.advance(budget));
            assert_eq!(found.steps, expected.steps);
            assert_eq!(found.expansions, expected.expansions);
            let answer = match expected.answer {
                Answer::Model(model) => {
                    let model = model & !smaller_assumed.variables;
                    let are_true = numbers(model).map(|v| bit(usize::from(left[v]) - 1));
                    Answer::Model(assumed.assignment | are_true.sum::<u64>())
                }
                answer => answer,
            };
            assert_eq!(found.answer, answer);
            let mut bytes = smaller_walker.checkpoint();
            let length = usize::from(bytes[1]);
            for byte in &mut bytes[2..2 + length] {
                *byte = *byte & 128 | left[usize::from(*byte & 127) - 1];
            }
            assert_eq!(walker.checkpoint(), bytes);
            with_trials += usize::from(found.expansions > 0);
        }
        walks += 1;
        with_more += usize::from(smaller_assumed.variables != 0);
    }
    println!("{refused} refused, {with_trials} with trials, {with_more} with a clause more");
    assert!(refused > 100 && with_trials > 200);
    assert!(with_more > 200 && walks - with_more > 200);
}
