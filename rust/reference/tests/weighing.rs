//! How much marks weigh: those of judge, and any others.

use norwythai_reference::bits::bit;
use norwythai_reference::{decode, is_matched, judge, weigh, Assumption, Refusal, Weight};
use norwythai_samples::{encode, some_assumptions, some_input, some_marks, Random};

/// Three clauses over three variables: (1, 2) (not 2, 3) (2).
const THREE: &[u8] = &[1, 3, 2, 1, 2, 2, 4, 3, 2, 2, 3, 4, 2, 2, 4, 5];

fn is_accepted(input: &[u8]) -> bool {
    judge(input, &[], &mut [0; 96]).is_ok()
}

fn some_list(random: &mut Random, input: &[u8]) -> Vec<Assumption> {
    let list = some_assumptions(random, input);
    list.into_iter().map(Into::into).collect()
}

fn weight(clauses: usize, variables: usize) -> Result<Weight, Refusal> {
    Ok(Weight { clauses, variables })
}

/// A buffer that begins with these marks, and goes on with others, which mark nothing.
fn buffer_of(marks: &[u8]) -> [u8; 96] {
    let mut buffer = [255; 96];
    buffer[..marks.len()].copy_from_slice(marks);
    buffer
}

/// The number of variables, the clauses, the assumptions, and judge's marks.
type Unmatched<'a> = (usize, &'a [&'a [i8]], &'a [Assumption], &'a [u8]);

#[test]
fn violators_name_one_variable_fewer() {
    let first = [Assumption::from((1, false))];
    let cases: [Unmatched; 6] = [
        (1, &[&[]], &[], &[1]),
        (1, &[&[1], &[-1]], &[], &[1, 1]),
        (3, &[&[2], &[2], &[1], &[-1]], &[], &[0, 0, 1, 1]),
        // The assumption leaves a clause empty.
        (2, &[&[1]], &first, &[1]),
        (
            3,
            &[&[1, 2], &[-2, 3], &[2, -3], &[-2, -3], &[3]],
            &first,
            &[1, 1, 1, 0, 0],
        ),
        // The assumption satisfies the third clause.
        (
            3,
            &[&[1, 2], &[-2], &[-1, 3], &[2, -3]],
            &first,
            &[1, 1, 0, 0],
        ),
    ];
    for (variables, clauses, assumptions, marks) in cases {
        let clauses: Vec<Vec<i8>> = clauses.iter().map(|clause| clause.to_vec()).collect();
        let input = encode(variables, &clauses);
        let mut buffer = [255; 96];
        let judged = judge(&input, assumptions, &mut buffer);
        let marked = marks.iter().filter(|mark| **mark == 1).count();
        assert_eq!(judged, Err(Refusal::new(10, marked)), "{clauses:?}");
        assert_eq!(buffer, buffer_of(marks), "{clauses:?}");
        let weighed = weigh(&input, assumptions, &buffer);
        assert_eq!(weighed, weight(marked, marked - 1), "{clauses:?}");
    }
}

/// Assumptions as literals, marks, and what these weigh: clauses and variables.
type Weighed<'a> = (&'a [i8], [u8; 3], usize, usize);

#[test]
fn any_marks_are_weighed() {
    let cases: [Weighed; 8] = [
        (&[], [0, 0, 0], 0, 0),
        (&[], [1, 0, 0], 1, 2),
        (&[], [0, 0, 1], 1, 1),
        (&[], [1, 1, 1], 3, 3),
        // Any byte but 0 is a mark.
        (&[], [0, 2, 255], 2, 2),
        // Assumed variables do not count, whatever their values.
        (&[2], [1, 1, 1], 3, 2),
        (&[-2], [1, 1, 1], 3, 2),
        // The clause is satisfied, and counts with the variables that are not assumed.
        (&[1], [1, 0, 0], 1, 1),
    ];
    for (literals, marks, clauses, variables) in cases {
        let assumption = |literal: &i8| (literal.unsigned_abs(), *literal > 0).into();
        let assumptions: Vec<Assumption> = literals.iter().map(assumption).collect();
        let weighed = weigh(THREE, &assumptions, &buffer_of(&marks));
        assert_eq!(
            weighed,
            weight(clauses, variables),
            "{literals:?} {marks:?}"
        );
    }
    let wide: Vec<i8> = (1..=48).collect();
    let fullest = encode(48, &vec![wide; 96]);
    assert_eq!(weigh(&fullest, &[], &[1; 96]), weight(96, 48));
    assert_eq!(weigh(&fullest, &[], &[1; 200]), weight(96, 48));
    assert_eq!(weigh(&[1, 48, 5], &[], &[1; 96]), weight(0, 0));
}

#[test]
fn refusals_come_in_judges_order() {
    let twice = [Assumption::from((1, true)); 2];
    let refused = |number, place| Err(Refusal::new(number, place));
    assert_eq!(weigh(&[], &twice, &[1; 95]), refused(1, 0));
    assert_eq!(weigh(&[], &twice, &[]), refused(1, 0));
    assert_eq!(weigh(&[], &twice, &[1; 96]), refused(2, 0));
    assert_eq!(weigh(&[1, 1, 5, 5], &twice, &[1; 96]), refused(9, 3));
    assert_eq!(weigh(&[1, 1, 4, 5], &twice, &[1; 96]), refused(16, 1));
    // Where judge refuses by 10, or accepts, marks are weighed.
    assert_eq!(weigh(&[1, 1, 4, 5], &twice[..1], &[1; 96]), weight(1, 0));
    assert_eq!(weigh(THREE, &[], &[1; 96]), weight(3, 3));
}

/// The weight by its definition: clause by clause, and variable by variable.
fn defined(input: &[u8], assumptions: &[Assumption], marks: &[u8]) -> (usize, usize) {
    let formula = decode(input).unwrap();
    let marked: Vec<u64> = (0..formula.clauses().len())
        .filter(|i| marks[*i] > 0)
        .map(|i| formula.clauses()[i].named())
        .collect();
    let assumed = |v: &usize| assumptions.iter().any(|a| usize::from(a.variable) == v + 1);
    let named = |v: &usize| marked.iter().any(|set| set & bit(*v) != 0);
    let variables = (0..formula.variables()).filter(|v| named(v) && !assumed(v));
    (marked.len(), variables.count())
}

#[test]
fn the_weight_is_that_of_the_definition() {
    let mut random = Random::new(8);
    let (mut weighed, mut fewer, mut more) = (0, 0, 0);
    while weighed < 3_000 {
        let input = some_input(&mut random, is_accepted);
        let assumptions = some_list(&mut random, &input);
        let marks = some_marks(&mut random, 96);
        let found = weigh(&input, &assumptions, &marks);
        match judge(&input, &assumptions, &mut [0; 96]) {
            Err(refusal) if refusal.number != 10 => assert_eq!(found, Err(refusal), "{input:?}"),
            _ => {
                let (clauses, variables) = defined(&input, &assumptions, &marks);
                let context = || format!("{input:?} {assumptions:?} {marks:?}");
                assert_eq!(found, weight(clauses, variables), "{}", context());
                weighed += 1;
                fewer += usize::from(variables < clauses);
                more += usize::from(variables > clauses);
            }
        }
    }
    println!("{fewer} name fewer variables than they are, {more} more");
    assert!(fewer > 500 && more > 500);
}

#[test]
fn no_clause_of_a_violator_is_marked_without_need() {
    let mut random = Random::new(9);
    let (mut violators, mut assuming, mut long) = (0, 0, 0);
    while violators < 2_000 {
        let input = some_input(&mut random, is_accepted);
        let mut assumptions = some_list(&mut random, &input);
        if random.percent(50) {
            assumptions.clear();
        }
        let mut marks = [0; 96];
        let Err(Refusal { number: 10, place }) = judge(&input, &assumptions, &mut marks) else {
            continue;
        };
        let formula = decode(&input).unwrap();
        let assumed = formula.assumed(&assumptions).unwrap();
        let matched = |marks: &[u8]| {
            let sets: Vec<u64> = formula.marked(&assumed, marks).collect();
            is_matched(&sets)
        };
        let context = || format!("{input:?} {assumptions:?}");
        assert!(!matched(&marks), "{}", context());
        assert_eq!(
            weigh(&input, &assumptions, &marks),
            weight(place, place - 1)
        );
        for struck in (0..96).filter(|i| marks[*i] == 1) {
            let mut others = marks;
            others[struck] = 0;
            assert!(matched(&others), "{} {struck}", context());
            // So they name as many variables as they are.
            let weighed = weigh(&input, &assumptions, &others);
            assert_eq!(
                weighed,
                weight(place - 1, place - 1),
                "{} {struck}",
                context()
            );
        }
        violators += 1;
        assuming += usize::from(!assumptions.is_empty());
        long += usize::from(place > 10);
    }
    println!("{assuming} violators under assumptions, {long} of more than ten clauses");
    assert!(assuming > 500 && long > 50);
}
