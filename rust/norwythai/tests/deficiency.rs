//! How far formulas are from being matched, and what a clause more or fewer does to it.

use norwythai::{
    check, deficiency, judge, judge_into, Assignment, Assumption, Formula, Refusal, DROPPED,
};
use norwythai_reference as reference;
use norwythai_samples::{
    each_added, each_struck, encode, some_crowded_input, some_input_or_crowded, Changes, Random,
};

/// By the function and by the formula's own one, which are the same.
fn deficiency_both(input: &[u8]) -> Result<usize, Refusal> {
    let found = deficiency(input);
    assert_eq!(Formula::from(input).deficiency(), found);
    found
}

/// Whether the formula is accepted without assumptions.
fn is_accepted(input: &[u8]) -> bool {
    judge_into(input, &[], &mut [0; 96]).is_ok()
}

/// Whether it is accepted and nothing is dropped, so that it is matched as a whole.
fn is_matched(input: &[u8]) -> bool {
    let mut row = [0; 96];
    judge_into(input, &[], &mut row).is_ok() && row.iter().all(|byte| *byte < DROPPED)
}

/// The number of variables, the clauses, and the deficiency.
type Known<'a> = (usize, &'a [&'a [i8]], usize);

#[test]
fn known_formulas() {
    let cases: [Known; 12] = [
        (2, &[], 0),
        (1, &[&[]], 1),
        (1, &[&[], &[]], 2),
        (2, &[&[1, 2], &[-1, -2]], 0),
        (1, &[&[1], &[1]], 1),
        (1, &[&[1], &[-1]], 1),
        (3, &[&[2], &[2], &[1], &[-1]], 2),
        (2, &[&[1], &[1], &[2], &[-2], &[1, 2]], 3),
        // Fewer clauses than variables; and two sets of clauses, each of which is one too many.
        (9, &[&[7], &[-7]], 1),
        (9, &[&[7], &[1, 2], &[7], &[1, -2], &[3, 4, 5], &[2]], 2),
        // The last clause is matched only if all but the first have their second variables; then the first is left.
        (4, &[&[4], &[1, 2], &[2, 3], &[3, 4], &[1]], 1),
        // A literal that comes again counts once.
        (2, &[&[1, 1, 1], &[1, 2, 1]], 0),
    ];
    for (variables, clauses, expected) in cases {
        let clauses: Vec<Vec<i8>> = clauses.iter().map(|clause| clause.to_vec()).collect();
        let input = encode(variables, &clauses);
        assert_eq!(deficiency_both(&input), Ok(expected), "{clauses:?}");
        assert_eq!(is_matched(&input), expected == 0, "{clauses:?}");
    }
}

#[test]
fn the_most_clauses() {
    let of = |variables, clauses: &[Vec<i8>]| deficiency_both(&encode(variables, clauses));
    assert_eq!(of(1, &vec![vec![]; 96]), Ok(96));
    assert_eq!(of(48, &vec![vec![-48]; 96]), Ok(95));
    let all: Vec<i8> = (1..=48).collect();
    assert_eq!(of(48, &vec![all.clone(); 96]), Ok(48));
    assert_eq!(of(48, &vec![all.clone(); 48]), Ok(0));
    let units: Vec<Vec<i8>> = all.iter().map(|variable| vec![*variable]).collect();
    assert_eq!(of(48, &units), Ok(0));
    assert_eq!(of(48, &[&units[..], &units].concat()), Ok(48));
    let too_many = of(48, &[&units[..], &units, &units[..1]].concat());
    assert_eq!(
        too_many,
        Err(Refusal::TooManyClauses {
            place: 2 + 3 * 96 + 2
        })
    );
}

#[test]
fn an_accepted_formula_may_be_far_from_matched() {
    // Stripping drops all clauses: 96 times (1, .., 48).
    let clause: Vec<i8> = (1..=48).collect();
    let input = encode(48, &vec![clause; 96]);
    let matching = judge(&input, &[]).unwrap();
    assert!(matching.matched().iter().all(|byte| *byte == DROPPED + 1));
    assert_eq!(deficiency_both(&input), Ok(48));
    // And a matched formula is refused by judge under assumptions, of which the deficiency knows nothing.
    let matched = encode(2, &[vec![1]]);
    let judged = judge(&matched, &[Assumption::negative(1)]).unwrap_err();
    assert_eq!(judged.refusal(), Refusal::Unmatched { clauses: 1 });
    assert_eq!(deficiency_both(&matched), Ok(0));
}

#[test]
fn only_unreadable_formulas_are_refused() {
    let cases: [(&[u8], Refusal); 9] = [
        (&[], Refusal::Truncated { place: 0 }),
        (&[1, 2, 4], Refusal::Truncated { place: 3 }),
        (&[1, 2, 6, 5], Refusal::UnknownKind { place: 2 }),
        (&[1, 2, 2, 1, 5], Refusal::Misplaced { place: 4 }),
        (&[1, 49, 5], Refusal::BadVariableCount { place: 0 }),
        (&[1, 2, 2, 3, 4, 5], Refusal::NoSuchVariable { place: 2 }),
        (
            &[1, 2, 2, 1, 3, 1, 4, 5],
            Refusal::ComplementaryLiteral { place: 4 },
        ),
        (&[1, 2, 4, 5, 4], Refusal::TrailingByte { place: 4 }),
        (&[1, 2, 5, 0], Refusal::TrailingByte { place: 3 }),
    ];
    for (input, refusal) in cases {
        assert_eq!(deficiency_both(input), Err(refusal), "{input:?}");
    }

    // As check refuses an assignment that has no stray variable.
    let mut random = Random::new(1);
    let mut seen = [0; 10];
    for _ in 0..5_000 {
        let input = some_input_or_crowded(&mut random, is_accepted);
        let found = deficiency_both(&input);
        let checked = check(&input, Assignment::default());
        assert_eq!(found.err(), checked.err(), "{input:02x?}");
        seen[found.map_or_else(|refusal| refusal.number().into(), |_| 0)] += 1;
    }
    println!("read, and refused by number: {seen:?}");
    assert!(seen[0] > 2_000 && seen[2..].iter().all(|count| *count > 20));
}

#[test]
fn it_is_the_largest_excess_of_any_set_of_clauses() {
    let mut random = Random::new(2);
    let (mut matched, mut above, mut accepted, mut refused) = (0, 0, 0, 0);
    while matched + above < 2_000 {
        let input = some_input_or_crowded(&mut random, is_accepted);
        let Ok(found) = deficiency_both(&input) else {
            refused += 1;
            continue;
        };
        assert_eq!(found == 0, is_matched(&input), "{input:02x?}");
        let formula = reference::decode(&input).unwrap();
        if formula.clauses().len() > 12 {
            continue;
        }
        let named: Vec<u64> = formula.clauses().iter().map(|c| c.named()).collect();
        let largest = reference::largest_excess(&named);
        assert_eq!(found, largest, "{input:02x?}");
        matched += usize::from(found == 0);
        above += usize::from(found > 0);
        accepted += usize::from(found > 0 && is_accepted(&input));
    }
    println!("{matched} matched; {above} above 0, {accepted} of them accepted; {refused} refused");
    assert!(matched > 400 && above > 400 && accepted > 100 && refused > 100);
}

#[test]
fn a_clause_changes_it_by_one_at_most() {
    let mut random = Random::new(3);
    let mut changes = Changes::default();
    let (mut formulas, mut above, mut accepted, mut full) = (0, 0, 0, 0);
    while formulas < 500 {
        let input = some_input_or_crowded(&mut random, is_accepted);
        let Ok(before) = deficiency(&input) else {
            continue;
        };
        formulas += 1;
        above += usize::from(before > 0);
        accepted += usize::from(before > 0 && is_accepted(&input));
        if !changes.edit(&mut random, &input, deficiency) {
            full += 1;
            for added in each_added(&input, &[4]) {
                assert_eq!(deficiency(&added).unwrap_err().number(), 8);
            }
        }
    }
    println!("{above} above 0, {accepted} of them accepted, {full} of 96 clauses: {changes:?}");
    assert!(above > 200 && accepted > 50 && full > 5);
    assert!(changes.fewest() > 1_000);
}

#[test]
fn as_many_clauses_as_it_says_have_to_be_struck() {
    let mut random = Random::new(4);
    let mut struck_in_all = 0;
    for _ in 0..300 {
        let mut input = some_crowded_input(&mut random);
        let Ok(before) = deficiency(&input) else {
            continue;
        };
        // Each time some clause whose striking lowers it, until the others are matched.
        for left in (0..before).rev() {
            assert!(!is_matched(&input));
            let mut struck = random.shuffled(each_struck(&input)).into_iter();
            input = struck
                .find(|struck| deficiency(struck) == Ok(left))
                .expect("a clause whose striking lowers it");
            struck_in_all += 1;
        }
        assert!(is_matched(&input));
    }
    println!("{struck_in_all} clauses were struck");
    assert!(struck_in_all > 2_000);
}
