//! How far formulas are from being matched: by the definition, by all sets of clauses, and clause by clause.

use norwythai_reference::bits::numbers;
use norwythai_reference::{decode, deficiency, is_matched, judge, largest_excess, Clause, Refusal};
use norwythai_samples::{crowds, each_added, encode, some_input_or_crowded, Changes, Random};

fn is_accepted(input: &[u8]) -> bool {
    judge(input, &[], &mut [0; 96]).is_ok()
}

/// By clause of a readable input the variables that it names.
fn named(input: &[u8]) -> Vec<u64> {
    let formula = decode(input).unwrap();
    formula.clauses().iter().map(Clause::named).collect()
}

/// A formula of up to so many clauses, over few variables or many.
fn some_small(random: &mut Random, most: usize) -> Vec<u8> {
    let variables = random.pick(&[1, 2, 4, 8, 12, 48]);
    let count = random.between(0, most);
    encode(variables, &crowds(random, variables, count))
}

#[test]
fn known_formulas() {
    let cases: [(&[u8], usize); 9] = [
        (&[1, 2, 5], 0),
        (&[1, 1, 4, 5], 1),
        (&[1, 1, 4, 4, 5], 2),
        // (1, 2) and (not 1, not 2)
        (&[1, 2, 2, 1, 2, 2, 4, 3, 1, 3, 2, 4, 5], 0),
        // (1) and (1), and with them (not 1)
        (&[1, 1, 2, 1, 4, 2, 1, 4, 5], 1),
        (&[1, 1, 2, 1, 4, 2, 1, 4, 3, 1, 4, 5], 2),
        // (2) (2) (1) (not 1): stripping would drop the first two
        (&[1, 3, 2, 2, 4, 2, 2, 4, 2, 1, 4, 3, 1, 4, 5], 2),
        // (1) (1) (2) (not 2) (1, 2)
        (
            &[1, 2, 2, 1, 4, 2, 1, 4, 2, 2, 4, 3, 2, 4, 2, 1, 2, 2, 4, 5],
            3,
        ),
        // a literal that comes again counts once: (1) and (1, 2)
        (&[1, 2, 2, 1, 2, 1, 4, 2, 1, 2, 2, 2, 1, 4, 5], 0),
    ];
    for (input, expected) in cases {
        assert_eq!(deficiency(input), Ok(expected), "{input:?}");
        assert_eq!(largest_excess(&named(input)), expected, "{input:?}");
    }
    // Above 0 though it is accepted.
    assert!(is_accepted(cases[4].0));
}

#[test]
fn the_most_clauses() {
    let of = |variables, clauses: &[Vec<i8>]| deficiency(&encode(variables, clauses));
    assert_eq!(of(1, &vec![vec![]; 96]), Ok(96));
    assert_eq!(of(48, &vec![vec![]; 96]), Ok(96));
    assert_eq!(of(1, &vec![vec![1]; 96]), Ok(95));
    assert_eq!(of(48, &vec![vec![-48]; 96]), Ok(95));
    let all: Vec<i8> = (1..=48).collect();
    assert_eq!(of(48, &vec![all.clone(); 96]), Ok(48));
    assert_eq!(of(48, &vec![all.clone(); 48]), Ok(0));
    let units: Vec<Vec<i8>> = all.iter().map(|v| vec![*v]).collect();
    assert_eq!(of(48, &units), Ok(0));
    let twice: Vec<Vec<i8>> = all.iter().flat_map(|v| [vec![*v], vec![-*v]]).collect();
    assert_eq!(of(48, &twice), Ok(48));
    assert_eq!(of(48, &[&units[..], &units].concat()), Ok(48));
    // Each clause but the last has its first variable, until the last one re-matches them all.
    let mut path: Vec<Vec<i8>> = (1..48).map(|v| vec![v, v + 1]).collect();
    path.push(vec![1]);
    assert_eq!(of(48, &path), Ok(0));
    assert_eq!(of(48, &[&path[..], &path].concat()), Ok(48));
}

#[test]
fn refusals_are_the_readers() {
    let refused = |number, place| Err(Refusal::new(number, place));
    assert_eq!(deficiency(&[]), refused(2, 0));
    assert_eq!(deficiency(&[1, 1, 4]), refused(2, 3));
    assert_eq!(deficiency(&[1, 1, 6, 5]), refused(3, 2));
    assert_eq!(deficiency(&[1, 1, 2, 1, 5]), refused(4, 4));
    assert_eq!(deficiency(&[1, 49, 5]), refused(5, 0));
    assert_eq!(deficiency(&[1, 1, 2, 2, 4, 5]), refused(6, 2));
    assert_eq!(deficiency(&[1, 1, 2, 1, 3, 1, 4, 5]), refused(7, 4));
    let too_many = encode(1, &vec![vec![]; 97]);
    assert_eq!(deficiency(&too_many), refused(8, 98));
    assert_eq!(deficiency(&[1, 1, 4, 5, 4]), refused(9, 4));

    let mut random = Random::new(1);
    let mut seen = [0; 19];
    for _ in 0..5_000 {
        let input = some_input_or_crowded(&mut random, is_accepted);
        match (decode(&input), deficiency(&input)) {
            (Ok(_), Ok(_)) => seen[0] += 1,
            (Err(expected), Err(refusal)) => {
                assert_eq!(refusal, expected, "{input:?}");
                seen[usize::from(refusal.number)] += 1;
            }
            (_, found) => panic!("{input:?}: {found:?}"),
        }
    }
    println!("{seen:?}");
    assert!(seen[0] > 2_000 && seen[2..=9].iter().all(|count| *count > 5));
}

/// The most clauses that can be matched together, by a trial of all sets.
fn most_of_all_sets(sets: &[u64]) -> usize {
    let chosen = |set: u64| numbers(set).map(|i| sets[i]).collect::<Vec<u64>>();
    let matched = (0..1 << sets.len()).filter(|set| is_matched(&chosen(*set)));
    let sizes = matched.map(|set| set.count_ones() as usize);
    sizes.max().unwrap()
}

#[test]
fn it_is_the_clauses_less_the_most_that_are_matched_together() {
    let mut random = Random::new(2);
    let (mut above, mut several) = (0, 0);
    for _ in 0..1_000 {
        let input = some_small(&mut random, 9);
        let sets = named(&input);
        let found = deficiency(&input).unwrap();
        assert_eq!(found, sets.len() - most_of_all_sets(&sets), "{input:?}");
        above += usize::from(found > 0);
        several += usize::from(found > 1);
    }
    println!("{above} above 0, {several} above 1");
    assert!((300..900).contains(&above) && several > 150);
}

#[test]
fn it_is_the_largest_excess_of_any_set_of_clauses() {
    let mut random = Random::new(3);
    let (mut above, mut larger) = (0, 0);
    for _ in 0..3_000 {
        let input = some_small(&mut random, 12);
        let sets = named(&input);
        let found = deficiency(&input).unwrap();
        assert_eq!(found, largest_excess(&sets), "{input:?}");
        above += usize::from(found > 0);
        // All clauses together have a smaller excess, or none.
        let union = sets.iter().fold(0, |union, set| union | set);
        larger += usize::from(sets.len() < found + union.count_ones() as usize);
    }
    println!("{above} above 0, {larger} larger than the excess of all clauses");
    assert!((1_000..2_700).contains(&above) && larger > 500);
}

/// As many clauses as can be added one after the other, in their order, to those that are matched together; by S5 it is the most.
fn most_in_order(sets: &[u64]) -> usize {
    let mut kept = Vec::new();
    for set in sets {
        kept.push(*set);
        if !is_matched(&kept) {
            kept.pop();
        }
    }
    kept.len()
}

#[test]
fn formulas_of_any_size() {
    let mut random = Random::new(4);
    let (mut matched, mut above, mut many, mut accepted) = (0, 0, 0, 0);
    while matched + above < 4_000 {
        let input = some_input_or_crowded(&mut random, is_accepted);
        let Ok(found) = deficiency(&input) else {
            continue;
        };
        let mut sets = named(&input);
        assert_eq!(found == 0, is_matched(&sets), "{input:?}");
        assert_eq!(found, sets.len() - most_in_order(&sets), "{input:?}");
        sets.reverse();
        assert_eq!(found, sets.len() - most_in_order(&sets), "{input:?}");
        matched += usize::from(found == 0);
        above += usize::from(found > 0);
        many += usize::from(found > 20);
        // It is not asked what stripping drops.
        accepted += usize::from(found > 0 && is_accepted(&input));
    }
    println!(
        "{matched} matched, {above} above 0, {many} above 20, {accepted} above 0 and accepted"
    );
    assert!(matched > 1_000 && above > 1_000 && many > 200 && accepted > 300);
}

#[test]
fn a_clause_changes_it_by_one_at_most() {
    let mut random = Random::new(5);
    let mut changes = Changes::default();
    let mut full = 0;
    for _ in 0..600 {
        let input = some_input_or_crowded(&mut random, is_accepted);
        if deficiency(&input).is_err() {
            continue;
        }
        if !changes.edit(&mut random, &input, deficiency) {
            full += 1;
            for added in each_added(&input, &[4]) {
                assert_eq!(deficiency(&added).unwrap_err().number, 8);
            }
        }
    }
    println!("{changes:?}, {full} of 96 clauses");
    assert!(changes.fewest() > 1_000 && full > 5);
}
