//! In which order variables are tried where stripping leaves clauses: by how many of these name them, most first, then the lower one.

mod clauses;
mod common;

use clauses::{clauses_of, names, strip};
use common::{assuming, checkpoint, is_accepted};
use norwythai_reference::{
    decode, is_matched, judge, print, start_checkpoint, walk, Answer, Assumption, Refusal,
    LIST_BUDGET,
};
use norwythai_samples::{
    encode, some_accepted_formula, some_assumptions, trail_in, Clauses, Random,
};

/// 2 is named by all three clauses, 1 and 3 by two. Walks once took 1 first.
const SECOND: &[&[i8]] = &[&[-1, -2], &[2, -3], &[1, -2, 3]];

fn input(variables: usize, clauses: &[&[i8]]) -> Vec<u8> {
    let clauses: Vec<Vec<i8>> = clauses.iter().map(|clause| clause.to_vec()).collect();
    encode(variables, &clauses)
}

/// The trail behind one step, and what the choice of its variable cost.
fn first_step(input: &[u8], assumptions: &[Assumption]) -> (Vec<u8>, u64) {
    let walked = walk(input, assumptions, &start_checkpoint(), 1).unwrap();
    let trail = trail_in(&walked.checkpoint).to_vec();
    (trail, walked.progress.expansions)
}

#[test]
fn the_busiest_is_assigned_first() {
    assert_eq!(
        print(&input(3, SECOND)),
        "switches 3 rules 3\n000 3 3\n100 2 0\n011 6 0\nend 3 0\n"
    );
}

#[test]
fn a_failed_trial_is_followed_by_the_next_busiest() {
    // The last clause alone keeps 2 from being false. 1 and 3 are named by two clauses each.
    assert_eq!(
        print(&input(3, &[&[-1, -2, 3], &[1, -2, -3], &[2]])),
        "switches 3 rules 3\n010 3 7\n111 6 0\nend 3 0\n"
    );
    // 1 and 4 are named by three clauses, and 1 can't be false. Of the clauses that 1 as false would leave, as many name 2 as name 4.
    let once = input(4, &[&[1], &[-1, 4, 3], &[-1, -4, -2], &[-4, -3, 2]]);
    assert_eq!(first_step(&once, &[]), (vec![4], 6));
}

#[test]
fn of_those_named_as_often_the_lower_one_is_tried() {
    assert_eq!(
        first_step(&input(2, &[&[1, 2], &[-1, -2]]), &[]),
        (vec![1], 2)
    );
    // 2 and 3 are named by three clauses, 1 by two.
    assert_eq!(
        print(&input(3, &[&[1, 2, -3], &[-1, -2, 3], &[2, 3]])),
        "switches 3 rules 3\n101 3 3\n010 6 0\n011 4 0\n111 2 0\nend 3 0\n"
    );
}

#[test]
fn both_signs_count() {
    // 3 is named twice each way. 1 is as often positive, 2 as often negative.
    let clauses: &[&[i8]] = &[&[1, 2, 3], &[1, -2, 3], &[-1, -2, -3, 4], &[-3, -4]];
    assert_eq!(first_step(&input(4, clauses), &[]), (vec![3], 4));
}

#[test]
fn equal_clauses_count_each() {
    // The first two name 2, 3 and 4, so that each of these is named by three; if they counted once, all four would be named by two.
    let equal: &[&[i8]] = &[&[2, 3, 4], &[2, 3, 4], &[-2, -3, 1], &[-1, -4]];
    assert_eq!(first_step(&input(4, equal), &[]), (vec![2], 5));
    let become_equal: &[&[i8]] = &[&[2, 3, 5, 4], &[2, 3, 4], &[-2, -3, 1], &[-1, -4]];
    let assumed = assuming(&[-5]);
    assert_eq!(first_step(&input(5, become_equal), &assumed), (vec![2], 5));
}

#[test]
fn only_left_clauses_count() {
    // Stripping drops the last two, which name 3: with them 3 would be the busiest. With 4 true they are satisfied.
    let more: Vec<&[i8]> = [SECOND, &[&[3, 4], &[-3, 4]]].concat();
    let input = input(4, &more);
    assert_eq!(first_step(&input, &[]), (vec![2], 3));
    assert_eq!(first_step(&input, &assuming(&[4])), (vec![2], 3));
}

#[test]
fn checkpoints_of_the_walk_that_once_was() {
    let formula = input(3, SECOND);
    let foreign = Err(Refusal::new(11, 0));
    // The first step, a model and a step back, as they were once.
    for once in [&[1, 1, 1][..], &[1, 3, 1, 2, 3], &[2, 2, 1, 2], &[2, 1, 1]] {
        assert_eq!(
            walk(&formula, &[], &checkpoint(once), 5),
            foreign,
            "{once:?}"
        );
    }
    // Behind the undoing of a first variable that was false: once it was 1, now it is 2.
    let walked = walk(&formula, &[], &checkpoint(&[2, 0]), LIST_BUDGET).unwrap();
    assert_eq!(walked.progress.answer, Answer::Model(0b110));
    assert_eq!(walked.checkpoint, checkpoint(&[1, 3, 130, 1, 131]));
    let walked = walk(&formula, &[], &checkpoint(&[4, 0]), LIST_BUDGET).unwrap();
    assert_eq!(walked.progress.answer, Answer::Ended);
}

/// What remains once the literal is true.
fn assign(clauses: &Clauses, literal: i8) -> Clauses {
    let kept = clauses.iter().filter(|clause| !clause.contains(&literal));
    let without = |clause: &Vec<i8>| clause.iter().copied().filter(|l| *l != -literal).collect();
    kept.map(without).collect()
}

/// Whether a trial of the variable passes: the clauses are matched with it false and with it true.
fn passes(left: &Clauses, variable: i8) -> bool {
    [-variable, variable].iter().all(|literal| {
        let mask = |clause: &Vec<i8>| clause.iter().fold(0, |mask, l| mask | 1 << (l.abs() - 1));
        let named: Vec<u64> = assign(left, *literal).iter().map(mask).collect();
        is_matched(&named)
    })
}

fn literal(variable: u8, value: bool) -> i8 {
    if value {
        variable as i8
    } else {
        -(variable as i8)
    }
}

#[test]
fn no_variable_that_passes_is_before_the_chosen_one() {
    let mut random = Random::new(11);
    let (mut nodes, mut not_lowest, mut after_failed, mut ties) = (0, 0, 0, 0);
    while nodes < 3_000 {
        let input = some_accepted_formula(&mut random, is_accepted);
        let pairs = some_assumptions(&mut random, &input);
        let assumptions: Vec<Assumption> = pairs.iter().map(|pair| (*pair).into()).collect();
        if judge(&input, &assumptions, &mut [0; 96]).is_err() {
            continue;
        }
        // The trail of the first model, and the node before each of its variables.
        let walked = walk(&input, &assumptions, &start_checkpoint(), LIST_BUDGET).unwrap();
        let mut remaining = clauses_of(&decode(&input).unwrap());
        for (variable, value) in pairs {
            remaining = assign(&remaining, literal(variable, value));
        }
        for byte in trail_in(&walked.checkpoint) {
            let chosen = literal(byte & 127, *byte > 127);
            let left: Clauses = strip(&remaining)
                .0
                .into_iter()
                .map(|i| remaining[i].clone())
                .collect();
            remaining = assign(&remaining, chosen);
            if left.is_empty() {
                continue;
            }
            let count = |variable: i8| left.iter().filter(|clause| names(clause, variable)).count();
            let candidates: Vec<i8> = (1..=48).filter(|v| count(*v) > 0).collect();
            let chosen = chosen.abs();
            let before = |v: &&i8| (count(chosen), **v) < (count(**v), chosen);
            let earlier: Vec<&i8> = candidates.iter().filter(before).collect();
            assert!(passes(&left, chosen), "{input:02x?} {left:?}");
            assert!(
                earlier.iter().all(|v| !passes(&left, **v)),
                "{input:02x?} {left:?}"
            );
            nodes += 1;
            not_lowest += usize::from(candidates[0] != chosen);
            after_failed += usize::from(!earlier.is_empty());
            ties += usize::from(
                candidates
                    .iter()
                    .any(|v| *v > chosen && count(*v) == count(chosen)),
            );
        }
    }
    println!("{nodes} nodes, at {not_lowest} not the lowest, at {after_failed} after failed trials, {ties} ties");
    assert!(not_lowest > 500 && after_failed > 200 && ties > 500);
}
