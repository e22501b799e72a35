//! The order in which variables are tried where stripping leaves clauses: the one that most of these name first, then the lower one. It
//! decides the order of the models, and which checkpoints a walk has.

mod common;

use common::walked;
use norwythai::{
    walk, Answer, Assignment, Assumption, Checkpoint, Formula, Models, Refusal, LINE_SIZE,
    PAGE_SIZE,
};
use norwythai_samples::encode;

/// (not 1, not 2) (2, not 3) (1, not 2, 3): the example, as DIMACS text and encoded.
const BUSIEST_TEXT: &[u8] = include_bytes!("../../../examples/busiest.cnf");
const BUSIEST: &[u8] = include_bytes!("../../../examples/busiest.bin");

fn model(bits: u64) -> Answer {
    Answer::Model(Assignment::from_bits(bits))
}

/// A checkpoint by its mode, length and trail.
fn checkpoint(mode: u8, trail: &[u8]) -> Checkpoint {
    let mut bytes = [0; Checkpoint::LENGTH];
    bytes[..2].copy_from_slice(&[mode, trail.len() as u8]);
    bytes[2..2 + trail.len()].copy_from_slice(trail);
    Checkpoint::from_bytes(bytes)
}

#[test]
fn the_example_is_what_its_readme_says() {
    let formula = Formula::from_dimacs(BUSIEST_TEXT).unwrap();
    assert_eq!(formula.as_bytes(), BUSIEST);
    assert_eq!(
        walked(BUSIEST, &[]),
        [
            (model(0b000), 3, 3),
            (model(0b001), 2, 0),
            (model(0b110), 6, 0),
            (Answer::Ended, 3, 0)
        ]
    );
    let models: Result<Vec<Assignment>, Refusal> = formula.models().collect();
    assert_eq!(
        models,
        Ok([0b000, 0b001, 0b110].map(Assignment::from_bits).to_vec())
    );

    let mut page = [0; PAGE_SIZE];
    let paged = formula.page(&[], &mut Checkpoint::start(), 1, &mut page);
    assert_eq!(paged.unwrap().lines, 3);
    for (line, start) in page.chunks(LINE_SIZE).zip(["000", "100", "011"]) {
        assert_eq!(&line[7..10], start.as_bytes());
    }
}

#[test]
fn a_trial_that_fails_costs_its_expansions() {
    // (not 1, not 2, 3) (1, not 2, not 3) (2): all name 2, which can't be false, and two name each of the others.
    let failing = encode(3, &[vec![-1, -2, 3], vec![1, -2, -3], vec![2]]);
    assert_eq!(
        walked(&failing, &[]),
        [
            (model(0b010), 3, 7),
            (model(0b111), 6, 0),
            (Answer::Ended, 3, 0)
        ]
    );
}

#[test]
fn only_what_is_left_counts() {
    // The example's clauses, (3, 4) and (not 3, 4): four name 3, but the last two are dropped, or satisfied where 4 is assumed.
    let clauses = [
        vec![-1, -2],
        vec![2, -3],
        vec![1, -2, 3],
        vec![3, 4],
        vec![-3, 4],
    ];
    let dropping = encode(4, &clauses);
    for assumptions in [&[][..], &[Assumption::positive(4)]] {
        let mut checkpoint = Checkpoint::start();
        let walked = walk(&dropping, assumptions, &mut checkpoint, 1).unwrap();
        assert_eq!((walked.answer, walked.expansions), (Answer::Spent, 3));
        assert_eq!(checkpoint.as_bytes()[..4], [1, 1, 2, 0]);
    }
}

#[test]
fn checkpoints_of_an_earlier_walk_are_judged_by_this_one() {
    // The walk that took the lowest variable first had these: steps, models and undone steps.
    let once: [(u8, &[u8]); 7] = [
        (1, &[1]),
        (1, &[1, 2]),
        (1, &[1, 2, 3]),
        (2, &[1]),
        (3, &[1, 128 + 2]),
        (1, &[128 + 1, 2, 3]),
        (2, &[128 + 1, 2]),
    ];
    for (mode, trail) in once {
        let given = checkpoint(mode, trail);
        let mut after = given;
        let walked = walk(BUSIEST, &[], &mut after, 96);
        assert_eq!(walked, Err(Refusal::ForeignCheckpoint), "{mode} {trail:?}");
        assert_eq!(after, given);
        let refused = Models::resume(BUSIEST, given).next();
        assert_eq!(refused, Some(Err(Refusal::ForeignCheckpoint)));
    }
    // The first variable was false and is undone: that was 1, and is 2 in this walk.
    let rest = Models::resume(BUSIEST, checkpoint(2, &[]));
    assert!(rest.eq([Ok(Assignment::from_bits(0b110))]));
    // Of (1, 2) (not 1, not 2) both walks are the same.
    let example = encode(2, &[vec![1, 2], vec![-1, -2]]);
    let rest = Models::resume(&example, checkpoint(1, &[1, 128 + 2]));
    assert!(rest.eq([Ok(Assignment::from_bits(0b01))]));
}
