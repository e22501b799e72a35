//! Each act, through the crate and through its C function, compared with the reference.

use crate::assumed::Assumed;
use crate::counts::Outcomes;
use crate::raw;
use crate::tally::Tally;
use crate::weights::compare_judged;
use norwythai::{Answer, Checkpoint, JudgeError, Refusal, Violator, PAGE_SIZE};
use norwythai_reference as reference;
use norwythai_samples::{some_budget, some_length, Random};

/// What results have before a call; no act writes it.
pub const UNWRITTEN: u64 = 0xa5a5_a5a5_a5a5_a5a5;

/// The reference's refusal as the crate has it.
pub fn refusal_of(refusal: reference::Refusal) -> Refusal {
    let expected = Refusal::from_parts(refusal.number.into(), refusal.place).unwrap();
    assert_eq!(expected.number(), refusal.number);
    assert_eq!(expected.place(), refusal.place);
    expected
}

pub fn answer_of(answer: reference::Answer) -> Answer {
    match answer {
        reference::Answer::Model(model) => Answer::Model(model.into()),
        reference::Answer::Spent => Answer::Spent,
        reference::Answer::Ended => Answer::Ended,
    }
}

/// The results that the C functions write for a refusal, and for an answer of a walk.
pub fn refused_results(refusal: reference::Refusal) -> [u64; 6] {
    [3, 0, refusal.number.into(), refusal.place as u64, 0, 0]
}

fn answer_results(answer: reference::Answer, first: u64, second: u64) -> [u64; 6] {
    match answer {
        reference::Answer::Model(model) => [0, model, 0, 0, first, second],
        reference::Answer::Spent => [1, 0, 0, 0, first, second],
        reference::Answer::Ended => [2, 0, 0, 0, first, second],
    }
}

pub fn compare_check(tally: &mut Tally, input: &[u8], assignment: u64) {
    let expected = reference::check(input, assignment);
    let found = norwythai::check(input, assignment.into());
    assert_eq!(
        found,
        expected.map_err(refusal_of),
        "{input:02x?} {assignment:x}"
    );
    let mut results = [UNWRITTEN; 6];
    assert_eq!(raw::check(input, assignment, &mut results), 0);
    let expected_results = match expected {
        Ok(yes) => [u64::from(!yes), 0, 0, 0, 0, 0],
        Err(refusal) => refused_results(refusal),
    };
    assert_eq!(results, expected_results, "{input:02x?} {assignment:x}");
    tally.checks += 1;
    tally.unnamed.checked(input, assignment, expected);
    match expected {
        Ok(true) => tally.yes += 1,
        Ok(false) => tally.no += 1,
        Err(refusal) => tally.refused(&Assumed::default(), refusal),
    }
}

pub fn compare_judge(tally: &mut Tally, input: &[u8], assumed: &Assumed, length: usize, fill: u8) {
    let context = || format!("{input:02x?} {:?}", assumed.bytes);
    let mut expected_buffer = vec![fill; length];
    let expected = reference::judge(input, &assumed.reference, &mut expected_buffer);
    let mut buffer = vec![fill; length];
    let found = norwythai::judge_into(input, &assumed.list, &mut buffer);
    assert_eq!(
        found.map(|size| (usize::from(size.variables), size.clauses)),
        expected
            .map(|size| (size.variables, size.clauses))
            .map_err(refusal_of),
        "{}",
        context()
    );
    assert_eq!(buffer, expected_buffer, "{}", context());

    let mut buffer = vec![fill; length];
    let mut results = [UNWRITTEN; 6];
    let returned = raw::judge(input, &assumed.bytes, &mut buffer, &mut results);
    assert_eq!(returned, 0);
    assert_eq!(buffer, expected_buffer, "{}", context());
    let expected_results = match expected {
        Ok(size) => [0, 0, 0, 0, size.variables as u64, size.clauses as u64],
        Err(refusal) => refused_results(refusal),
    };
    assert_eq!(results, expected_results, "{}", context());

    if length >= 96 {
        compare_owned_judge(input, assumed, expected, &expected_buffer);
    }
    tally.judges += 1;
    match expected {
        Ok(_) => tally.accepted += 1,
        Err(refusal) => tally.refused(assumed, refusal),
    }
    tally.stripped(assumed).judged(expected, &expected_buffer);
    tally
        .assuming
        .judged(input, assumed, expected, &expected_buffer);
    compare_judged(tally, input, assumed, expected, &expected_buffer);
}

/// The form of judge that lends its own buffer.
fn compare_owned_judge(
    input: &[u8],
    assumed: &Assumed,
    expected: Result<reference::Size, reference::Refusal>,
    buffer: &[u8],
) {
    match (norwythai::judge(input, &assumed.list), expected) {
        (Ok(matching), Ok(size)) => {
            assert_eq!(usize::from(matching.variables()), size.variables);
            assert_eq!(matching.matched(), &buffer[..size.clauses], "{input:02x?}");
        }
        (Err(error), Err(refusal)) => {
            assert_eq!(error.refusal(), refusal_of(refusal), "{input:02x?}");
            if let JudgeError::Unmatched { violator } = error {
                let Violator { clauses, variables } = violator;
                assert_eq!(clauses.len(), refusal.place);
                assert!(clauses.is_sorted_by(|first, second| first < second));
                assert!(clauses.iter().all(|clause| buffer[*clause] == 1));
                assert_eq!(variables + 1, clauses.len(), "{input:02x?}");
            }
        }
        (found, _) => panic!("{input:02x?}: {found:?}, but {expected:?}"),
    }
}

/// Compares a walk call, and gives the checkpoint that it returns if it is not refused.
pub fn compare_walk(
    tally: &mut Tally,
    input: &[u8],
    assumed: &Assumed,
    given: &reference::Checkpoint,
    budget: u32,
) -> Option<reference::Checkpoint> {
    let context = || format!("{input:02x?} {:?} {given:02x?} {budget}", assumed.bytes);
    let expected = reference::walk(input, &assumed.reference, given, budget);
    let returned = expected.map_or(*given, |walked| walked.checkpoint);

    let mut checkpoint = Checkpoint::from_bytes(*given);
    let found = norwythai::walk(input, &assumed.list, &mut checkpoint, budget);
    assert_eq!(
        found.map(|walked| (walked.answer, walked.steps, walked.expansions)),
        expected
            .map(|walked| walked.progress)
            .map(|progress| (
                answer_of(progress.answer),
                progress.steps,
                progress.expansions
            ))
            .map_err(refusal_of),
        "{}",
        context()
    );
    assert_eq!(checkpoint.as_bytes(), &returned, "{}", context());

    let mut bytes = *given;
    let mut results = [UNWRITTEN; 6];
    assert_eq!(
        raw::walk(input, &assumed.bytes, &mut bytes, budget, &mut results),
        0
    );
    assert_eq!(bytes, returned, "{}", context());
    let expected_results = match expected {
        Ok(reference::Walked { progress, .. }) => {
            answer_results(progress.answer, progress.steps.into(), progress.expansions)
        }
        Err(refusal) => refused_results(refusal),
    };
    assert_eq!(results, expected_results, "{}", context());

    tally.walks += 1;
    let progress = expected.map(|walked| walked.progress);
    tally
        .stripped(assumed)
        .walked(input, assumed, given, progress);
    tally
        .assuming
        .walked(input, assumed, given, budget, progress);
    tally
        .unnamed
        .walked(input, assumed, given, budget, progress);
    match expected {
        Ok(reference::Walked { progress, .. }) => {
            tally.answered(progress.answer);
            tally.with_trials += usize::from(progress.expansions > 0);
            tally.order.walked(input, assumed, &returned);
            Some(returned)
        }
        Err(refusal) => {
            tally.refused(assumed, refusal);
            None
        }
    }
}

/// Calls one after the other from the start, compared with one walk of the reference that is never taken up again from a
/// checkpoint. Gives the checkpoints.
pub fn compare_chain(
    tally: &mut Tally,
    random: &mut Random,
    input: &[u8],
    assumed: &Assumed,
) -> Vec<reference::Checkpoint> {
    let mut formula = reference::decode(input).unwrap();
    let masks = formula.assume(&assumed.reference).unwrap();
    let mut walker = reference::Walker::start(&formula, masks).unwrap();
    let mut checkpoint = Checkpoint::start();
    let mut pool = vec![*checkpoint.as_bytes()];
    for _ in 0..random.between(1, 12) {
        let budget = some_budget(random);
        let expected = walker.advance(budget);
        let found = norwythai::walk(input, &assumed.list, &mut checkpoint, budget).unwrap();
        let context = || {
            format!(
                "{input:02x?} {:?} {:02x?} {budget}",
                assumed.bytes,
                pool.last()
            )
        };
        assert_eq!(
            (found.answer, found.steps, found.expansions),
            (
                answer_of(expected.answer),
                expected.steps,
                expected.expansions
            ),
            "{}",
            context()
        );
        assert_eq!(checkpoint.as_bytes(), &walker.checkpoint(), "{}", context());
        pool.push(*checkpoint.as_bytes());
        tally.chain_calls += 1;
        tally.answered(expected.answer);
        tally.with_trials += usize::from(expected.expansions > 0);
    }
    pool
}

pub fn compare_list(
    tally: &mut Tally,
    input: &[u8],
    assumed: &Assumed,
    given: &reference::Checkpoint,
    length: usize,
) -> Option<reference::Checkpoint> {
    let context = || format!("{input:02x?} {:?} {given:02x?} {length}", assumed.bytes);
    let mut expected_models = vec![UNWRITTEN; length];
    let expected = reference::list(input, &assumed.reference, given, &mut expected_models);
    let returned = expected.map_or(*given, |listed| listed.checkpoint);

    let mut checkpoint = Checkpoint::from_bytes(*given);
    let mut models = vec![UNWRITTEN; length];
    let found = norwythai::list(input, &assumed.list, &mut checkpoint, &mut models);
    assert_eq!(
        found.map(|listed| (listed.answer, listed.written)),
        expected
            .map(|listed| (answer_of(listed.answer), listed.written))
            .map_err(refusal_of),
        "{}",
        context()
    );
    assert_eq!(models, expected_models, "{}", context());
    assert_eq!(checkpoint.as_bytes(), &returned, "{}", context());

    let mut bytes = *given;
    let mut models = vec![UNWRITTEN; length];
    let mut results = [UNWRITTEN; 6];
    assert_eq!(
        raw::list(input, &assumed.bytes, &mut bytes, &mut models, &mut results),
        0
    );
    assert_eq!(models, expected_models, "{}", context());
    assert_eq!(bytes, returned, "{}", context());
    let expected_results = match expected {
        Ok(listed) => answer_results(listed.answer, listed.written as u64, 0),
        Err(refusal) => refused_results(refusal),
    };
    assert_eq!(results, expected_results, "{}", context());

    tally.lists += 1;
    match expected {
        Ok(listed) => {
            tally.answered(listed.answer);
            tally.listed += listed.written;
            tally
                .stripped(assumed)
                .listed(input, assumed, given, listed);
            tally.assuming.listed(input, assumed, given, length, listed);
            tally.unnamed.listed(input, assumed, given, length, listed);
            Some(returned)
        }
        Err(refusal) => {
            tally.refused(assumed, refusal);
            None
        }
    }
}

pub fn compare_start(tally: &mut Tally, random: &mut Random) {
    let expected = reference::start_checkpoint();
    assert_eq!(Checkpoint::start().as_bytes(), &expected);
    let mut checkpoint = [random.byte(); 50];
    assert_eq!(raw::start(&mut checkpoint), 0);
    assert_eq!(checkpoint, expected);
    tally.starts += 1;
}

/// An act between formulas and texts, by all its forms: each writes into a lent buffer but the last, which gives what it wrote.
pub struct Conversion {
    pub reference: fn(&[u8], &mut [u8]) -> Result<usize, reference::Refusal>,
    pub lent: fn(&[u8], &mut [u8]) -> Result<usize, Refusal>,
    pub raw: fn(&[u8], &mut [u8], &mut [u64]) -> u32,
    pub owned: fn(&[u8]) -> Result<Vec<u8>, Refusal>,
    /// The bytes that the buffer must have.
    pub least: usize,
    pub tally: fn(&mut Tally) -> &mut Outcomes,
}

pub const FROM_DIMACS: Conversion = Conversion {
    reference: reference::from_dimacs,
    lent: norwythai::from_dimacs_into,
    raw: raw::from_dimacs,
    owned: norwythai::from_dimacs,
    least: norwythai::FORMULA_BUFFER,
    tally: |tally| &mut tally.from_dimacs,
};

pub const TO_DIMACS: Conversion = Conversion {
    reference: reference::to_dimacs,
    lent: norwythai::to_dimacs_into,
    raw: raw::to_dimacs,
    owned: |input| norwythai::to_dimacs(input).map(String::into_bytes),
    least: norwythai::TEXT_BUFFER,
    tally: |tally| &mut tally.to_dimacs,
};

impl Conversion {
    /// Compares a call with a buffer of some length, and gives what was written if it is not refused.
    pub fn compare(&self, tally: &mut Tally, random: &mut Random, given: &[u8]) -> Option<Vec<u8>> {
        let length = some_length(random, self.least);
        let before = vec![random.byte(); length];
        let mut expected_buffer = before.clone();
        let expected = (self.reference)(given, &mut expected_buffer);

        let mut buffer = before.clone();
        let found = (self.lent)(given, &mut buffer);
        assert_eq!(found, expected.map_err(refusal_of), "{given:02x?}");
        assert!(buffer == expected_buffer, "{given:02x?}");

        let mut buffer = before;
        let mut results = [UNWRITTEN; 6];
        assert_eq!((self.raw)(given, &mut buffer, &mut results), 0);
        assert!(buffer == expected_buffer, "{given:02x?}");
        let expected_results = match expected {
            Ok(written) => [0, 0, 0, 0, written as u64, 0],
            Err(refusal) => refused_results(refusal),
        };
        assert_eq!(results, expected_results, "{given:02x?}");

        let written = expected.map(|written| expected_buffer[..written].to_vec());
        if length >= self.least {
            let expected = written.clone().map_err(refusal_of);
            assert!((self.owned)(given) == expected, "{given:02x?}");
        }
        (self.tally)(tally).count(expected);
        written.ok()
    }

    /// With results of a wrong length it returns 1 and writes nothing.
    fn compare_wrong_length(&self, given: &[u8], fill: u8, unwritten: &[u64]) {
        let mut results = unwritten.to_vec();
        let mut buffer = vec![fill; self.least];
        assert_eq!((self.raw)(given, &mut buffer, &mut results), 1);
        assert_eq!(results, unwritten);
        assert!(buffer.iter().all(|byte| *byte == fill));
    }
}

/// Writes a formula, if it is readable, and reads it again: it has the same variables and clauses, and no repeats.
pub fn compare_round_trip(tally: &mut Tally, input: &[u8]) {
    let Ok(formula) = reference::decode(input) else {
        return;
    };
    let text = norwythai::to_dimacs(input).unwrap();
    let again = norwythai::from_dimacs(text.as_bytes()).unwrap();
    let read = reference::decode(&again).unwrap();
    assert_eq!(read.variables(), formula.variables(), "{input:02x?}");
    assert_eq!(read.clauses(), formula.clauses(), "{input:02x?}");
    let names = read.clauses().iter().map(|c| c.named().count_ones());
    let length = names.map(|n| 2 * n as usize + 1).sum::<usize>() + 3;
    assert_eq!(again.len(), length, "{input:02x?}");
    assert_eq!(norwythai::to_dimacs(&again), Ok(text), "{input:02x?}");
    tally.round_trips += 1;
}

/// Judge and weigh with arrays of which one has a wrong length: they return 1 and write nothing.
fn reject_judge_and_weigh(input: &[u8], assumptions: &[u8], fill: u8, results_length: usize) {
    let mut buffer = [fill; 100];
    let mut results = vec![UNWRITTEN; results_length];
    let returned = raw::judge(input, assumptions, &mut buffer, &mut results);
    assert_eq!((returned, buffer), (1, [fill; 100]));
    assert_eq!(raw::weigh(input, assumptions, &buffer, &mut results), 1);
    assert_eq!(results, vec![UNWRITTEN; results_length]);
}

/// Walk, list and page likewise.
fn reject_walks(input: &[u8], assumptions: &[u8], given: &[u8], results_length: usize) {
    let mut checkpoint = given.to_vec();
    let mut results = vec![UNWRITTEN; results_length];
    let returned = raw::walk(input, assumptions, &mut checkpoint, 96, &mut results);
    assert_eq!((returned, &checkpoint[..]), (1, given));
    assert_eq!(results, vec![UNWRITTEN; results_length]);

    let mut models = [UNWRITTEN; 3];
    let returned = raw::list(
        input,
        assumptions,
        &mut checkpoint,
        &mut models,
        &mut results,
    );
    assert_eq!((returned, &checkpoint[..]), (1, given));
    assert_eq!(results, vec![UNWRITTEN; results_length]);
    assert_eq!(models, [UNWRITTEN; 3]);

    let mut page = [7; PAGE_SIZE];
    let returned = raw::page(
        input,
        assumptions,
        &mut checkpoint,
        1,
        &mut page,
        &mut results,
    );
    assert_eq!((returned, &checkpoint[..]), (1, given));
    assert_eq!(results, vec![UNWRITTEN; results_length]);
    assert_eq!(page, [7; PAGE_SIZE]);
}

/// The C functions with arrays of wrong lengths: they return 1 and write nothing.
pub fn compare_wrong_lengths(tally: &mut Tally, random: &mut Random, input: &[u8]) {
    let fill = random.byte();
    let good = reference::start_checkpoint();
    let assumptions = Assumed::some(random, input).bytes;
    for results_length in [0, 1, 5, 7, 12, random.below(6)] {
        let unwritten = vec![UNWRITTEN; results_length];
        let mut results = unwritten.clone();
        assert_eq!(raw::check(input, 0, &mut results), 1);
        assert_eq!(raw::deficiency(input, &mut results), 1);
        assert_eq!(results, unwritten);
        reject_judge_and_weigh(input, &assumptions, fill, results_length);
        reject_walks(input, &assumptions, &good, results_length);
        FROM_DIMACS.compare_wrong_length(b"p cnf 2 1\n1 0\n", fill, &unwritten);
        TO_DIMACS.compare_wrong_length(input, fill, &unwritten);
        tally.wrong_lengths += 9;
    }
    for checkpoint_length in [0, 1, 49, 51, 100, random.below(50)] {
        let given = vec![fill & 3; checkpoint_length];
        let mut checkpoint = given.clone();
        assert_eq!(raw::start(&mut checkpoint), 1);
        assert_eq!(checkpoint, given);
        reject_walks(input, &assumptions, &given, 6);
        tally.wrong_lengths += 4;
    }
    // An assumption without its value, behind good or bad ones.
    for odd in [&assumptions[..], &[], &[1, 1], &[0; 100]] {
        let odd = [odd, &[random.below(3) as u8]].concat();
        reject_judge_and_weigh(input, &odd, fill, 6);
        reject_walks(input, &odd, &good, 6);
        tally.odd_lengths += 5;
    }
}
