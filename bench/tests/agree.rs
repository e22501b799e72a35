//! The tuned baseline and the plain reference agree: on lists, on pages, on walks with their counts, on judge, and on deficiency.

use norwythai_bench::families::{fullest_input, unmatched, unmatched_half_assumed, Case, FAMILIES};
use norwythai_bench::listers::{Assumptions, Bytes, Lister, Plain, Refused, Tuned};
use norwythai_bench::measure::{BUDGET, START};
use norwythai_reference::{PAGE_LINES, PAGE_SIZE};
use norwythai_samples::{encode, some_crowded_input, stripped, with_unnamed, Random, Stripping};

/// Models of a list, pages in a row, and walk calls from the start and from the list's end.
const MODELS: usize = 3_000;
const PAGES: usize = 3;
const CALLS: usize = 40;

/// The checkpoint after a list that both give.
fn same_list(case: &Case, models: usize) -> Bytes {
    let list = |lister: &dyn Lister| {
        let mut written = vec![0; models];
        let mut checkpoint = START;
        let count = lister.list(
            &case.input,
            &case.assumptions,
            &mut checkpoint,
            &mut written,
        );
        written.truncate(count.expect("an accepted formula"));
        (written, checkpoint)
    };
    let expected = list(&Plain);
    assert!(list(&Tuned) == expected, "{}", case.name);
    expected.1
}

/// Walk calls of growing budgets, one after the other, that both answer in the same way.
fn same_walks(case: &Case, from: Bytes) {
    let (mut plain, mut tuned) = (from, from);
    for call in 0..CALLS as u32 {
        let budget = if call % 2 == 0 { BUDGET } else { call };
        let walk = |lister: &dyn Lister, checkpoint| {
            lister.walk(&case.input, &case.assumptions, checkpoint, budget)
        };
        let expected = walk(&Plain, &mut plain);
        assert_eq!(walk(&Tuned, &mut tuned), expected, "{}", case.name);
        assert_eq!(tuned, plain, "{}", case.name);
    }
}

/// Pages one after the other that both write in the same way.
fn same_pages(case: &Case, from: Bytes) {
    let (mut plain, mut tuned) = (from, from);
    for serial in (1..).step_by(PAGE_LINES).take(PAGES) {
        let page = |lister: &dyn Lister, checkpoint| {
            let mut page = vec![7; PAGE_SIZE + 5];
            let lines = lister.page(
                &case.input,
                &case.assumptions,
                checkpoint,
                serial,
                &mut page,
            );
            (lines, page)
        };
        let expected = page(&Plain, &mut plain);
        assert!(page(&Tuned, &mut tuned) == expected, "{}", case.name);
        assert_eq!(tuned, plain, "{}", case.name);
    }
}

/// Judge's answer and its buffer, which both give.
fn same_judge(
    input: &[u8],
    assumptions: &Assumptions,
) -> (Result<(usize, usize), Refused>, [u8; 96]) {
    let judge = |lister: &dyn Lister| {
        let mut buffer = [0; 96];
        let judged = lister.judge(input, assumptions, &mut buffer);
        (judged, buffer)
    };
    let judged = judge(&Plain);
    assert_eq!(judge(&Tuned), judged, "{input:02x?}");
    judged
}

/// The deficiency, which both give.
fn same_deficiency(input: &[u8]) -> Result<usize, Refused> {
    let found = Plain.deficiency(input);
    assert_eq!(Tuned.deficiency(input), found, "{input:02x?}");
    found
}

fn same_acts(case: &Case) {
    let after = same_list(case, MODELS);
    same_walks(case, START);
    same_walks(case, after);
    same_pages(case, START);
    same_pages(case, after);
    let (judged, _) = same_judge(&case.input, &case.assumptions);
    assert_eq!(judged, Ok((case.variables, case.clauses)), "{}", case.name);
    // A checkpoint that the walk never has is refused by both.
    let mut foreign = after;
    foreign[2] ^= 64;
    same_walks(case, foreign);
    same_pages(case, foreign);
}

#[test]
fn on_the_families() {
    for family in FAMILIES {
        family.cases().iter().for_each(same_acts);
    }
}

#[test]
fn with_half_of_the_variables_assumed() {
    for family in FAMILIES {
        family.half_assumed().1.iter().for_each(same_acts);
    }
}

#[test]
fn on_smaller_formulas_of_each_family() {
    for family in FAMILIES {
        for variables in 12..48 {
            for case in family.generated(variables, 5) {
                same_acts(&case);
                same_acts(&case.half_assumed());
                same_acts(&all_assumed(case));
            }
        }
    }
}

#[test]
fn with_unnamed_variables() {
    let mut random = Random::new(10);
    for family in FAMILIES {
        for variables in (12..48).step_by(5) {
            for case in family.generated(variables, 2) {
                let mut input = case.input;
                input[1] = 48;
                let mut case = Case::new(case.name, input);
                assert!(case.left_to_assign() <= variables);
                same_acts(&case);
                same_acts(&case.half_assumed());
                let foreign = with_unnamed(&mut random, &case.input, &[START]);
                refused_alike(&case, foreign.expect("48 is unnamed"));
                case.assumptions.push(48, true);
                same_acts(&case);
            }
        }
    }
    // Nothing is to be assigned.
    same_acts(&Case::new("no clause".to_string(), vec![1, 48, 5]));
}

/// A walk call from a checkpoint that the walk never has.
fn refused_alike(case: &Case, foreign: Bytes) {
    for lister in [&Plain as &dyn Lister, &Tuned] {
        let walked = lister.walk(&case.input, &case.assumptions, &mut foreign.clone(), BUDGET);
        assert_eq!(walked, Err((11, 0)), "{}", case.name);
    }
}

/// The formula with all variables assumed, as its first model has them.
fn all_assumed(mut case: Case) -> Case {
    let mut models = [0];
    let listed = Plain.list(
        &case.input,
        &case.assumptions,
        &mut START.clone(),
        &mut models,
    );
    assert_eq!(listed, Ok(1), "{}", case.name);
    for variable in 0..case.variables {
        let value = models[0] >> variable & 1 == 1;
        case.assumptions.push(variable as u8 + 1, value);
    }
    case
}

#[test]
fn on_a_bad_assumption() {
    for variable in [0, 1, 49] {
        let mut assumptions = Assumptions::default();
        assumptions.push(1, true);
        assumptions.push(variable, true);
        let (judged, _) = same_judge(&[1, 48, 5], &assumptions);
        assert_eq!(judged, Err((16, 1)));
    }
}

#[test]
fn on_the_fullest_input() {
    let judged = same_judge(&fullest_input(), &Assumptions::default());
    assert_eq!(judged, (Ok((48, 96)), [129; 96]));
    assert_eq!(same_deficiency(&fullest_input()), Ok(48));
}

#[test]
fn on_deficiencies() {
    for case in FAMILIES.iter().flat_map(|family| family.cases()) {
        let found = same_deficiency(&case.input).expect("a formula");
        // The families of 96 clauses strip down; all others are matched.
        assert_eq!(found > 0, case.clauses > 48, "{}", case.name);
    }
    for case in unmatched().1 {
        let found = same_deficiency(&case.input).expect("a formula");
        assert!(found >= 48, "{}", case.name);
    }
    let mut random = Random::new(2);
    let (mut matched, mut above, mut refused) = (0, 0, 0);
    for _ in 0..3_000 {
        match same_deficiency(&some_crowded_input(&mut random)) {
            Ok(0) => matched += 1,
            Ok(_) => above += 1,
            Err(_) => refused += 1,
        }
    }
    println!("{matched} matched, {above} above 0, {refused} refused");
    assert!(matched > 200 && above > 1_000 && refused > 100);
}

#[test]
fn on_unmatched_formulas() {
    let mut random = Random::new(1);
    for more in 1..30 {
        let stripping = Stripping {
            dropped: 20,
            in_rings: 40,
            more,
        };
        let input = encode(48, &stripped(&mut random, 48, stripping));
        require_violator(&input, &Assumptions::default());
    }
    for case in unmatched().1.iter().chain(&unmatched_half_assumed().1) {
        require_violator(&case.input, &case.assumptions);
    }
}

/// Both mark the same clauses, which name one variable fewer than they are, as the plain one counts them: the tuned one has no other weigh.
fn require_violator(input: &[u8], assumptions: &Assumptions) {
    let (judged, buffer) = same_judge(input, assumptions);
    let marked = buffer.iter().filter(|byte| **byte == 1).count();
    assert_eq!(judged, Err((10, marked)));
    let weight = Plain.weigh(input, assumptions, &buffer);
    assert_eq!(weight, Ok((marked, marked - 1)));
}
