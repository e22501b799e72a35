//! Variables that no clause names: a walk does not assign them, they are false in its models unless they are assumed to be true, and a dash
//! stands in their columns unless they are assumed.

mod common;

use common::{assuming, checkpoint, is_accepted};
use norwythai_reference::{
    check, decode, judge, page, print, start_checkpoint, walk, Answer, Assumption, Refusal,
    LINE_SIZE, LIST_BUDGET, PAGE_SIZE,
};
use norwythai_samples::{
    encode, listed_models, named_variables, some_accepted_formula, some_assumptions, some_input,
    trail_in, with_unnamed, Random,
};
use std::collections::BTreeSet;

/// (1, not 3), of four variables
const PARTLY: &[u8] = &[1, 4, 2, 1, 3, 3, 4, 5];

/// (1, 2), of three variables
const FIRST_TWO: &[u8] = &[1, 3, 2, 1, 2, 2, 4, 5];

const FOREIGN: Refusal = Refusal {
    number: 11,
    place: 0,
};

/// The whole walk, by calls of an ample budget: each model with its steps, and the steps to the end.
fn listing(input: &[u8], assumptions: &[Assumption]) -> (Vec<(u64, u32)>, u32) {
    let mut models = Vec::new();
    let mut given = start_checkpoint();
    loop {
        let walked = walk(input, assumptions, &given, LIST_BUDGET).unwrap();
        given = walked.checkpoint;
        match walked.progress.answer {
            Answer::Model(model) => models.push((model, walked.progress.steps)),
            Answer::Ended => return (models, walked.progress.steps),
            Answer::Spent => panic!("an ample budget is spent"),
        }
    }
}

/// The columns and the steps on the lines of the first page.
fn lines(input: &[u8], assumptions: &[Assumption]) -> Vec<(String, u32)> {
    let mut lent = [0; PAGE_SIZE];
    let paged = page(input, assumptions, &start_checkpoint(), 1, &mut lent).unwrap();
    let text = |bytes: &[u8]| String::from_utf8(bytes.to_vec()).unwrap();
    lent.chunks(LINE_SIZE)
        .take(paged.lines)
        .map(|line| {
            let steps = text(&line[56..59]).trim().parse().unwrap();
            (text(&line[7..55]).trim_end().to_string(), steps)
        })
        .collect()
}

#[test]
fn they_have_a_dash_in_print() {
    assert_eq!(print(&[1, 1, 5]), "switches 1 rules 0\n- 0 0\nend 0 0\n");
    assert_eq!(print(&[1, 2, 5]), "switches 2 rules 0\n-- 0 0\nend 0 0\n");
    assert_eq!(
        print(PARTLY),
        "switches 4 rules 1\n0-0- 2 0\n1-0- 2 0\n1-1- 4 0\nend 2 0\n"
    );
    let last = encode(48, &[vec![48]]);
    let dashes = "-".repeat(47);
    assert_eq!(
        print(&last),
        format!("switches 48 rules 1\n{dashes}1 1 0\nend 1 0\n")
    );
}

#[test]
fn assumed_ones_have_their_digit() {
    let column = |text: &str, steps| (text.to_string(), steps);
    assert_eq!(lines(&[1, 3, 5], &[]), [column("---", 0)]);
    let assumed = assuming(&[2, -3]);
    assert_eq!(lines(&[1, 3, 5], &assumed), [column("-10", 0)]);
    assert_eq!(listing(&[1, 3, 5], &assumed), (vec![(0b010, 0)], 0));
    assert_eq!(
        lines(PARTLY, &assuming(&[4])),
        [column("0-01", 2), column("1-01", 2), column("1-11", 4)]
    );
    assert_eq!(lines(PARTLY, &assuming(&[3, -2])), [column("101-", 1)]);
}

#[test]
fn a_satisfied_clause_names_its_variables() {
    let first = assuming(&[1]);
    assert_eq!(
        lines(FIRST_TWO, &first),
        [("10-".to_string(), 1), ("11-".to_string(), 2)]
    );
    assert_eq!(
        listing(FIRST_TWO, &first),
        (vec![(0b001, 1), (0b011, 2)], 1)
    );
}

#[test]
fn an_empty_clause_names_nothing() {
    let named = |clauses: &[Vec<i8>]| decode(&encode(3, clauses)).unwrap().named();
    assert_eq!(named(&[]), 0);
    assert_eq!(named(&[vec![]]), 0);
    assert_eq!(named(&[vec![], vec![-3]]), 0b100);
}

#[test]
fn check_says_yes_to_models_that_are_not_listed() {
    assert_eq!(listing(&[1, 2, 5], &[]), (vec![(0, 0)], 0));
    for assignment in 0..4 {
        assert_eq!(check(&[1, 2, 5], assignment), Ok(true));
    }
    let listed = listing(PARTLY, &[]).0;
    for assignment in [0b1000, 0b0010, 0b1011, 0b1111] {
        assert_eq!(check(PARTLY, assignment), Ok(true));
        assert!(listed.iter().all(|(model, _)| *model != assignment));
    }
}

#[test]
fn a_trail_with_one_is_foreign() {
    // (1), of two variables. With variable 2 assigned behind it, as walks once did.
    let input = encode(2, &[vec![1]]);
    let once: [&[u8]; 7] = [
        &[1, 2, 129, 2],
        &[1, 2, 129, 130],
        &[2, 1, 129],
        &[3, 1, 129],
        &[1, 1, 2],
        &[1, 1, 130],
        &[1, 2, 2, 129],
    ];
    for budget in [0, 1, 96] {
        for bytes in once {
            let walked = walk(&input, &[], &checkpoint(bytes), budget);
            assert_eq!(walked, Err(FOREIGN), "{bytes:?}");
        }
        let no_clause = walk(&[1, 2, 5], &[], &checkpoint(&[1, 1, 1]), budget);
        assert_eq!(no_clause, Err(FOREIGN));
    }
    let walked = walk(&input, &[], &checkpoint(&[1, 1, 129]), 96).unwrap();
    assert_eq!(walked.progress.answer, Answer::Ended);
}

#[test]
fn mode_1_at_length_0_is_behind_a_model_without_steps() {
    let given = checkpoint(&[1, 0]);
    let nothing: [(&[u8], Vec<Assumption>); 4] = [
        (&[1, 2, 5], Vec::new()),
        (&[1, 2, 5], assuming(&[2])),
        (PARTLY, assuming(&[-3, 1])),
        (FIRST_TWO, assuming(&[2, 1])),
    ];
    let something: [(&[u8], Vec<Assumption>); 4] = [
        (PARTLY, Vec::new()),
        (PARTLY, assuming(&[2, 4])),
        (FIRST_TWO, assuming(&[1])),
        (FIRST_TWO, assuming(&[2, 3])),
    ];
    for budget in [0, 1, 96, u32::MAX] {
        for (input, assumptions) in &nothing {
            let first = walk(input, assumptions, &start_checkpoint(), budget).unwrap();
            assert!(matches!(first.progress.answer, Answer::Model(_)));
            assert_eq!((first.progress.steps, first.checkpoint), (0, given));
            let walked = walk(input, assumptions, &given, budget).unwrap();
            assert_eq!(walked.progress.answer, Answer::Ended);
            assert_eq!(walked.progress.steps, 0);
            assert_eq!(walked.checkpoint, checkpoint(&[4, 0]));
        }
        for (input, assumptions) in &something {
            let walked = walk(input, assumptions, &given, budget);
            assert_eq!(walked, Err(FOREIGN), "{input:?} {assumptions:?}");
        }
    }
}

#[test]
fn about_one_input_in_three_has_unnamed_variables() {
    // The inputs are generated as those of the vectors are, of which rust/README.md says this.
    let mut random = Random::new(12);
    let (mut readable, mut unnamed) = (0, 0);
    while readable < 5_000 {
        let input = some_input(&mut random, is_accepted);
        if decode(&input).is_ok() {
            readable += 1;
            let named = named_variables(&input).count_ones();
            unnamed += usize::from(named < u32::from(input[1]));
        }
    }
    let percent = 100 * unnamed / readable;
    assert!((30..=38).contains(&percent), "{percent} of a hundred");
}

/// An accepted formula of few variables, some of which no clause names, and assumptions under which it is accepted, often none.
fn some_with_unnamed(random: &mut Random) -> (Vec<u8>, Vec<(u8, bool)>, Vec<Assumption>) {
    let input = loop {
        let input = some_accepted_formula(random, is_accepted);
        let named = named_variables(&input).count_ones();
        if input[1] <= 10 && named < u32::from(input[1]) {
            break input;
        }
    };
    let pairs = some_assumptions(random, &input);
    let assumptions: Vec<Assumption> = pairs.iter().map(|pair| (*pair).into()).collect();
    if judge(&input, &assumptions, &mut [0; 96]).is_ok() {
        (input, pairs, assumptions)
    } else {
        (input, Vec::new(), Vec::new())
    }
}

/// The bits of the assumed variables.
fn assumed_variables(pairs: &[(u8, bool)]) -> u64 {
    pairs.iter().fold(0, |mask, (v, _)| mask | 1 << (v - 1))
}

#[test]
fn each_setting_of_the_named_variables_is_listed_once() {
    let mut random = Random::new(10);
    let (mut assuming, mut unnamed_assumed, mut nothing, mut models) = (0, 0, 0, 0);
    for _ in 0..1_500 {
        let (input, pairs, assumptions) = some_with_unnamed(&mut random);
        let named = named_variables(&input);
        let assumed = assumed_variables(&pairs);
        let (listed, end) = listing(&input, &assumptions);
        let mut found: Vec<u64> = listed.iter().map(|(model, _)| *model).collect();
        found.sort();
        let is_model = |assignment| check(&input, assignment) == Ok(true);
        let expected = listed_models(&input, &pairs, is_model);
        assert_eq!(found, expected, "{input:02x?} {pairs:?}");

        // Of all models that keep the assumptions, whatever the unnamed variables are.
        let values = pairs.iter().filter(|(_, value)| *value);
        let are_true = values.fold(0, |mask, (v, _)| mask | 1 << (v - 1));
        let settings: BTreeSet<u64> = (0..1 << input[1])
            .filter(|a| a & assumed == are_true && is_model(*a))
            .map(|a| a & named)
            .collect();
        let listed_settings: BTreeSet<u64> = found.iter().map(|model| model & named).collect();
        assert_eq!(listed_settings.len(), found.len(), "{input:02x?} {pairs:?}");
        assert_eq!(listed_settings, settings, "{input:02x?} {pairs:?}");

        let to_assign = (named & !assumed).count_ones();
        assert_eq!((listed[0].1, end), (to_assign, to_assign));
        assuming += usize::from(!pairs.is_empty());
        unnamed_assumed += usize::from(assumed & !named != 0);
        nothing += usize::from(to_assign == 0);
        models += found.len();
    }
    println!("{models} models, {assuming} formulas under assumptions, {unnamed_assumed} of unnamed variables");
    println!("{nothing} with nothing to assign");
    assert!(models > 5_000 && assuming > 300 && unnamed_assumed > 200 && nothing > 100);
}

#[test]
fn no_checkpoint_of_a_walk_has_one() {
    let mut random = Random::new(11);
    let mut checkpoints = 0;
    for _ in 0..200 {
        let (input, pairs, assumptions) = some_with_unnamed(&mut random);
        let to_assign = named_variables(&input) & !assumed_variables(&pairs);
        let mut given = start_checkpoint();
        // Calls of budget 1 stop wherever a call can.
        while given[0] != 4 {
            for byte in trail_in(&given) {
                assert!(to_assign >> ((byte & 127) - 1) & 1 == 1, "{input:02x?}");
            }
            let longer = with_unnamed(&mut random, &input, &[given]).unwrap();
            let walked = walk(&input, &assumptions, &longer, 1);
            assert_eq!(walked, Err(FOREIGN), "{input:02x?} {pairs:?} {longer:?}");
            checkpoints += 1;
            given = walk(&input, &assumptions, &given, 1).unwrap().checkpoint;
        }
    }
    println!("{checkpoints} checkpoints");
    assert!(checkpoints > 5_000);
}
