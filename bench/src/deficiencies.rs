//! The times of deficiency, and their rows of the table. The plain reference matches from the variables' side: it has no search that fails
//! for each clause that is left over, as the other two have.

use crate::families::{fullest_case, unmatched, Case, FAMILIES};
use crate::measure::{same, times, Row, Times};
use std::hint::black_box;

fn deficiency_times(case: &Case) -> Times {
    times(|lister| {
        let found = lister.deficiency(black_box(&case.input));
        assert!(black_box(found).is_ok());
    })
}

/// The deficiency, which all three give.
fn same_deficiency(case: &Case) -> usize {
    let found = same("deficiency", &case.name, |lister| {
        lister.deficiency(&case.input)
    });
    found.expect("a formula")
}

/// The row of these formulas, once their deficiencies are as expected.
fn deficiency_row(family: &str, cases: &[Case], is_expected: fn(usize) -> bool) -> Row {
    let times = |case: &Case| {
        let found = same_deficiency(case);
        assert!(is_expected(found), "{}: {found}", case.name);
        deficiency_times(case)
    };
    Row {
        family: family.to_string(),
        act: "deficiency".to_string(),
        times: cases.iter().map(times).collect(),
    }
}

/// The rows of a family of matched formulas, of formulas that are not accepted, and of the fullest input.
pub(crate) fn deficiency_rows() -> [Row; 3] {
    let matched = &FAMILIES[0];
    let (title, cases) = unmatched();
    let fullest = [fullest_case()];
    [
        deficiency_row(matched.title, &matched.cases(), |found| found == 0),
        deficiency_row(&title, &cases, |found| found > 0),
        deficiency_row(&fullest[0].name, &fullest, |found| found == 48),
    ]
}
