//! The times of weigh, and their rows of the table.

use crate::families::{fullest_case, unmatched, unmatched_half_assumed, Case};
use crate::measure::{same, times, Row, Times};
use std::hint::black_box;

/// Judge's buffer, with a mark for each clause.
type Marks = [u8; 96];

fn weigh_times(case: &Case, marks: &Marks) -> Times {
    times(|lister| {
        let (input, assumptions) = black_box((&case.input, &case.assumptions));
        let weight = lister.weigh(input, assumptions, black_box(marks));
        assert!(black_box(weight).is_ok());
    })
}

/// Requires all three to count so many marked clauses and variables.
fn require_weight(case: &Case, marks: &Marks, expected: (usize, usize)) {
    let weight = same("weigh", &case.name, |lister| {
        lister.weigh(&case.input, &case.assumptions, marks)
    });
    assert_eq!(weight, Ok(expected), "{}", case.name);
}

/// The marks that judge leaves where a formula is not accepted, by all three: of clauses that name one variable fewer than they are.
fn same_marks(case: &Case) -> Marks {
    let (judged, marks) = same("judge", &case.name, |lister| {
        let mut buffer = [0; 96];
        let judged = lister.judge(&case.input, &case.assumptions, &mut buffer);
        (judged, buffer)
    });
    let (number, place) = judged.expect_err("a formula that is not accepted");
    assert_eq!(number, 10, "{}", case.name);
    require_weight(case, &marks, (place, place - 1));
    marks
}

fn weigh_row(family: String, times: Vec<Times>) -> Row {
    Row {
        family,
        act: "weigh".to_string(),
        times,
    }
}

/// The row of judge's marks on these formulas.
fn unmatched_row((title, cases): (String, Vec<Case>)) -> Row {
    let times = |case: &Case| weigh_times(case, &same_marks(case));
    weigh_row(title, cases.iter().map(times).collect())
}

/// The row of the fullest input, with all clauses marked.
fn fullest_row() -> Row {
    let case = fullest_case();
    let marks = [1; 96];
    require_weight(&case, &marks, (96, 48));
    let times = vec![weigh_times(&case, &marks)];
    weigh_row(case.name, times)
}

/// The rows of formulas that are not accepted, without assumptions and with half of their variables assumed, and of the fullest input.
pub(crate) fn weigh_rows() -> [Row; 3] {
    [
        unmatched_row(unmatched()),
        unmatched_row(unmatched_half_assumed()),
        fullest_row(),
    ]
}
