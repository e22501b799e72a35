//! The times of pages, and their rows of the table.

use crate::families::Case;
use crate::listers::{Bytes, Lister};
use crate::measure::{deep_checkpoint, same, times, Row, Times, START};
use norwythai::PAGE_SIZE;
use std::hint::black_box;

/// A page from a checkpoint. The page is not cleared before.
pub fn page(lister: &dyn Lister, case: &Case, from: &Bytes, page: &mut [u8]) {
    let mut checkpoint = *black_box(from);
    let (input, assumptions) = black_box((&case.input, &case.assumptions));
    let lines = lister.page(input, assumptions, &mut checkpoint, 1, page);
    assert!(black_box(lines).is_ok());
    black_box((&checkpoint, &*page));
}

pub fn page_times(case: &Case, from: &Bytes) -> Times {
    let mut lent = [0; PAGE_SIZE];
    times(|lister| page(lister, case, from, &mut lent))
}

fn require_same_page(case: &Case, from: &Bytes) {
    same("page", &case.name, |lister| {
        let mut page = vec![0; PAGE_SIZE];
        let mut checkpoint = *from;
        let lines = lister.page(
            &case.input,
            &case.assumptions,
            &mut checkpoint,
            1,
            &mut page,
        );
        (lines, checkpoint, page)
    })
    .0
    .expect("a checkpoint of the walk");
}

/// The rows of a page from the start, and of one from deep in the walk.
pub(crate) fn page_rows(family: &str, cases: &[Case]) -> [Row; 2] {
    let row = |act: &str, from: fn(&Case) -> Bytes| {
        let times = |case: &Case| {
            let from = from(case);
            require_same_page(case, &from);
            page_times(case, &from)
        };
        Row {
            family: family.to_string(),
            act: act.to_string(),
            times: cases.iter().map(times).collect(),
        }
    };
    [row("page", |_| START), row("page, deep", deep_checkpoint)]
}
