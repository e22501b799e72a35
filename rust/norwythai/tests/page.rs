//! Pages for the notice board.

use norwythai::{
    Answer, Assumption, Checkpoint, Formula, Refusal, LINE_SIZE, MAX_SERIAL, PAGE_LINES, PAGE_SIZE,
};
use norwythai_samples::encode;

/// (1, 2) and (not 1, not 2)
const EXAMPLE: &[u8] = &[1, 2, 2, 1, 2, 2, 4, 3, 1, 3, 2, 4, 5];

/// (1, 2, 3), (not 1, 4, 5, 6) and (not 1, 2, 3, not 4, 5), over six variables: just as many models as a page has lines.
const FIFTY: &[u8] = &[
    1, 6, 2, 1, 2, 2, 2, 3, 4, 3, 1, 2, 4, 2, 5, 2, 6, 4, 3, 1, 2, 2, 2, 3, 3, 4, 2, 5, 4, 5,
];

/// 546 models of twelve variables.
const VELODROME: &[u8] = include_bytes!("../../../examples/velodrome.bin");

/// What the lent bytes are before a call, and how many stand behind the page.
const FILL: u8 = 0xa5;
const BEHIND: usize = 5;

/// The lines with a model of the next page, without their line feeds. All else is as it must be.
fn next_lines(
    input: &[u8],
    assumptions: &[Assumption],
    checkpoint: &mut Checkpoint,
    serial: u32,
) -> Vec<String> {
    let mut page = [FILL; PAGE_SIZE + BEHIND];
    let formula = Formula::from(input);
    let paged = formula
        .page(assumptions, checkpoint, serial, &mut page)
        .unwrap();
    assert_eq!(page[PAGE_SIZE..], [FILL; BEHIND]);
    let text = std::str::from_utf8(&page[..PAGE_SIZE]).unwrap();
    assert!(text
        .split_inclusive('\n')
        .all(|line| line.len() == LINE_SIZE));
    let mut lines: Vec<String> = text.lines().map(String::from).collect();
    let blank = " ".repeat(LINE_SIZE - 1);
    let without = lines.split_off(paged.lines);
    assert_eq!(without, vec![blank; PAGE_LINES - paged.lines]);
    assert_eq!(paged.is_last(), lines.len() < PAGE_LINES);
    assert_eq!(paged.is_last(), checkpoint.as_bytes()[0] == 4);
    lines
}

/// A line as it must be.
fn line(serial: u32, columns: &str, steps: u32) -> String {
    format!("{serial:>6} {columns:<48} {steps:>3}")
}

/// The largest number of variables, of which some is true: the last is assigned first.
fn some_true() -> Vec<u8> {
    encode(48, &[(1..=48).collect()])
}

#[test]
fn the_limits_are_those_of_the_request() {
    assert_eq!((PAGE_LINES, LINE_SIZE, PAGE_SIZE), (50, 60, 3_000));
    assert_eq!(MAX_SERIAL, 999_950);
}

#[test]
fn the_example_has_two_lines() {
    let mut checkpoint = Checkpoint::start();
    let lines = next_lines(EXAMPLE, &[], &mut checkpoint, 1);
    assert_eq!(lines, [line(1, "01", 2), line(2, "10", 4)]);
    assert!(next_lines(EXAMPLE, &[], &mut checkpoint, 3).is_empty());
}

#[test]
fn a_line_has_a_column_for_each_variable() {
    let first = [Assumption::positive(1)];
    let mut checkpoint = Checkpoint::start();
    // Nothing is to be assigned: no steps.
    let lines = next_lines(&[1, 1, 5], &first, &mut checkpoint, 7);
    assert_eq!(lines, [line(7, "1", 0)]);

    // An assumed variable has the digit of its value, and one that is neither assumed nor named a dash. (1, 2), of five variables.
    let mut checkpoint = Checkpoint::start();
    let assumed = [Assumption::negative(4), Assumption::positive(1)];
    let input = encode(5, &[vec![1, 2]]);
    let lines = next_lines(&input, &assumed, &mut checkpoint, 9);
    assert_eq!(lines, [line(9, "10-0-", 1), line(10, "11-0-", 2)]);

    let mut checkpoint = Checkpoint::start();
    let lines = next_lines(&some_true(), &[], &mut checkpoint, 99_999);
    assert_eq!(
        lines[0],
        line(99_999, &("1".to_string() + &"0".repeat(47)), 48)
    );
    assert_eq!(
        lines[1],
        line(100_000, &("01".to_string() + &"0".repeat(46)), 4)
    );
}

#[test]
fn pages_go_on_to_the_end() {
    let mut checkpoint = Checkpoint::start();
    let mut lines = Vec::new();
    let mut pages = Vec::new();
    while checkpoint.as_bytes()[0] != 4 {
        let serial = lines.len() as u32 + 1;
        let page = next_lines(VELODROME, &[], &mut checkpoint, serial);
        pages.push(page.len());
        lines.extend(page);
    }
    assert_eq!(pages[..10], [50; 10]);
    assert_eq!(pages[10..], [46]);

    let formula = Formula::from(VELODROME);
    let mut checkpoint = Checkpoint::start();
    for (serial, found) in (1..).zip(lines) {
        let walked = formula.walk(&[], &mut checkpoint, 96).unwrap();
        let Answer::Model(model) = walked.answer else {
            panic!("{walked:?}");
        };
        let columns = model.columns(&formula, &[]).to_string();
        assert_eq!(found, line(serial, &columns, walked.steps));
    }
    let walked = formula.walk(&[], &mut checkpoint, 96).unwrap();
    assert_eq!(walked.answer, Answer::Ended);
}

#[test]
fn as_many_models_as_lines_fill_a_page_and_leave_a_blank_one() {
    let mut checkpoint = Checkpoint::start();
    let lines = next_lines(FIFTY, &[], &mut checkpoint, MAX_SERIAL);
    assert_eq!(lines.len(), PAGE_LINES);
    assert!(lines[0].starts_with("999950 ") && lines[49].starts_with("999999 "));
    assert_eq!(checkpoint.as_bytes()[..2], [1, 6]);

    // The next serial is too high, which changes nothing; the walk goes on under any other.
    let behind = checkpoint;
    let mut page = [FILL; PAGE_SIZE];
    let refused = Formula::from(FIFTY).page(&[], &mut checkpoint, 1_000_000, &mut page);
    assert_eq!(
        (refused, page),
        (Err(Refusal::BadSerial), [FILL; PAGE_SIZE])
    );
    assert_eq!(checkpoint, behind);
    for serial in [1, MAX_SERIAL] {
        assert!(next_lines(FIFTY, &[], &mut checkpoint, serial).is_empty());
    }
}

#[test]
fn steps_are_those_since_the_checkpoint() {
    let formula = Formula::from(some_true());
    let mut checkpoint = Checkpoint::start();
    let walked = formula.walk(&[], &mut checkpoint, 40).unwrap();
    assert_eq!(walked.answer, Answer::Spent);
    let lines = next_lines(formula.as_bytes(), &[], &mut checkpoint, 1);
    assert_eq!(lines[0], line(1, &("1".to_string() + &"0".repeat(47)), 8));
}

/// The input, the assumptions, the serial, the page's length, and the refusal.
type Refused<'a> = (&'a [u8], &'a [Assumption], u32, usize, Refusal);

#[test]
fn a_refusal_leaves_everything_as_it_was() {
    let given = Checkpoint::from_bytes([9; 50]);
    let twice = [Assumption::positive(2); 2];
    let short = Refusal::ShortPage;
    let bad = Refusal::BadSerial;
    let cases: [Refused; 12] = [
        (&[], &twice, 0, 0, short),
        (&[], &twice, 0, 2_999, short),
        (EXAMPLE, &[], 1, 2_999, short),
        (&[], &twice, 0, 3_000, bad),
        (&[], &twice, 999_951, 3_000, bad),
        (EXAMPLE, &[], u32::MAX, 3_001, bad),
        (&[], &twice, 999_950, 3_000, Refusal::Truncated { place: 0 }),
        (
            &[1, 49, 5],
            &twice,
            1,
            3_000,
            Refusal::BadVariableCount { place: 0 },
        ),
        (
            EXAMPLE,
            &twice,
            1,
            3_000,
            Refusal::BadAssumption { index: 1 },
        ),
        (
            &[1, 1, 4, 5],
            &twice,
            1,
            3_000,
            Refusal::BadAssumption { index: 0 },
        ),
        (
            &[1, 1, 4, 5],
            &[],
            1,
            3_000,
            Refusal::Unmatched { clauses: 1 },
        ),
        (EXAMPLE, &twice[..1], 1, 3_005, Refusal::ForeignCheckpoint),
    ];
    for (input, assumptions, serial, length, refusal) in cases {
        let mut checkpoint = given;
        let mut page = vec![FILL; length];
        let refused = norwythai::page(input, assumptions, &mut checkpoint, serial, &mut page);
        assert_eq!(refused, Err(refusal), "{input:?}");
        assert_eq!((checkpoint, page), (given, vec![FILL; length]), "{input:?}");
    }
    assert_eq!(
        short.to_string(),
        "the page is too short: 50 lines of 60 bytes take 3000"
    );
    assert_eq!(
        bad.to_string(),
        "the first serial of the page is not 1 to 999950"
    );
}
