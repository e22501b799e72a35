//! The act page.

use norwythai_reference::{
    judge, page, start_checkpoint, walk, Answer, Assumption, Checkpoint, Paged, Refusal, LINE_SIZE,
    LIST_BUDGET, MAX_SERIAL, PAGE_LINES, PAGE_SIZE,
};
use norwythai_samples::{
    encode, named_variables, some_assumptions, some_checkpoint, some_input, some_length,
    some_serial, Random,
};

/// The specification's example, S12.3: clauses (1, 2) and (not 1, not 2).
const EXAMPLE: &[u8] = &[1, 2, 2, 1, 2, 2, 4, 3, 1, 3, 2, 4, 5];

/// (1, 2, 3), (not 1, 4, 5, 6) and (not 1, 2, 3, not 4, 5), over six variables: just as many models as a page has lines.
const FIFTY: &[u8] = &[
    1, 6, 2, 1, 2, 2, 2, 3, 4, 3, 1, 2, 4, 2, 5, 2, 6, 4, 3, 1, 2, 2, 2, 3, 3, 4, 2, 5, 4, 5,
];

/// (1) and (not 1)
const UNMATCHED: &[u8] = &[1, 1, 2, 1, 4, 3, 1, 4, 5];

/// What every byte of a page is before a call.
const FILL: u8 = 170;

/// The checkpoint of the end.
fn ended() -> Checkpoint {
    let mut checkpoint = start_checkpoint();
    checkpoint[0] = 4;
    checkpoint
}

fn is_accepted(input: &[u8]) -> bool {
    judge(input, &[], &mut [0; 96]).is_ok()
}

/// A call that is not refused, with some bytes behind the page: what it gives, and its lines without their line feeds.
fn filled(
    input: &[u8],
    assumptions: &[Assumption],
    given: &Checkpoint,
    serial: u32,
) -> (Paged, Vec<String>) {
    let mut lent = [FILL; PAGE_SIZE + 5];
    let found = page(input, assumptions, given, serial, &mut lent).unwrap();
    assert_eq!(lent[PAGE_SIZE..], [FILL; 5]);
    let lines: Vec<String> = lent[..PAGE_SIZE]
        .chunks(LINE_SIZE)
        .map(|line| String::from_utf8(line.to_vec()).unwrap())
        .map(|line| line.strip_suffix('\n').unwrap().to_string())
        .collect();
    let blank = " ".repeat(LINE_SIZE - 1);
    assert!(lines[found.lines..].iter().all(|line| *line == blank));
    (found, lines)
}

#[test]
fn the_limits_fit_together() {
    assert_eq!((PAGE_LINES, LINE_SIZE, PAGE_SIZE), (50, 60, 3_000));
    assert_eq!(MAX_SERIAL as usize + PAGE_LINES - 1, 999_999);
}

#[test]
fn the_page_of_the_example() {
    let (found, lines) = filled(EXAMPLE, &[], &start_checkpoint(), 1);
    assert_eq!((found.lines, found.checkpoint), (2, ended()));
    let columns = " ".repeat(46);
    assert_eq!(lines[0], format!("     1 01{columns}   2"));
    assert_eq!(lines[1], format!("     2 10{columns}   4"));
}

#[test]
fn a_model_without_steps_has_a_line() {
    let first = [Assumption::from((1, true))];
    let (found, lines) = filled(&[1, 1, 5], &first, &start_checkpoint(), 7);
    assert_eq!((found.lines, found.checkpoint), (1, ended()));
    assert_eq!(lines[0], format!("     7 1{}   0", " ".repeat(47)));
}

#[test]
fn more_models_than_lines_take_a_second_page() {
    // The one clause is satisfied, so that all assignments of the six variables are models.
    let input = encode(7, &[vec![1, 2, 3, 4, 5, 6, 7]]);
    let last = [Assumption::from((7, true))];
    let (first, lines) = filled(&input, &last, &start_checkpoint(), 1);
    assert_eq!(
        (first.lines, first.checkpoint[..2].to_vec()),
        (50, vec![1, 6])
    );
    assert!(lines[0].starts_with("     1 0000001 ") && lines[49].starts_with("    50 1100011 "));
    let (second, lines) = filled(&input, &last, &first.checkpoint, 51);
    assert_eq!((second.lines, second.checkpoint), (14, ended()));
    assert!(lines[0].starts_with("    51 1100101 ") && lines[13].starts_with("    64 1111111 "));
}

#[test]
fn as_many_models_as_lines_fill_a_page_and_leave_a_blank_one() {
    let (first, lines) = filled(FIFTY, &[], &start_checkpoint(), MAX_SERIAL);
    assert_eq!(
        (first.lines, first.checkpoint[..2].to_vec()),
        (50, vec![1, 6])
    );
    assert!(lines[0].starts_with("999950 ") && lines[49].starts_with("999999 "));
    for given in [first.checkpoint, ended()] {
        let (blank, _) = filled(FIFTY, &[], &given, 1);
        assert_eq!((blank.lines, blank.checkpoint), (0, ended()));
    }
}

#[test]
fn steps_are_those_since_the_checkpoint_that_is_handed_in() {
    // Some variable is true. The last one is assigned first, and where one is true the lowest that is left follows.
    let input = encode(48, &[(1..=48).collect()]);
    let mut given = start_checkpoint();
    for (spent, steps) in [(0, 48), (3, 45), (40, 5)] {
        given = walk(&input, &[], &given, spent).unwrap().checkpoint;
        let (_, lines) = filled(&input, &[], &given, 1);
        assert_eq!(lines[0], format!("     1 1{} {steps:>3}", "0".repeat(47)));
        assert_eq!(lines[1], format!("     2 01{}   4", "0".repeat(46)));
    }
    // Back from the model with variable 48 false and all others true, and forth again: as many steps as a call ever makes.
    let mut given = start_checkpoint();
    given[..4].copy_from_slice(&[1, 48, 48, 128 + 47]);
    for (byte, number) in given[4..].iter_mut().zip(1..) {
        *byte = 128 + number;
    }
    let (_, lines) = filled(&input, &[], &given, 1);
    assert_eq!(lines[0], format!("     1 {}1  96", "0".repeat(47)));
}

/// The serial, the page's length, the input, the assumptions, and the number and place.
type Refused<'a> = (u32, usize, &'a [u8], &'a [Assumption], (u8, usize));

#[test]
fn refusals_come_in_their_order_and_leave_everything() {
    let foreign = [9; 50];
    let bad = [Assumption::from((2, true)); 2];
    let good = &bad[..1];
    let cases: [Refused; 14] = [
        (0, 2_999, &[], &bad, (17, 0)),
        (0, 0, &[], &bad, (17, 0)),
        (1, 2_999, EXAMPLE, &[], (17, 0)),
        (0, 3_000, &[], &bad, (18, 0)),
        (999_951, 3_000, &[], &bad, (18, 0)),
        (u32::MAX, 3_001, EXAMPLE, &[], (18, 0)),
        (999_950, 3_000, &[], &bad, (2, 0)),
        (1, 3_000, &[1, 2, 2, 1, 3, 1, 4, 5], &bad, (7, 4)),
        (1, 3_000, &[1, 49, 5], &bad, (5, 0)),
        (1, 3_000, EXAMPLE, &bad, (16, 1)),
        (1, 3_000, UNMATCHED, good, (16, 0)),
        (1, 3_000, UNMATCHED, &[], (10, 2)),
        (1, 3_000, EXAMPLE, good, (11, 0)),
        (1, 3_005, EXAMPLE, &[], (11, 0)),
    ];
    for (serial, length, input, assumptions, (number, place)) in cases {
        let mut lent = vec![FILL; length];
        let found = page(input, assumptions, &foreign, serial, &mut lent);
        assert_eq!(found, Err(Refusal { number, place }), "{input:?}");
        assert_eq!(lent, vec![FILL; length], "{input:?}");
    }
}

/// The columns of a model: a digit for each variable that some clause names or that is assumed, and a dash for any other.
fn columns(input: &[u8], assumptions: &[Assumption], model: u64) -> String {
    let named = named_variables(input);
    let column = |v: u8| {
        let assumed = assumptions.iter().any(|a| a.variable == v);
        match (named >> (v - 1) & 1, model >> (v - 1) & 1) {
            (0, _) if !assumed => '-',
            (_, 0) => '0',
            _ => '1',
        }
    };
    (1..=input[1]).map(column).collect()
}

/// What the walk calls that a page stands for give, one after the other, and their lines.
fn told(
    input: &[u8],
    assumptions: &[Assumption],
    given: &Checkpoint,
    serial: u32,
) -> Result<(Paged, String), Refusal> {
    let (mut checkpoint, mut lines, mut text) = (*given, 0, String::new());
    for serial in (serial..).take(PAGE_LINES) {
        let walked = walk(input, assumptions, &checkpoint, LIST_BUDGET)?;
        checkpoint = walked.checkpoint;
        if let Answer::Model(model) = walked.progress.answer {
            let columns = columns(input, assumptions, model);
            let steps = walked.progress.steps;
            text += &format!("{serial:>6} {columns:<48} {steps:>3}\n");
            lines += 1;
        } else {
            text += &format!("{:59}\n", "");
        }
    }
    Ok((Paged { lines, checkpoint }, text))
}

/// What a page call gives, and the lent bytes after it.
fn expected(
    input: &[u8],
    assumptions: &[Assumption],
    given: &Checkpoint,
    serial: u32,
    before: &[u8],
) -> (Result<Paged, Refusal>, Vec<u8>) {
    let told = if before.len() < PAGE_SIZE {
        Err(Refusal::new(17, 0))
    } else if !(1..=999_950).contains(&serial) {
        Err(Refusal::new(18, 0))
    } else {
        told(input, assumptions, given, serial)
    };
    match told {
        Ok((paged, text)) => (Ok(paged), [text.as_bytes(), &before[text.len()..]].concat()),
        Err(refusal) => (Err(refusal), before.to_vec()),
    }
}

#[test]
fn a_page_has_the_models_of_its_walk_calls() {
    let mut random = Random::new(6);
    // Calls that are refused, those with 50 lines, with fewer, and with none; and second pages.
    let (mut refused, mut full, mut some, mut none, mut second) = (0, 0, 0, 0, 0);
    for _ in 0..1_500 {
        let input = some_input(&mut random, is_accepted);
        let mut assumptions: Vec<Assumption> = Vec::new();
        if random.percent(50) {
            let list = some_assumptions(&mut random, &input);
            assumptions.extend(list.into_iter().map(Assumption::from));
        }
        let mut pool = vec![start_checkpoint()];
        for call in 0..6 {
            let given = if call < 3 {
                pool[pool.len() - 1]
            } else {
                some_checkpoint(&mut random, &pool)
            };
            let serial = some_serial(&mut random);
            let before = vec![random.byte(); some_length(&mut random, PAGE_SIZE)];
            let mut after = before.clone();
            let found = page(&input, &assumptions, &given, serial, &mut after);
            let expected = expected(&input, &assumptions, &given, serial, &before);
            assert_eq!((found, after), expected, "{input:02x?}");
            let Ok(Paged { lines, checkpoint }) = found else {
                refused += 1;
                continue;
            };
            let is_last = checkpoint == ended();
            assert_eq!(is_last, lines < PAGE_LINES, "{input:02x?}");
            match lines {
                0 => none += 1,
                PAGE_LINES => full += 1,
                _ => some += 1,
            }
            second += usize::from(pool.len() == 2 && call < 3 && !is_last);
            pool.push(checkpoint);
        }
    }
    println!("{refused} refused, {full} full, {some} with fewer lines, {none} blank, {second} second pages");
    assert!(refused > 1_000 && full > 500 && some > 200 && none > 200 && second > 100);
}
