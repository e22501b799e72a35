//! Page: its calls, compared with the reference, and what was seen of them.

use crate::acts::{refusal_of, refused_results, UNWRITTEN};
use crate::assumed::Assumed;
use crate::counts::{Outcomes, Seen};
use crate::is_accepted_under;
use crate::raw;
use crate::tally::Tally;
use norwythai::{Checkpoint, PAGE_SIZE};
use norwythai_reference::{self as reference, Paged, Refusal};
use norwythai_samples::{named_variables, some_checkpoint, some_length, some_serial, Random};
use std::fmt;

/// A page call, with the lent page as it is before.
struct PageCall<'a> {
    input: &'a [u8],
    assumed: &'a Assumed,
    given: reference::Checkpoint,
    serial: u32,
    before: Vec<u8>,
}

/// Compares a page call, and gives the checkpoint that it returns if it is not refused.
fn compare_page(tally: &mut Tally, call: &PageCall) -> Option<reference::Checkpoint> {
    let PageCall {
        input,
        assumed,
        given,
        serial,
        ref before,
    } = *call;
    let context = || {
        let (assumed, length) = (&assumed.bytes, before.len());
        format!("{input:02x?} {assumed:?} {given:02x?} {serial} {length}")
    };
    let mut expected_page = before.clone();
    let list = &assumed.reference;
    let expected = reference::page(input, list, &given, serial, &mut expected_page);
    let returned = expected.map_or(given, |paged| paged.checkpoint);

    let mut checkpoint = Checkpoint::from_bytes(given);
    let mut page = before.clone();
    let found = norwythai::page(input, &assumed.list, &mut checkpoint, serial, &mut page);
    assert_eq!(
        found.map(|paged| paged.lines),
        expected.map(|paged| paged.lines).map_err(refusal_of),
        "{}",
        context()
    );
    assert_eq!(page, expected_page, "{}", context());
    assert_eq!(checkpoint.as_bytes(), &returned, "{}", context());

    let mut bytes = given;
    let mut page = before.clone();
    let mut results = [UNWRITTEN; 6];
    let list = &assumed.bytes;
    assert_eq!(
        raw::page(input, list, &mut bytes, serial, &mut page, &mut results),
        0
    );
    assert_eq!(page, expected_page, "{}", context());
    assert_eq!(bytes, returned, "{}", context());
    let expected_results = match expected {
        Ok(paged) if paged.lines == 50 => [0, 0, 0, 0, 50, 0],
        Ok(paged) => [2, 0, 0, 0, paged.lines as u64, 0],
        Err(refusal) => refused_results(refusal),
    };
    assert_eq!(results, expected_results, "{}", context());

    tally.pages.called(call, expected);
    expected.ok().map(|paged| paged.checkpoint)
}

/// Pages one after the other from the start, under serials that go on past the highest, and then pages from any checkpoints, with any
/// serials and lent pages of any lengths.
pub fn compare_pages(
    tally: &mut Tally,
    random: &mut Random,
    input: &[u8],
    assumed: &Assumed,
    pool: &mut Vec<reference::Checkpoint>,
) {
    let mut given = reference::start_checkpoint();
    for serial in [999_900, 999_950, 1_000_000] {
        let call = PageCall {
            input,
            assumed,
            given,
            serial,
            before: vec![random.byte(); PAGE_SIZE + 5],
        };
        match compare_page(tally, &call) {
            Some(next) => given = next,
            None => break,
        }
        pool.push(given);
    }
    for _ in 0..3 {
        let call = PageCall {
            input,
            assumed,
            given: some_checkpoint(random, pool),
            serial: some_serial(random),
            before: vec![random.byte(); some_length(random, PAGE_SIZE)],
        };
        pool.extend(compare_page(tally, &call));
    }
}

/// What must be seen of page calls, and of how many once at least.
const PAGES: [(&str, usize); 18] = [
    ("full", 10),
    ("with fewer lines", 20),
    ("blank", 20),
    ("from the start", 10),
    ("from behind a model", 20),
    ("from between two models", 50),
    ("from the end", 50),
    ("under assumptions", 10),
    ("of a formula that is accepted by stripping", 50),
    ("with a dash", 20),
    ("with a digit more in the last serial", 50),
    ("with the highest serial", 20),
    ("with bytes behind it", 10),
    ("refused: serial 0", 100),
    ("refused: a serial that is too high", 20),
    ("refused: short, before a bad serial", 200),
    ("refused: short, before what is wrong with the input", 50),
    (
        "refused: a bad serial, before what is wrong with the input",
        50,
    ),
];

/// What was seen of page calls.
#[derive(Default)]
pub struct Pages {
    outcomes: Outcomes,
    /// By the words of [`PAGES`].
    seen: Seen,
}

impl Pages {
    fn called(&mut self, call: &PageCall, paged: Result<Paged, Refusal>) {
        self.outcomes.count(paged);
        match paged {
            Ok(paged) => self.filled(call, paged),
            Err(refusal) => self.refused(call, refusal.number),
        }
    }

    fn filled(&mut self, call: &PageCall, paged: Paged) {
        let seen = &mut self.seen;
        seen.see("full", paged.lines == 50);
        seen.see("with fewer lines", (1..50).contains(&paged.lines));
        seen.see("blank", paged.lines == 0);

        let [mode, length, ..] = call.given;
        let to_assign = call.assumed.to_assign(call.input);
        let behind_model = mode == 1 && to_assign == Some(length.into());
        let within = (1..=3).contains(&mode);
        seen.see("from the start", mode == 0);
        seen.see("from behind a model", behind_model);
        seen.see("from between two models", within && !behind_model);
        seen.see("from the end", mode == 4);
        seen.see("under assumptions", !call.assumed.is_empty());
        let stripped = call.assumed.drops_clauses(call.input);
        seen.see("of a formula that is accepted by stripping", stripped);

        let named = named_variables(call.input);
        let visible = |v: u8| named >> (v - 1) & 1 == 1 || call.assumed.has(v);
        let dash = (1..=call.input[1]).any(|v| !visible(v));
        seen.see("with a dash", dash && paged.lines > 0);

        let digits = |serial: u32| serial.to_string().len();
        let more = digits(call.serial) < digits(call.serial + 49);
        let full = paged.lines == 50;
        seen.see("with a digit more in the last serial", full && more);
        seen.see("with the highest serial", call.serial == 999_950);
        seen.see("with bytes behind it", call.before.len() > 3_000);
    }

    fn refused(&mut self, call: &PageCall, number: u8) {
        let seen = &mut self.seen;
        let (short, bad) = (number == 17, number == 18);
        let wrong = !is_accepted_under(call.input, &call.assumed.reference);
        let bad_too = !(1..=999_950).contains(&call.serial);
        seen.see("refused: serial 0", bad && call.serial == 0);
        let high = bad && call.serial > 0;
        seen.see("refused: a serial that is too high", high);
        seen.see("refused: short, before a bad serial", short && bad_too);
        seen.see(
            "refused: short, before what is wrong with the input",
            short && wrong,
        );
        seen.see(
            "refused: a bad serial, before what is wrong with the input",
            bad && wrong,
        );
    }

    pub fn calls(&self) -> usize {
        self.outcomes.calls()
    }

    /// Fails if something was seen too seldom.
    pub fn require_enough(&self) {
        let given = [2, 3, 4, 5, 6, 7, 8, 9, 10, 11, 16, 17, 18];
        self.outcomes.require_enough("page", &given);
        self.seen.require_enough(&PAGES, self.outcomes.calls());
    }
}

impl fmt::Display for Pages {
    fn fmt(&self, f: &mut fmt::Formatter) -> fmt::Result {
        write!(f, "{}{}", self.outcomes, self.seen)
    }
}
