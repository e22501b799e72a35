//! Writing vectors of pages.

use crate::values::to_hex;
use crate::write::{given_text, line, refusal_text};
use norwythai_reference::{
    page, start_checkpoint, Assumption, Checkpoint, Paged, Refusal, LINE_SIZE, PAGE_LINES,
    PAGE_SIZE,
};
use norwythai_samples::{some_checkpoint, some_length, some_serial, Random};

/// Pages take much of a file of the corpus: so many of a hundred walks are written page after page, and at most so many pages of one.
const IN_PAGES: usize = 4;
const MOST_PAGES: u32 = 3;

/// What a page call gets beside the formula: the checkpoint, the first serial, and the length and the fill of the lent page.
struct PageRequest {
    given: Checkpoint,
    serial: u32,
    length: usize,
    fill: u8,
}

/// A page call: the line, and what the call gives.
fn page_line(
    from: &str,
    input: &[u8],
    assumptions: &[Assumption],
    request: PageRequest,
) -> (String, Result<Paged, Refusal>) {
    let PageRequest {
        given,
        serial,
        length,
        fill,
    } = request;
    let mut lent = vec![fill; length];
    let found = page(input, assumptions, &given, serial, &mut lent);
    let (lines, returned) = found.map_or((0, given), |paged| (paged.lines, paged.checkpoint));
    let written: Vec<String> = lent
        .chunks(LINE_SIZE)
        .take(lines)
        .map(|line| format!("\"{}\"", String::from_utf8_lossy(&line[..LINE_SIZE - 1])))
        .collect();
    let fields = format!(
        "{}, \"marker\": \"{}\", \"serial\": {serial}, \"page_len\": {length}, \"page_fill\": {fill}, \
         \"refusal\": {}, \"marker_out\": \"{}\", \"lines\": {lines}, \"page\": [{}]",
        given_text(input, assumptions),
        to_hex(&given),
        refusal_text(found.err()),
        to_hex(&returned),
        written.join(", "),
    );
    (line("page", from, &fields), found)
}

/// A page call from a checkpoint, with some serial and a lent page of some length.
fn some_page_line(
    from: &str,
    random: &mut Random,
    input: &[u8],
    assumptions: &[Assumption],
    given: Checkpoint,
) -> String {
    let request = PageRequest {
        given,
        serial: some_serial(random),
        length: some_length(random, PAGE_SIZE),
        fill: random.byte(),
    };
    page_line(from, input, assumptions, request).0
}

/// Pages one after the other from the start, with serials that go on, to the end or to a serial that is too high.
fn page_lines(
    from: &str,
    random: &mut Random,
    input: &[u8],
    assumptions: &[Assumption],
) -> Vec<String> {
    let mut lines = Vec::new();
    let mut given = start_checkpoint();
    let first = random.pick(&[1, 9_951, 999_900]);
    for pages in 0..MOST_PAGES {
        let request = PageRequest {
            given,
            serial: first + pages * PAGE_LINES as u32,
            length: PAGE_SIZE + random.below(6),
            fill: random.byte(),
        };
        let (line, found) = page_line(from, input, assumptions, request);
        lines.push(line);
        match found {
            Ok(paged) if paged.lines == PAGE_LINES => given = paged.checkpoint,
            _ => break,
        }
    }
    lines
}

/// The vectors of pages of one input under a list of assumptions: a page from the start or from some checkpoint, and for some inputs pages
/// one after the other.
pub fn some_page_lines(
    from: &str,
    random: &mut Random,
    input: &[u8],
    assumptions: &[Assumption],
    known: &[Checkpoint],
) -> Vec<String> {
    let given = if random.percent(40) {
        start_checkpoint()
    } else {
        some_checkpoint(random, known)
    };
    let mut lines = vec![some_page_line(from, random, input, assumptions, given)];
    if random.percent(IN_PAGES) {
        lines.extend(page_lines(from, random, input, assumptions));
    }
    lines
}

#[cfg(test)]
mod tests {
    use super::*;
    use crate::compare::compare_line;
    use crate::write::generated_vectors;
    use crate::write::tests::{count_with, EXAMPLE};

    /// A page call on the example from the start.
    fn example_page(serial: u32, length: usize) -> String {
        let request = PageRequest {
            given: start_checkpoint(),
            serial,
            length,
            fill: 9,
        };
        page_line("edge", EXAMPLE, &[], request).0
    }

    #[test]
    fn lines_of_pages() {
        let start = to_hex(&start_checkpoint());
        let given = format!(
            "{{\"act\": \"page\", \"from\": \"edge\", \"sheet\": \"01020201020204030103020405\", \"fixings\": [], \
             \"marker\": \"{start}\""
        );
        let columns = " ".repeat(46);
        assert_eq!(
            example_page(9, 3_005),
            format!(
                "{given}, \"serial\": 9, \"page_len\": 3005, \"page_fill\": 9, \"refusal\": null, \
                 \"marker_out\": \"04{}\", \"lines\": 2, \
                 \"page\": [\"     9 01{columns}   2\", \"    10 10{columns}   4\"]}}",
                &start[2..]
            )
        );
        assert_eq!(
            example_page(0, 3_000),
            format!(
                "{given}, \"serial\": 0, \"page_len\": 3000, \"page_fill\": 9, \"refusal\": [18, 0], \
                 \"marker_out\": \"{start}\", \"lines\": 0, \"page\": []}}"
            )
        );
    }

    #[test]
    fn pages_of_all_kinds_are_written() {
        let lines = generated_vectors(1, 600);
        let count = |words: &[&str]| count_with(&lines, words);
        let page = "\"act\": \"page\"";
        for refusal in [2, 10, 11, 16, 17, 18] {
            let refusal = format!("\"refusal\": [{refusal}, ");
            assert!(count(&[page, &refusal]) >= 5, "{refusal}");
        }
        let wanted = [
            // full, and with fewer lines
            "\"lines\": 50,",
            "\"lines\": 1,",
            // serials and lengths at their limits
            "\"serial\": 0,",
            "\"serial\": 999950,",
            "\"serial\": 999951,",
            "\"page_len\": 2999,",
            "\"page_len\": 3005,",
            // from within the walk, and the second page of one from the start
            "\"marker\": \"02",
            "\"serial\": 51,",
        ];
        for words in wanted {
            assert!(count(&[page, words]) > 0, "{words}");
        }
        let blank = [page, "\"refusal\": null", "\"lines\": 0,"];
        assert!(count(&blank) > 0);
    }

    #[test]
    fn a_wrong_page_is_found() {
        let (filled, refused) = (example_page(9, 3_000), example_page(0, 3_000));
        for right in [&filled, &refused] {
            assert_eq!(compare_line(right), Ok(()));
        }
        for (right, part, wrong) in [
            (&filled, "9 01", "9 10"),
            (&filled, "    10", "    11"),
            (&filled, "   4\"", "   2\""),
            (&filled, "\"     9", "\"    9"),
            (&filled, "\"lines\": 2", "\"lines\": 1"),
            (&filled, "\"marker_out\": \"04", "\"marker_out\": \"01"),
            (&filled, "\"page_len\": 3000", "\"page_len\": 2999"),
            (&filled, "null", "[18, 0]"),
            (&refused, "[18, 0]", "[17, 0]"),
            (&refused, "[18, 0]", "null"),
            (&refused, "\"marker_out\": \"00", "\"marker_out\": \"04"),
        ] {
            let line = right.replace(part, wrong);
            assert!(line != *right && compare_line(&line).is_err(), "{line}");
        }
    }
}
