//! DIMACS CNF texts of many kinds, and damaged ones.

use crate::formulas::Clauses;
use crate::inputs::{contradictory_parts, parts_at_a_limit, some_parts};
use crate::random::Random;

/// How freely a text is laid out.
#[derive(Clone, Copy)]
enum Layout {
    /// As it is written: one blank between words, a line for each clause.
    Strict,
    /// As people may have it: comments, other blanks and line ends, leading zeros.
    Free,
}

/// Lines that are skipped, with what may mislead a reader.
const COMMENTS: [&[u8]; 8] = [
    b"c\n",
    b"c the federation's rules\n",
    b"c1 2 0\n",
    b"c p cnf 3 3\r\n",
    b"cnf 2 2\n",
    b"c 0\rp cnf 1 0\n",
    b"c \xe9\xff\x00\x0c\n",
    b"c -0 x 49\t0\n",
];

/// A number, at times behind zeros.
fn digits(random: &mut Random, layout: Layout, number: usize) -> String {
    let zeros = match layout {
        Layout::Free if random.percent(5) => random.pick(&[1, 2, 30]),
        _ => 0,
    };
    "0".repeat(zeros) + &number.to_string()
}

/// What parts two words of a line, and what may stand before its first.
fn blanks(random: &mut Random, layout: Layout) -> &'static str {
    match layout {
        Layout::Strict => " ",
        Layout::Free => random.pick(&[" ", " ", " ", " ", " ", "\t", "  ", "\r", " \t "]),
    }
}

/// The end of a line, and other lines that say nothing.
fn push_line_end(random: &mut Random, layout: Layout, text: &mut Vec<u8>) {
    match layout {
        Layout::Strict => text.push(b'\n'),
        Layout::Free => {
            text.extend(
                random
                    .pick(&["\n", "\n", "\r\n", " \n", "\n\n", "\n \t\r\n"])
                    .bytes(),
            );
            if random.percent(10) {
                text.extend(random.pick(&COMMENTS));
            }
        }
    }
}

fn push_opening(
    random: &mut Random,
    layout: Layout,
    text: &mut Vec<u8>,
    variables: usize,
    count: usize,
) {
    if let Layout::Free = layout {
        for _ in 0..random.below(3) {
            text.extend(random.pick(&COMMENTS));
        }
        if random.percent(20) {
            text.extend(blanks(random, layout).bytes());
        }
    }
    let numbers = [variables, count].map(|number| digits(random, layout, number));
    let words = ["p", "cnf", &numbers[0], &numbers[1]];
    for (index, word) in words.into_iter().enumerate() {
        if index > 0 {
            text.extend(blanks(random, layout).bytes());
        }
        text.extend(word.bytes());
    }
}

/// A text of these clauses. Its p line says that there are so many.
fn text_of(
    random: &mut Random,
    layout: Layout,
    variables: usize,
    clauses: &Clauses,
    count: usize,
) -> Vec<u8> {
    let mut text = Vec::new();
    push_opening(random, layout, &mut text, variables, count);
    push_line_end(random, layout, &mut text);
    for clause in clauses {
        for literal in clause {
            if *literal < 0 {
                text.push(b'-');
            }
            text.extend(digits(random, layout, literal.unsigned_abs().into()).bytes());
            // A clause may go on in another line, and behind a comment.
            match layout {
                Layout::Free if random.percent(8) => push_line_end(random, layout, &mut text),
                _ => text.extend(blanks(random, layout).bytes()),
            }
        }
        text.extend(digits(random, layout, 0).bytes());
        // Two clauses may share a line.
        match layout {
            Layout::Free if random.percent(10) => text.extend(blanks(random, layout).bytes()),
            _ => push_line_end(random, layout, &mut text),
        }
    }
    if let Layout::Free = layout {
        match random.below(4) {
            0 => drop(text.pop()),
            1 => text.extend(b"\nc the end"),
            _ => {}
        }
    }
    text
}

fn some_layout(random: &mut Random) -> Layout {
    random.pick(&[Layout::Strict, Layout::Free, Layout::Free])
}

/// A readable text.
fn whole(random: &mut Random) -> Vec<u8> {
    let (variables, clauses) = some_parts(random);
    let layout = some_layout(random);
    text_of(random, layout, variables, &clauses, clauses.len())
}

/// A text whose formula may be at a limit or name a variable both ways, or whose p line may say another number of clauses.
fn doubtful(random: &mut Random) -> Vec<u8> {
    let (variables, clauses) = match random.below(3) {
        0 => parts_at_a_limit(random),
        1 => contradictory_parts(random),
        _ => some_parts(random),
    };
    let count = match random.below(4) {
        0 => clauses.len() + 1,
        1 => random.pick(&[0, 1, 96, 97, usize::MAX]),
        _ => clauses.len(),
    };
    let layout = some_layout(random);
    text_of(random, layout, variables, &clauses, count)
}

/// Bytes and words with which a text is damaged.
const BYTES: &[u8] = b"\n\n \t\rcp-+0149x\x00\x0b\x0c\x80\xff";
const WORDS: [&str; 16] = [
    "0",
    "00",
    "-0",
    "1",
    "-1",
    "2",
    "49",
    "-49",
    "-",
    "--1",
    "+1",
    "1a",
    "c",
    "18446744073709551616",
    "18446744073709551617",
    "-18446744073709551617",
];

/// A text with some damage; it may still be readable. Half of it is near the p line.
fn damaged(random: &mut Random) -> Vec<u8> {
    let mut text = whole(random);
    for _ in 0..random.between(1, 2) {
        let limit = if random.percent(50) { 24 } else { text.len() };
        let at = random.below(text.len().min(limit) + 1);
        match random.below(6) {
            0 => text.truncate(at),
            1 | 2 => text.insert(at, random.pick(BYTES)),
            3 => {
                let word = format!(" {} ", random.pick(&WORDS));
                text.splice(at..at, word.into_bytes());
            }
            4 if at < text.len() => drop(text.remove(at)),
            _ if at < text.len() => text[at] = random.pick(BYTES),
            _ => {}
        }
    }
    text
}

/// Bytes that are hardly ever a readable text, behind a p line or not.
fn noise(random: &mut Random) -> Vec<u8> {
    let mut text = random
        .pick(&["", "c\n", "p cnf ", "p cnf 2 1\n"])
        .as_bytes()
        .to_vec();
    for _ in 0..random.below(24) {
        text.push(random.pick(BYTES));
    }
    text
}

/// Any text: most are readable.
pub fn some_text(random: &mut Random) -> Vec<u8> {
    match random.below(20) {
        0..=10 => whole(random),
        11..=14 => doubtful(random),
        15..=18 => damaged(random),
        _ => noise(random),
    }
}

#[cfg(test)]
mod tests {
    use super::*;

    #[test]
    fn a_strict_text_has_a_line_for_each_clause() {
        let clauses = vec![vec![1, -2], vec![]];
        let text = text_of(&mut Random::new(1), Layout::Strict, 2, &clauses, 2);
        assert_eq!(text, b"p cnf 2 2\n1 -2 0\n0\n");
    }

    #[test]
    fn free_texts_have_comments_and_other_blanks() {
        let mut random = Random::new(1);
        let clauses = vec![vec![1, -2, 3]; 20];
        let text = text_of(&mut random, Layout::Free, 3, &clauses, 20);
        for sign in [b'\t', b'\r', b'c'] {
            assert!(text.contains(&sign));
        }
    }
}
