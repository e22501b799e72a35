//! DIMACS CNF text, read into an encoded formula (S15) and written from one (S16).

use crate::bits::bit;
use crate::formula::{decode, named_variable, Clause, Refusal, MAX_CLAUSES, MAX_VARIABLES};

/// The bytes that the buffer for an encoded formula must have: the most that one has without repeats.
pub const FORMULA_BUFFER: usize = 3 + MAX_CLAUSES * (2 * MAX_VARIABLES + 1);

/// The bytes that the buffer for a text must have: 12 for the p line and, for each clause, 4 a variable and 2 for its end.
pub const TEXT_BUFFER: usize = 12 + MAX_CLAUSES * (4 * MAX_VARIABLES + 2);

/// A line or a word of a text: its bytes, and the offset of the first one.
#[derive(Clone, Copy)]
struct Piece<'a> {
    at: usize,
    bytes: &'a [u8],
}

impl<'a> Piece<'a> {
    /// The pieces between the bytes that part them, empty ones too.
    fn split(self, parts: impl Fn(u8) -> bool) -> impl Iterator<Item = Piece<'a>> {
        let mut at = self.at;
        self.bytes
            .split(move |byte| parts(*byte))
            .map(move |bytes| {
                let piece = Piece { at, bytes };
                at += bytes.len() + 1;
                piece
            })
    }

    /// The lines of a text.
    fn lines(self) -> impl Iterator<Item = Piece<'a>> {
        self.split(|byte| byte == b'\n')
    }

    fn is_comment(&self) -> bool {
        self.bytes.starts_with(b"c")
    }

    /// The words of a line.
    fn words(self) -> impl Iterator<Item = Piece<'a>> {
        self.split(|byte| matches!(byte, b' ' | b'\t' | b'\r'))
            .filter(|word| !word.bytes.is_empty())
    }
}

/// The number that one or more digits write; where it is too large, the largest one.
fn number(digits: &[u8]) -> Option<usize> {
    if digits.is_empty() {
        return None;
    }
    digits.iter().try_fold(0_usize, |number, byte| {
        let digit = char::from(*byte).to_digit(10)?;
        Some(number.saturating_mul(10).saturating_add(digit as usize))
    })
}

/// The p line (S15.2).
struct Opening {
    variables: usize,
    clauses: usize,
    /// Where the two numbers stand.
    variables_at: usize,
    clauses_at: usize,
}

/// The line's four words; none if it is no p line.
fn read_opening(line: Piece) -> Option<Opening> {
    let words: Vec<Piece> = line.words().take(5).collect();
    let [p, cnf, variables, clauses] = words[..] else {
        return None;
    };
    if p.bytes != b"p" || cnf.bytes != b"cnf" {
        return None;
    }
    Some(Opening {
        variables: number(variables.bytes)?,
        clauses: number(clauses.bytes)?,
        variables_at: variables.at,
        clauses_at: clauses.at,
    })
}

/// What a word after the p line says (S15.3).
enum Token {
    EndOfClause,
    Literal { positive: bool, number: usize },
}

/// The word's token; none for a bad word.
fn read_word(bytes: &[u8]) -> Option<Token> {
    let (positive, digits) = match bytes.strip_prefix(b"-") {
        Some(digits) => (false, digits),
        None => (true, bytes),
    };
    match number(digits)? {
        0 if positive => Some(Token::EndOfClause),
        0 => None,
        number => Some(Token::Literal { positive, number }),
    }
}

/// Reads a text (S15): the encoded formula, each literal once at its first place in its clause.
pub fn read_text(text: &[u8]) -> Result<Vec<u8>, Refusal> {
    let whole = Piece { at: 0, bytes: text };
    let mut lines = whole.lines().filter(|line| !line.is_comment());
    let Some(first) = lines.next() else {
        return Err(Refusal::new(13, text.len()));
    };
    let Some(opening) = read_opening(first) else {
        return Err(Refusal::new(13, first.at));
    };
    let variables = opening.variables;
    if !(1..=MAX_VARIABLES).contains(&variables) {
        return Err(Refusal::new(5, opening.variables_at));
    }

    let mut formula = Vec::with_capacity(FORMULA_BUFFER);
    formula.extend([1, variables as u8]);
    let mut count = 0;
    let mut open = Clause::default();
    for word in lines.flat_map(Piece::words) {
        match read_word(word.bytes) {
            None => return Err(Refusal::new(14, word.at)),
            Some(Token::EndOfClause) if count == MAX_CLAUSES => {
                return Err(Refusal::new(8, word.at))
            }
            Some(Token::EndOfClause) => {
                formula.push(4);
                count += 1;
                open = Clause::default();
            }
            Some(Token::Literal { positive, number }) => {
                let (kind, this_way, other_way) = if positive {
                    (2, &mut open.positive, open.negative)
                } else {
                    (3, &mut open.negative, open.positive)
                };
                let variable = named_variable(number, variables, other_way, word.at)?;
                if *this_way & variable == 0 {
                    *this_way |= variable;
                    formula.extend([kind, number as u8]);
                }
            }
        }
    }
    if open.named() != 0 {
        return Err(Refusal::new(2, text.len()));
    }
    if count != opening.clauses {
        return Err(Refusal::new(15, opening.clauses_at));
    }
    formula.push(5);
    Ok(formula)
}

/// A number below 100.
fn push_number(text: &mut Vec<u8>, number: usize) {
    if number >= 10 {
        text.push(b'0' + (number / 10) as u8);
    }
    text.push(b'0' + (number % 10) as u8);
}

/// Writes the text of an encoded formula (S16), each literal once at its first place in its clause.
pub fn write_text(input: &[u8]) -> Result<Vec<u8>, Refusal> {
    let formula = decode(input)?;
    let mut text = Vec::with_capacity(TEXT_BUFFER);
    text.extend(b"p cnf ");
    push_number(&mut text, formula.variables());
    text.push(b' ');
    push_number(&mut text, formula.clauses().len());
    text.push(b'\n');

    // A formula keeps no order within its clauses, so the records are gone through once more. None names a variable both ways.
    let mut named = 0;
    let mut at = 2;
    loop {
        match input[at] {
            4 => {
                text.extend(b"0\n");
                named = 0;
                at += 1;
            }
            5 => return Ok(text),
            kind => {
                let number = usize::from(input[at + 1]);
                let variable = bit(number - 1);
                if named & variable == 0 {
                    named |= variable;
                    if kind == 3 {
                        text.push(b'-');
                    }
                    push_number(&mut text, number);
                    text.push(b' ');
                }
                at += 2;
            }
        }
    }
}

/// The act read, with a lent buffer: how many bytes it wrote, from the front. Other bytes stay as they are, and at a refusal all.
pub fn from_dimacs(text: &[u8], buffer: &mut [u8]) -> Result<usize, Refusal> {
    fill(buffer, FORMULA_BUFFER, || read_text(text))
}

/// The act write, with a lent buffer: how many bytes it wrote, from the front. Other bytes stay as they are, and at a refusal all.
pub fn to_dimacs(input: &[u8], buffer: &mut [u8]) -> Result<usize, Refusal> {
    fill(buffer, TEXT_BUFFER, || write_text(input))
}

/// Writes what is made over the front of a buffer of at least so many bytes.
fn fill(
    buffer: &mut [u8],
    least: usize,
    make: impl FnOnce() -> Result<Vec<u8>, Refusal>,
) -> Result<usize, Refusal> {
    if buffer.len() < least {
        return Err(Refusal::new(1, 0));
    }
    let bytes = make()?;
    buffer[..bytes.len()].copy_from_slice(&bytes);
    Ok(bytes.len())
}
