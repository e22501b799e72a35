//! Encoded formulas (S2; request: sheets): reading them, and checking one assignment.

use crate::bits::bit;

/// The most variables (request: switches) that a formula has.
pub const MAX_VARIABLES: usize = 48;

/// The most clauses (request: rules) that a formula has.
pub const MAX_CLAUSES: usize = 96;

/// A refusal: its number and place in the table of S3.1.
#[derive(Clone, Copy, Debug, PartialEq, Eq)]
pub struct Refusal {
    /// 1 to 18.
    pub number: u8,
    /// An offset in the input or the text, at 10 the number of the violator's clauses, or at 16 the index of the assumption.
    pub place: usize,
}

impl Refusal {
    /// The refusal of this number and place.
    pub fn new(number: u8, place: usize) -> Self {
        Refusal { number, place }
    }
}

/// A clause (request: rule): the variables of its positive literals (named as on) and of its negative ones (named as off).
#[derive(Clone, Copy, Debug, Default, PartialEq, Eq)]
pub struct Clause {
    /// Bit v is set if variable v is a positive literal.
    pub positive: u64,
    /// Bit v is set if variable v is a negative literal.
    pub negative: u64,
}

impl Clause {
    /// The variables that the clause names, either way.
    #[inline]
    pub fn named(&self) -> u64 {
        self.positive | self.negative
    }

    /// Whether some literal stands in the assignment the way that the clause has it.
    #[inline]
    pub fn holds(&self, assignment: u64) -> bool {
        self.positive & assignment | self.negative & !assignment != 0
    }
}

/// A decoded formula, or what remains of one under assumptions. Equal clauses stay separate.
#[derive(Clone, Debug)]
pub struct Formula {
    pub(crate) variables: usize,
    named: u64,
    pub(crate) count: usize,
    pub(crate) clauses: [Clause; MAX_CLAUSES],
}

impl Formula {
    /// n, the number of variables: 1 to 48. Those that are assumed count, too.
    pub fn variables(&self) -> usize {
        self.variables
    }

    /// The variables that some clause names, as the clauses were read: those of satisfied clauses and those that are assumed count, too.
    pub fn named(&self) -> u64 {
        self.named
    }

    /// The clauses, in the input's order.
    pub fn clauses(&self) -> &[Clause] {
        &self.clauses[..self.count]
    }

    /// Whether the assignment, which sets no variable above n, satisfies each clause.
    pub fn is_model(&self, assignment: u64) -> bool {
        self.clauses().iter().all(|c| c.holds(assignment))
    }
}

/// Reads an encoded formula, or gives the first refusal of 2 to 9 in the order of S3.2.
pub fn decode(input: &[u8]) -> Result<Formula, Refusal> {
    let mut formula = Formula {
        variables: decode_variables(input)?,
        named: 0,
        count: 0,
        clauses: [Clause::default(); MAX_CLAUSES],
    };
    let mut open = Clause::default();
    let mut at = 2;
    loop {
        match kind_at(input, at)? {
            2 => {
                open.positive |= decode_literal(input, at, formula.variables, open.negative)?;
                at += 2;
            }
            3 => {
                open.negative |= decode_literal(input, at, formula.variables, open.positive)?;
                at += 2;
            }
            4 if formula.count == MAX_CLAUSES => return Err(Refusal::new(8, at)),
            4 => {
                formula.clauses[formula.count] = open;
                formula.count += 1;
                formula.named |= open.named();
                open = Clause::default();
                at += 1;
            }
            5 if open.named() == 0 => break,
            // kind 1 after the first record, or the end within a clause
            _ => return Err(Refusal::new(4, at)),
        }
    }
    if at + 1 < input.len() {
        return Err(Refusal::new(9, at + 1));
    }
    Ok(formula)
}

/// The kind byte at an offset: refused by 2 if there is none and by 3 if it is unknown.
fn kind_at(input: &[u8], at: usize) -> Result<u8, Refusal> {
    match input.get(at) {
        None => Err(Refusal::new(2, input.len())),
        Some(kind @ 1..=5) => Ok(*kind),
        Some(_) => Err(Refusal::new(3, at)),
    }
}

/// The body of the record whose kind byte is at the offset: refused by 2 if it is cut off.
fn body_at(input: &[u8], at: usize) -> Result<u8, Refusal> {
    input
        .get(at + 1)
        .copied()
        .ok_or(Refusal::new(2, input.len()))
}

/// The first record: the number of variables.
fn decode_variables(input: &[u8]) -> Result<usize, Refusal> {
    if kind_at(input, 0)? != 1 {
        return Err(Refusal::new(4, 0));
    }
    let n = usize::from(body_at(input, 0)?);
    if (1..=MAX_VARIABLES).contains(&n) {
        Ok(n)
    } else {
        Err(Refusal::new(5, 0))
    }
}

/// The variable, as a mask, of the literal at an offset.
fn decode_literal(
    input: &[u8],
    at: usize,
    variables: usize,
    other_way: u64,
) -> Result<u64, Refusal> {
    let number = usize::from(body_at(input, at)?);
    named_variable(number, variables, other_way, at)
}

/// The variable of a number, as a mask: refused by 6 if there is none, and by 7 if the open clause names it the other way. To a
/// clause that names it the same way it adds nothing.
pub(crate) fn named_variable(
    number: usize,
    variables: usize,
    other_way: u64,
    at: usize,
) -> Result<u64, Refusal> {
    if number == 0 || number > variables {
        return Err(Refusal::new(6, at));
    }
    let variable = bit(number - 1);
    if other_way & variable != 0 {
        return Err(Refusal::new(7, at));
    }
    Ok(variable)
}

/// The act check: whether the assignment is a model of the encoded formula.
pub fn check(input: &[u8], assignment: u64) -> Result<bool, Refusal> {
    let formula = decode(input)?;
    if assignment >> formula.variables != 0 {
        return Err(Refusal::new(12, 0));
    }
    Ok(formula.is_model(assignment))
}
