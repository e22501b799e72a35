//! Which formulas are accepted (S5.6, S18), and the act judge.

use crate::assumptions::Assumption;
use crate::bits::bit;
use crate::formula::{decode, Formula, Refusal, MAX_CLAUSES};
use crate::matching::{Matcher, Matching};
use crate::stripping::Clauses;

/// Added to the variable's number in the byte of a clause that stripping drops.
const DROPPED: u8 = 128;

/// Accepts what remains of a formula, or refuses it by 10, and writes a byte for each of its clauses.
///
/// It is accepted if it is matched: the byte is then the clause's variable, from 1. If it isn't, it is stripped, and accepted if what is
/// left is matched (pure literal matched): the byte of a dropped clause is 128 more than the number of the first noted variable that
/// it names, and that of a left one its variable. Else the byte is 1 for the left clauses of the violator, and 0 for all others.
pub fn accept(
    formula: &Formula,
    matcher: &mut impl Matcher,
    row: &mut [u8; MAX_CLAUSES],
) -> Result<(), Refusal> {
    let row = &mut row[..formula.clauses().len()];
    let mut named = [0; MAX_CLAUSES];
    for (set, clause) in named.iter_mut().zip(formula.clauses()) {
        *set = clause.named();
    }
    if let Ok(variables) = matcher.match_clauses(&named[..row.len()]) {
        for (byte, variable) in row.iter_mut().zip(variables) {
            *byte = variable + 1;
        }
        return Ok(());
    }
    row.fill(0);
    let mut clauses = Clauses::new();
    clauses.set(formula.clauses());
    clauses.strip(|noted| {
        for (byte, set) in row.iter_mut().zip(named) {
            if *byte == 0 && set & bit(noted) != 0 {
                *byte = DROPPED + noted as u8 + 1;
            }
        }
    });
    accept_left(&named, matcher, row)
}

/// Accepts the clauses that have 0 in the row, those that stripping leaves, or refuses them by 10.
fn accept_left(
    named: &[u64; MAX_CLAUSES],
    matcher: &mut impl Matcher,
    row: &mut [u8],
) -> Result<(), Refusal> {
    let mut left = [0; MAX_CLAUSES];
    let mut left_named = [0; MAX_CLAUSES];
    let mut count = 0;
    for clause in (0..row.len()).filter(|clause| row[*clause] == 0) {
        left[count] = clause;
        left_named[count] = named[clause];
        count += 1;
    }
    match matcher.match_clauses(&left_named[..count]) {
        Ok(variables) => {
            for (clause, variable) in left.iter().zip(variables) {
                row[*clause] = variable + 1;
            }
            Ok(())
        }
        Err(violator) => {
            row.fill(0);
            for clause in violator {
                row[left[usize::from(*clause)]] = 1;
            }
            Err(Refusal::new(10, violator.len()))
        }
    }
}

/// What judge says of an accepted formula; assumed variables and satisfied clauses count, too.
#[derive(Clone, Copy, Debug, PartialEq, Eq)]
pub struct Size {
    /// n, the number of variables.
    pub variables: usize,
    /// m, the number of clauses.
    pub clauses: usize,
}

/// S5.7, the act judge, with a lent buffer (request: slate). Byte i becomes 0 if an assumption satisfies clause i (from 0), and else
/// what [`accept`] writes for it, be the formula accepted or refused by 10. Other bytes stay as they are.
pub fn judge(input: &[u8], assumptions: &[Assumption], buffer: &mut [u8]) -> Result<Size, Refusal> {
    judge_with(input, assumptions, buffer, &mut Matching::new())
}

/// [`judge`] by any way of matching clauses.
pub fn judge_with(
    input: &[u8],
    assumptions: &[Assumption],
    buffer: &mut [u8],
    matcher: &mut impl Matcher,
) -> Result<Size, Refusal> {
    if buffer.len() < MAX_CLAUSES {
        return Err(Refusal::new(1, 0));
    }
    let mut formula = decode(input)?;
    let clauses = formula.clauses().len();
    let assumed = formula.assume(assumptions)?;
    let mut row = [0; MAX_CLAUSES];
    let accepted = accept(&formula, matcher, &mut row);
    assumed.write_row(&mut buffer[..clauses], row.into_iter());
    accepted?;
    Ok(Size {
        variables: formula.variables(),
        clauses,
    })
}
