//! Refusals.

use crate::limits::{LINE_SIZE, MAX_SERIAL, PAGE_LINES, PAGE_SIZE};
use std::error::Error;
use std::fmt;

/// Why an act is refused. Each case has a number, 1 to 18, and a place.
///
/// A place is an offset, counted from 0, in the encoded formula or in the DIMACS text that the act was given, where the case says
/// nothing else. The sentences that a refusal displays speak of sheets, rules, switches, set-ups, markers, fixed
/// settings and pages, as clubs do.
///
/// ```
/// use norwythai::{check, Assignment, Refusal};
///
/// let refusal = check(&[1, 49, 5], Assignment::from_bits(0)).unwrap_err();
/// assert_eq!(refusal, Refusal::BadVariableCount { place: 0 });
/// assert_eq!((refusal.number(), refusal.place()), (5, 0));
/// assert_eq!(refusal.to_string(), "the number of switches is not 1 to 48, at byte 0 (counted from 0)");
/// ```
#[derive(Clone, Copy, Debug, PartialEq, Eq, Hash)]
pub enum Refusal {
    /// 1: the lent buffer has fewer than 96 bytes (judge, weigh), [`FORMULA_BUFFER`](crate::FORMULA_BUFFER) or
    /// [`TEXT_BUFFER`](crate::TEXT_BUFFER).
    ShortBuffer,
    /// 2: the input stops within a record, or without the record that ends the formula; the text stops within a clause.
    Truncated {
        /// The length of the input or the text.
        place: usize,
    },
    /// 3: a record's kind byte is not 1 to 5.
    UnknownKind {
        /// That byte.
        place: usize,
    },
    /// 4: a record of this kind may not stand here.
    Misplaced {
        /// Its kind byte.
        place: usize,
    },
    /// 5: the number of variables is 0 or above 48.
    BadVariableCount {
        /// The record's kind byte, or in a text the number's first byte.
        place: usize,
    },
    /// 6: a literal's variable is 0 or above the number of variables.
    NoSuchVariable {
        /// The record's kind byte, or in a text the word's first byte.
        place: usize,
    },
    /// 7: the clause has the literal's complement already, so that it would name the variable both ways.
    ComplementaryLiteral {
        /// The record's kind byte, or in a text the word's first byte.
        place: usize,
    },
    /// 8: the end of a 97th clause.
    TooManyClauses {
        /// Its kind byte, or in a text the first byte of its 0.
        place: usize,
    },
    /// 9: a byte follows the formula's end.
    TrailingByte {
        /// That byte.
        place: usize,
    },
    /// 10: what stripping leaves of the clauses that remain can't be matched with variables.
    Unmatched {
        /// The number of the clauses of the [`Violator`](crate::Violator), which is the refusal's place. They name exactly one variable
        /// fewer, assumed ones not counted.
        clauses: usize,
    },
    /// 11: the walk of this formula under these assumptions never has this checkpoint.
    ForeignCheckpoint,
    /// 12: the assignment has a variable true that the formula doesn't have.
    StrayVariable {
        /// Which assignment it is, counted from 0: check is given one, so 0.
        place: usize,
    },
    /// 13: the first line of a text that is no comment is not `p`, `cnf` and two numbers.
    BadOpening {
        /// That line's first byte, or the length of the text if there is none.
        place: usize,
    },
    /// 14: a word of a text, after its p line, is neither a literal nor the 0 that ends a clause.
    BadWord {
        /// The word's first byte.
        place: usize,
    },
    /// 15: a text has more or fewer clauses than its p line says.
    ClauseCountDiffers {
        /// The first byte of the number of clauses in the p line.
        place: usize,
    },
    /// 16: an assumption's variable is 0 or above the number of variables, or an earlier one has assumed it, with either value.
    BadAssumption {
        /// The index of the first such assumption, counted from 0, which is the refusal's place.
        index: usize,
    },
    /// 17: the lent page has fewer than [`PAGE_SIZE`] bytes. It is tested before all else.
    ShortPage,
    /// 18: the serial of a page's first line is 0 or above [`MAX_SERIAL`]. It is tested before the formula is read.
    BadSerial,
}

impl Refusal {
    /// The refusal with a number and a place; none if there is no such refusal.
    pub fn from_parts(number: u64, place: usize) -> Option<Self> {
        Some(match (number, place) {
            (1, 0) => Refusal::ShortBuffer,
            (2, place) => Refusal::Truncated { place },
            (3, place) => Refusal::UnknownKind { place },
            (4, place) => Refusal::Misplaced { place },
            (5, place) => Refusal::BadVariableCount { place },
            (6, place) => Refusal::NoSuchVariable { place },
            (7, place) => Refusal::ComplementaryLiteral { place },
            (8, place) => Refusal::TooManyClauses { place },
            (9, place) => Refusal::TrailingByte { place },
            (10, clauses) => Refusal::Unmatched { clauses },
            (11, 0) => Refusal::ForeignCheckpoint,
            (12, place) => Refusal::StrayVariable { place },
            (13, place) => Refusal::BadOpening { place },
            (14, place) => Refusal::BadWord { place },
            (15, place) => Refusal::ClauseCountDiffers { place },
            (16, index) => Refusal::BadAssumption { index },
            (17, 0) => Refusal::ShortPage,
            (18, 0) => Refusal::BadSerial,
            _ => return None,
        })
    }

    /// Its number, 1 to 18.
    pub fn number(&self) -> u8 {
        match self {
            Refusal::ShortBuffer => 1,
            Refusal::Truncated { .. } => 2,
            Refusal::UnknownKind { .. } => 3,
            Refusal::Misplaced { .. } => 4,
            Refusal::BadVariableCount { .. } => 5,
            Refusal::NoSuchVariable { .. } => 6,
            Refusal::ComplementaryLiteral { .. } => 7,
            Refusal::TooManyClauses { .. } => 8,
            Refusal::TrailingByte { .. } => 9,
            Refusal::Unmatched { .. } => 10,
            Refusal::ForeignCheckpoint => 11,
            Refusal::StrayVariable { .. } => 12,
            Refusal::BadOpening { .. } => 13,
            Refusal::BadWord { .. } => 14,
            Refusal::ClauseCountDiffers { .. } => 15,
            Refusal::BadAssumption { .. } => 16,
            Refusal::ShortPage => 17,
            Refusal::BadSerial => 18,
        }
    }

    /// Its place: an offset, or what its case says.
    pub fn place(&self) -> usize {
        match *self {
            Refusal::Truncated { place }
            | Refusal::UnknownKind { place }
            | Refusal::Misplaced { place }
            | Refusal::BadVariableCount { place }
            | Refusal::NoSuchVariable { place }
            | Refusal::ComplementaryLiteral { place }
            | Refusal::TooManyClauses { place }
            | Refusal::TrailingByte { place }
            | Refusal::StrayVariable { place }
            | Refusal::BadOpening { place }
            | Refusal::BadWord { place }
            | Refusal::ClauseCountDiffers { place } => place,
            Refusal::Unmatched { clauses } => clauses,
            Refusal::BadAssumption { index } => index,
            Refusal::ShortBuffer
            | Refusal::ForeignCheckpoint
            | Refusal::ShortPage
            | Refusal::BadSerial => 0,
        }
    }
}

impl fmt::Display for Refusal {
    fn fmt(&self, f: &mut fmt::Formatter) -> fmt::Result {
        match *self {
            Refusal::ShortBuffer => write!(f, "the slate or buffer lent for the answer is too short"),
            Refusal::Truncated { place } => write!(
                f,
                "the sheet is cut short: its {place} bytes stop before the end of the sheet or of a rule"
            ),
            Refusal::UnknownKind { place } => write!(
                f,
                "the sheet has a record of an unknown kind at byte {place} (counted from 0)"
            ),
            Refusal::Misplaced { place } => write!(
                f,
                "the sheet has a record that may not stand where it does, at byte {place} (counted from 0)"
            ),
            Refusal::BadVariableCount { place } => write!(
                f,
                "the number of switches is not 1 to 48, at byte {place} (counted from 0)"
            ),
            Refusal::NoSuchVariable { place } => write!(
                f,
                "a rule names a switch that the kit doesn't have, at byte {place} (counted from 0)"
            ),
            Refusal::ComplementaryLiteral { place } => write!(
                f,
                "a rule names a switch both as on and as off, at byte {place} (counted from 0)"
            ),
            Refusal::TooManyClauses { place } => write!(
                f,
                "the sheet has more than 96 rules: one too many ends at byte {place} (counted from 0)"
            ),
            Refusal::TrailingByte { place } => write!(
                f,
                "something follows the end of the sheet, at byte {place} (counted from 0)"
            ),
            Refusal::Unmatched { clauses: 1 } => write!(
                f,
                "the rules that stripping leaves can't be paired with switches: one names no switch, fixed ones not counted"
            ),
            Refusal::Unmatched { clauses } => write!(
                f,
                "the rules that stripping leaves can't be paired with switches: {clauses} of them name only {} altogether, fixed ones not counted",
                clauses.saturating_sub(1)
            ),
            Refusal::ForeignCheckpoint => write!(
                f,
                "the marker belongs to another sheet, to other fixed settings or to an earlier version, or was changed: this walk never has it"
            ),
            Refusal::StrayVariable { .. } => {
                write!(f, "the set-up has a switch on that the kit doesn't have")
            }
            Refusal::BadOpening { place } => write!(
                f,
                "the text has no line `p cnf SWITCHES RULES` where it must begin, at byte {place} (counted from 0)"
            ),
            Refusal::BadWord { place } => write!(
                f,
                "the text has a word that is neither a switch, with or without a minus, nor the end of a rule, at byte {place} \
                 (counted from 0)"
            ),
            Refusal::ClauseCountDiffers { place } => write!(
                f,
                "the text has more or fewer rules than its p line says, at byte {place} (counted from 0)"
            ),
            Refusal::BadAssumption { index } => write!(
                f,
                "fixed setting {index} (counted from 0) is of a switch that the kit doesn't have, or that is fixed before it"
            ),
            Refusal::ShortPage => write!(
                f,
                "the page is too short: {PAGE_LINES} lines of {LINE_SIZE} bytes take {PAGE_SIZE}"
            ),
            Refusal::BadSerial => {
                write!(f, "the first serial of the page is not 1 to {MAX_SERIAL}")
            }
        }
    }
}

impl Error for Refusal {}
