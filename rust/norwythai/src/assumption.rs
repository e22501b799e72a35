//! Assumptions.

use crate::builder::Literal;

/// A value that a variable is to have: [`judge`](crate::judge()), [`walk`](crate::walk()), [`list`](crate::list()) and
/// [`page`](crate::page()) take a list of these and apply them first. A clause that an assumption satisfies is gone, and the others lose
/// the assumed variables; matching, stripping and walking are of what remains, and the models listed are those that keep the
/// assumptions. [`weigh`](crate::weigh()) takes such a list, too, and does not count the assumed variables.
///
/// A list has each variable once at most: the first assumption of a variable that the formula doesn't have, or that an earlier one
/// has assumed, be it with the same value, is refused ([`BadAssumption`](crate::Refusal::BadAssumption)). Its order plays no other
/// part.
///
/// ```
/// use norwythai::{Assumption, Literal};
///
/// let assumption = Assumption::positive(3);
/// assert_eq!((assumption.variable, assumption.value), (3, true));
/// assert_eq!(assumption, Literal::positive(3).into());
/// ```
#[derive(Clone, Copy, Debug, PartialEq, Eq, Hash)]
// The library reads it as two bytes.
#[repr(C)]
pub struct Assumption {
    /// The variable's number, 1 to 48.
    pub variable: u8,
    /// Its value.
    pub value: bool,
}

impl Assumption {
    /// The variable is true.
    pub fn positive(variable: u8) -> Self {
        Literal::positive(variable).into()
    }

    /// The variable is false.
    pub fn negative(variable: u8) -> Self {
        Literal::negative(variable).into()
    }
}

/// The literal is true.
impl From<Literal> for Assumption {
    fn from(literal: Literal) -> Self {
        Assumption {
            variable: literal.variable,
            value: literal.value,
        }
    }
}
